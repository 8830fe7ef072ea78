# Builds and installs Jivaszte: the program with its completion for bash, the archive, the shared library, the header, the
# pkg-config files, the Python module, the LV2 plugin where lv2-dev is installed, the man page, and the documents that man
# page and header name.
#   make                          proves the library and compiles the program over it (cli/build)
#   make install PREFIX=/usr      /usr/local where it is not said; DESTDIR, if any, stands before it
#   make uninstall PREFIX=/usr
#   make deb                      the Debian package target/deb/jivaszte_VERSION_ARCHITECTURE.deb (packaging/deb)
PREFIX ?= /usr/local
DESTDIR ?=
to = $(DESTDIR)$(PREFIX)
doc = $(PREFIX)/share/doc/jivaszte
documents = SCORES.md CLICK.md ASSUMPTIONS.md PERFORMANCE.md PYTHON.md LV2.md
modules = $(to)/lib/python3/dist-packages
completions = $(to)/share/bash-completion/completions
version := $(shell sed -n 's/^.define JIVASZTE_VERSION "\(.*\)"$$/\1/p' include/jivaszte.h)
archive = target/staticlib/libjivaszte.a
program = target/bin/jivaszte
name = libjivaszte.so
# The soname ends in the version's first number.
soname = $(name).$(firstword $(subst ., ,$(version)))
shared = target/shared/$(name).$(version)
plugin = target/lv2/jivaszte.lv2/jivaszte.so
bundle = $(to)/lib/lv2/jivaszte.lv2

.PHONY: all shared install install-files uninstall deb

all:
	@cli/build
	@$(MAKE) -s $(shared) $(plugin)

# Where archive and program are there, nothing is proved anew for what is made of them.
$(archive) $(program):
	@cli/build

shared: $(shared)

$(shared): $(archive) include/exports.map include/jivaszte.h
	@mkdir -p target/shared
	$(CC) -shared -Wl,-soname,$(soname) -Wl,--version-script=include/exports.map -Wl,-z,defs -Wl,-z,text -Wl,-z,now \
	    -Wl,--whole-archive $(archive) -Wl,--no-whole-archive -o $@

# Without lv2-dev this says so and makes nothing.
$(plugin): $(archive) $(wildcard lv2/*.c lv2/*.h lv2/jivaszte.lv2/*.ttl) include/jivaszte.h lv2/build
	@lv2/build

install: all
	@$(MAKE) --no-print-directory install-files

deb: $(archive) $(program) $(shared) $(plugin)
	@packaging/deb

install-files: $(archive) $(program) $(shared) $(plugin)
	install -d '$(to)/bin' '$(to)/lib/pkgconfig' '$(to)/include' '$(to)/share/man/man1'
	install -m 755 $(program) '$(to)/bin/jivaszte'
	install -m 644 $(archive) '$(to)/lib/libjivaszte.a'
	install -m 644 $(shared) '$(to)/lib/$(name).$(version)'
	ln -sf $(name).$(version) '$(to)/lib/$(soname)'
	ln -sf $(soname) '$(to)/lib/$(name)'
	install -d '$(modules)/jivaszte'
	install -m 644 python/jivaszte/*.py '$(modules)/jivaszte'
	if [ -f $(plugin) ]; then install -d '$(bundle)' && \
	    install -m 644 lv2/jivaszte.lv2/*.ttl $(plugin) '$(bundle)'; fi
	sed 's: docs/PERFORMANCE.md: $(doc)/PERFORMANCE.md:' include/jivaszte.h >'$(to)/include/jivaszte.h'
	sed 's/@VERSION@/$(version)/' include/jivaszte.pc.in >'$(to)/lib/pkgconfig/jivaszte.pc'
	sed 's/@VERSION@/$(version)/' include/jivaszte-shared.pc.in >'$(to)/lib/pkgconfig/jivaszte-shared.pc'
	sed 's/@VERSION@/$(version)/; s:@DOC@:$(doc):' docs/jivaszte.1 >'$(to)/share/man/man1/jivaszte.1'
	install -d '$(DESTDIR)$(doc)' '$(completions)'
	install -m 644 $(addprefix docs/,$(documents)) '$(DESTDIR)$(doc)'
	install -m 644 cli/completion/jivaszte.bash '$(completions)/jivaszte'

uninstall:
	rm -f '$(to)/bin/jivaszte' '$(to)/lib/libjivaszte.a' '$(to)/include/jivaszte.h'
	rm -f '$(to)/lib/$(name).$(version)' '$(to)/lib/$(soname)' '$(to)/lib/$(name)'
	rm -f '$(to)/lib/pkgconfig/jivaszte.pc' '$(to)/lib/pkgconfig/jivaszte-shared.pc'
	rm -f '$(to)/share/man/man1/jivaszte.1' '$(completions)/jivaszte'
	rm -rf '$(DESTDIR)$(doc)' '$(modules)/jivaszte' '$(bundle)'
