"""The code of a checkout, read by text: functions with their parameters, clauses and bodies; types; constants."""
import dataclasses
import re

from text import behind_generics, behind_result, closing, flat, masked, parts  # noqa: F401

WORD = re.compile(r"[A-Za-z_]\w*")
INTEGERS = {"u8", "u16", "u32", "u64", "usize", "i8", "i16", "i32", "i64", "isize"}
EXPORTS = ("jivaszte", "jivaszte_c")


@dataclasses.dataclass
class Place:
    crate: str
    file: str
    line: int
    name: str
    kind: str
    what: str
    exported: bool = False
    detail: str = ""

    @property
    def short(self):
        """The name without what its file says, and what else a table says of it."""
        name = self.name.rsplit(" " if " " in self.name else "::", 1)[-1]
        return f"`{name}`" + (f" {self.detail}" if self.detail else "")


@dataclasses.dataclass
class Function:
    crate: str
    file: str
    line: int
    name: str
    module: str
    parameters: list
    result: str
    requires: list
    ensures: list
    head: str
    body: str
    body_line: int
    comment: str
    exported: bool

    def place(self, kind, what, at=None, detail=""):
        line = self.line if at is None else self.body_line + self.body.count("\n", 0, at)
        return Place(self.crate, self.file, line, self.name, kind, what, self.exported, detail)

    @property
    def lines(self):
        """The lines of its head and its body, without blank ones and braces alone."""
        return [x for x in (self.head + "\n" + self.body).split("\n") if x.strip() and x.strip() not in "{}"]


@dataclasses.dataclass
class Type:
    crate: str
    file: str
    line: int
    name: str
    kind: str
    fields: list
    comment: str
    attributes: str
    exported: bool

    def place(self, kind, what, detail=""):
        return Place(self.crate, self.file, self.line, self.name, kind, what, self.exported, detail)


@dataclasses.dataclass
class Constant:
    crate: str
    file: str
    line: int
    name: str
    type: str
    value: str

    def place(self, kind, what):
        return Place(self.crate, self.file, self.line, self.name, kind, what)


def comment_before(lines, line):
    """The comment lines that stand right above a line, attributes between them passed over."""
    out = []
    k = line - 2
    while k >= 0 and re.match(r"\s*(//|#\[)", lines[k]):
        if lines[k].lstrip().startswith("//"):
            out.insert(0, lines[k].strip().lstrip("/").strip())
        k -= 1
    return " ".join(out)


def attributes_before(lines, line):
    out = []
    k = line - 2
    while k >= 0 and re.match(r"\s*(//|#\[)", lines[k]):
        if lines[k].lstrip().startswith("#["):
            out.append(lines[k].strip())
        k -= 1
    return " ".join(out)


class Checkout:
    def __init__(self, root):
        self.root = root
        self.functions, self.types, self.constants, self.uses = [], [], [], {}
        for path in sorted((root / "crates").glob("*/src/**/*.rt")):
            self.read(path)
        self.crates = sorted({path.parent.name for path in (root / "crates").glob("*/src")})

    def read(self, path):
        text = path.read_text()
        file = str(path.relative_to(self.root))
        crate = path.relative_to(self.root / "crates").parts[0]
        inner = path.relative_to(self.root / "crates" / crate / "src").with_suffix("").parts
        module = "::".join([crate, *(p for p in inner if p not in ("lib", "main", "mod"))])
        lines = text.split("\n")
        code, bare = masked(text, False), masked(text, True)
        exported = crate in EXPORTS
        self.uses[module] = self.used(bare, crate, module)
        blocks = []
        for found in re.finditer(r"^(?:pub )?(?:impl|trait)\b[^;{]*\{", bare, re.M):
            head = re.sub(r"^(?:pub )?(?:impl|trait)\b", "", found.group()[:-1])
            named = WORD.findall(head.split(" for ")[-1]) or ["impl"]
            blocks.append((found.start(), closing(bare, found.end() - 1), named[0]))
        for found in re.finditer(r"\bfn\s+([A-Za-z_]\w*)", bare):
            start = bare.rfind("\n", 0, found.start()) + 1
            line = bare.count("\n", 0, found.start()) + 1
            at = behind_generics(bare, found.end())
            if bare[at : at + 1] != "(":
                continue
            end = closing(bare, at)
            parameters = []
            for part in parts(code[at + 1 : end - 1]):
                name, _, kind = part.partition(":")
                parameters.append((name.replace("mut ", "").strip(), flat(kind)))
            at = behind_result(bare, end)
            result = flat(code[end:at]).removeprefix("->").split(" where ")[0].strip()
            head = code[start:at]
            requires, ensures = [], []
            while True:
                clause = re.compile(r"\s*(requires|ensures)\b\s*([\w-]*)\s*\{").match(bare, at)
                if not clause:
                    break
                close = closing(bare, clause.end() - 1)
                (requires if clause.group(1) == "requires" else ensures).append(flat(code[clause.end() : close - 1]))
                at = close
            opened = re.compile(r"[^;{}]*\{").match(bare, at)
            body, body_line = "", line
            if opened:
                close = closing(bare, opened.end() - 1)
                body = code[opened.end() : close - 1]
                body_line = bare.count("\n", 0, opened.end()) + 1
            owner = [name for a, b, name in blocks if a <= found.start() < b]
            name = "::".join([module, *owner, found.group(1)])
            self.functions.append(Function(crate, file, line, name, module, parameters, result, requires, ensures, head,
                body, body_line, comment_before(lines, line), exported))
        for found in re.finditer(r"\b(struct|enum)\s+([A-Za-z_]\w*)", bare):
            at = behind_generics(bare, found.end())
            opened = re.compile(r"\s*\{").match(bare, at)
            line = bare.count("\n", 0, found.start()) + 1
            fields = []
            if opened:
                close = closing(bare, opened.end() - 1)
                for part in parts(code[opened.end() : close - 1]):
                    part = flat(re.sub(r"#\[[^\]]*\]", "", part)).removeprefix("pub ")
                    part = re.sub(r"^pub\([a-z]+\) ", "", part)
                    if part.startswith("ghost "):
                        continue
                    if found.group(1) == "struct":
                        name, _, kind = part.partition(":")
                        fields.append((name.strip(), kind.strip()))
                    else:
                        name = WORD.match(part)
                        if name:
                            fields.append((name.group(), part[name.end() :].strip()))
            attributes = attributes_before(lines, line)
            self.types.append(Type(crate, file, line, f"{module}::{found.group(2)}", found.group(1), fields,
                comment_before(lines, line), attributes, exported or "repr(C)" in attributes))
        for found in re.finditer(r"^\s*(?:pub(?:\([a-z]+\))? )?const (\w+): ([^=;]+)=([^;]*);", code, re.M):
            line = bare.count("\n", 0, found.start(1)) + 1
            self.constants.append(Constant(crate, file, line, f"{module}::{found.group(1)}", found.group(2).strip(),
                flat(found.group(3))))

    @staticmethod
    def used(bare, crate, module):
        """What each name of a file's `use` lines stands for."""
        out = {}

        def walk(prefix, text):
            text = text.strip()
            head, brace, _ = text.partition("{")
            if brace:
                inside = text[len(head) + 1 : closing(text, len(head)) - 1]
                for part in parts(inside):
                    walk(prefix + head, part)
                return
            path, _, other = (prefix + text).partition(" as ")
            path = re.sub(r"^crate\b", crate, path.strip())
            path = re.sub(r"^super\b", module.rsplit("::", 1)[0], path)
            path = re.sub(r"^self\b", module, path).removesuffix("::self")
            out[other.strip() or path.rsplit("::", 1)[-1]] = path

        for found in re.finditer(r"^\s*(?:pub )?use ([^;]*);", bare, re.M):
            walk("", flat(found.group(1)))
        return out

    def resolve(self, module, path):
        """The full path of a name that code of a module has."""
        first, _, rest = path.partition("::")
        crate = module.split("::")[0]
        if first == "crate":
            return f"{crate}::{rest}"
        if first == "super":
            return f"{module.rsplit('::', 1)[0]}::{rest}"
        known = self.uses.get(module, {})
        if first in known:
            return known[first] + (f"::{rest}" if rest else "")
        names = {function.name for function in self.functions}
        if f"{module}::{path}" in names:
            return f"{module}::{path}"
        return path
