"""Point 4: conversion, copying, comparison, order and printing written by hand."""
import collections
import re

from read import INTEGERS, flat, parts
from text import closing, whiles


def literals(body):
    """Each struct or array literal of a body: its place, its name and its parts."""
    for opened in re.finditer(r"(?<![\w\])&] )(?<!-> )\b([A-Z]\w*)(?:<[^>]*>)? \{", body):
        yield opened.start(), opened.group(1), parts(body[opened.end() : closing(body, opened.end() - 1) - 1])
    for opened in re.finditer(r"(?:^|[=({,\s])\[(?=[^\]]*,)", body):
        start = body.index("[", opened.start())
        yield start, "[]", parts(body[start + 1 : closing(body, start) - 1])


def copied(function):
    """Structs built field by field from another value, and from or into an array place by place."""
    bound = dict(re.findall(r"\blet (\w+)(?:: \w+)? = ([^;{}]+);", function.body))
    for at, name, fields in literals(function.body):
        if len(fields) < 3:
            continue
        values = [field.partition(": ")[2] or field for field in fields] if name != "[]" else fields
        keys = [field.partition(": ")[0] for field in fields]
        values = [bound.get(value, value) for value in values]
        if name == "[]":
            if sum(bool(re.fullmatch(r"\w+(?:\.\w+)+", value)) for value in values) * 2 > len(fields):
                yield function.place("c. array made of a struct's fields", f"{len(fields)} places", at)
            continue
        placed = sum(bool(re.fullmatch(r"\w+\[\w+\]|word\(.*\)", value)) for value in values)
        paths = [re.fullmatch(r"(?:\w+\()?(\w+)((?:\.\w+)+)(?: as \w+|\))?", value) for value in values]
        named = [path for path, key in zip(paths, keys) if path and path.group(2).endswith("." + key)]
        same = collections.Counter(path.group(1) for path in named)
        if placed * 2 >= len(fields):
            yield function.place("c. struct made of an array's places", f"{name} of {placed} places", at)
        elif same and same.most_common(1)[0][1] * 2 >= len(fields):
            source, n = same.most_common(1)[0]
            yield function.place("b. struct copied field by field", f"{name}: {n} of {len(fields)} fields of {source}", at)
        elif sum(bool(path) for path in paths) * 2 > len(fields):
            yield function.place("b. struct made of other structs' fields", f"{name}: {sum(map(bool, paths))} of {len(fields)}", at)


WIDE = r"(?:16_777_216|8_388_608|2_147_483_648|4_294_967_296|4_294_967_295)"


def converted(checkout, function):
    enums = {type.name.rsplit("::", 1)[-1] for type in checkout.types if type.kind == "enum"}
    body = flat(function.body)
    if re.fullmatch(r"(?:let \w+ = )?\(?[\w.]+(?:\[\w+\])?(?: as \w+\)?)+(?:; \w+)?", body) or \
            re.fullmatch(r"(?:[A-Z]\w* \{ \w+: )[\w.]+ as \w+,? \}", body):
        yield function.place("a. conversion in a function of its own", f"-> {function.result}: {body}")
    arms = re.findall(r"\b([A-Z]\w*)::\w+(?:\([^)]*\))? => (\w+\(?)", function.body)
    numbers = [given for name, given in arms if name in enums and re.fullmatch(r"\d+|\w+\(", given)]
    if function.result in INTEGERS and len(numbers) == len(arms) >= 2 and any(given.isdigit() for given in numbers):
        yield function.place("a. number of an enum by match", f"-> {function.result}")
    numbered = any(kind in INTEGERS for _, kind in function.parameters)
    if function.result in enums and re.search(r"== \d", function.body) and numbered:
        yield function.place("a. enum of a number by tests", f"-> {function.result}")
    if re.search(rf"[-+%] {WIDE}|{WIDE} [-+]|(?:signed|bits)\([^;]*{WIDE}|(?:plus|minus)\([^;]*n: {WIDE}", function.body):
        yield function.place("d. sign or wrapping by arithmetic", f"-> {function.result or '()'}")
    if re.search(r"\* 256\b|\b256 \*|/ 256\b|% 256\b|\+ 65_536 \*|\+ 4_294_967_296 \*", function.body):
        yield function.place("d. bytes of a number by arithmetic", f"-> {function.result or '()'}")
    if re.search(r"\b10 \* \w|\b16 \* \w+ \+|/ 16\)", function.body):
        yield function.place("d. digits of a number by arithmetic", f"-> {function.result or '()'}")


CHOSEN = re.compile(
    r"\bif ([\w.]+) (?:<|<=|>|>=) ([\w.]+) \{\s*(?:return )?([\w.]+);?\s*\}(?:\s*else \{)?\s*([\w.]+)\s*\}?"
)


def compared(function):
    names = [name for name, _ in function.parameters]
    pairs = [pair for pair in re.findall(r"\b(\w+) (?:==|!=) (\w+)\b", function.body) if set(pair) <= set(names)]
    elements = re.search(r"\b\w+\[[^\]]+\] (?:==|!=) \w+\[[^\]]+\]", function.body)
    if function.result == "bool" and (elements or len(pairs) >= 2):
        yield function.place("e. comparison written out", f"{'elements' if elements else len(pairs)}")
    chosen = CHOSEN.search(function.body)
    if chosen and set(chosen.group(1, 2)) == set(chosen.group(3, 4)):
        yield function.place("f. least or greatest of two by a test", f"-> {function.result}", chosen.start())
    bounds = re.findall(r"\bif [\w.]+ [<>] (-?\d[\d_]*) \{\s*return (?:Value \{ n: )?\1(?: \})?;", function.body)
    bounds += re.findall(r"\bif (\d[\d_]*) < [\w.]+ \{\s*return \1;", function.body)
    if bounds:
        yield function.place("f. limit by a test", f"{', '.join(bounds)}")
    if re.search(r"\b0 - \w|\b0 - \(", function.body) and re.search(r"as u\d\d", function.body) or \
            re.search(r"\bmagnitude$", function.name):
        yield function.place("f. magnitude by a test", f"-> {function.result}")


def moved(function):
    for loop, inside in whiles(function.body):
        direct = re.search(r"\b\w+\[[^\]]+\] = \w+\[[^\]]+\];", inside)
        through = re.search(r"\blet (\w+) = \w+\[[^\]]+\];\s*\w+\[[^\]]+\] = \1;", inside)
        if direct or through:
            yield function.place("g. elements copied by a loop", flat((direct or through).group()), loop.start())


def printed(function):
    """A function that prints values: it has an output, a buffer or a printer, and numbers or structs beside it."""
    output = [n for n, k in function.parameters if re.fullmatch(r"Out|Stdout|Stderr|.*\bPrinter\b.*", k) or n == "buffer"]
    output += ["self"] * ("::Printer::" in function.name)
    values = [(n, k) for n, k in function.parameters
              if n not in output and n not in ("at", "told", "place", "digits", "buffer", "out") and not n.endswith("self")]
    if output and values and re.fullmatch(r"usize|\(\)||u32", function.result):
        if all(kind in INTEGERS or re.fullmatch(r"(?!Request$)[A-Z]\w*", kind) for _, kind in values):
            said = ", ".join(f"{name}: {kind}" for name, kind in values)
            yield function.place("h. value printed by a function of its own", said)


def by_hand(checkout):
    for function in checkout.functions:
        for rule in (copied, compared, moved, printed):
            yield from rule(function)
        yield from converted(checkout, function)
    for type in checkout.types:
        if type.kind == "enum" and not re.search(r"\bPartialEq\b", type.attributes):
            yield type.place("i. enum without derived equality", type.attributes.strip("#[]"))
