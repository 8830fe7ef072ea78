"""Point 3, loops that count by hand, and point 7, switches on which step to run."""
import collections
import re

from read import flat
from text import closing

NUMERAL = r"-?\d[\d_]*"
CONSTANT = r"(?:\w+::)*[A-Z][A-Z0-9_]*\b(?!::)"

# An arm for a variant that is one call, and what is called.
ARM = re.compile(r"\b\w+::\w+(?:\([^)]*\))? => (?:\{\s*(?:let [^;]*;\s*)*)?((?:\w+::)*[a-z_]\w*)\(")


def inside(text, opened):
    """What stands between a brace and the one that closes it."""
    return text[opened + 1 : closing(text, opened) - 1]


def steps(body):
    """The variables that a loop moves, and by what."""
    found = re.findall(r"\b(\w+) = \1 ([+-]) ([^;]+);", body) + re.findall(r"\b(\w+) ([+-])= ([^;]+);", body)
    return list(dict.fromkeys((name, f"{op} {flat(by)}") for name, op, by in found))


def loops(checkout):
    for function in checkout.functions:
        for loop in re.finditer(r"\b(while|loop)\b([^{;]*)\{", function.body):
            body = inside(function.body, loop.end() - 1)
            moved = steps(body)
            test = flat(loop.group(2)) or "loop"
            by_one = [name for name, by in moved if by in ("+ 1", "- 1")]
            asked = [name for name, _ in moved if re.search(rf"\b{name}\b", test)]
            index = r"\[[^\]]*\b{0}\b[^\]]*\]|\b(?:samples|line)::\w+\([^;]*\b{0}\b"
            indexed = [name for name, _ in moved if re.search(index.format(name), body)]
            said = ", ".join(f"{name} {by}" for name, by in moved)
            if by_one and (set(by_one) & set(asked + indexed)):
                kind = "a. index or count moved by one"
            elif moved:
                kind = "b. place or count moved by more, or kept beside"
            else:
                kind = "c. other loop"
            cut = r"\blet {0} = (?:[\w:]*\b(?:after|read_record)\({1}\b|&{1}\[)"
            shorter = [name for name, by in re.findall(r"\b(\w+) = (&?\w+)(?:\[[^\]]*\])?;", body)
                       if by == "&" + name or re.search(cut.format(by, name), body)]
            said = f"while {test}: {said or 'nothing counted'}" + f"; {', '.join(shorter)} cut" * bool(shorter)
            names = f"({', '.join(name for name, _ in moved)})" * bool(moved)
            yield function.place(kind, said, loop.start(), detail=names)
        for loop in re.finditer(r"\bfor [^;{]* in [^{;]*\{", function.body):
            if re.search(r"\bfor \w+ in [^{]*\.\.", loop.group()):
                yield function.place("d. for over a range of numbers", flat(loop.group()[:-1]), loop.start())


def switches(checkout):
    for function in checkout.functions:
        body = function.body
        for match in re.finditer(r"\bmatch ([\w.]+) \{", body):
            choices = inside(body, match.end() - 1)
            arms = re.findall(rf"(?:^|[\n{{|])\s*({CONSTANT}|{NUMERAL})(?= =>| \|)", choices)
            if len(arms) >= 2:
                said = f"match {match.group(1)}: {len(arms)} numbers"
                yield function.place("a. match on a number", said, match.start())
                continue
            called = ARM.findall(choices)
            if len(set(called)) >= 2:
                said = f"match {match.group(1)}: {', '.join(called)}"
                yield function.place("b. match whose arms call other functions", said, match.start())
        chains = collections.defaultdict(list)
        for test in re.finditer(rf"\bif ([\w.]+) (?:==|<|<=) ({NUMERAL}|{CONSTANT}) \{{", body):
            chains[test.group(1)].append(test)
        for subject, tests in chains.items():
            if len({test.group(2) for test in tests}) >= 2 or len(tests) >= 2:
                yield function.place("c. chain of tests of a number", f"{subject}: {len(tests)} tests", tests[0].start())
        for name, kind in function.parameters:
            if kind != "bool":
                continue
            tests = len(re.findall(rf"\bif !?{name} \{{", body))
            if tests:
                yield function.place("d. flag that says which way to go", f"{name}: {tests} tests", detail=f"({name})")
            else:
                yield function.place("e. flag handed on", f"{name}: bool", detail=f"({name})")
        given = collections.defaultdict(set)
        for call in re.finditer(r"(?:\breturn |\}\s*)((?:\w+::)*[a-z_]\w*)\(([^;]*)\)\s*(?:;|$)", body):
            numberless = re.sub(rf"\b(?:{NUMERAL}|true|false)\b", "N", call.group(2))
            given[call.group(1), flat(numberless)].add(flat(call.group(2)))
        for (name, _), calls in given.items():
            if len(calls) >= 2:
                yield function.place("f. one function called with each number", f"{name}: {len(calls)} calls")
        for hit in re.finditer(r"\bfn\(", function.head + body):
            yield function.place("g. function pointer", flat(hit.group()))
    for constant in checkout.constants:
        if "fn(" in constant.type:
            yield constant.place("g. table of functions", constant.type)
