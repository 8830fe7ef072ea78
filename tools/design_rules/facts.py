"""Point 5, facts and parameters that stand together, and point 6, buffers with a length beside them."""
import collections
import itertools
import re

from read import flat
from text import whiles

OFTEN, TOGETHER = 3, 3
SLICE = re.compile(r"&(?:'\w+ )?(?:mut )?\[([^;\]\[]+)\]$")
ARRAY = re.compile(r"&?(?:mut )?\[(.+); (\w+)\]$")


def claims(clause):
    """The facts of a clause that × joins."""
    text = flat(clause)
    while text.startswith("(") and text.endswith(")") and balanced(text[1:-1]):
        text = text[1:-1]
    out, depth, start = [], 0, 0
    for k, c in enumerate(text):
        depth += (c in "([{") - (c in ")]}")
        if c == "×" and depth == 0:
            out.append(text[start:k].strip())
            start = k + 1
    out.append(text[start:].strip())
    if len(out) == 1:
        return out if out[0] else []
    return [claim for part in out for claim in claims(part)]


def balanced(text):
    depth = 0
    for c in text:
        depth += (c in "([{") - (c in ")]}")
        if depth < 0:
            return False
    return depth == 0


def nameless(claim, function):
    """A fact with the function's parameters, and when they are read, folded."""
    names = {name for name, _ in function.parameters} | {"result"}
    words = re.sub(r"\.(?:now|old|new)\b", "", claim)
    return re.sub(r"[A-Za-z_][\w'-]*(?:\.[\w']+)*", lambda hit: fold(hit.group(), names), words)


def fold(word, names):
    first, dot, rest = word.partition(".")
    return "_" + dot + rest if first in names else word


def standing(checkout, which):
    found = collections.defaultdict(dict)
    for function in checkout.functions:
        for clause in getattr(function, which):
            for claim in claims(clause):
                found[nameless(claim, function)].setdefault(function.name, (function, claim))
    return {fact: held for fact, held in found.items() if own(function for function, _ in held.values()) >= OFTEN}


def own(functions):
    """How many of the functions are no exports for C."""
    return sum(not function.exported for function in functions)


def facts(checkout):
    for which, kind in (("requires", "a. fact required"), ("ensures", "b. fact ensured")):
        for fact, held in sorted(standing(checkout, which).items()):
            for function, claim in held.values():
                yield function.place(f"{kind} by three functions or more", f"{fact} (in {len(held)} functions)",
                    detail=f"`{fact}`")
    yield from groups(checkout)


def groups(checkout):
    """For each function the largest row of its parameters, by name and type, that three functions or more have."""
    sets = {}
    for function in checkout.functions:
        if len(function.parameters) >= TOGETHER:
            sets[function.name] = (function, frozenset(function.parameters))
    found = set()
    for (_, a), (_, b) in itertools.combinations(sets.values(), 2):
        both = a & b
        if len(both) >= TOGETHER:
            found.add(both)
    held = {}
    for group in sorted(found, key=lambda group: (-len(group), sorted(group))):
        names = [name for name, (_, every) in sets.items() if group <= every]
        if own(sets[name][0] for name in names) < OFTEN:
            continue
        said = ", ".join(f"{name}: {kind}" for name, kind in sorted(group))
        for name in names:
            if name not in held or (len(held[name][0]) == len(group) and held[name][2] < len(names)):
                held[name] = group, said, len(names)
    for name, (_, said, often) in held.items():
        yield sets[name][0].place("c. parameters that stand together in three functions or more",
            f"{said} (in {often} functions)", detail=f"`{said}` (in {often})")


def tied(function, buffer, kind, place):
    """A parameter is a place in a buffer or a length of it: by an index, by a call that takes both, or by a clause."""
    if buffer == "buffer" and place in ("at", "place"):
        return True
    array = ARRAY.match(kind)
    bounds = [rf"\b{place}\b[^×→]*(?:≤|<) (?:length )?{buffer}\b", rf"\b{place}\b[^×→]*(?:≤|<) length {buffer}\b"]
    if array and array.group(2).isdigit():
        bounds.append(rf"\b{place}\b (?:≤|<) {array.group(2)}\b")
    facts = [fact for clause in function.requires for fact in claims(clause)]
    return re.search(rf"\b{buffer}\[[^\]]*\b{place}\b[^\]]*\]|\b{buffer}, {place}\b", function.body) or \
        any(re.search(bound, fact) for bound in bounds for fact in facts)


PLACES = {"at", "held", "count", "places", "list", "start", "end", "length", "written", "place", "done"}


def beside(checkout):
    """Arrays and slices with a number beside them that is a length or a place of theirs."""
    for function in checkout.functions:
        for place, kind in function.parameters:
            if kind not in ("usize", "&mut usize") or place == "there":
                continue
            held = [(b, k) for b, k in function.parameters if ARRAY.match(k) or SLICE.match(k)]
            held = [(b, k) for b, k in held if tied(function, b, k, place)]
            if held:
                what = "a. array" if any(ARRAY.match(k) for _, k in held) else "b. slice"
                said = f"{', '.join(b for b, _ in held)} beside {place}"
                yield function.place(f"{what} with a length or a place beside it", said, detail=f"({place})")
    for type in checkout.types:
        if type.kind == "struct" and len(type.fields) > 1:
            found = [name for name, kind in type.fields if kind.startswith("[") or (kind == "usize" and name in PLACES)]
            if found:
                yield type.place("c. place, length or array held in a struct", ", ".join(found), f"({', '.join(found)})")


def records(function):
    """Arrays whose places are fields: indexed by constants or numerals."""
    named = re.findall(r"\b(\w+)\[([A-Z][A-Z0-9_]+)\]", function.body)
    counted = re.findall(r"\b(\w+)\[(\d+)\]", function.body)
    counted += re.findall(r"\bword\((\w+), (\d+|i(?: \+ \d+)?|at(?: \+ \d+)?)\)", function.body)
    if named:
        yield function.place("d. array whose places are fields", ", ".join(dict.fromkeys(f"{a}[{b}]" for a, b in named)))
    elif len(set(counted)) >= 2:
        yield function.place("d. array whose places are fields", f"{len(set(counted))} places by number")
    made = re.search(r"\*\w+ = \[\s*\w+,[^\]]*,[^\]]*\]", function.body)
    if made:
        yield function.place("d. array whose places are fields", "made as a row of fields", made.start())


def parallel(function):
    arrays = collections.defaultdict(list)
    for name, kind in function.parameters:
        found = ARRAY.match(kind)
        if found and "[" in found.group(1):
            arrays[found.group(2)].append(name)
    for names in arrays.values():
        if len(names) >= 2:
            yield function.place("e. parallel arrays", ", ".join(names))
    slices = [name for name, kind in function.parameters if SLICE.match(kind)]
    for clause in function.requires:
        same = re.findall(r"length (\w+)(?:\.\w+)? ≡ length (\w+)", clause)
        for a, b in same:
            if a in slices and b in slices:
                yield function.place("f. slices of one length", f"{a}, {b}")


def searched(function):
    for loop, inside in whiles(function.body):
        counted = re.findall(r"\b(\w+) (?:= \1 \+|\+=)", inside)
        for name in dict.fromkeys(counted):
            if re.search(rf"\bif [^{{]*\{{\s*return {name}(?: \+ \w+)?;", inside):
                yield function.place("g. row searched by hand", f"returns {name}", loop.start())


def buffers(checkout):
    yield from beside(checkout)
    for function in checkout.functions:
        for rule in (records, parallel, searched):
            yield from rule(function)
