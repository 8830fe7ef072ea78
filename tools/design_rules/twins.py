"""Point 2: functions and types that differ in a type, a size, a constant or a name."""
import collections
import difflib
import itertools
import re

from facts import nameless
from files import alike

KEYWORDS = set(
    "as break const continue dyn else enum extern false fn for if impl in let loop match mod move mut pub ref "
    "return self Self static struct trait true type unsafe use where while u8 u16 u32 u64 usize i8 i16 i32 i64 "
    "f32 f64 bool str".split()
)
TOKEN = re.compile(
    r"""b?"(?:\\.|[^"\\])*"|b?'(?:\\.|[^\\'])'|'\w+|0x[0-9a-fA-F_]+|\d[\d_]*(?:\.\d+)?|[A-Za-z_]\w*"""
    r"""|=>|->|==|!=|<=|>=|&&|\|\||\.\.|::|\S"""
)
NAME, CONSTANT = re.compile(r"[A-Za-z_]\w*$"), re.compile(r"\d|b?['\"]")
LINES, SHORT, RUN = 4, 20, 24


def ratio(a, b, least):
    """How much two rows of tokens share, 0 where it is below least."""
    both = len(a) + len(b)
    if 2 * min(len(a), len(b)) < least * both:
        return 0
    counts = collections.Counter(a)
    counts.subtract(collections.Counter(b))
    if both - sum(abs(n) for n in counts.values()) < least * both:
        return 0
    found = difflib.SequenceMatcher(None, a, b, autojunk=False).ratio()
    return found if found >= least else 0


def tokens(text):
    return TOKEN.findall(text)


def folded(words):
    """Identifiers and constants without their names."""
    return ["I" if NAME.match(w) and w not in KEYWORDS else "N" if CONSTANT.match(w) else w for w in words]


def renamed(words):
    """Identifiers numbered in the order in which they first stand, constants folded: equal where only names differ."""
    seen, out = {}, []
    for w in words:
        if NAME.match(w) and w not in KEYWORDS:
            out.append(seen.setdefault(w, f"I{len(seen)}"))
        else:
            out.append("N" if CONSTANT.match(w) else w)
    return out


class Shape:
    """A function for comparison: its body's tokens as they are, and its head and body with names and constants folded."""

    def __init__(self, function):
        self.function = function
        self.body = tokens(function.body)
        head = re.sub(r"\bpub(?:\([a-z]+\))?|\bextern \"C\"|\bfn \w+", "", function.head)
        words = tokens(head) + ["{"] + self.body
        self.lines = len(function.lines)
        self.folded = folded(words)
        self.renamed = renamed(words)
        self.unnumbered = ["N" if re.match(r"\d", word) else word for word in self.body]
        promise = [re.sub(r"\b_\.n\b", "_", nameless(clause, function)) for clause in function.ensures]
        equal = any("≡" in clause and clause != "_ ≡ _" for clause in promise)
        self.promise = promise if equal and not function.exported else None


def likeness(a, b):
    """The kind of likeness of two shapes, and how it is said; none where they are not alike."""
    if len(a.body) >= 8 and a.body == b.body:
        return "a. functions with one body", "the same body"
    if len(a.body) >= 8 and a.unnumbered == b.unnumbered:
        return "b. functions that differ in constants", "the same but for constants"
    if min(a.lines, b.lines) >= LINES and min(len(a.body), len(b.body)) >= SHORT and a.renamed == b.renamed:
        return "c. functions that differ in names or types", "the same but for names, types and constants"
    if min(len(a.body), len(b.body)) >= SHORT:
        named = ratio(a.body, b.body, 0.8)
        long = min(a.lines, b.lines) >= LINES and len(a.folded) >= 2 * SHORT
        unnamed = ratio(a.folded, b.folded, 0.9) if long else 0
        said = [f"{named:.2f} of their tokens"] * bool(named) + [f"{unnamed:.2f} of them without names"] * bool(unnamed)
        if said:
            return "d. functions nearly equal", " and ".join(said)
    return None, ""


def runs(shapes):
    """The pairs of shapes that share a run of RUN tokens, and how many tokens such runs have."""
    places = collections.defaultdict(set)
    for k, shape in enumerate(shapes):
        for at in range(len(shape.body) - RUN + 1):
            places[tuple(shape.body[at : at + RUN])].add(k)
    return collections.Counter(pair for found in places.values() for pair in itertools.combinations(sorted(found), 2))


def function_twins(checkout):
    shapes = [Shape(function) for function in checkout.functions if function.body.strip()]
    shared = runs(shapes)
    for (m, a), (n, b) in itertools.combinations(enumerate(shapes), 2):
        kind, how = likeness(a, b)
        if not kind and shared[m, n]:
            kind, how = "e. functions that share a run", f"{shared[m, n] + RUN - 1} tokens"
        if not kind and a.promise and a.promise == b.promise:
            kind, how = "j. functions that promise the same", f"promises `{' and '.join(a.promise)}`"
        if kind:
            f, g = a.function, b.function
            place = f.place(kind, f"{how} as {g.name} ({g.file}:{g.line})", detail=g.name)
            place.exported = f.exported and g.exported
            yield place


def type_twins(checkout):
    types = [type for type in checkout.types if type.kind == "struct" and len(type.fields) >= 2]
    for a, b in itertools.combinations(types, 2):
        names = [name for name, _ in a.fields], [name for name, _ in b.fields]
        kinds = [kind for _, kind in a.fields], [kind for _, kind in b.fields]
        shared = len(set(names[0]) & set(names[1]))
        if names[0] == names[1] and kinds[0] == kinds[1]:
            kind, how = "f. types with one text", "the same fields"
        elif names[0] == names[1]:
            kind, how = "g. types that differ in their fields' types", "the same fields' names"
        elif min(len(names[0]), len(names[1])) >= 6 and shared >= 0.6 * min(len(names[0]), len(names[1])):
            kind, how = "h. types with most fields in common", f"{shared} fields in common"
        else:
            continue
        yield a.place(kind, f"{how} as {b.name} ({b.file}:{b.line})", b.name)


def twins(checkout):
    yield from function_twins(checkout)
    yield from type_twins(checkout)
    yield from alike(checkout, "*/src/**/*.rt", "i. files alike")
