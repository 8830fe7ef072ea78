"""Point 8: answers of proofs/ that are one line of a tactic, or that stand more than once."""
import collections
import re

from files import alike as files_alike
from read import EXPORTS, Place, flat

TACTICS = {"search", "grind", "omega", "refl", "simp", "cc", "tt"}
SAME, LONG = 3, 20
# A definition at the left edge: its name, its type, and its clauses up to a line that starts with neither.
DEFINITION = re.compile(
    r"(?m)^(?:(?:abbrev|unfoldable) )?(?:pub )?([^\s(){}:.;]+) : ((?:.|\n(?=[ \t]))*)\n"
    r"(?:unfolding [^\n]*\n)?((?:\1(?=[ =\n])(?:.|\n(?=[ \t}\])]))*\n?)*)"
)
CLAIM = re.compile(r"[≡≤<↔×⊥]|→ [A-Z]\w+ \S")
VALUE = re.compile(r"(?:ℤ|ℕ|Bool|Type 0|List \S+)$")


def tactic(body):
    """The one tactic that an answer is, with the one argument or list that it takes; none where it is more."""
    text = re.sub(r"^λ [\w' ]+\. ", "", body)
    head, _, rest = text.partition(" ")
    if head not in TACTICS:
        return None
    if not rest or re.fullmatch(r"[\w.'-]+", rest):
        return head
    depth = 0
    for k, c in enumerate(rest):
        depth += (c == "(") - (c == ")")
        if depth == 0:
            return head if k == len(rest) - 1 and rest[0] == "(" else None
    return None


def code(text):
    """The text with each line of comment as an empty line that goes on with what stands before it."""
    return re.sub(r"(?m)^\s*--.*$", "  ", text)


class Answer:
    def __init__(self, crate, file, line, name, body):
        self.crate, self.file, self.line, self.name, self.body = crate, file, line, name, body


def read(checkout):
    """Each definition of a file of proofs/: its name, and what stands behind its `=`; with whether it answers a goal."""
    for path in sorted((checkout.root / "crates").glob("*/proofs/**/*.antt")):
        file = str(path.relative_to(checkout.root))
        crate = path.relative_to(checkout.root / "crates").parts[0]
        inner = "::".join(path.relative_to(checkout.root / "crates" / crate / "proofs").parts[:-1])
        text = code(path.read_text())
        for found in DEFINITION.finditer(text):
            name, type, clauses = found.groups()
            clauses = re.split(rf"(?m)^(?={re.escape(name)}[ =\n])", clauses)
            bodies = [flat(clause.partition("=")[2]) for clause in clauses if clause.strip()]
            line = text.count("\n", 0, found.start()) + 1
            full = "::".join(part for part in (crate, inner) if part)
            yield Answer(crate, file, line, f"{full} {name}", " | ".join(bodies)), flat(type)


def nameless(body):
    """An answer without the names of the values that it opens."""
    return re.sub(r"\bc\.[\w.'-]+", "c._", body)


def answers(checkout):
    found = [answer for answer, type in read(checkout) if re.match(r"goal\.", type)]
    stated = [(answer, type) for answer, type in read(checkout) if not re.match(r"goal\.", type)]
    same = collections.defaultdict(list)
    for answer in found:
        one = tactic(answer.body)
        if one:
            yield place(answer, f"a. answer that is one {one}", answer.body)
        elif len(answer.body) >= LONG:
            same[answer.body].append(answer)
    alike = collections.defaultdict(list)
    for body, held in same.items():
        alike[nameless(body)] += held
        if len(held) >= SAME:
            for answer in held:
                yield place(answer, "b. answer that stands three times or more", f"{body[:90]} (in {len(held)} answers)")
    for body, held in alike.items():
        if len(held) >= SAME and len(body) >= LONG and len({answer.body for answer in held}) > 1:
            for answer in held:
                said = f"{body[:90]} (in {len(held)} answers)"
                yield place(answer, "c. answer that stands three times or more but for names", said)
    lemmas = collections.defaultdict(list)
    for answer, type in stated:
        lemmas[type].append(answer)
    for type, held in lemmas.items():
        if len({answer.file for answer in held}) >= 2 and CLAIM.search(type) and not VALUE.search(type):
            for answer in held:
                yield place(answer, "d. lemma stated in two files or more", f"{type[:90]} (in {len(held)} files)")
    yield from files_alike(checkout, "*/proofs/**/*.antt", "e. files alike")


def place(answer, kind, what):
    return Place(answer.crate, answer.file, answer.line, answer.name, kind, what, answer.crate in EXPORTS)
