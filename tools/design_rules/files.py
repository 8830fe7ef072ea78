"""Pairs of files that share most of their lines, comments, imports and white space left out."""
import collections
import itertools
import re

from read import EXPORTS, Place

LINES, SHARE = 12, 0.7


def lines(path):
    out = [re.sub(r"\s+", " ", line.strip()) for line in path.read_text().split("\n")]
    return [line for line in out if line and not re.match(r"(--|//|use |ghost use |mod |pub mod |[{}]$)", line)]


def alike(checkout, pattern, kind):
    counted = {}
    for path in sorted((checkout.root / "crates").glob(pattern)):
        found = lines(path)
        if len(found) >= LINES:
            counted[str(path.relative_to(checkout.root))] = collections.Counter(found)
    for (a, one), (b, other) in itertools.combinations(counted.items(), 2):
        shared, small = sum((one & other).values()), min(sum(one.values()), sum(other.values()))
        if shared >= SHARE * small:
            crates = a.split("/")[1], b.split("/")[1]
            yield Place(crates[0], a, 0, b, kind, f"{shared / small:.2f} of {small} lines", set(crates) <= set(EXPORTS))
