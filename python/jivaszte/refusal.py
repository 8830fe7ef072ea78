"""What the library refuses, as an exception."""

from .words import NAMES, WORDS


class Refusal(Exception):
    """A call that was refused: number, name as in jivaszte.h, and words. Where a score was refused, `place` is the index
    of its record (0 for the header) and `samples` what was put out before; else both are None."""

    def __init__(self, number, place=None, samples=None):
        self.number = number
        self.name = NAMES.get(number, "UNKNOWN")
        self.words = WORDS.get(number, "no number of a refusal")
        self.place = place
        self.samples = samples
        super().__init__(self.words if place is None else f"record {place}: {self.words}")


def accept(number):
    """Raises the refusal of a number that is not 0."""
    if number:
        raise Refusal(number)
