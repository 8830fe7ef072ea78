"""Scores in bytes: played, read record by record, merged."""

import collections
from ctypes import byref, c_size_t, c_uint8, c_uint32

from .library import routine, word
from .refusal import Refusal, accept
from .samples import Block, bytes_of

HEADER = 8
MOST = 1 << 26

_run = routine("run")
_record = routine("record")
_merge = routine("merge")

Take = collections.namedtuple("Take", "samples records")
Record = collections.namedtuple("Record", "map wait length delay loss amplitude count seed")


def records(score):
    """Gives the records of a score with its header, one by one; the fields that a record does not have are 0. Refuses by
    CUT_SHORT, BIT_MAP, with the place of the record."""
    score = bytes(memoryview(score))
    start, place = HEADER, 0
    while start < len(score):
        memory, length = bytes_of(score[start : start + 32])
        fields = (c_uint32 * 9)()
        taken = _record(memory, length, fields)
        if fields[0]:
            raise Refusal(fields[0], place)
        yield Record(*fields[1:])
        start += taken
        place += 1


def _samples_of(score):
    total = 0
    try:
        for record in records(score):
            total += record.wait
    except Refusal:
        pass
    return min(total, MOST)


def play(score, room=None):
    """Plays a score on a voice of its own, into an output of `room` samples; where none is given, of as many as its waits
    ask for, at most 2^26. A refusal has the place of the record and the samples that were put out before it. Refuses by
    CUT_SHORT, those of the opening, and at a record by CUT_SHORT, BIT_MAP, OUTPUT_FULL, LENGTH, DELAY, CHANGE_WAITS,
    AMPLITUDE, COUNT."""
    memory, length = bytes_of(score)
    output = Block(_samples_of(score) if room is None else word(room))
    place, written = c_size_t(), c_size_t()
    number = _run(memory, length, output.memory, output.count, byref(place), byref(written))
    if number:
        raise Refusal(number, place.value, output.take(written.value))
    return Take(output.take(written.value), place.value)


def merge(first, second, room=None):
    """Merges two scores with one header: every record of both, at its own sample, the first score's first at equal ones.
    The merge has at most `room` bytes; where none is given, as many as it needs. Refuses by HEADERS, ALONE, MERGE."""
    one, n = bytes_of(first)
    other, m = bytes_of(second)
    # A record has a byte at least, and 15 in the merge at most.
    room = HEADER + 15 * (n + m) if room is None else word(room)
    memory, length = (c_uint8 * max(room, 1))(), c_size_t()
    accept(_merge(one, n, other, m, memory, room, byref(length)))
    return bytes(memory[: length.value])
