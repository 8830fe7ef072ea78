"""A list of calls on a voice of its own."""

import collections
import enum
from ctypes import byref, c_size_t, c_uint32

from .library import routine, words
from .refusal import accept
from .samples import Block, block_of

_perform = routine("perform")


class Call(enum.IntEnum):
    """The kinds of calls."""

    BLOCK = 0
    LOSS = 1
    PLUCK = 2
    ANNOUNCE = 3
    INSTANT = 4
    ASK = 5
    COMMIT = 6
    WITHDRAW = 7


Performed = collections.namedtuple("Performed", "opening numbers samples")


def perform(order, length, delay, loss, advance, calls, samples):
    """Makes calls on a voice, one after the other. A call is a Call and up to three numbers; a block's are
    how many samples it takes from the input and the length of its output. Gives what the opening and each call
    returned, 0 or a refusal's number, and what the blocks put out. Refuses by LIST_FORM."""
    listed = [(*words(*call), 0, 0, 0)[:4] for call in calls]
    flat = [number for call in listed for number in call]
    list_of = (c_uint32 * max(len(flat), 1))(*flat)
    heard = block_of(samples)
    output = Block(min(sum(call[2] for call in listed if call[0] == Call.BLOCK), 1 << 26))
    numbers, opening, written = (c_uint32 * max(len(listed), 1))(), c_uint32(), c_size_t()
    accept(
        _perform(
            *words(order, length, delay, loss, advance), list_of, len(flat), heard.memory, heard.count,
            output.memory, output.count, numbers, len(listed), byref(opening), byref(written),
        )
    )
    return Performed(opening.value, numbers[: len(listed)], output.take(written.value))
