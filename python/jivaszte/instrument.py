"""Six strings with one output, for calls between blocks and for frames of floats."""

import copy
from collections import namedtuple
from ctypes import byref, c_int32, c_uint32

from .library import routine, word, words
from .refusal import accept
from .samples import Block, block_of
from .voice import HEAD, LINE

STRINGS = 6

Frame = namedtuple("Frame", "left right")

_reset = routine("strings_reset")
_open = routine("strings_open")
_loss = routine("strings_loss")
_pluck = routine("strings_pluck")
_announce = routine("strings_announce")
_instant = routine("strings_instant")
_ask = routine("strings_ask")
_commit = routine("strings_commit")
_withdraw = routine("strings_withdraw")
_mix = routine("strings_mix")
_play = routine("strings_play")
_event_delay = routine("strings_event_delay")
_event_loss = routine("strings_event_loss")
_frame = routine("strings_frame")


class Instrument:
    """Six strings, numbered 0 to 5, each a voice with calls of its own; a call on another number is refused by STRING.
    One thread at a time uses it; copy.copy makes a second instrument that goes on by itself.

    >>> from jivaszte.filter import note
    >>> guitar = Instrument()
    >>> for string, key in enumerate((40, 45, 50, 55, 59, 64)):
    ...     guitar.open(string, 1, *note(1, 44100, key), loss=65000, advance=24)
    ...     guitar.pluck(string, 40, 100, seed=string)
    >>> len(guitar.play(64))
    64
    >>> guitar.frame(0.0)
    Frame(left=0.0, right=0.0)
    """

    def __init__(self):
        self._heads = (c_uint32 * (STRINGS * HEAD))()
        self._lines = (c_int32 * (STRINGS * LINE))()
        _reset(self._heads, self._lines)

    def open(self, string, order, length, delay, loss, advance=64):
        """Opens a voice on a string. Refuses by STRING, ORDER, LENGTH, DELAY, LOSS, ADVANCE; by all but the first a voice
        at rest of order 1, length 1, delay 4,096, loss 0 and advance 0 is left there."""
        accept(_open(self._heads, self._lines, *words(string, order, length, delay, loss, advance)))

    def loss(self, string, loss):
        """Sets the loss of a string. Refuses by STRING, LOSS."""
        accept(_loss(self._heads, *words(string, loss)))

    def pluck(self, string, amplitude, count, seed):
        """Starts a pluck in place of the rest of the string's old one. Refuses by STRING, AMPLITUDE, COUNT."""
        accept(_pluck(self._heads, *words(string, amplitude, count, seed)))

    def announce(self, string, order, length, delay):
        """Announces a change, which takes effect after as many samples as the string's advance. Refuses by STRING, ORDER,
        LENGTH, DELAY, CHANGE_WAITS."""
        accept(_announce(self._heads, *words(string, order, length, delay)))

    def instant(self, string, order, length, delay):
        """Changes at once, and returns how many samples of the line its second filter was run over. Refuses as announce
        does."""
        count = c_uint32()
        accept(_instant(self._heads, self._lines, *words(string, order, length, delay), byref(count)))
        return count.value

    def ask(self, string, order, length, delay):
        """Asks for a change, which waits for its commit. Refuses as announce does."""
        accept(_ask(self._heads, *words(string, order, length, delay)))

    def commit(self, string):
        """Puts the asked change in force, before the next sample. Refuses by STRING, NOTHING_ASKED, COMMIT_EARLY."""
        accept(_commit(self._heads, word(string)))

    def withdraw(self, string):
        """Drops the asked change. Refuses by STRING, NOTHING_ASKED."""
        accept(_withdraw(self._heads, word(string)))

    def mix(self, samples):
        """A block of all strings: an output for each input, the clipped sum of the six. Refuses by SAMPLE."""
        heard = block_of(samples)
        output = Block(heard.count)
        accept(_mix(self._heads, self._lines, heard.memory, heard.count, output.memory, output.count))
        return output.take()

    def play(self, count):
        """A mix of so many zeros."""
        output = Block(word(count))
        accept(_play(self._heads, self._lines, output.memory, output.count))
        return output.take()

    def event_delay(self, string, samples):
        """A delay in samples, as a float: an announced change of the string, its order kept. Refuses by STRING, NOT_FINITE,
        NOTE_LENGTH, CHANGE_WAITS."""
        accept(_event_delay(self._heads, word(string), samples))

    def event_loss(self, string, loss):
        """A loss from 0 to 1, as a float. Refuses by STRING, NOT_FINITE, FLOAT_RANGE."""
        accept(_event_loss(self._heads, word(string), loss))

    def frame(self, sample):
        """Takes one sample, -1 to 1, for all strings and gives one Frame: strings 0 to 2 left, 3 to 5 right. Refuses by
        NOT_FINITE, FLOAT_RANGE."""
        number = c_uint32()
        frame = _frame(self._heads, self._lines, sample, byref(number))
        accept(number.value)
        return Frame(frame.left, frame.right)

    def __copy__(self):
        other = Instrument.__new__(Instrument)
        other._heads = type(self._heads).from_buffer_copy(self._heads)
        other._lines = type(self._lines).from_buffer_copy(self._lines)
        return other

    def __deepcopy__(self, memo):
        return copy.copy(self)

    def __repr__(self):
        return "<jivaszte.Instrument>"
