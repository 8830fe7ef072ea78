"""A voice that the program keeps, for calls between blocks."""

import copy
from ctypes import byref, c_int32, c_size_t, c_uint8, c_uint32

from .library import routine, word, words
from .refusal import accept
from .samples import Block, block_of, bytes_of

HEAD, LINE = 27, 2112
STORED_MOST = 8529

_open = routine("packed_open")
_loss = routine("packed_loss")
_pluck = routine("packed_pluck")
_announce = routine("packed_announce")
_instant = routine("packed_instant")
_ask = routine("packed_ask")
_commit = routine("packed_commit")
_withdraw = routine("packed_withdraw")
_block = routine("packed_block")
_play = routine("packed_play")
_waits = routine("packed_waits")
_check = routine("packed_check")
_store = routine("packed_store")
_load = routine("packed_load")
_panel = routine("panel")


class Voice:
    """A voice of 8,556 bytes. One thread at a time uses it; copy.copy makes a second voice that goes on by itself.

    >>> voice = Voice(order=1, length=99, delay=2979, loss=65000, advance=64)
    >>> voice.pluck(amplitude=200, count=100, seed=1)
    >>> block = voice.play(64)
    >>> voice.announce(1, 88, 3000)
    >>> voice.waits()
    64
    """

    def __init__(self, order, length, delay, loss, advance=64):
        """A voice at rest. Refuses by ORDER, LENGTH, DELAY, LOSS, ADVANCE."""
        self._head = (c_uint32 * HEAD)()
        self._line = (c_int32 * LINE)()
        self.reopen(order, length, delay, loss, advance)

    def reopen(self, order, length, delay, loss, advance=64):
        """Opens the voice anew. Where that is refused, a voice at rest of order 1, length 1, delay 4,096, loss 0 and
        advance 0 is left."""
        accept(_open(self._head, self._line, *words(order, length, delay, loss, advance)))

    def loss(self, loss):
        """Sets the loss. Refuses by LOSS."""
        accept(_loss(self._head, word(loss)))

    def pluck(self, amplitude, count, seed):
        """Starts a pluck in place of the rest of the old one. Refuses by AMPLITUDE, COUNT."""
        accept(_pluck(self._head, *words(amplitude, count, seed)))

    def announce(self, order, length, delay):
        """Announces a change, which takes effect after as many samples as the advance. Refuses by ORDER, LENGTH, DELAY,
        CHANGE_WAITS."""
        accept(_announce(self._head, *words(order, length, delay)))

    def instant(self, order, length, delay):
        """Changes at once, and returns how many samples of the line its second filter was run over. Refuses as announce
        does."""
        count = c_uint32()
        accept(_instant(self._head, self._line, *words(order, length, delay), byref(count)))
        return count.value

    def ask(self, order, length, delay):
        """Asks for a change, which waits for its commit. Refuses as announce does."""
        accept(_ask(self._head, *words(order, length, delay)))

    def commit(self):
        """Puts the asked change in force, before the next sample. Refuses by NOTHING_ASKED, COMMIT_EARLY."""
        accept(_commit(self._head))

    def withdraw(self):
        """Drops the asked change. Refuses by NOTHING_ASKED."""
        accept(_withdraw(self._head))

    def block(self, samples):
        """A block: an output for each input. Refuses by SAMPLE."""
        heard = block_of(samples)
        output = Block(heard.count)
        accept(_block(self._head, self._line, heard.memory, heard.count, output.memory, output.count))
        return output.take()

    def play(self, count):
        """A block of so many zeros."""
        output = Block(word(count))
        accept(_play(self._head, self._line, output.memory, output.count))
        return output.take()

    def waits(self):
        """How many samples an announced change still takes, or an asked one until its commit is accepted; 0 where none
        waits."""
        return _waits(self._head)

    def check(self):
        """Whether this is a voice by the library's own test, as it always is: for tests."""
        return _check(self._head, self._line) == 1

    def to_bytes(self):
        """The stored voice: bytes that do not depend on the machine."""
        stored, length = (c_uint8 * STORED_MOST)(), c_size_t()
        accept(_store(self._head, self._line, stored, STORED_MOST, byref(length)))
        return bytes(stored[: length.value])

    @classmethod
    def from_bytes(cls, data):
        """A voice that goes on as the stored one would have. Any bytes are safe. Refuses by STORED_LENGTH, STORED_PART."""
        stored, length = bytes_of(data)
        voice = cls.__new__(cls)
        voice._head, voice._line = (c_uint32 * HEAD)(), (c_int32 * LINE)()
        accept(_load(voice._head, voice._line, stored, length))
        return voice

    def __copy__(self):
        other = Voice.__new__(Voice)
        other._head = type(self._head).from_buffer_copy(self._head)
        other._line = type(self._line).from_buffer_copy(self._line)
        return other

    def __deepcopy__(self, memo):
        return copy.copy(self)

    def __repr__(self):
        return f"<jivaszte.Voice, {self.waits()} samples to wait>"


def panel(data):
    """The length, the delay and the loss of a stored voice. Refuses as Voice.from_bytes does."""
    stored, length = bytes_of(data)
    shown = [c_uint32(), c_uint32(), c_uint32()]
    accept(_panel(stored, length, *map(byref, shown)))
    return tuple(number.value for number in shown)
