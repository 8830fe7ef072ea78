"""A junction of two tubes that the program keeps."""

from ctypes import byref, c_int32, c_uint32

from .library import routine, word, words
from .refusal import accept
from .samples import block_of

WORDS = 16

_open = routine("junction_open")
_move = routine("junction_move")
_sample = routine("junction_sample")


class Junction:
    """A junction of 64 bytes. One thread at a time uses it."""

    def __init__(self, left_area, right_area, delay, advance=64):
        """A junction at rest. Refuses by AREA, DELAY, ADVANCE."""
        self._words = (c_uint32 * WORDS)()
        accept(_open(self._words, *words(left_area, right_area, delay, advance)))

    def move(self, delay):
        """Announces another delay, which takes effect after as many samples as the advance. Refuses by DELAY,
        CHANGE_WAITS."""
        accept(_move(self._words, word(delay)))

    def sample(self, from_left, from_right):
        """What goes to the right and to the left. Refuses by SAMPLE."""
        heard = block_of([from_left, from_right]).memory
        to_right, to_left = c_int32(), c_int32()
        accept(_sample(self._words, heard[0], heard[1], byref(to_right), byref(to_left)))
        return to_right.value, to_left.value

    def __copy__(self):
        other = Junction.__new__(Junction)
        other._words = type(self._words).from_buffer_copy(self._words)
        return other

    def __deepcopy__(self, memo):
        return self.__copy__()
