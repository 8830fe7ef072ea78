"""The filter's figures, notes, and the noise of a pluck."""

from ctypes import byref, c_int32, c_uint32

from .library import routine, words
from .refusal import accept

_coefficients = routine("coefficients")
_effective_length = routine("effective_length")
_least_advance = routine("least_advance")
_note = routine("note")
_split = routine("split")
_draw = routine("draw")


def coefficients(order, delay):
    """The coefficients of an order and a delay in 1/4,096 of a sample, as many as the order, in units of 1/65,536.
    Refuses by ORDER, DELAY."""
    order, delay = words(order, delay)
    found = [c_int32(), c_int32(), c_int32()]
    accept(_coefficients(order, delay, *map(byref, found)))
    return tuple(a.value for a in found[:order])


def effective_length(order, delay, threshold):
    """The index of the last of the first 64 values of an eliminator's response to 1,000,000 that exceeds the threshold in
    magnitude, plus one; 0 where none does. Refuses by ORDER, DELAY."""
    length = c_uint32()
    accept(_effective_length(*words(order, delay, threshold), byref(length)))
    return length.value


def least_advance(order, delay, wanted=2):
    """The least advance with which every sample after a change to a tuning is at most `wanted` units from the ideal
    filter's. Refuses by ORDER, DELAY, NO_ADVANCE."""
    advance = c_uint32()
    accept(_least_advance(*words(order, delay, wanted), byref(advance)))
    return advance.value


def note(order, rate, number):
    """The length and the delay by which a voice sounds a MIDI note at a rate in samples a second. Refuses by ORDER, RATE,
    NOTE, NOTE_LENGTH."""
    length, delay = c_uint32(), c_uint32()
    accept(_note(*words(order, rate, number), byref(length), byref(delay)))
    return length.value, delay.value


def split(order, samples):
    """The length and the delay of a delay in samples, a float, rounded to 1/4,096 of a sample. Refuses by ORDER, NOT_FINITE,
    NOTE_LENGTH."""
    length, delay = c_uint32(), c_uint32()
    accept(_split(*words(order), samples, byref(length), byref(delay)))
    return length.value, delay.value


def draw(noise):
    """A draw, -32,768 to 32,767, on a noise state, and the state after it."""
    state = c_uint32(*words(noise))
    return _draw(byref(state)), state.value
