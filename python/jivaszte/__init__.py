"""A plucked string with a tunable allpass loop, proved: the routines of jivaszte.h for Python.

What the library refuses comes as the exception Refusal, with its number, its name and its words. Samples are whole
numbers, -8,388,607 to 8,388,607; the routines give them as a numpy array of int32 where numpy is installed, else as a
list, and take any sequence of whole numbers.

>>> import jivaszte
>>> jivaszte.note(1, 44100, 69)
(99, 2979)
>>> jivaszte.note(1, 44100, 128)
Traceback (most recent call last):
jivaszte.refusal.Refusal: the note is above 127
"""

from .calls import Call, Performed, perform
from .filter import coefficients, draw, effective_length, least_advance, note, split
from .instrument import Frame, Instrument, STRINGS
from .junction import Junction
from .library import VERSION, version
from .refusal import Refusal
from .score import Record, Take, merge, play, records
from .voice import Voice, panel
from .wav import wav_read, wav_write

__version__ = VERSION
__all__ = [
    "Call", "Frame", "Instrument", "Junction", "Performed", "Record", "Refusal", "STRINGS", "Take", "VERSION", "Voice",
    "coefficients", "draw", "effective_length", "least_advance", "merge", "note", "panel", "perform", "play", "records",
    "split", "version", "wav_read", "wav_write",
]
