"""The shared library: where it is, what its routines take, and numbers as C has them.

It is looked for in the file that JIVASZTE_LIBRARY names, in this repository's target/shared, beside an installed
module (PREFIX/lib), and where the system's loader looks. The first of these that there is.
"""

import ctypes
import operator
import os
import pathlib
from ctypes import POINTER, c_float, c_int32, c_size_t, c_uint8, c_uint32

VERSION = "0.1.0"
SONAME = "libjivaszte.so." + VERSION.split(".", maxsplit=1)[0]

_U8, _U32, _I32, _SIZE = POINTER(c_uint8), POINTER(c_uint32), POINTER(c_int32), POINTER(c_size_t)
_HEAD, _LINE, _TUNING = _U32, _I32, [c_uint32] * 3
_PARAMETERS = {
    "version": [],
    "coefficients": [c_uint32, c_uint32, _I32, _I32, _I32],
    "effective_length": [c_uint32] * 3 + [_U32],
    "least_advance": [c_uint32] * 3 + [_U32],
    "note": [c_uint32] * 3 + [_U32, _U32],
    "draw": [_U32],
    "record": [_U8, c_size_t, _U32],
    "perform": [c_uint32] * 5
    + [_U32, c_size_t, _I32, c_size_t, _I32, c_size_t, _U32, c_size_t, _U32, _SIZE],
    "packed_open": [_HEAD, _LINE] + [c_uint32] * 5,
    "packed_loss": [_HEAD, c_uint32],
    "packed_pluck": [_HEAD] + [c_uint32] * 3,
    "packed_announce": [_HEAD] + _TUNING,
    "packed_instant": [_HEAD, _LINE] + _TUNING + [_U32],
    "packed_ask": [_HEAD] + _TUNING,
    "packed_commit": [_HEAD],
    "packed_withdraw": [_HEAD],
    "packed_block": [_HEAD, _LINE, _I32, c_size_t, _I32, c_size_t],
    "packed_play": [_HEAD, _LINE, _I32, c_size_t],
    "packed_waits": [_HEAD],
    "packed_check": [_HEAD, _LINE],
    "packed_store": [_HEAD, _LINE, _U8, c_size_t, _SIZE],
    "packed_load": [_HEAD, _LINE, _U8, c_size_t],
    "panel": [_U8, c_size_t, _U32, _U32, _U32],
    "strings_reset": [_HEAD, _LINE],
    "strings_open": [_HEAD, _LINE] + [c_uint32] * 6,
    "strings_loss": [_HEAD, c_uint32, c_uint32],
    "strings_pluck": [_HEAD] + [c_uint32] * 4,
    "strings_announce": [_HEAD, c_uint32] + _TUNING,
    "strings_instant": [_HEAD, _LINE, c_uint32] + _TUNING + [_U32],
    "strings_ask": [_HEAD, c_uint32] + _TUNING,
    "strings_commit": [_HEAD, c_uint32],
    "strings_withdraw": [_HEAD, c_uint32],
    "strings_mix": [_HEAD, _LINE, _I32, c_size_t, _I32, c_size_t],
    "strings_play": [_HEAD, _LINE, _I32, c_size_t],
    "strings_event_delay": [_HEAD, c_uint32, c_float],
    "strings_event_loss": [_HEAD, c_uint32, c_float],
    "strings_frame": [_HEAD, _LINE, c_float, _U32],
    "split": [c_uint32, c_float, _U32, _U32],
    "run": [_U8, c_size_t, _I32, c_size_t, _SIZE, _SIZE],
    "merge": [_U8, c_size_t, _U8, c_size_t, _U8, c_size_t, _SIZE],
    "junction_open": [_U32] + [c_uint32] * 4,
    "junction_move": [_U32, c_uint32],
    "junction_sample": [_U32, c_int32, c_int32, _I32, _I32],
    "wav_write": [c_uint32, _I32, c_size_t, _U8, c_size_t, _SIZE],
    "wav_read": [_U8, c_size_t, _I32, c_size_t, _U32, _SIZE],
}


class _Frame(ctypes.Structure):
    """A frame as C returns it."""

    _fields_ = [("left", c_float), ("right", c_float)]


_RETURNS = {"draw": c_int32, "record": c_size_t, "strings_reset": None, "strings_frame": _Frame}


def _places():
    named = os.environ.get("JIVASZTE_LIBRARY")
    if named:
        yield named
        return
    here = pathlib.Path(__file__).resolve()
    for folder in (here.parents[2] / "target/shared", *(parent for parent in here.parents if parent.name == "lib")):
        yield from (str(found) for found in sorted(folder.glob(SONAME + "*")))
    yield SONAME


def _load():
    failure = None
    for place in _places():
        try:
            return ctypes.CDLL(place)
        except OSError as error:
            failure = error
    raise ImportError(f"{SONAME} is not found: `make install` puts it, and JIVASZTE_LIBRARY names its file ({failure})")


_library = _load()


def routine(name):
    """The routine jivaszte_NAME with its parameters."""
    function = getattr(_library, "jivaszte_" + name)
    function.argtypes = _PARAMETERS[name]
    function.restype = _RETURNS.get(name, c_uint32)
    return function


def word(value, bits=32):
    """A whole number as the library takes it. ctypes would cut one that does not fit; this says so."""
    number = operator.index(value)
    if not 0 <= number < 1 << bits:
        raise OverflowError(f"{number} is outside 0 to {(1 << bits) - 1}")
    return number


def words(*values):
    return [word(value) for value in values]


_version = routine("version")


def version():
    """The version of the library that is loaded: 10,000 times its first number, 100 times its second, and its third."""
    return _version()


_first, _second, _third = map(int, VERSION.split("."))
if version() < 10000 * _first + 100 * _second + _third:
    raise ImportError(f"the library is version {version()}, older than this module, {VERSION}")
