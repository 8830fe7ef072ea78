"""Samples and bytes between Python and the library: numpy arrays where numpy is installed, else lists."""

import ctypes
from array import array

try:
    import numpy
except ImportError:
    numpy = None

_INT = "i"
assert array(_INT).itemsize == 4


class Block:
    """Memory for so many samples. It has a place at least, so that no pointer is null."""

    def __init__(self, count):
        self.count = count
        self.memory = (ctypes.c_int32 * max(count, 1))()

    def take(self, count=None):
        """The first samples, as the caller gets them."""
        count = self.count if count is None else count
        if numpy is None:
            return self.memory[:count]
        return numpy.frombuffer(self.memory, dtype=numpy.int32)[:count]


def block_of(samples):
    """A block that holds the samples given. OverflowError where one does not fit 32 bits, TypeError where one is no
    whole number."""
    if numpy is not None and isinstance(samples, numpy.ndarray):
        if samples.ndim != 1 or samples.dtype.kind not in "iu":
            raise TypeError("samples are whole numbers in one dimension")
        if samples.size and not (-(1 << 31) <= int(samples.min()) and int(samples.max()) < 1 << 31):
            raise OverflowError("a sample does not fit 32 bits")
        values = numpy.ascontiguousarray(samples, dtype=numpy.int32).tobytes()
    else:
        values = array(_INT, samples if not isinstance(samples, (bytes, bytearray)) else list(samples)).tobytes()
    block = Block(len(values) // 4)
    ctypes.memmove(block.memory, values, len(values))
    return block


def bytes_of(data):
    """Memory that holds the bytes given, and how many there are."""
    data = bytes(memoryview(data))
    return (ctypes.c_uint8 * max(len(data), 1)).from_buffer_copy(data or b"\0"), len(data)
