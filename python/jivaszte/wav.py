"""WAV files of one channel and 24 bits."""

from ctypes import byref, c_size_t, c_uint8, c_uint32

from .library import routine, word
from .refusal import accept
from .samples import Block, block_of, bytes_of

_write = routine("wav_write")
_read = routine("wav_read")


def wav_write(rate, samples):
    """The bytes of a WAV file of at most 1,000,000 samples at a rate, 8,000 to 192,000 a second. Refuses by
    RECORDING_RATE, ROOM, SAMPLE."""
    block = block_of(samples)
    size = 44 + 3 * block.count + block.count % 2
    file, length = (c_uint8 * size)(), c_size_t()
    accept(_write(word(rate), block.memory, block.count, file, size, byref(length)))
    return bytes(file[: length.value])


def wav_read(data):
    """The rate and the samples of such a file. Refuses by FILE_FORM, RECORDING_RATE, ROOM."""
    file, length = bytes_of(data)
    block = Block(length // 3)
    rate, count = c_uint32(), c_size_t()
    accept(_read(file, length, block.memory, block.count, byref(rate), byref(count)))
    return rate.value, block.take(count.value)
