"""What the module does with values: refusals and their words, numbers that C cannot hold, copies, empty blocks."""

import copy
import doctest
import random
import threading
import unittest

import jivaszte
from jivaszte import instrument, samples, voice


def opened(advance=64):
    return jivaszte.Voice(1, 99, 2979, 65000, advance)


class Refusals(unittest.TestCase):
    def test_words(self):
        with self.assertRaises(jivaszte.Refusal) as caught:
            jivaszte.Voice(4, 99, 2979, 65000)
        refusal = caught.exception
        self.assertEqual((refusal.number, refusal.name, str(refusal)), (1, "ORDER", "the order is not 1, 2 or 3"))
        self.assertIsNone(refusal.place)

    def test_place(self):
        waits = bytes([1, 4, 3, 0, 0, 16, 0, 128, 1, 2, 0, 2, 5, 0, 3, 3, 0, 6, 0])
        with self.assertRaises(jivaszte.Refusal) as caught:
            jivaszte.play(waits)
        self.assertEqual((caught.exception.number, caught.exception.place), (6, 2))
        self.assertEqual(list(caught.exception.samples), [0, 0, 0, 0, 0])
        self.assertEqual(str(caught.exception), "record 2: a change waits")

    def test_reopen(self):
        string = opened()
        string.pluck(255, 100, 1)
        with self.assertRaises(jivaszte.Refusal):
            string.reopen(1, 0, 4096, 0)
        self.assertTrue(string.check())
        self.assertEqual(list(string.play(8)), [0] * 8)


class Numbers(unittest.TestCase):
    """ctypes would cut these to 32 bits."""

    def test_outside(self):
        string = opened()
        for bad in (-1, 1 << 32, (1 << 32) + 1, 1 << 70):
            with self.assertRaises(OverflowError):
                string.loss(bad)
            with self.assertRaises(OverflowError):
                jivaszte.note(1, 44100, bad)
        for bad in (1.0, "1", None):
            with self.assertRaises(TypeError):
                string.pluck(bad, 100, 1)

    def test_samples(self):
        string = opened()
        for bad in ([1 << 31], [-(1 << 31) - 1]):
            with self.assertRaises(OverflowError):
                string.block(bad)
        for bad in ([0.5], ["a"], "ab"):
            with self.assertRaises(TypeError):
                string.block(bad)
        with self.assertRaises(jivaszte.Refusal) as caught:
            string.block([8388608])
        self.assertEqual(caught.exception.name, "SAMPLE")
        self.assertEqual(len(string.block([])), 0)
        self.assertEqual(len(string.play(0)), 0)

    @unittest.skipIf(samples.numpy is None, "numpy is not installed")
    def test_numpy(self):
        numpy = samples.numpy
        heard = numpy.arange(-100, 100, dtype=numpy.int64)[::2]
        expected = opened().block([int(x) for x in heard])
        for given in (heard, heard.astype(numpy.int16), heard.astype(numpy.int32)):
            self.assertTrue(numpy.array_equal(opened().block(given), expected))
        for bad in (heard.astype(float), heard.reshape(2, -1)):
            with self.assertRaises(TypeError):
                opened().block(bad)
        with self.assertRaises(OverflowError):
            opened().block(numpy.array([1 << 40]))


class Voices(unittest.TestCase):
    def test_copy(self):
        string = opened()
        string.pluck(255, 100, 1)
        string.play(50)
        for other in (copy.copy(string), copy.deepcopy(string)):
            self.assertEqual(list(copy.copy(string).play(300)), list(other.play(300)))
        before = list(copy.copy(string).play(100))
        self.assertEqual(before, list(string.play(100)))

    def test_stored(self):
        string = opened()
        string.pluck(255, 100, 1)
        string.play(50)
        string.announce(2, 90, 8000)
        string.play(10)
        stored = string.to_bytes()
        self.assertEqual(jivaszte.panel(stored), (99, 2979, 65000))
        other = jivaszte.Voice.from_bytes(stored)
        self.assertEqual((other.waits(), other.to_bytes()), (string.waits(), stored))
        self.assertEqual(list(other.play(500)), list(string.play(500)))
        for bad, name in ((b"", "STORED_LENGTH"), (stored[:-1], "STORED_LENGTH")):
            with self.assertRaises(jivaszte.Refusal) as caught:
                jivaszte.Voice.from_bytes(bad)
            self.assertEqual(caught.exception.name, name)

    def test_cuts(self):
        """Blocks of any length give one take."""
        seed = random.randrange(1 << 32)
        chance = random.Random(seed)
        whole, cut = opened(), opened()
        for string in (whole, cut):
            string.pluck(255, 100, seed)
        taken = []
        while len(taken) < 2000:
            taken.extend(cut.play(chance.randrange(65)))
        self.assertEqual(list(whole.play(len(taken))), taken, seed)

    def test_threads(self):
        takes = [None] * 8
        def play(k):
            string = opened()
            string.pluck(255, 100, 7)
            takes[k] = [x for _ in range(20) for x in string.play(500)]
        threads = [threading.Thread(target=play, args=(k,)) for k in range(8)]
        for thread in threads:
            thread.start()
        for thread in threads:
            thread.join()
        self.assertTrue(all(take == takes[0] for take in takes))
        self.assertTrue(any(takes[0]))


class Documents(unittest.TestCase):
    def test_examples(self):
        for module in (jivaszte, voice, instrument):
            failed, tried = doctest.testmod(module)
            self.assertEqual(failed, 0)
            self.assertGreater(tried, 2)


if __name__ == "__main__":
    unittest.main()
