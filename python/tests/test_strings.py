"""Six strings: the mix beside six voices, frames beside the mix, events beside the calls, refusals."""

import copy
import random
import unittest

import jivaszte

MOST = 8388607


def clip(sample):
    return max(-MOST, min(MOST, sample))


def tuned():
    """An instrument and six voices with the same openings and plucks."""
    instrument, voices = jivaszte.Instrument(), []
    for string, key in enumerate((40, 45, 50, 55, 59, 64)):
        order = 1 + string % 3
        length, delay = jivaszte.note(order, 44100, key)
        instrument.open(string, order, length, delay, 65000, 24)
        instrument.pluck(string, 90, 100, string)
        voices.append(jivaszte.Voice(order, length, delay, 65000, 24))
        voices[-1].pluck(90, 100, string)
    return instrument, voices


class Strings(unittest.TestCase):
    def test_mix(self):
        instrument, voices = tuned()
        chance = random.Random(5)
        for _ in range(20):
            heard = [chance.randrange(-MOST, MOST + 1) for _ in range(chance.randrange(200))]
            takes = [voice.block(heard) for voice in voices]
            self.assertEqual(list(instrument.mix(heard)), [clip(sum(map(int, six))) for six in zip(*takes)])
        takes = [voice.play(100) for voice in voices]
        self.assertEqual(list(instrument.play(100)), [clip(sum(map(int, six))) for six in zip(*takes)])

    def test_calls(self):
        instrument, voices = tuned()
        for string, voice in enumerate(voices):
            order = 1 + (string + 1) % 3
            to = (order, *jivaszte.note(order, 44100, 60 + string))
            if string % 2:
                instrument.ask(string, *to)
                voice.ask(*to)
            else:
                self.assertEqual(instrument.instant(string, *to), voice.instant(*to))
            instrument.loss(string, 64000 + string)
            voice.loss(64000 + string)
        expected = [clip(sum(map(int, six))) for six in zip(*(voice.play(24) for voice in voices))]
        self.assertEqual(list(instrument.play(24)), expected)
        for string in (1, 3):
            instrument.commit(string)
            voices[string].commit()
        instrument.withdraw(5)
        voices[5].withdraw()
        expected = [clip(sum(map(int, six))) for six in zip(*(voice.play(300) for voice in voices))]
        self.assertEqual(list(instrument.play(300)), expected)

    def test_frames(self):
        instrument, voices = tuned()
        for step in range(300):
            frame = instrument.frame(step / 1024)
            six = [int(voice.block([step * 8192])[0]) for voice in voices]
            self.assertEqual(frame, (clip(sum(six[:3])) / 2**23, clip(sum(six[3:])) / 2**23))

    def test_events(self):
        one, _ = tuned()
        other = copy.deepcopy(one)
        one.event_delay(0, 99.75)
        other.announce(0, 1, *jivaszte.split(1, 99.75))
        one.event_loss(1, 0.5)
        other.loss(1, 32768)
        self.assertEqual(list(one.play(500)), list(other.play(500)))
        self.assertEqual(jivaszte.split(1, 100.25), (99, 3072))

    def test_refusals(self):
        instrument, _ = tuned()
        nan, infinity = float("nan"), float("inf")
        for name, call in (
            ("STRING", lambda: instrument.pluck(6, 300, 0, 0)),
            ("STRING", lambda: instrument.event_loss(6, nan)),
            ("NOT_FINITE", lambda: instrument.frame(infinity)),
            ("FLOAT_RANGE", lambda: instrument.frame(1.5)),
            ("NOT_FINITE", lambda: instrument.event_delay(0, nan)),
            ("NOTE_LENGTH", lambda: instrument.event_delay(0, 1e30)),
            ("FLOAT_RANGE", lambda: instrument.event_loss(0, -0.5)),
            ("ORDER", lambda: jivaszte.split(4, 100.0)),
        ):
            with self.assertRaises(jivaszte.Refusal) as caught:
                call()
            self.assertEqual(caught.exception.name, name)


if __name__ == "__main__":
    unittest.main()
