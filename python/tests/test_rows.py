"""The rows that the C and the Rust examples print, from Python: examples/calls.txt, examples/blocks.txt,
examples/play.hex, and the paper's score."""

import pathlib
import unittest

import jivaszte
from jivaszte import Call, samples

ROOT = pathlib.Path(__file__).resolve().parents[2]
CALLS = (ROOT / "examples/calls.txt").read_text().splitlines()


def said(call, *numbers):
    """What a row has after its colon."""
    try:
        found = call(*numbers)
    except jivaszte.Refusal as refusal:
        return f"refused by {refusal.number}"
    return " ".join(map(str, found if isinstance(found, tuple) else (found,)))


class Rows(unittest.TestCase):
    def rows(self, start):
        found = [row[len(start) + 1 :].split(": ") for row in CALLS if row.startswith(start + " ")]
        self.assertGreater(len(found), 2)
        return [(tuple(map(int, numbers.split())), answer) for numbers, answer in found]

    def test_figures(self):
        for start, call in (
            ("note", jivaszte.note),
            ("effective length", jivaszte.effective_length),
            ("least advance", jivaszte.least_advance),
        ):
            for numbers, answer in self.rows(start):
                self.assertEqual(said(call, *numbers), answer, (start, numbers))

    def test_coefficients(self):
        for numbers, answer in self.rows("coefficients"):
            found = said(jivaszte.coefficients, *numbers)
            if not found.startswith("refused"):
                found = " ".join((found.split() + ["0", "0"])[:3])
            self.assertEqual(found, answer, numbers)

    def test_draws(self):
        noise = 0
        for row in (row for row in CALLS if row.startswith("draw: ")):
            value, noise = jivaszte.draw(noise)
            self.assertEqual(f"draw: {value}", row)

    def test_merge(self):
        header = bytes([1, 0, 50, 0, 0, 16, 232, 253])
        first, second = header + bytes([17, 5, 0, 200, 0]), header + bytes([17, 7, 0, 100, 0])
        merged = jivaszte.merge(first, second)
        row = f"merge into 32 bytes: 0 {len(merged)}, " + " ".join(map(str, merged[8:]))
        self.assertIn(row, CALLS)
        with self.assertRaises(jivaszte.Refusal) as caught:
            jivaszte.merge(first, second, room=21)
        self.assertEqual((caught.exception.number, caught.exception.name), (30, "MERGE"))

    def test_junction(self):
        """A sample before a move and three after it, as examples/calls.c has them."""
        def asked(call, *numbers):
            try:
                return (0, *(call(*numbers) or ()))
            except jivaszte.Refusal as refusal:
                return (refusal.number,)
        for numbers, answer in self.rows("junction"):
            if not answer.startswith("0,"):
                self.assertEqual(asked(lambda *n: jivaszte.Junction(*n) and (), *numbers), (25,))
                continue
            junction, found = jivaszte.Junction(*numbers), []
            for k, pair in enumerate(((100000, -200000), (30000, 40000), (-50000, 60000), (7000, 9000))):
                found += asked(junction.sample, *pair)
                if k == 0:
                    found += asked(junction.move, 5000) + asked(junction.move, 6144)
                    found += asked(junction.sample, 5, -8388608) + (0, 0)
            self.assertEqual("0, " + " ".join(map(str, found)), answer, numbers)

    def test_version(self):
        self.assertIn(f"version {jivaszte.VERSION}: {jivaszte.version()}", CALLS)


class Paper(unittest.TestCase):
    score = (ROOT / "crates/player/stdin").read_bytes()

    def test_play(self):
        *rows, end = (ROOT / "crates/player/stdout").read_text().splitlines()
        take = jivaszte.play(self.score)
        self.assertEqual(list(map(int, take.samples)), list(map(int, rows)))
        self.assertEqual(end, f"end 0 {take.records} {len(take.samples)}")
        self.assertEqual(take.records, len(list(jivaszte.records(self.score))))

    def test_wav(self):
        take = jivaszte.play(self.score)
        file = jivaszte.wav_write(44100, take.samples)
        self.assertEqual(file, bytes.fromhex((ROOT / "examples/play.hex").read_text()))
        rate, samples_read = jivaszte.wav_read(file)
        self.assertEqual((rate, list(samples_read)), (44100, list(take.samples)))

    def test_no_room(self):
        with self.assertRaises(jivaszte.Refusal) as caught:
            jivaszte.play(self.score, room=0)
        self.assertEqual(caught.exception.name, "OUTPUT_FULL")
        self.assertEqual(len(caught.exception.samples), 0)
        self.assertIn("the wait does not fit", str(caught.exception))


PLAN = [
    (0, Call.PLUCK, 200, 100, 1), (4, Call.ANNOUNCE, 1, 88, 3000), (4, Call.ASK, 1, 90, 3000),
    (10, Call.ASK, 2, 90, 8000), (10, Call.COMMIT), (12, Call.COMMIT), (16, Call.LOSS, 64000),
    (20, Call.INSTANT, 3, 80, 12000), (24, Call.ASK, 1, 99, 2979), (25, Call.WITHDRAW), (28, Call.PLUCK, 256, 100, 2),
]


class Blocks(unittest.TestCase):
    """The plan of examples/blocks.c."""

    def test_rows(self):
        voice = jivaszte.Voice(1, 99, 2979, 65535, 64)
        names = ["block", "loss", "pluck", "announce", "instant", "ask", "commit", "withdraw"]
        rows, calls, numbers, heard, output = [], [], [], [], []
        for block in range(32):
            for _, kind, *values in (call for call in PLAN if call[0] == block):
                try:
                    getattr(voice, names[kind])(*values)
                    number = 0
                except jivaszte.Refusal as refusal:
                    number = refusal.number
                rows.append(f"before block {block}, call of kind {kind}: {number}, {voice.waits()} samples to wait")
                calls.append((kind, *values))
                numbers.append(number)
            zeros = [100000 if block % 8 == 3 else 0] + [0] * 63
            output.extend(voice.block(zeros) if block % 8 == 3 else voice.play(64))
            heard.extend(zeros)
            calls.append((Call.BLOCK, 64, 64))
            numbers.append(0)
        self.assertTrue(voice.check())
        whole = jivaszte.perform(1, 99, 2979, 65535, 64, calls, heard)
        self.assertEqual((whole.opening, whole.numbers, list(whole.samples)), (0, numbers, list(output)))
        total = sum((i + 1) * int(x) for i, x in enumerate(output))
        rows.append(f"{len(output)} samples as the list has them, the sum of each times its number: {total}")
        self.assertEqual(rows, (ROOT / "examples/blocks.txt").read_text().splitlines())

    def test_kind_of_samples(self):
        taken = jivaszte.Voice(1, 99, 2979, 65535).play(3)
        self.assertIsInstance(taken, list if samples.numpy is None else samples.numpy.ndarray)


if __name__ == "__main__":
    unittest.main()
