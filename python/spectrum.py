#!/usr/bin/env python3
"""Draws the spectrum of a plucked string as SVG: spectrum.py A3 -o a3.svg.

The string sounds for 32,768 samples after its pluck. The picture has the level of each frequency up to 5 kHz in dB below
the strongest; the text says where the first partial is. It uses numpy's transform where numpy is installed.
"""

import argparse
import cmath
import math
import re

import jivaszte

RATE, SAMPLES, TOP, FLOOR = 44100, 1 << 15, 5000, -80
STEPS = {"C": 0, "D": 2, "E": 4, "F": 5, "G": 7, "A": 9, "B": 11}


def number(name):
    """The MIDI number of a note such as A3 or F#2."""
    found = re.fullmatch(r"([A-G])([#b]?)(-?\d)", name)
    if not found:
        raise argparse.ArgumentTypeError(f"{name} is no note such as A3 or F#2")
    step, sign, octave = found.groups()
    return STEPS[step] + {"": 0, "#": 1, "b": -1}[sign] + 12 * (int(octave) + 1)


def transform(values):
    """The discrete Fourier transform of 2^n values, by halves."""
    if len(values) == 1:
        return values
    even, odd = transform(values[::2]), transform(values[1::2])
    turned = [cmath.exp(-2j * cmath.pi * k / len(values)) * x for k, x in enumerate(odd)]
    return [a + b for a, b in zip(even, turned)] + [a - b for a, b in zip(even, turned)]


def levels(samples):
    """The level of each bin under a Hann window, in dB below the strongest."""
    shaped = [float(x) * math.sin(math.pi * i / SAMPLES) ** 2 for i, x in enumerate(samples)]
    try:
        import numpy
        bins = numpy.fft.rfft(shaped)
    except ImportError:
        bins = transform(shaped)
    sizes = [abs(x) for x in bins[: TOP * SAMPLES // RATE]]
    most = max(sizes)
    return [20 * math.log10(max(x / most, 1e-12)) for x in sizes]


def first_partial(heard, wanted):
    """The frequency of the strongest bin within a quarter of the wanted one, by the parabola through its neighbours."""
    near = round(wanted * SAMPLES / RATE)
    k = max(range(near * 3 // 4, near * 5 // 4), key=heard.__getitem__)
    a, b, c = heard[k - 1 : k + 2]
    return (k + (a - c) / (2 * (a - 2 * b + c))) * RATE / SAMPLES


def picture(heard, title):
    """The levels as SVG, a point for each bin."""
    wide, high, left, below = 900, 300, 50, 30
    points = " ".join(
        f"{left + wide * k / len(heard):.1f},{high * min(level / FLOOR, 1):.1f}" for k, level in enumerate(heard)
    )
    lines = [
        f'<svg xmlns="http://www.w3.org/2000/svg" viewBox="0 -20 {left + wide + 20} {high + below + 20}"'
        ' font-family="sans-serif" font-size="11">',
        f"<title>{title}</title>",
        f'<text x="{left}" y="-6">{title}</text>',
    ]
    for level in range(0, FLOOR - 1, -20):
        y = high * level / FLOOR
        lines.append(f'<path d="M{left} {y}h{wide}" stroke="#ccc"/><text x="4" y="{y + 4}">{level} dB</text>')
    for hertz in range(0, TOP + 1, 1000):
        x = left + wide * hertz / TOP
        lines.append(f'<text x="{x}" y="{high + 16}" text-anchor="middle">{hertz} Hz</text>')
    lines += [f'<polyline points="{points}" fill="none" stroke="#246"/>', "</svg>", ""]
    return "\n".join(lines)


def main():
    parser = argparse.ArgumentParser(description="Draws the spectrum of a plucked string.")
    parser.add_argument("note", help="such as A3")
    parser.add_argument("-o", required=True, metavar="FILE.svg")
    parser.add_argument("-n", type=int, default=1, metavar="ORDER", help="of the filter, 1 to 3")
    given = parser.parse_args()
    try:
        midi = number(given.note)
        wanted = 440 * 2 ** ((midi - 69) / 12)
        if wanted * 5 / 4 > TOP:
            parser.error(f"{given.note} is too high: the picture ends at {TOP} Hz")
        length, delay = jivaszte.note(given.n, RATE, midi)
        voice = jivaszte.Voice(given.n, length, delay, loss=65400)
        voice.pluck(amplitude=200, count=length, seed=1)
        heard = levels(voice.play(SAMPLES))
    except (jivaszte.Refusal, argparse.ArgumentTypeError) as refusal:
        parser.error(str(refusal))
    found = first_partial(heard, wanted)
    cents = 1200 * math.log2(found / wanted)
    with open(given.o, "w", encoding="utf-8") as file:
        file.write(picture(heard, f"{given.note} in order {given.n}: level below the strongest partial"))
    print(f"{given.note}: the first partial is at {found:.1f} Hz, {cents:+.1f} cents from {wanted:.1f} Hz")


if __name__ == "__main__":
    main()
