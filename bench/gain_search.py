#!/usr/bin/env python3
"""Searches for the greatest deviation that the flat gain law leaves open.

A channel multiplies every cell by (a + b i) / 16384 and rounds each axis to within 1. The correction by the pilots of the
symbol (crates/cell_equal) brings each part of each cell back to within 64 of what was sent, and the proof even to within
17 (crates/law_link). This draws gains, mostly on the edge of the least amplitude, and cells and pilots that came as far
off as they may, corrects them by the definition, and prints the greatest deviation and the least weight that were seen.

usage: gain_search.py [DRAWS [SEED]]
"""
import math
import random
import sys

UNIT = 16384  # a gain of 1
PILOT = 21845
LEAST, MOST = 2**26, 2**28  # the power of the gain


def nearest(x, n):
    """The whole number nearest to x / n, of two the greater."""
    return (2 * x + n) // (2 * n)


def drawn_gain(draw):
    """A gain of the law's range, most often of the least power."""
    power = LEAST if draw.random() < 0.9 else draw.randint(LEAST, MOST)
    angle = draw.random() * 2 * math.pi if draw.random() < 0.7 else draw.randrange(8) * math.pi / 4
    a, b = round(math.sqrt(power) * math.cos(angle)), round(math.sqrt(power) * math.sin(angle))
    while a * a + b * b < LEAST:
        if abs(a) >= abs(b):
            a += 1 if a >= 0 else -1
        else:
            b += 1 if b >= 0 else -1
    while a * a + b * b > MOST:
        if abs(a) >= abs(b):
            a -= 1 if a >= 0 else -1
        else:
            b -= 1 if b >= 0 else -1
    return a, b


def farthest(draw, exact):
    """The least or the greatest r with |16384 r - exact| <= 16384."""
    return draw.choice((-((UNIT - exact) // UNIT), (exact + UNIT) // UNIT))


def through(draw, a, b, x, y):
    """A cell that came through the gain, each axis as far off as it may be."""
    return farthest(draw, a * x - b * y), farthest(draw, a * y + b * x)


def drawn_estimate(draw, a, b):
    """The distance d of two pilots, and what they tell of 21845 d times the gain at a carrier between them."""
    d = draw.choice((1, 2, 3, 6, 9, 12))
    left = through(draw, a, b, PILOT, 0)
    right = left if draw.random() < 0.7 else through(draw, a, b, PILOT, 0)
    behind = draw.randint(1, d - 1) if d > 1 else 0
    return d, tuple((d - behind) * p + behind * q for p, q in zip(left, right))


def drawn_cell(draw):
    """A cell on the corners, the edges or within the range of the greatest level, of pilots or of any value."""
    m = draw.choice((17697, PILOT, 32767))
    return draw.choice((m, -m, draw.randint(-m, m))), draw.choice((m, -m, 0, draw.randint(-m, m)))


def main():
    draws = int(sys.argv[1]) if len(sys.argv) > 1 else 400000
    draw = random.Random(int(sys.argv[2]) if len(sys.argv) > 2 else 7)
    greatest, least_weight = 0, 15
    for _ in range(draws):
        a, b = drawn_gain(draw)
        d, (u, v) = drawn_estimate(draw, a, b)
        x, y = drawn_cell(draw)
        r, i = through(draw, a, b, x, y)
        n = u * u + v * v
        re = nearest(PILOT * d * (r * u + i * v), n)
        im = nearest(PILOT * d * (i * u - r * v), n)
        least_weight = min(least_weight, 16 * n // (PILOT * d) ** 2)
        off = max(abs(re - x), abs(im - y))
        if off > greatest:
            greatest = off
            print(f"off by {off}: gain ({a}, {b}), pilots {d} apart tell ({u}, {v}), cell ({x}, {y}) came as ({r}, {i})")
    print(f"{draws} draws: {greatest} off at most, {64 - greatest} below 64; weight {least_weight} at least")


if __name__ == "__main__":
    main()
