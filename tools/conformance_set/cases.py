"""The receiving rows: which cells of the set are disturbed, and how."""
import array
import itertools
import sys

from conformance_set.layers import HEADER, WIDTH, Symbols
from conformance_set.streams import Numbers

NOISE = {  # least to greatest noise of a row, in units of the cell file, about where outer words begin to be wrong
    "qpsk none 1/2": 16000, "qpsk none 7/8": 9600,
    "16qam none 1/2": 8800, "16qam none 2/3": 6700, "16qam none 5/6": 5000,
    "16qam 1 2/3 1/2": 7400, "16qam 1 3/4 5/6": 4800, "16qam 2 5/6 3/4": 3900, "16qam 2 3/4 1/2": 5300,
    "16qam 4 7/8 3/4": 2400, "16qam 4 5/6 7/8": 2000,
    "64qam none 1/2": 5300, "64qam none 2/3": 3900, "64qam none 7/8": 2500,
    "64qam 1 2/3 2/3": 3300, "64qam 1 1/2 5/6": 2500, "64qam 2 3/4 1/2": 3700, "64qam 2 2/3 5/6": 2100,
    "64qam 4 5/6 3/4": 1850, "64qam 4 3/4 1/2": 2750,
}
STEPS = [(85, "full", "none"), (100, "full", "none"), (100, "spread", "none"), (112, "full", "60-99")]
LIMITS = -32768, 32767


def cases():
    """The rows: parameters, start, noise, weights, muted symbols and command."""
    number = itertools.count()
    for parameters, noise in NOISE.items():
        for _ in range(2):
            at = next(number)
            percent, weights, muted = STEPS[(at + at // 4) % 4]
            yield {
                "mode": "8k" if at % 10 == 7 else "2k",
                "parameters": parameters,
                "start": ["zero", "any"][at // 2 % 2],
                "noise": noise * percent // 100,
                "weights": weights,
                "muted": muted,
            }
    for start in ("zero", "any"):
        yield {"mode": "2k", "parameters": "qpsk none 1/2", "start": start, "noise": 0, "weights": "full", "muted": "0-271"}
        yield {"mode": "2k", "parameters": "64qam 2 3/4 1/2", "start": start, "noise": 0, "weights": "spread", "muted": "0-67"}
        yield {"mode": "2k", "parameters": "qpsk none 1/2", "start": start, "noise": 0, "weights": "full", "muted": "60-271 real"}
        yield {"mode": "2k", "parameters": "16qam 2 3/4 1/2", "start": start, "noise": 900, "weights": "full", "muted": "40-49 real"}


def disturbed(content, mode, noise, weights, muted):
    """A cell file disturbed by the rule of docs/build/CONFORMANCE.md."""
    symbols = Symbols(mode)
    count = symbols.count(content) * symbols.carriers
    numbers = Numbers(2 * count + (count if weights == "spread" else 0))
    cells = bytearray(content[HEADER : HEADER + WIDTH * count])
    if noise:
        parts = bytearray(4 * count)
        for place in range(4):
            parts[place::4] = cells[place::WIDTH]
        values = array.array("h", bytes(parts))
        big_endian(values)
        low, high = LIMITS
        width = 2 * noise + 1
        moved = (value + (width * drawn >> 16) - noise for value, drawn in zip(values, numbers.take(2 * count)))
        values = array.array("h", [low if value < low else high if value > high else value for value in moved])
        big_endian(values)
        parts = values.tobytes()
        for place in range(4):
            cells[place::WIDTH] = parts[place::4]
    else:
        numbers.take(2 * count)
    if weights == "spread":
        cells[WIDTH - 1 :: WIDTH] = bytes(drawn % 16 for drawn in numbers.take(count))
    if muted != "none":
        mute(cells, symbols.size, *muted.split())
    return content[:HEADER] + bytes(cells)


def mute(cells, size, symbols, part="all"):
    """Sets cells of these symbols to zero: all of each with its weight, or its real part alone."""
    first, last = map(int, symbols.split("-"))
    start, end = first * size, (last + 1) * size
    for place in range(2 if part == "real" else WIDTH):
        cells[start + place : end : WIDTH] = bytes((end - start) // WIDTH)


def big_endian(values):
    """Turns numbers of this machine to big-endian ones, or back."""
    if sys.byteorder == "little":
        values.byteswap()
