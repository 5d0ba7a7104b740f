"""Cells of 8K that came through a channel of one gain, for the benchmarks of the commands that correct them."""
import sys
from array import array

from timing import best

CARRIERS, SYMBOLS, HEADER = 6817, 272, b"DVTC\x02\x01\0\0"
RATE = 1082 * CARRIERS  # cells a second on air (8K at guard 1/32: 1082 symbols a second)
A, B = 11000, 7000  # the gain is (A + B i) / 16384: 0.8 of the nominal amplitude, turned by 32 degrees


def parts(piece):
    """The real and the imaginary parts of cells."""
    both = array("h", bytes(len(piece) // 5 * 4))
    raw = memoryview(both).cast("B")
    for place in range(4):
        raw[place::4] = piece[place::5]
    if sys.byteorder == "little":
        both.byteswap()
    return both[::2], both[1::2]


def turned(xs, ys):
    """Cells of these parts after the channel, with the weight 15."""
    both = array("h")
    for x, y in zip(xs, ys):
        both.append((A * x - B * y + 8192) >> 14)
        both.append((A * y + B * x + 8192) >> 14)
    if sys.byteorder == "little":
        both.byteswap()
    raw, piece = both.tobytes(), bytearray(len(both) // 2 * 5)
    for place in range(4):
        piece[place::5] = raw[place::4]
    piece[4::5] = bytes([15]) * (len(both) // 2)
    return piece


def received(program, folder, frames):
    """The settings, the file of as many super-frames after the channel, and the parts of the cells sent in each of them."""
    settings, empty, sent, came = (f"{folder}/{name}" for name in ("s.toml", "empty.ts", "sent", "came"))
    with open(settings, "w") as f:
        f.write('mode = "8k"\nconstellation = "64qam"\nrate_hp = "2/3"\nguard = "1/32"\n')
    open(empty, "wb").close()
    best([*program, "modulate", settings, empty, sent], sent, 1)
    with open(sent, "rb") as f:
        assert f.read(8) == HEADER
        xs, ys = parts(f.read(SYMBOLS * CARRIERS * 5))
    piece = turned(xs, ys)
    with open(came, "wb") as f:
        f.write(HEADER)
        for _ in range(frames):
            f.write(piece)
    return settings, came, (xs, ys)


def is_restored(path, sent, most):
    """Whether each cell of the file's first super-frame is within `most` of the one sent, with a weight of at least 1."""
    with open(path, "rb") as f:
        right = f.read(8) == HEADER
        back = f.read(SYMBOLS * CARRIERS * 5)
    us, vs = parts(back)
    near = all(abs(x - u) <= most and abs(y - v) <= most for x, y, u, v in zip(*sent, us, vs))
    return right and len(us) == len(sent[0]) and min(back[4::5]) >= 1 and near
