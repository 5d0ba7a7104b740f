#!/usr/bin/env python3
"""Between samples and cells: a front end of a few lines for recordings, and its opposite, for tries.

usage: examples/samples.py [--mode 2k|8k] [--guard 1/32|1/16|1/8|1/4] [--kind c64|i16|i8] [--level L] cells SAMPLES CELLS
       examples/samples.py [--mode 2k|8k] [--guard 1/32|1/16|1/8|1/4] [--kind c64|i16|i8] [--clock PPM] samples CELLS SAMPLES

SAMPLES are complex numbers of two floats of 32 bits (c64), or of two whole numbers of 16 or 8 bits with a sign (i16, i8), least byte first, at
64/7 MHz in a channel of 8 MHz, 8 MHz in one of 7 MHz, 48/7 MHz in one of 6 MHz. `-` is standard input or output. `cells` finds the
mode, the guard interval, the symbols and the frequency, follows the last two and the clock of the receiver, and takes the carriers out;
it estimates nothing of the channel. The cells begin at any symbol: `dvbt monitor`, `align` and `tune` find the super-frame. L is the mean
amplitude of the pilots over the nominal one: 0.9 suits `equalise`, 0.4 `track`, which works at any level, and leaves room for strong
carriers. `samples` makes the samples of a receiver whose clock is slow by PPM parts in a million. Without options: c64, level 0.4, a
right clock; `cells` tells mode and guard interval by the samples, `samples` has 8K and 1/32. Needs numpy (Debian: python3-numpy).
"""
import os
import pathlib
import stat
import sys

TOP = pathlib.Path(__file__).resolve().parent.parent
sys.path.insert(0, str(TOP / "tools"))
from cell_tools.interpreter import try_debian  # noqa: E402

try:
    import numpy as np
    from cell_tools.standard import Carriers
except ImportError as error:
    try_debian()
    sys.exit(f"samples.py: {error}; it needs numpy (Debian: python3-numpy)")

CELL = np.dtype([("re", ">i2"), ("im", ">i2"), ("weight", "u1")])
BLOCK = 64  # symbols that are taken at once
MARGIN = 4  # so many samples before the end of the guard interval the transform begins
REACH = 20  # carriers by which the frequency may be wrong
PARTS = 256  # of a sample, for the place of a symbol
SLOW = 16  # blocks that tell the place and the drift
LEAST, STRANGE = 0.1, 4  # how alike guard intervals are at least, of 1; blocks in a row until a signal elsewhere is followed
MOST = 50e-6  # a clock may be wrong by this part
LOOK = 64 * 8448  # samples that tell mode and guard interval
POINTS, GUARDS = {"2k": 2048, "8k": 8192}, ("1/32", "1/16", "1/8", "1/4")
KINDS = {"c64": ("<f4", 1.0), "i16": ("<i2", 6000), "i8": ("i1", 24)}  # type of a part, and the value of the mean amplitude
PILOT = 21845  # the nominal amplitude of pilots in a cell file


class FrontEnd:
    """From samples to cells, block by block. `start` is where the next symbol begins in the samples that are held, `drift` by how many
    samples a symbol is longer than it should be. Both are the line through the last blocks, and the place moves steadily: cells that
    jump in phase would disturb an equaliser that looks at several symbols."""

    def __init__(self, mode, guard, level):
        self.level = level * PILOT
        self.points, self.kinds = POINTS[mode], Carriers(mode)
        self.guard = self.points // int(guard[2:])
        self.symbol = self.points + self.guard
        self.held, self.start, self.drift, self.blocks, self.strange = np.zeros(0, np.complex64), None, 0.0, 0, 0
        self.fraction, self.phase, self.shift, self.scale = 0.0, 0.0, None, None
        carriers = np.arange(self.kinds.count) - (self.kinds.count - 1) // 2
        parts = np.arange(-PARTS // 2, PARTS // 2 + 1) / PARTS
        self.turns = np.exp(2j * np.pi / self.points * np.outer(parts, carriers)).astype(np.complex64)

    def take(self, samples):
        """Takes samples; gives the cells of each block of symbols that is whole."""
        self.held = np.concatenate([self.held, samples])
        while len(self.held) >= (BLOCK + 2) * self.symbol:
            yield self.block()

    def block(self):
        """The cells of a block, from the held samples, which move on by it."""
        began, end = self.follow(*timing(self.held[: (BLOCK + 1) * self.symbol], self.points, self.guard))
        places = began + (end - began) / BLOCK * np.arange(BLOCK)
        first = np.rint(places).astype(int)
        samples = np.stack([self.held[at + self.guard - MARGIN : at + self.symbol - MARGIN] for at in first])
        each = -2j * np.pi * self.fraction / self.points
        samples *= np.exp(each * (first[:, None] - first[0]) - 1j * self.phase).astype(np.complex64)
        samples *= np.exp(each * np.arange(self.points)).astype(np.complex64)
        cells = self.carriers(samples, np.rint(PARTS * (places - first)).astype(int) + PARTS // 2)
        over = int(end) - self.symbol // 2
        self.start = end - over
        self.phase = (self.phase + 2 * np.pi * self.fraction / self.points * (round(end) - first[0])) % (2 * np.pi)
        self.held = self.held[over:]
        return cells

    def follow(self, start, fraction, likeness):
        """Where the first symbol of a block begins, and where the block ends, by the place of its middle symbol, the frequency, and how alike
        the guard intervals are. While there is no signal, it goes on as before. A signal that is elsewhere is a new one."""
        if self.start is None or self.strange == STRANGE:
            self.start, self.fraction, self.shift, self.scale, self.blocks, self.strange = float(start), fraction, None, None, 1, 0
            return self.start, self.start + BLOCK * (self.symbol + self.drift)
        began = self.start
        moved = start - began - self.drift * (BLOCK - 1) / 2
        moved = (moved + self.symbol / 2) % self.symbol - self.symbol / 2
        if likeness < LEAST:
            return began, began + BLOCK * (self.symbol + self.drift)
        self.strange = self.strange + 1 if abs(moved) > self.guard / 2 else 0
        if self.strange:
            return began, began + BLOCK * (self.symbol + self.drift)
        self.blocks = min(self.blocks + 1, SLOW)
        size = self.blocks * (self.blocks + 1)
        end = began + BLOCK * (self.symbol + self.drift) + moved * ((4 * self.blocks - 2) + 3) / size
        self.drift = float(np.clip(self.drift + moved * 6 / size / BLOCK, -MOST * self.symbol, MOST * self.symbol))
        self.fraction += 0.1 * ((fraction - self.fraction + 0.5) % 1 - 0.5)
        return began, end

    def carriers(self, symbols, parts):
        """The cells of symbols, with the parts of a sample by which they begin later turned back, the frequency corrected by whole carriers and
        the level set, both as the first block has them."""
        points, middle = np.fft.fft(symbols), (self.kinds.count - 1) // 2
        if self.shift is None:
            likeness = [self.likeness(points, shift - middle) for shift in range(-REACH, REACH + 1)]
            self.shift = int(np.argmax(likeness)) - REACH
        below = middle - self.shift  # carriers of negative frequencies
        cells = self.turns[parts]
        cells[:, :below] *= points[:, -below:]
        cells[:, below:] *= points[:, : self.kinds.count - below]
        level = np.mean(abs(cells[:, self.kinds.continual]))
        if self.scale is None or not 0.4 < self.scale * level / self.level < 1.4:
            self.scale = self.level / max(level, 1e-9)
        return cells * self.scale

    def likeness(self, points, first):
        """How alike the continual pilots are from symbol to symbol if carrier 0 is at this point."""
        pilots = points[:, first + self.kinds.continual]
        return abs(np.sum(pilots[1:] * pilots[:-1].conj()))


def timing(samples, points, guard):
    """Where a symbol begins, the wrong frequency in parts of a carrier, and how alike the guard intervals are: each is like the end of its
    symbol, but for the phase that the frequency makes of the way between them."""
    symbol = points + guard
    count = (len(samples) - points) // symbol
    likeness = samples[: count * symbol].conj() * samples[points : points + count * symbol]
    sums = likeness.reshape(count, symbol).sum(axis=0)
    sums = np.cumsum(np.concatenate([[0], sums, sums[:guard]]))
    sums = sums[guard : guard + symbol] - sums[:symbol]
    start = int(np.argmax(abs(sums)))
    power = guard * count * np.vdot(samples, samples).real / len(samples)
    return start, np.angle(sums[start]) / (2 * np.pi), abs(sums[start]) / max(power, 1e-30)


def recognised(samples, mode, guard):
    """The mode and the guard interval, if not given: those by which the guard intervals of the samples are most alike."""
    choices = [(it, of) for it in POINTS if mode in (None, it) for of in GUARDS if guard in (None, of)]
    choices = [(timing(samples, POINTS[it], POINTS[it] // int(of[2:]))[2], it, of) for it, of in choices if len(samples) > 10 * POINTS[it]]
    alike, mode, guard = max(choices, default=(0, mode, guard))
    if alike < LEAST:
        sys.exit("samples.py: no guard interval was found: check --kind and the sample rate, or name --mode and --guard")
    print(f"samples.py: found {mode.upper()}, guard interval {guard}", file=sys.stderr)
    return mode, guard


def put(data, to):
    """Writes all of it to an unbuffered file, however often a signal cuts a write short."""
    data = memoryview(data).cast("B")
    while data:
        data = data[to.write(data) :]


def to_cells(mode, guard, level, kind, source, to):
    """Samples to a cell file."""
    part = np.dtype(KINDS[kind][0])

    def read(count):
        piece = source.read(2 * part.itemsize * count)
        return np.frombuffer(piece, part, len(piece) // part.itemsize // 2 * 2).astype(np.float32).view(np.complex64)

    samples = read(LOOK)
    if not (mode and guard):
        mode, guard = recognised(samples, mode, guard)
    front = FrontEnd(mode, guard, level)
    put(header(mode), to)
    while len(samples):
        for cells in front.take(samples):
            put(content(cells), to)
        samples = read(front.symbol * BLOCK)


def to_samples(mode, guard, clock, kind, source, to):
    """A cell file to samples (docs/use/FILES.md). By a slow clock a symbol is shorter: each begins a part of a sample earlier, and guard intervals
    lack a sample now and then."""
    points, count = POINTS[mode], 1705 if mode == "2k" else 6817
    length = points // int(guard[2:])
    carriers, early = np.arange(count) - (count - 1) // 2, 0.0
    source.read(8)
    while True:
        piece = source.read(CELL.itemsize * count * BLOCK)
        file = np.frombuffer(piece, CELL, len(piece) // CELL.itemsize // count * count).reshape(-1, count)
        parts = early + clock * 1e-6 * (points + length) * np.arange(1, len(file) + 1)
        steps = np.floor(parts)
        turned = np.exp(2j * np.pi / points * np.outer(parts - steps, carriers)) if clock else 1
        spectrum = np.zeros((len(file), points), complex)
        spectrum[:, carriers % points] = (file["re"] + 1j * file["im"]) / 16384 * turned
        body = np.fft.ifft(spectrum) * points / count**0.5
        for symbol, step in zip(body, np.diff(steps, prepend=0).astype(int)):
            put(sampled(np.concatenate([symbol[step - length :], symbol]), kind), to)
        if not piece:
            return
        early = parts[-1] - steps[-1] if len(file) else early


def sampled(samples, kind):
    """The bytes of samples."""
    part, amplitude = KINDS[kind]
    values = (samples * amplitude).astype(np.complex64).view(np.float32)
    return (values if kind == "c64" else np.rint(values.clip(-(most := np.iinfo(part).max), most))).astype(part).tobytes()


def header(mode):
    return b"DVTC\x02" + bytes([["2k", "8k"].index(mode), 0, 0])


def content(cells):
    """The bytes of cells, each with the weight 15."""
    file = np.empty(cells.shape, CELL)
    file["re"], file["im"], file["weight"] = (*(np.rint(part.clip(-32768, 32767)) for part in (cells.real, cells.imag)), 15)
    return file.tobytes()


def check(command, mode, source, to):
    """Ends the run if the input is not what the command reads, or would be overwritten. Nothing is touched until then."""
    begin = source.peek(8)[:8]
    if command == "cells" and begin[:4] == b"DVTC":
        sys.exit(f"samples.py: {source.name} is a cell file: cells reads SAMPLES and writes CELLS")
    if command == "samples" and not (begin and header(mode).startswith(begin)):
        sys.exit(f"samples.py: {source.name} has no cells of the {mode} mode")
    of = os.fstat(source.fileno())
    if to != "-" and os.path.exists(to) and stat.S_ISREG(of.st_mode) and os.path.samestat(of, os.stat(to)):
        sys.exit(f"samples.py: {to} is read and would be overwritten; nothing was touched")


def main(words):
    options = {"--mode": None, "--guard": None, "--kind": "c64", "--level": "0.4", "--clock": "0"}
    while words[:1] and words[0] in options and len(words) > 1:
        options[words[0]], words = words[1], words[2:]
    mode, guard, kind, level, clock = options.values()
    if words[:1] == ["samples"]:
        mode, guard = mode or "8k", guard or "1/32"
    choices = (mode or "8k", POINTS), (guard or "1/32", GUARDS), (kind, KINDS)
    if len(words) != 3 or words[0] not in ("cells", "samples") or not all(it in some for it, some in choices):
        sys.exit(__doc__.split("\n\n")[1])
    try:
        level, clock = float(level), float(clock)
        with open(0 if words[1] == "-" else words[1], "rb") as source:
            check(words[0], mode, source, words[2])
            with open(1 if words[2] == "-" else words[2], "wb", buffering=0) as to:
                if words[0] == "cells":
                    to_cells(mode, guard, level, kind, source, to)
                else:
                    to_samples(mode, guard, clock, kind, source, to)
    except BrokenPipeError:
        os.dup2(os.open(os.devnull, os.O_WRONLY), 1)
    except (OSError, ValueError) as error:
        sys.exit(f"samples.py: {error}")


if __name__ == "__main__":
    main(sys.argv[1:])
