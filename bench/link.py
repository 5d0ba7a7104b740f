"""A link: cells of `modulate` through a channel, corrected in one of three ways, and what `receive` makes of them. Needs numpy.

The error ratio before Reed-Solomon is counted on the output of `receive` itself. Four symbols are cut out of the cells after a
clean beginning. From there on no received word is a codeword, so the outer decoder repairs nothing: the packets are the bits
of the inner decoder, deinterleaved, descrambled and marked. They are compared with the bits that were sent, by `outer` and `disperse`.
"""
import pathlib
import subprocess
import sys
import tempfile

import numpy as np

TOP = pathlib.Path(__file__).resolve().parent.parent
sys.path[:0] = [str(TOP / "python"), str(TOP / "examples")]
from dvbt.files import CARRIERS, Version2, cells_in, complex_of, content_of  # noqa: E402
from air import weights_of  # noqa: E402

BITS = {"qpsk": 2, "16qam": 4, "64qam": 6}
NULL = b"\x47\x1f\xff\x10" + 184 * b"\xff"
CUT = 4  # symbols: the pilots have this period
BEGINNING = {"2k": 68, "8k": 24}  # clean symbols before the cut, enough for the phase of the dispersal
SETTLING = 36  # words after the cut in which the inner decoder and the delay lines still have bits from before
ONES = np.array([bin(byte).count("1") for byte in range(256)])
LIMIT = 2e-4  # error ratio before Reed-Solomon for quasi error free reception (EN 300 744, annex A)
EDGE = 200  # bits at the end of what the decoder in floating point gives that are not compared
GAP = 0.6  # dB between two trials, between which the logarithm of the error ratio counts as a straight line
NOISE = {}  # by shape: white noise of power 1


class Lacking(Exception):
    """The program lacks a command."""


class Link:
    """A transmission of random packets over whole super-frames, all weights 15."""

    def __init__(self, program, mode, constellation, rate, guard="1/4", frames=1):
        self.program, self.mode, self.constellation, self.frames = program, mode, constellation, frames
        self.size = 5 * CARRIERS[mode]
        self.home = tempfile.TemporaryDirectory(dir="/dev/shm", prefix="dvbt-bench.")
        self.folder = pathlib.Path(self.home.name)
        keys = {"mode": mode, "constellation": constellation, "rate_hp": rate, "guard": guard, "start": "zero"}
        (self.folder / "s.toml").write_text("".join(f'{key} = "{value}"\n' for key, value in keys.items()))
        over, under = map(int, rate.split("/"))
        symbol = CARRIERS[mode] // 1704 * 1512 * BITS[constellation] * over // under / 8  # bytes that the inner code carries
        self.count = int(272 * frames * symbol) // 204 - 11  # packets that come back
        random = np.random.RandomState(7)
        packets = random.randint(0, 256, (self.count, 188)).astype("u1")
        packets[:, 0], packets[:, 1] = 0x47, 1
        self.packets = packets
        packets.tofile(self.folder / "in.ts")
        self.run("modulate", "s.toml", "in.ts", "clean")
        self.clean = (self.folder / "clean").read_bytes()
        self.cells = complex_of(cells_in(self.clean[8:], mode))
        self.power = float(np.mean(abs(self.cells) ** 2))
        self.symbol, self.words = symbol, symbol / 204  # bytes of a symbol, and words
        self.first = int(BEGINNING[mode] * self.words) + SETTLING
        self.sent = self.sent_through_cut()

    def run(self, *words):
        """Runs a command in the link's folder."""
        done = subprocess.run([self.program, *words], cwd=self.folder, stdout=subprocess.PIPE, text=True)
        if done.returncode == 2:
            raise Lacking(words[0])
        if done.returncode:
            sys.exit(f"{words[0]} ends with {done.returncode}: {done.stdout}")
        return done.stdout

    def set_channel(self, channel):
        """Sends the cells through a channel, without noise, and scales it so that its mean power over all cells is 1."""
        self.came, self.gain = channel.through(self.cells)
        level = np.mean(abs(self.gain) ** 2) ** 0.5
        self.came, self.gain = self.came / level, self.gain / level
        mean, most = np.mean(abs(self.gain)), np.quantile(abs(self.gain[:: max(1, len(self.gain) // 64)]), 0.99)
        self.scales = {"track": 1 / most, "equalise": 0.9 / mean}

    def noise(self, ratio):
        """Noise at this C/N in dB, and its power on a carrier. C is the mean power of all carriers, pilots included."""
        shape = self.cells.shape
        if shape not in NOISE:
            NOISE.clear()
            random, parts = np.random.RandomState(3), np.empty((*shape, 2), np.float32)
            for symbol in parts:
                symbol[:] = random.standard_normal(symbol.shape)
            NOISE[shape] = parts.view(np.complex64)[..., 0] / np.float32(2**0.5)
        power = self.power / 10 ** (ratio / 10)
        return NOISE[shape] * np.float32(power**0.5), power

    def known(self, ratio, rule=weights_of):
        """The cells as a receiver that knows the channel corrects them, with weights by a rule."""
        noise, power = self.noise(ratio)
        strength = abs(self.gain) ** 2
        return self.content((self.came + noise) / self.gain, rule(strength, power, self.constellation))

    def corrected(self, command, ratio, scale=None):
        """The cells as a command corrects them. They are scaled before it: for `track` so that the strongest pilots have the nominal
        amplitude of a cell file, for `equalise`, whose weights go by the amplitude, so that the mean pilot has 0.9 of it."""
        noise, _ = self.noise(ratio)
        self.write("came", self.content((self.came + noise) * (scale or self.scales[command]), 15))
        self.run(command, "s.toml", "came", "right")
        return (self.folder / "right").read_bytes()

    def content(self, cells, weights):
        """The bytes of a cell file."""
        return Version2.header(self.mode) + content_of(cells, weights, self.mode)

    def write(self, name, content):
        (self.folder / name).write_bytes(content)

    def received(self, content):
        """The packets that `receive` gives."""
        self.write("cells", content)
        self.run("receive", "s.toml", "cells", "back.ts")
        return np.fromfile(self.folder / "back.ts", "u1").reshape(-1, 188)

    def packets_back(self, content):
        """How many packets come back as they were sent."""
        sent = set(map(bytes, self.packets))
        return sum(bytes(packet) in sent for packet in self.received(content))

    def error_ratio(self, content, symbols=None):
        """The error ratio before Reed-Solomon, over all symbols or the first ones."""
        back = self.cut(content)
        if back.shape != self.sent.shape:
            return 0.5
        end = int(symbols * self.words) if symbols else len(back)
        wrong = (back ^ self.sent)[self.first : end, 2:]  # the bytes before have the sync byte and the mark
        return max(ONES[wrong].sum(), 0.5) / (8 * wrong.size)

    def sent_through_cut(self):
        """The packets that `receive` gives of the cells with the cut if the inner decoder errs nowhere, from `first` on."""
        (self.folder / "more.ts").write_bytes(self.packets.tobytes() + 22 * NULL)
        self.run("outer", "more.ts", "outer")
        self.outer = np.fromfile(self.folder / "outer", "u1")
        (self.folder / "zeros.ts").write_bytes(8 * (b"\x47" + bytes(187)))
        self.run("disperse", "zeros.ts", "dispersal")
        dispersal = np.fromfile(self.folder / "dispersal", "u1").reshape(8, 188)
        at, length = int(BEGINNING[self.mode] * self.symbol), int(CUT * self.symbol)
        stream = np.concatenate([self.outer[:at], self.outer[at + length :]])
        words = int((272 * self.frames - CUT) * self.symbol) // 204 - 11
        places = np.arange(204 * words)
        found = stream[places + places % 12 * 204].reshape(words, 204)[:, :188]  # the deinterleaver (4.3.2)
        return found ^ dispersal[np.arange(words) % 8]

    def cut(self, content):
        """The packets of cells whose beginning is clean and from which symbols are cut out after it."""
        end = 8 + BEGINNING[self.mode] * self.size
        return self.received(self.clean[:end] + content[end + CUT * self.size :])

    def required(self, way, guess, most=40.0, doubt=False, symbols=None):
        """The C/N in dB at which the error ratio is LIMIT, or None if it is higher at `most`. `way` makes a cell file of a C/N. With
        `doubt` it looks at `most` first."""
        return required(lambda ratio: self.error_ratio(way(ratio), symbols), guess, most, doubt)

    def required_in_float(self, decoder, symbols, guess):
        """The same for the decoder in floating point, over the first symbols, with a known channel."""
        sent = np.unpackbits(self.outer[: int(symbols * self.symbol)])

        def errors(ratio):
            noise, power = self.noise(ratio)
            gain = self.gain[:symbols]
            back = decoder.decoded((self.came[:symbols] + noise[:symbols]) / gain, abs(gain) ** 2 / power)
            wrong = (back != sent)[len(sent) * BEGINNING[self.mode] // symbols : -EDGE]
            return max(wrong.sum(), 0.5) / wrong.size

        return required(errors, guess)


def required(errors, guess, most=40.0, doubt=False):
    """The C/N in dB at which the error ratio that `errors` gives is LIMIT, or None if it is higher at `most`."""
    found = {}

    def height(ratio):
        """The decades above LIMIT."""
        if ratio not in found:
            found[ratio] = np.log10(errors(ratio) / LIMIT)
        return found[ratio]

    if doubt and height(most) > 0:
        return None
    low = high = round(guess + GAP / 2, 2)
    step = GAP
    while height(high) > 0:
        if high >= most:
            return None
        low, high, step = high, min(round(high + step, 2), most), 2 * step
    step = GAP
    while low >= high or height(low) <= 0:
        low, high, step = round(low - step, 2), low, 2 * step
    while high - low > 1.3 * GAP:
        middle = round((low + high) / 2 if high - low > 2 else between(low, high, height), 2)
        low, high = (middle, high) if height(middle) > 0 else (low, middle)
    return between(low, high, height, 0)


def between(low, high, height, margin=0.3):
    """Where a straight line crosses, kept a part of the way from both ends."""
    place = height(low) / (height(low) - height(high))
    return low + (high - low) * min(max(place, margin), 1 - margin)
