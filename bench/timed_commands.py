"""What bench/files_in_turn and bench/peers share: the commands that they time, the files that these run on, and runs in turn."""

import os
import pathlib
import random
import resource
import shutil
import statistics
import subprocess
import sys
from typing import NamedTuple

try:
    import numpy as np
except ImportError:
    sys.exit(f"{sys.argv[0]}: it needs numpy (Debian: python3-numpy)")

EXAMPLES = pathlib.Path(__file__).resolve().parent.parent / "examples/settings"
HEADER = 8
CELL = np.dtype([("parts", ">i2", 2), ("weight", "u1")])
SIGMA = 1500  # of the noise on each axis: a MER of 17.8 dB
TWO = 'mode = "2k"\nconstellation = "64qam"\nhierarchy = "2"\nrate_hp = "2/3"\nrate_lp = "3/4"\nguard = "1/32"\n'
WORDS = {"8k": 4032, "2k": 252, "hp": 336, "lp": 756}  # outer words of a super-frame: 64-QAM 2/3, QPSK 1/2, two streams in 2K
SMALL = 5  # as many super-frames of 2K as of 8K, times this


class Case(NamedTuple):
    """A command on files: what is printed of it, its arguments, the inputs whose packets it works off, and its outputs."""

    name: str
    words: str
    inputs: str
    outputs: str


CASES = [
    Case("`disperse`", "disperse many.ts out", "many", "out"),
    Case("`outer`", "outer more.ts out", "more", "out"),
    Case("`inner`, 2/3", "inner 8k.toml more.ts out", "more", "out"),
    Case("`modulate`, 8K, 64-QAM 2/3", "modulate 8k.toml 8k.ts out", "8k", "out"),
    Case("`modulate`, 2K, QPSK 1/2", "modulate 2k.toml 2k.ts out", "2k", "out"),
    Case("`receive`, 8K, 64-QAM 2/3", "receive 8k.toml clean.cells out", "8k", "out"),
    Case("`receive`, the same, MER 17.8 dB", "receive 8k.toml noisy.cells out", "8k", "out"),
    Case("`receive`, 2K, two streams", "receive two.toml two.cells out out2", "hp lp", "out out2"),
    Case("`rescue`, 8K, MER 17.8 dB", "rescue 8k.toml noisy.cells out", "8k", "out"),
    Case("`equalise`, 8K", "equalise 8k.toml noisy.cells out", "8k", "out"),
    Case("`track`, 8K", "track 8k.toml noisy.cells out", "8k", "out"),
    Case("`measure`, 8K", "measure 8k.toml noisy.cells", "8k", ""),
]


class Files:
    """The files of a folder: so many super-frames of 8K, and of `many` and `more` packets so many times as many."""

    def __init__(self, folder, program, frames, many, more):
        self.folder, self.is_old = folder, False
        os.mkdir(folder)
        each = WORDS["8k"] * frames - 11
        small = {name: WORDS[name] * frames * SMALL - 11 for name in ("2k", "hp", "lp")}
        self.packets = {"8k": each, "many": many * each, "more": more * each, **small}
        longest = b"".join(b"\x47" + random.randbytes(187) for _ in range(max(self.packets.values())))
        for name, count in self.packets.items():
            self.path(f"{name}.ts").write_bytes(longest[: 188 * count])
        shutil.copy(EXAMPLES / "64qam.toml", self.path("8k.toml"))
        shutil.copy(EXAMPLES / "qpsk.toml", self.path("2k.toml"))
        self.path("two.toml").write_text(TWO)
        for words in ("8k.toml 8k.ts clean.cells", "two.toml hp.ts lp.ts two.cells"):
            subprocess.run([program, "modulate", *words.split()], cwd=folder, check=True, stdout=subprocess.DEVNULL)
        cells = np.fromfile(self.path("clean.cells"), CELL, offset=HEADER)
        moved = cells["parts"] + np.rint(np.random.default_rng(1).normal(0, SIGMA, cells["parts"].shape))
        cells["parts"] = np.clip(moved, -32768, 32767)
        header = self.path("clean.cells").read_bytes()[:HEADER]
        self.path("noisy.cells").write_bytes(header + cells.tobytes())

    def old(self, folder):
        """The same files for programs from before the header and the weights of cells."""
        other = object.__new__(Files)
        other.folder, other.is_old, other.packets = folder, True, self.packets
        os.mkdir(folder)
        for path in pathlib.Path(self.folder).iterdir():
            if path.suffix == ".cells":
                other.path(path.name).write_bytes(bare(path))
            else:
                os.link(path, other.path(path.name))
        return other

    def path(self, name):
        return pathlib.Path(self.folder, name)

    def megabits(self, case):
        return sum(self.packets[name] for name in case.inputs.split()) * 1504 / 1e6

    def seconds(self, program, case):
        """The processor seconds (user and system) of a run without its outputs before it, or None if it ends with another status than 0."""
        for name in case.outputs.split():
            self.path(name).unlink(missing_ok=True)
        before = resource.getrusage(resource.RUSAGE_CHILDREN)
        words = [*program, *case.words.split()]
        status = subprocess.run(words, cwd=self.folder, stdout=subprocess.DEVNULL, stderr=subprocess.DEVNULL).returncode
        after = resource.getrusage(resource.RUSAGE_CHILDREN)
        return None if status else after.ru_utime + after.ru_stime - before.ru_utime - before.ru_stime

    def outputs(self, case):
        """What the last run has left, without the header and the weights of cells."""
        paths = [self.path(name) for name in case.outputs.split()]
        is_new = [path.open("rb").read(4) == b"DVTC" for path in paths]
        return [bare(path) if new else path.read_bytes() for path, new in zip(paths, is_new)]


def bare(path):
    """The cells of a file without its header and their weights."""
    return np.fromfile(path, CELL, offset=HEADER)["parts"].tobytes()


def is_old(program, folder):
    """Whether a program writes cells without a header."""
    pathlib.Path(folder, "none.ts").touch()
    words = [program, "modulate", str(EXAMPLES / "qpsk.toml"), "none.ts", "none.cells"]
    subprocess.run(words, cwd=folder, check=True, stdout=subprocess.DEVNULL)
    return not pathlib.Path(folder, "none.cells").read_bytes().startswith(b"DVTC")


def in_turn(runs):
    """What functions answer that are called in turn, each so many times: pairs of both. One that answers None is called no more."""
    found = [[] for _ in runs]
    for turn in range(max(rounds for _, rounds in runs)):
        for answers, (run, rounds) in zip(found, runs):
            if turn < rounds and None not in answers:
                answers.append(run())
    return [None if None in answers else answers for answers in found]


def median(seconds):
    return statistics.median(seconds)
