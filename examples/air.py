"""What the examples of a channel share: the program, cell files as arrays, and curves over the MER.

Needs numpy (Debian: python3-numpy).
"""
import pathlib
import shlex
import subprocess
import sys

TOP = pathlib.Path(__file__).resolve().parent.parent
sys.path.insert(0, str(TOP / "tools"))
from cell_tools.interpreter import try_debian  # noqa: E402
from cell_tools.svg import Axis, Curve, plot  # noqa: E402

try:
    import numpy as np
except ImportError as error:
    try_debian()
    sys.exit(f"{sys.argv[0]}: {error}; it needs numpy (Debian: python3-numpy)")

DOOR = f"{TOP}/bin/dvbt -q"

HEADER = b"DVTC\x02\x00\x00\x00"  # of a file of the 2K mode
CARRIERS = 1705
CELL = np.dtype([("re", ">i2"), ("im", ">i2"), ("weight", "u1")])
UNIT = 16384  # the amplitude of a cell of mean power
FULL = {"qpsk": 8, "16qam": 25, "64qam": 100}  # from so many times the power of the noise on, a carrier gets the full weight


def run(program, *words):
    """Runs the program and answers its report."""
    done = subprocess.run([*shlex.split(program), *words], stdout=subprocess.PIPE, text=True)
    if done.returncode:
        sys.exit(f"{sys.argv[0]}: {program} {' '.join(words)} ends with {done.returncode}")
    return done.stdout


def read_cells(path):
    """The cells of a file of the 2K mode, a row each symbol."""
    file = np.fromfile(path, CELL, offset=len(HEADER)).reshape(-1, CARRIERS)
    return file["re"].astype(float) + 1j * file["im"]


def write_cells(path, cells, weights):
    """Writes cells, rounded and within what a file holds, each with its weight."""
    file = np.empty(cells.shape, CELL)
    for part, values in (("re", cells.real), ("im", cells.imag)):
        file[part] = np.clip(np.rint(values), -32768, 32767)
    file["weight"] = weights
    pathlib.Path(path).write_bytes(HEADER + file.tobytes())


def noise_of(generator, ratio, shape):
    """White noise at that MER in dB, for an array of cells."""
    parts = generator.normal(0, UNIT * 10 ** (-ratio / 20) / 2**0.5, (2, *shape))
    return parts[0] + 1j * parts[1]


def weights_of(power, noise, constellation):
    """The weight of each carrier by the power of its gain and the power of the noise before the equaliser (docs/use/WEIGHTS.md). The carriers
    stand in the last axis. Both powers are in units of the mean power of a data cell that is sent."""
    most = np.minimum(FULL[constellation] * noise, 1.5 * power.mean(axis=-1, keepdims=True))
    return np.clip(np.rint(15 * power / most), 0, 15).astype("u1")


def picture(path, rows, most, curves, below):
    """Draws the counts of each row, by its MER, as curves of a name and a column; most is the greatest count there is."""
    ratios = sorted(rows)
    ticks = ratios if len(ratios) < 15 else ratios[::2]
    x = Axis(below, ratios[0], ratios[-1], ticks)
    step = next(step for step in (250, 1000, 2500, 10000) if most < 5 * step)
    y = Axis("packets that come back as sent", 0, most, [*range(0, most - step // 2, step), most])
    plot(path, x, y, [Curve(name, [(ratio, rows[ratio][column]) for ratio in ratios]) for name, column in curves])
