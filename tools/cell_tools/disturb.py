"""Random noise on cells, generated from a seed."""
import numpy as np

from cell_tools.files import first_cells
from cell_tools.result import Result
from cell_tools.settings import Unfit
from cell_tools.standard import DATA, UNIT


def disturb(file, words):
    """Writes the cells of a file with noise, and their weights unchanged. RandomState generates the same numbers in all versions of
    numpy, and the same for a frame as for its symbols one by one."""
    if file.left_over:
        raise Unfit(f"{file.name}: only whole symbols are disturbed", 9, file.path)
    if not len(first_cells(file, file.carriers)):
        raise Unfit(f"{file.name} has no whole symbol of {file.version.WIDTH * file.carriers.count} bytes", 9, file.path)
    is_standard = words.out in ("-", "/dev/stdout")
    generator = np.random.RandomState(words.seed)
    try:
        with open(1, "wb", closefd=False) if is_standard else open(words.out, "wb") as out:
            out.write(file.version.header(file.settings["mode"]))
            for frame in file.frames():
                parts = frame.cells.astype(int) + noise(file, frame, words, generator)
                out.write(cell_bytes(file.version, np.clip(parts, -32768, 32767), frame.weights))
    except BrokenPipeError:
        raise
    except OSError as error:
        name, why = "standard output" if is_standard else words.out or "OUT", error.strerror if words.out else "its name is empty"
        raise Unfit(f"{name} can't be written: {why}", 6, words.out) from None
    if file.left_over:
        raise Unfit(f"{file.name}: {file.left_over} bytes after the last whole symbol are left out", 9, file.path)
    return Result([f"symbols {file.symbols} written to {words.out}"], {"symbols": file.symbols}, None, [words.out])


def noise(file, frame, words, generator):
    """The noise on the parts of a frame."""
    if words.mer is not None:
        deviation = UNIT * 10 ** (-words.mer / 20) / 2**0.5
        return np.rint(generator.normal(0, deviation, frame.cells.shape)).astype(int)
    moved = generator.randint(-words.within, words.within + 1, frame.cells.shape)
    for l in range(min(4, frame.symbols)):
        moved[l::4, file.carriers.kinds(l) != DATA] = 0
    return moved


def cell_bytes(version, parts, weights):
    """The bytes of cells in a file of this version, by symbol and carrier, or of one symbol by carrier."""
    bytes_of = np.empty(parts.shape[:-1] + (version.WIDTH,), "u1")
    bytes_of[..., :4] = np.ascontiguousarray(parts.astype(">i2")).view("u1")
    if version.WIDTH > 4:
        bytes_of[..., 4] = weights
    return bytes_of
