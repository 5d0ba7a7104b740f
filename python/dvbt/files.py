"""Cell files as numpy arrays, a view of their bytes (docs/use/FILES.md). tools/cell_tools reads files by it, too."""
from typing import Optional, Tuple

import numpy as np

UNIT = 16384  # the fixed-point value of 1.0
CARRIERS = {"2k": 1705, "8k": 6817}
CELL = np.dtype([("re", ">i2"), ("im", ">i2"), ("weight", "u1")])
FULL = 15  # the weight at which a cell counts whole


class Version1:
    """A cell file of version 1: no header, and four bytes a cell."""

    NUMBER, HEADER, WIDTH = 1, 0, 4

    @staticmethod
    def is_of(head):
        """Whether a file that begins so is of this version."""
        return True

    @classmethod
    def header(cls, mode):
        """The bytes before the first cell."""
        return b""

    @classmethod
    def cells(cls, content, symbols, carriers):
        """Symbols by carriers by real and imaginary part, a view of the bytes from the first cell on."""
        return view_of(content, symbols, carriers, cls, 0, ">i2", (2,))

    @classmethod
    def words(cls, content, symbols, carriers):
        """Symbols by carriers: the four bytes of both parts as one number, in the byte order of the machine."""
        return view_of(content, symbols, carriers, cls, 0, "u4", ())

    @classmethod
    def weights(cls, content, symbols, carriers):
        """Symbols by carriers: each cell has the full weight."""
        return np.broadcast_to(np.uint8(FULL), (symbols, carriers))

    weights_as_written = weights


class Version2(Version1):
    """A cell file of version 2: a header of eight bytes, and five bytes a cell, the last of them its weight."""

    NUMBER, HEADER, WIDTH = 2, 8, 5

    @staticmethod
    def is_of(head):
        return head[:5] == b"DVTC\x02"

    @classmethod
    def header(cls, mode):
        return b"DVTC\x02" + bytes([["2k", "8k"].index(mode), 0, 0])

    @classmethod
    def weights(cls, content, symbols, carriers):
        """Symbols by carriers: a byte above 15 counts as 15."""
        return np.minimum(cls.weights_as_written(content, symbols, carriers), FULL)

    @classmethod
    def weights_as_written(cls, content, symbols, carriers):
        return view_of(content, symbols, carriers, cls, 4, "u1", ())


VERSIONS = [Version2, Version1]  # the first that fits


def view_of(content, symbols, carriers, version, offset, kind, shape):
    """Symbols by carriers by `shape` numbers, which begin at byte `offset` of each cell: a view of the bytes."""
    strides = (version.WIDTH * carriers, version.WIDTH) + (np.dtype(kind).itemsize,) * len(shape)
    if not symbols:
        return np.zeros((0, carriers) + shape, kind)
    return np.ndarray((symbols, carriers) + shape, kind, content, offset, strides)


def structured(cells: np.ndarray, weights: Optional[np.ndarray] = None) -> np.ndarray:
    """Cells as structured ones: complex numbers are rounded, and limited to 16 bits. Shape: symbols by carriers, as given.

    >>> structured(np.array([[1.0 - 0.5j, 3.0]]))["re"].tolist()
    [[16384, 32767]]
    """
    cells = np.asarray(cells)
    if cells.dtype.names:
        found = cells.astype(CELL, copy=weights is not None)
    else:
        found = np.empty(cells.shape, CELL)
        for part, values in (("re", cells.real), ("im", cells.imag)):
            found[part] = np.clip(np.rint(np.asarray(values, np.float64) * UNIT), -32768, 32767)
        found["weight"] = FULL
    if weights is not None:
        found["weight"] = weights
    return found


def complex_of(cells: np.ndarray) -> np.ndarray:
    """Structured cells as complex64, without loss; their weights are left out.

    >>> complex_of(structured(np.array([[0.25 + 1.0j]])))[0, 0]
    (0.25+1j)
    """
    found = np.empty(cells.shape, np.complex64)
    found.real, found.imag = cells["re"], cells["im"]
    found /= UNIT
    return found


def content_of(cells: np.ndarray, weights: Optional[np.ndarray], mode: str) -> bytes:
    """The bytes of symbols, without a header."""
    found = structured(cells, weights)
    if found.ndim != 2 or found.shape[1] != CARRIERS[mode]:
        raise ValueError(f"cells of the {mode} mode are symbols by {CARRIERS[mode]} carriers, not {found.shape}")
    return np.ascontiguousarray(found).tobytes()


def cells_in(content: bytes, mode: str) -> np.ndarray:
    """The structured cells of whole symbols, without a header."""
    each = CELL.itemsize * CARRIERS[mode]
    return np.frombuffer(content, CELL, len(content) // each * CARRIERS[mode]).reshape(-1, CARRIERS[mode])


def write(path: str, cells: np.ndarray, mode: str, weights: Optional[np.ndarray] = None) -> None:
    """Writes a cell file of version 2."""
    with open(path, "wb") as file:
        file.write(Version2.header(mode))
        file.write(content_of(cells, weights, mode))


def read(path: str) -> Tuple[np.ndarray, str]:
    """The structured cells of a file of version 2, and its mode. A part symbol at the end is left out."""
    with open(path, "rb") as file:
        head = file.read(Version2.HEADER)
        modes = [mode for mode in CARRIERS if head == Version2.header(mode)]
        if not modes:
            raise ValueError(f"{path} does not begin with the header of a cell file of version 2")
        return cells_in(file.read(), modes[0]), modes[0]
