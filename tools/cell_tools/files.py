"""Cell files: read frame by frame, from a file or a pipe, and checked against the settings."""
import os
import stat
import sys

import numpy as np

from cell_tools.kinds import kind_in
from cell_tools.settings import Unfit, settings_in
from cell_tools.standard import FRAME, SUPER_FRAME, UNIT, Carriers, Points

sys.path.insert(0, os.path.join(os.path.dirname(os.path.realpath(__file__)), "../../python"))
from dvbt.files import VERSIONS, Version1, Version2  # noqa: E402

LOOKED_AT = 4  # symbols at the beginning by which a file is checked
LARGEST = 5 * 6817  # bytes of a symbol: 8K, version 2
WARNINGS = []  # what was said by `warn`


class Frame:
    """The symbols of a frame, from symbol `first` of the file on. The last frame of a file may have fewer than 68."""

    def __init__(self, file, number, content):
        self.number, self.first = number, FRAME * number
        self.content, self.version, self.count = content, file.version, file.carriers.count
        self.symbols = len(content) // file.size

    @property
    def cells(self):
        """The values as they stand, by symbol, carrier and part (real, imaginary)."""
        return self.version.cells(self.content, self.symbols, self.count)

    @property
    def words(self):
        """Both parts of a cell as one number, by symbol and carrier, to copy and to compare."""
        return self.version.words(self.content, self.symbols, self.count)

    @property
    def weights(self):
        """The weights, by symbol and carrier."""
        return self.version.weights(self.content, self.symbols, self.count)

    @property
    def is_weightless(self):
        """Whether a cell has weight 0, by symbol and carrier."""
        return self.version.weights_as_written(self.content, self.symbols, self.count).copy() == 0


class CellFile:
    """A cell file or a pipe of cells, `-` for standard input. `frames` reads it once, a frame at a time. `symbols` and `left_over`
    count the whole symbols and the bytes after them: of a pipe those read so far."""

    def __init__(self, path, settings):
        self.path = path
        self.name = "standard input" if str(path) == "-" else str(path)
        self.settings = settings
        self.carriers = Carriers(settings["mode"])
        self.constellations = {}
        try:
            self.input = self.opened()
            seen = os.fstat(self.input.fileno())
            self.begin = self.read(bytearray(Version2.HEADER + LOOKED_AT * LARGEST))
        except OSError as error:
            raise Unfit(f"{self.name or 'CELLS'} can't be read: {error.strerror if path else 'its name is empty'}", 5, path) from None
        if not self.begin:
            raise Unfit(f"{self.name} is empty", 9, path)
        if kind_in(self.begin) == "a transport file":
            raise Unfit(f"{self.name} looks like a transport file; dvbt modulate makes cells of it", 9, path)
        self.is_plain = stat.S_ISREG(seen.st_mode) and self.name == str(path)
        if self.is_plain:
            self.input.close()  # each use opens it anew
        self.version = next(version for version in VERSIONS if version.is_of(self.begin))
        self.size = self.version.WIDTH * self.carriers.count
        self.head = bytes(self.begin[: self.version.HEADER])
        content = seen.st_size - self.version.HEADER if self.is_plain else 0
        self.symbols, self.left_over = divmod(max(content, 0), self.size)

    def opened(self):
        """The file or pipe, opened."""
        if self.name != str(self.path):
            return open(0, "rb", buffering=0, closefd=False)
        return open(self.path, "rb", buffering=0)

    def read(self, room, filled=0):
        """Reads until the room is full or the input ends; answers the part of the room that is filled."""
        with memoryview(room) as view:
            while filled < len(room):
                count = self.input.readinto(view[filled:])
                if not count:
                    break
                filled += count
        return room if filled == len(room) else room[:filled]

    def frames(self):
        """Each frame in turn. The last one may have fewer symbols; bytes after its last whole symbol are counted."""
        try:
            if self.is_plain:
                self.input = self.opened()
                self.input.seek(len(self.begin))
            with self.input:
                yield from self.frames_of_input()
        except OSError as error:
            raise Unfit(f"{self.name} can't be read: {error.strerror}", 5, self.path) from None
        if self.left_over:
            warn(f"the file is no whole number of symbols of {self.size} bytes ({self.settings['mode']})")

    def frames_of_input(self):
        """The frames, from the bytes that were read first and from the input."""
        waiting = self.begin[self.version.HEADER :]
        self.symbols, self.left_over, symbols = 0, 0, FRAME
        while symbols == FRAME:
            room = bytearray(FRAME * self.size)
            taken = min(len(waiting), len(room))
            room[:taken], waiting = waiting[:taken], waiting[taken:]
            content = self.read(room, taken)
            symbols, self.left_over = divmod(len(content), self.size)
            if symbols:
                number = self.symbols // FRAME
                self.symbols += symbols
                yield Frame(self, number, content[: symbols * self.size] if self.left_over else content)

    def settings_at(self, m):
        """The settings with the parameters of symbol m."""
        return settings_in(self.settings, m // SUPER_FRAME)

    def points(self, m):
        """The points of the constellation of symbol m."""
        settings = self.settings_at(m)
        name = settings["constellation"], settings["hierarchy"]
        if name not in self.constellations:
            self.constellations[name] = Points(settings)
        return self.constellations[name]

    def mapped(self):
        """The bytes of a plain file from the first cell on."""
        if not self.is_plain:
            raise Unfit(f"{self.name}: cells of a pipe can be read once only, by frames()")
        if not self.symbols:
            return np.zeros(0, "u1")
        return np.memmap(self.path, "u1", "r")[self.version.HEADER :]

    @property
    def cells(self):
        """All values of a plain file as they stand, by symbol, carrier and part (real, imaginary)."""
        return self.version.cells(self.mapped(), self.symbols, self.carriers.count)

    @property
    def weights(self):
        """All weights of a plain file, by symbol and carrier."""
        return self.version.weights(self.mapped(), self.symbols, self.carriers.count)

    def array(self, symbols=slice(None)):
        """Symbols by carriers of a plain file as complex numbers of the standard's normalised constellation."""
        parts = self.cells[symbols].astype(np.float32) / UNIT
        return parts[..., 0] + 1j * parts[..., 1]


class Votes:
    """The bits of TPS, one from each symbol and the one before (4.6.2)."""

    def __init__(self, carriers):
        self.tps, self.last, self.bits = carriers.tps, None, []

    def add(self, frame):
        """Takes a frame."""
        cells = frame.cells[:, self.tps].astype(np.int64)
        before = cells[:1] if self.last is None else self.last
        sums = np.sum(cells * np.concatenate([before, cells[:-1]]), axis=(1, 2))
        if self.last is None:
            sums[0] = 0
        self.bits.append("".join("1" if x < 0 else "0" for x in sums))
        self.last = cells[-1:]

    def words(self):
        """s1 to s67 of each whole frame."""
        return [bits[1:] for bits in self.bits if len(bits) == FRAME]


def wrong_guess(file):
    """Why the pilots of a file do not stand at their places in its mode: the first reason that fits, or None."""
    mode = file.settings["mode"]
    other = "8k" if mode == "2k" else "2k"
    little = "the two bytes of each value stand the wrong way round; a cell file has the high byte first"
    guesses = [
        (other, False, 0, f"it is of the {other} mode; the settings say {mode}"),
        (mode, True, 0, little),
        (other, True, 0, f"{little}; and it is of the {other} mode, and the settings say {mode}"),
    ]
    for l in range(1, 4):
        text = f"its first symbol is number {l}, {l + 4}, .. of a frame; a cell file begins with number 0"
        guesses.append((mode, False, l, text))
    for guess, turned, l, text in guesses:
        carriers = Carriers(guess)
        cells = first_cells(file, carriers)
        if len(cells) and carriers.fit(cells.byteswap() if turned else cells, l):
            return text
    return None


def first_cells(file, carriers):
    """The cells of the first symbols, at most four, read with these carriers."""
    content = file.begin[file.version.HEADER :]
    symbols = min(LOOKED_AT, len(content) // (file.version.WIDTH * carriers.count))
    return file.version.cells(content, symbols, carriers.count)


def check(file):
    """Rejects a file that plainly does not fit its settings. What is only unusual is said on standard error."""
    mode = file.settings["mode"]
    if file.version is Version2 and file.head != Version2.header(mode):
        raise Unfit(f"{file.name}: cells header: its header is not that of the {mode} mode, which the settings say", 9, file.path)
    if file.version is Version1:
        warn("the file has no header: read as one of version 1, which dvbt upgrade turns into one of version 2")
    cells = first_cells(file, file.carriers)
    if len(cells) == 0 or not file.carriers.fit(cells, 0):
        reason = wrong_guess(file)
        if reason:
            raise Unfit(f"{file.name}: {reason}", 9, file.path)
        if len(cells):
            warn("the pilots are not at their places: no cell file, badly disturbed, or cells that dvbt track has still to correct")


def warn(text):
    """A line on standard error."""
    WARNINGS.append(text)
    print(f"{os.path.basename(sys.argv[0])}: {text}", file=sys.stderr)
