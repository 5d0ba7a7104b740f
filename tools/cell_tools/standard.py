"""What the standard (EN 300 744) says of a symbol's cells: carriers, levels, labels and the words of TPS."""
import numpy as np

from cell_tools.tables import LEVELS, continual_carriers, reference_signs
from cell_tools.tps import SYNC, VALUES, bch_rest, differences, field, fields_of, read_word, tps_carriers  # noqa: F401

UNIT = 16384  # the fixed-point value of 1 in the standard's normalised constellation
BOOSTED = 21845  # 4/3 of it (EN 300 744, 4.5.5)
FRAME = 68  # symbols of a frame (4.4)
SUPER_FRAME = 4 * FRAME

DATA, CONTINUAL_PILOT, SCATTERED_PILOT, TPS_CARRIER = range(4)
NAMES = ["data", "continual", "scattered", "tps"]
KINDS = {
    "data": [DATA],
    "pilot": [CONTINUAL_PILOT, SCATTERED_PILOT],
    "continual": [CONTINUAL_PILOT],
    "scattered": [SCATTERED_PILOT],
    "tps": [TPS_CARRIER],
}

# The first and the last bit of each row of the table of TPS bits (4.6.2), by its name.
ROWS = [
    (0, 0, "s0: the reference sequence"),
    (1, 16, "synchronisation word"),
    (17, 22, "length indicator"),
    (23, 24, "frame number"),
    (25, 26, "constellation"),
    (27, 29, "hierarchy"),
    (30, 32, "rate of HP"),
    (33, 35, "rate of LP"),
    (36, 37, "guard interval"),
    (38, 39, "transmission mode"),
    (40, 47, "cell identifier"),
    (48, 53, "reserved bits"),
    (54, 67, "parity"),
]

# Bits of an axis behind the sign, for the same magnitudes.
AXIS_BITS = {"qpsk": [""], "16qam": ["1", "0"], "64qam": ["10", "11", "01", "00"]}

class Carriers:
    """What each carrier of a mode is for."""

    def __init__(self, mode):
        self.mode = mode
        self.count = 1705 if mode == "2k" else 6817
        self.tps = np.array(tps_carriers(mode))
        self.continual = np.array(continual_carriers(mode))
        self.signs = np.array(reference_signs(mode))

    def kinds(self, l):
        """The kind of each carrier in symbol l of a frame; both kinds of pilot at once count as continual."""
        kinds = np.full(self.count, DATA)
        kinds[3 * (l % 4) :: 12] = SCATTERED_PILOT  # 4.5.3
        kinds[self.continual] = CONTINUAL_PILOT
        kinds[self.tps] = TPS_CARRIER
        return kinds

    def fit(self, cells, l):
        """Whether cells by symbol, carrier and part can be symbols l, l + 1 .. of a frame: most pilots have the sign
        that they should have (of other cells a quarter would) and the TPS cells are about as strong (the two bytes
        of a pilot are alike, so with bytes swapped the pilots alone would fit)."""
        right, total = 0, 0
        strength = {True: [], False: []}
        for number, symbol in enumerate(cells.astype(int)):
            kinds = self.kinds(l + number)
            pilots = np.isin(kinds, KINDS["pilot"])
            re, im = symbol[pilots].T
            right += np.sum((re * self.signs[pilots] > 0) & (abs(re) > abs(im)))
            total += len(re)
            strength[True].append(np.mean(abs(re)))
            strength[False].append(np.mean(abs(symbol[kinds == TPS_CARRIER, 0])))
        return right > 0.65 * total and np.mean(strength[False]) > 0.4 * np.mean(strength[True])


def ideal_points(settings):
    """The points of the constellation with their labels y0 y1 .. (4.3.5)."""
    levels, norm = LEVELS[settings["constellation"], settings["hierarchy"]]
    ends = AXIS_BITS[settings["constellation"]]
    axis = [(sign * a / norm**0.5, bit + end) for sign, bit in ((1, "0"), (-1, "1")) for a, end in zip(levels, ends)]
    return [(x, y, "".join(map("".join, zip(re, im)))) for x, re in axis for y, im in axis]


class Points:
    """The nearest points of a constellation, axis by axis, and their labels."""

    def __init__(self, settings):
        levels, norm = LEVELS[settings["constellation"], settings["hierarchy"]]
        magnitudes = [round(UNIT * a / norm**0.5) for a in levels]
        ends = AXIS_BITS[settings["constellation"]]
        rows = sorted((s * n, b + end) for s, b in ((1, "0"), (-1, "1")) for n, end in zip(magnitudes, ends))
        self.levels = np.array([n for n, _ in rows])
        self.axis_bits = np.array([[int(bit) for bit in label] for _, label in rows])
        self.edges = (self.levels[1:] + self.levels[:-1]) / 2
        self.tolerance = int(np.min(np.diff(self.levels))) // 4
        self.width = 2 * self.axis_bits.shape[1]

    def nearest(self, parts):
        """The nearest value of each part."""
        return self.levels[np.searchsorted(self.edges, parts)]

    def labels(self, parts):
        """The bits y0 y1 .. of the nearest points; real and imaginary part stand in the last axis."""
        bits = self.axis_bits[np.searchsorted(self.edges, parts)]  # .., part, bit of the axis
        return np.moveaxis(bits, -2, -1).reshape(*parts.shape[:-1], self.width)


def described(bits, settings):
    """A line that tells the fields of s1 to s67, and whether they are those of the settings."""
    frame = field(bits, 23, 24) + 1
    sync = {SYNC[0]: "of frames 1 and 3", SYNC[1]: "of frames 2 and 4"}.get(bits[:16], "wrong")
    length = field(bits, 17, 22)
    found = fields_of(bits)
    is_flat = found["hierarchy"] == "none"
    words = [f"sync {sync}", f"length {length}", f"frame {frame}", found["constellation"]]
    words.append("no hierarchy" if is_flat else f"hierarchy {found['hierarchy']}")
    words.append(f"rate {found['rate_hp']}" if is_flat else f"rates {found['rate_hp']} and {found['rate_lp']}")
    words += [f"guard {found['guard']}", found["mode"]]
    if length == 31:
        words.append(f"cell identifier, {'high' if frame % 2 else 'low'} byte {field(bits, 40, 47):02X}")
    elif length == 23:
        words.append("no cell identifier")
    words.append("parity holds" if bch_rest(bits) == 0 else "PARITY FAILS")
    wrong = differences(bits, found, settings)
    words.append("DIFFERS from the settings in " + ", ".join(wrong) if wrong else "as the settings say")
    return ", ".join(words)


def spaced(bits):
    """The bits of a TPS word, field by field."""
    ends = [0, 16, 22, 24, 26, 29, 32, 35, 37, 39, 47, 53, 67]
    return " ".join(bits[a:b] for a, b in zip(ends, ends[1:]))
