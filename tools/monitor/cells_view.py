"""What a sample of the cells shows: the constellation, the MER and the channel over the carriers. By the standard library alone."""
import math
from struct import Struct, unpack_from

from cell_tools.tables import LEVELS, continual_carriers, reference_signs
from cell_tools.tps import tps_carriers

UNIT, BOOSTED = 16384, 21845  # the amplitudes of a cell of mean power and of a pilot
POINTS = 1200  # of the constellation
SHARES = {"2k": 4, "8k": 16}  # carriers that share a value
SLOW = 8  # samples over which the error of a carrier is averaged


class View:
    """What the page shows of cells, of one mode."""

    def __init__(self, mode):
        self.mode, self.count, self.share = mode, 1705 if mode == "2k" else 6817, SHARES[mode]
        self.cells, self.signs = Struct(">" + "hhB" * self.count), reference_signs(mode)
        taken = set(continual_carriers(mode)) | set(tps_carriers(mode))
        self.data = [[k for k in range(self.count) if k not in taken and k % 12 != 3 * l] for l in range(4)]
        self.nearest, self.levels, self.key, self.errors, self.power = None, None, None, None, 1.0

    def corrected(self, symbols, first, signal):
        """The constellation and the MER over carriers: corrected symbols, the number of the first one in its frame, the signal."""
        self.turn_to(signal)
        sums, counts, points = [0.0] * len(self.errors), [0] * len(self.errors), []
        step = max(1, len(symbols) * len(self.data[0]) // POINTS)
        for number, symbol in enumerate(symbols):
            self.add(self.cells.unpack(symbol), self.data[(first + number) % 4], sums, counts, points, step)
        for at, count in enumerate(counts):
            if count:
                error = sums[at] / count
                self.errors[at] = error if self.errors[at] is None else self.errors[at] + (error - self.errors[at]) / SLOW
        mer = [None if it is None else round(min(60, 10 * math.log10(self.power / max(it, 1))), 1) for it in self.errors]
        return {"constellation": points, "levels": [round(it / UNIT, 3) for it in self.levels], "mer": mer, "share": self.share}

    def add(self, values, carriers, sums, counts, points, step):
        """Adds the errors of the data cells of a symbol, and some of its points. Cells of weight 0 say nothing."""
        nearest, share = self.nearest, self.share
        for number, k in enumerate(carriers):
            x, y, weight = values[3 * k], values[3 * k + 1], values[3 * k + 2]
            if weight:
                sums[k // share] += (x - nearest[x]) ** 2 + (y - nearest[y]) ** 2
                counts[k // share] += 1
            if number % step == 0:
                points.append([round(x / UNIT, 3), round(y / UNIT, 3)])

    def turn_to(self, signal):
        """Takes the points of the constellation of the signal."""
        key = signal["constellation"], signal["hierarchy"]
        if key == self.key:
            return
        magnitudes, norm = LEVELS[key]
        self.levels = sorted(sign * round(UNIT * it / norm**0.5) for it in magnitudes for sign in (1, -1))
        table = [min(self.levels, key=lambda it: abs(it - x)) for x in range(-32768, 32768, 16) for _ in range(16)]
        self.nearest = table[32768:] + table[:32768]  # a part below 0 counts from the end
        self.power = 2 * sum(it * it for it in self.levels) / len(self.levels)
        self.key, self.errors = key, [None] * (1 + (self.count - 1) // self.share)

    def channel(self, symbols, first):
        """The channel over carriers by the scattered pilots of four symbols, as they came: dB beside the nominal amplitude."""
        gains = [None] * self.count
        for number, symbol in enumerate(symbols):
            for k in range(3 * ((first + number) % 4), self.count, 12):
                x, y = unpack_from(">hh", symbol, 5 * k)
                gains[k] = x * x + y * y
        shares = [[it for it in gains[k : k + 3 * self.share] if it is not None] for k in range(0, self.count, 3 * self.share // 2)]
        means = [sum(it) / len(it) if it else 0 for it in shares]
        return {"gains": [round(max(-60, 10 * math.log10(max(it, 1e-3) / BOOSTED**2)), 1) for it in means], "each": 3 * self.share // 2}
