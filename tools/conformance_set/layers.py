"""The layers of a cell file of version 2: its data cells, its TPS bits, and the rest (EN 300 744, 4.4 to 4.6)."""
import itertools

from cell_tools.tps import tps_carriers

HEADER, WIDTH = 8, 5  # bytes of the header, and of a cell: real and imaginary part, two bytes each, and a weight
FRAME, SUPER_FRAME = 68, 272  # symbols
CONTINUAL = [
    0, 48, 54, 87, 141, 156, 192, 201, 255, 279, 282, 333, 432, 450, 483, 525, 531, 618, 636, 714, 759, 765, 780,
    804, 873, 888, 918, 939, 942, 969, 984, 1050, 1101, 1107, 1110, 1137, 1140, 1146, 1206, 1269, 1323, 1377, 1491,
    1683, 1704,
]  # of the 2K mode; the 8K mode has them four times, 1704 apart (4.5.4)


class Symbols:
    """What the carriers of a mode are for, symbol by symbol."""

    def __init__(self, mode):
        blocks = 1 if mode == "2k" else 4
        self.carriers = 1704 * blocks + 1
        self.size = WIDTH * self.carriers
        self.tps = tps_carriers(mode)
        self.continual = {k + 1704 * j for j in range(blocks) for k in CONTINUAL}
        self.runs = [self.data_runs(self.continual | set(self.tps), phase) for phase in range(4)]
        register = [1] * 11  # the reference sequence (4.5.2)
        while len(register) < self.carriers:
            register.append(register[-9] ^ register[-11])
        self.reference = register

    def data_runs(self, fixed, phase):
        """The first and the last place of each run of data carriers in symbols `phase`, `phase + 4`, .. of a frame."""
        data = [k for k in range(self.carriers) if k not in fixed and k % 12 != 3 * phase]  # 4.5.3
        runs = []
        for _, run in itertools.groupby(enumerate(data), lambda pair: pair[1] - pair[0]):
            run = [k for _, k in run]
            runs.append((run[0], run[-1] + 1))
        return runs

    def count(self, content):
        """Whole symbols of a cell file."""
        return max(len(content) - HEADER, 0) // self.size

    def start(self, symbol):
        """The first byte of a symbol."""
        return HEADER + symbol * self.size

    def data(self, content):
        """The data cells without their weights: four bytes each, symbol after symbol, carriers rising."""
        found = bytearray()
        for symbol in range(self.count(content)):
            start = self.start(symbol)
            for first, end in self.runs[symbol % 4]:
                found += content[start + WIDTH * first : start + WIDTH * end]
        del found[WIDTH - 1 :: WIDTH]
        return bytes(found)

    def data_places(self, symbol):
        """The carriers of the data cells of a symbol, rising."""
        return [k for first, end in self.runs[symbol % 4] for k in range(first, end)]

    def tps_bits(self, content):
        """The TPS bits s0, s1, .. of each frame as text: one character a symbol, `?` if the TPS carriers disagree."""
        places = [(WIDTH * k, self.reference[k]) for k in self.tps]
        bits, before = [], None
        for symbol in range(self.count(content)):
            start = self.start(symbol)
            signs = [content[start + place] >> 7 for place, _ in places]
            if symbol % FRAME == 0:
                found = {sign ^ reference for sign, (_, reference) in zip(signs, places)}  # s0: the reference itself
            else:
                found = {sign ^ other for sign, other in zip(signs, before)}  # 4.6.1: differential, from symbol to symbol
            bits.append(str(found.pop()) if len(found) == 1 else "?")
            before = signs
        return "".join(bits)
