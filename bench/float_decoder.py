"""The inner decoder once more in floating point, to see what weights of four bits and costs of whole numbers lose. Needs numpy.

It is written by EN 300 744 alone: labels (4.3.5), symbol interleaver (4.3.4.2), bit interleavers and demultiplexing (4.3.4.1), puncturing and
the code 171/133 (4.3.3). The stream is cut into blocks that overlap, which are decoded side by side.
"""
import numpy as np
from cell_tools.standard import DATA, UNIT, Carriers, Points

PARTS = {"2k": (11, 1512, [0, 3], [0, 7, 5, 1, 8, 2, 6, 9, 3, 4]), "8k": (13, 6048, [0, 1, 4, 6], [5, 11, 3, 0, 10, 8, 6, 9, 2, 4, 1, 7])}
SHIFTS = [0, 63, 105, 42, 21, 84]  # of the bit interleavers, modulo 126
ORDER = {"qpsk": [0, 1], "16qam": [0, 2, 1, 3], "64qam": [0, 2, 4, 1, 3, 5]}  # the bit stream that takes each bit in turn
KEPT = {  # of a period of the code, which bits of X and Y are sent
    "1/2": "1 1", "2/3": "10 11", "3/4": "101 110", "5/6": "10101 11010", "7/8": "1000101 1111010",
}
BLOCKS, OVERLAP = 800, 96  # steps of the trellis that a block shares with each neighbour


def permutation(mode):
    """H(q) of the symbol interleaver."""
    width, count, taps, wires = PARTS[mode]
    found, register = [], 0
    for i in range(1 << width):
        if i == 2:
            register = 1
        elif i > 2:
            top = sum(register >> tap for tap in taps) & 1
            register = register >> 1 | top << width - 2
        moved = sum((register >> width - 2 - place & 1) << wire for place, wire in enumerate(wires))
        place = (i & 1) << width - 1 | moved
        if place < count:
            found.append(place)
    return np.array(found)


def metrics(cells, scale, constellation):
    """For each label bit of cells how much dearer 1 is than 0: squared distances to the nearest levels, times `scale`."""
    points = Points({"constellation": constellation, "hierarchy": "none"})
    levels, bits = points.levels / UNIT, points.axis_bits
    found = np.empty((*cells.shape, points.width), np.float32)
    for part, values in enumerate((cells.real, cells.imag)):
        distances = (values[..., None] - levels) ** 2
        for bit in range(bits.shape[1]):
            ones = bits[:, bit] == 1
            found[..., 2 * bit + part] = (distances[..., ones].min(-1) - distances[..., ~ones].min(-1)) * scale
    return found


class FloatDecoder:
    """For the first symbols of a transmission."""

    def __init__(self, mode, constellation, rate):
        self.mode, self.constellation = mode, constellation
        self.kinds = Carriers(mode)
        self.places = permutation(mode)
        self.kept = [np.array([int(bit) for bit in half], bool) for half in KEPT[rate].split()]

    def coded(self, cells, scale):
        """The metrics of the coded bits of symbols, in the order in which the coder sends them."""
        whole = []
        for number, (symbol, factor) in enumerate(zip(cells, np.broadcast_to(scale, cells.shape))):
            is_data = self.kinds.kinds(number) == DATA
            carried = metrics(symbol[is_data], factor[is_data], self.constellation)
            words = np.empty_like(carried)
            if number % 2:
                words[self.places] = carried
            else:
                words = carried[self.places]
            blocks = words.reshape(-1, 126, words.shape[1])
            streams = [np.roll(blocks[:, :, e], SHIFTS[e], axis=1).reshape(-1) for e in range(words.shape[1])]
            whole.append(np.stack([streams[e] for e in ORDER[self.constellation]], axis=1).reshape(-1))
        return np.concatenate(whole)

    def steps(self, coded):
        """The metrics of X and of Y at each step, 0 for a bit that is not sent."""
        is_sent = np.stack(self.kept, axis=1)  # X1 Y1 X2 Y2 .. of a period
        periods = len(coded) // is_sent.sum()
        found = np.zeros((periods, *is_sent.shape), np.float32)
        found[:, is_sent] = coded.reshape(periods, -1)
        return found.reshape(-1, 2)

    def decoded(self, cells, scale):
        """The bits of symbols. `scale` is 1 over the noise power of each cell."""
        steps = self.steps(self.coded(cells, scale))
        length = -(-len(steps) // BLOCKS)
        padded = np.concatenate([np.zeros((OVERLAP, 2), np.float32), steps, np.zeros((length * BLOCKS - len(steps) + OVERLAP, 2), np.float32)])
        first = np.arange(BLOCKS) * length
        bits = viterbi(padded[first + np.arange(length + 2 * OVERLAP)[:, None]])
        return bits[OVERLAP : OVERLAP + length].T.reshape(-1)[: len(steps)]


def viterbi(steps):
    """The bits of the least paths of blocks: `steps` has step, block, and the metrics of X and Y."""
    registers = np.arange(128)
    parity = np.array([bin(n).count("1") & 1 for n in range(128)])
    codes = 2 * parity[registers & 0o171] + parity[registers & 0o133]
    length, blocks, _ = steps.shape
    sums, chosen = np.zeros((64, blocks), np.float32), np.empty((length, 64, blocks), bool)
    for step in range(length):
        x, y = steps[step].T
        costs = np.stack([np.zeros_like(x), y, x, x + y])[codes].reshape(2, 32, 2, blocks)
        costs += sums.reshape(32, 2, blocks)
        even, odd = costs[:, :, 0].reshape(64, blocks), costs[:, :, 1].reshape(64, blocks)
        np.less(odd, even, out=chosen[step])
        sums = np.minimum(even, odd)
        if step % 64 == 0:
            sums -= sums.min(axis=0)
    state, every = sums.argmin(axis=0), np.arange(blocks)
    bits = np.empty((length, blocks), "u1")
    for step in range(length - 1, -1, -1):
        bits[step] = state >> 5
        state = (state & 31) << 1 | chosen[step, state, every]
    return bits
