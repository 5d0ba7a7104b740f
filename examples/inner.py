"""A plain receiver of the inner layers, for counts that owe nothing to the program: cells of one stream in the 2K mode back to decoded
bits (EN 300 744, 4.3.3 to 4.3.5). It decodes with floating-point costs, many parts of the stream at a time.

Needs numpy (Debian: python3-numpy).
"""
import pathlib
import sys

from air import np

sys.path.append(f"{pathlib.Path(__file__).resolve().parent.parent}/tools")
from cell_tools.standard import DATA, Carriers, Points  # noqa: E402

PAYLOAD = 1512
# Which bit of the word each of v successive coded bits becomes (4.3.4.1).
DEMULTIPLEXED = {2: [0, 1], 4: [0, 2, 1, 3], 6: [0, 2, 4, 1, 3, 5]}
SHIFTS = [0, 63, 105, 42, 21, 84]  # of the bit interleavers, blocks of 126 bits
# Which of X and Y of each step are sent, in order (4.3.3).
SENT = {"1/2": "XY", "2/3": "XY Y", "3/4": "XY Y X", "5/6": "XY Y X Y X", "7/8": "XY Y Y Y X Y X"}
OVERLAP = 192  # steps that each part of the stream is decoded further on both sides


def permutation():
    """H(q) of the symbol interleaver of the 2K mode (4.3.4.2)."""
    wires, found, register = [4, 3, 9, 6, 2, 8, 1, 5, 7, 0], [], 0
    for i in range(2048):
        if i == 2:
            register = 1
        elif i > 2:
            register = register >> 1 | ((register ^ register >> 3) & 1) << 9
        place = (i % 2) * 1024 + sum((register >> bit & 1) << wires[bit] for bit in range(10))
        if place < PAYLOAD:
            found.append(place)
    return np.array(found)


def data_cells(cells):
    """The data cells of symbols that begin a super-frame, a row each symbol."""
    carriers = Carriers("2k")
    places = [np.flatnonzero(carriers.kinds(l) == DATA) for l in range(4)]
    return np.stack([symbol[places[number % 4]] for number, symbol in enumerate(cells)])


def likelihoods(cells, settings):
    """For each label bit of each data cell by how much 0 is likelier than 1: differences of squared distances."""
    points = Points(settings)
    found = np.empty((*cells.shape, points.width))
    for axis, parts in ((0, cells.real), (1, cells.imag)):
        far = (parts[..., None] - points.levels) ** 2
        for bit in range(points.width // 2):
            is_one = points.axis_bits[:, bit] == 1
            found[..., 2 * bit + axis] = far[..., is_one].min(-1) - far[..., ~is_one].min(-1)
    return found


def coded_bits(cells, settings):
    """The likelihoods of the coded bits, in the order in which they were sent."""
    soft, h = likelihoods(cells, settings), permutation()
    width = soft.shape[-1]
    words = np.empty_like(soft)
    words[0::2] = soft[0::2][:, h]  # even symbols: place H(q) carries word q
    words[1::2, h] = soft[1::2]  # odd symbols: place q carries word H(q)
    blocks = words.reshape(len(cells), PAYLOAD // 126, 126, width)
    back = np.empty_like(blocks)
    for e in range(width):
        back[..., (np.arange(126) + SHIFTS[e]) % 126, e] = blocks[..., e]
    return back[..., DEMULTIPLEXED[width]].reshape(-1)


def steps_of(bits, rate):
    """The likelihoods of X and Y of each step, 0 where nothing was sent."""
    pattern = SENT[rate].split()
    per = sum(map(len, pattern))
    steps = np.zeros((len(bits) // per * len(pattern), 2))
    groups, at = bits[: len(bits) // per * per].reshape(-1, per), 0
    for step, names in enumerate(pattern):
        for name in names:
            steps[step :: len(pattern), "XY".index(name)] = groups[:, at]
            at += 1
    return steps


def decoded(steps, parts=256):
    """The bits of the likeliest path. The stream is decoded in parts that overlap."""
    length = -(-len(steps) // parts)
    wide = np.zeros((length * parts + 2 * OVERLAP, 2))
    wide[OVERLAP : OVERLAP + len(steps)] = steps
    rows = np.stack([wide[part * length : (part + 1) * length + 2 * OVERLAP] for part in range(parts)], 1)
    state = np.arange(64)
    # State: the last six bits, the newest highest. Its two predecessors differ in the oldest bit.
    before = np.stack([(state << 1 | oldest) & 63 for oldest in (0, 1)])
    register = state[None] << 1 | np.array([[0], [1]])  # seven bits, the newest highest
    x, y = (np.array([[bin(it & taps).count("1") & 1 for it in row] for row in register]) for taps in (0o171, 0o133))
    sums, choices = np.zeros((parts, 64)), []
    for pair in rows:
        cost = -(pair[:, 0, None, None] * (1 - 2 * x) + pair[:, 1, None, None] * (1 - 2 * y)) / 2
        both = sums[:, before] + cost
        choices.append(both.argmin(1).astype("u1"))
        sums = both.min(1)
        sums -= sums.min(1, keepdims=True)
    at, bits = sums.argmin(1), []
    every = np.arange(parts)
    for choice in reversed(choices):
        bits.append(at >> 5)
        at = (at << 1 | choice[every, at]) & 63
    bits = np.array(bits[::-1])[OVERLAP : OVERLAP + length]
    return bits.T.reshape(-1)[: len(steps)].astype("u1")


def received_bits(cells, settings):
    """The decoded bits of cells."""
    return decoded(steps_of(coded_bits(data_cells(cells), settings), settings["rate_hp"]))
