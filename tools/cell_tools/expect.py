"""What a measured MER means: by how much one against the nearest points is too high, and what `receive` does with such cells."""
import math

from cell_tools.standard import UNIT

BIAS = 0.1  # dB: from here on an MER against the nearest points counts as too high
# The lowest MER in Gaussian noise at which at most one outer word in a hundred is bad, in steps of 0.1 dB, by constellation,
# hierarchy, stream and rate. Measured by bench/edges in the 8K mode.
EDGES = {
    ("qpsk", "none", "hp", "1/2"): 1.9,
    ("qpsk", "none", "hp", "2/3"): 3.8,
    ("qpsk", "none", "hp", "3/4"): 4.7,
    ("qpsk", "none", "hp", "5/6"): 5.8,
    ("qpsk", "none", "hp", "7/8"): 6.4,
    ("16qam", "none", "hp", "1/2"): 7.3,
    ("16qam", "none", "hp", "2/3"): 9.7,
    ("16qam", "none", "hp", "3/4"): 10.8,
    ("16qam", "none", "hp", "5/6"): 12.1,
    ("16qam", "none", "hp", "7/8"): 12.9,
    ("64qam", "none", "hp", "1/2"): 11.6,
    ("64qam", "none", "hp", "2/3"): 14.7,
    ("64qam", "none", "hp", "3/4"): 16.2,
    ("64qam", "none", "hp", "5/6"): 17.7,
    ("64qam", "none", "hp", "7/8"): 18.5,
    ("16qam", "1", "hp", "1/2"): 4.7,
    ("16qam", "1", "lp", "1/2"): 8.9,
    ("16qam", "1", "hp", "2/3"): 7.7,
    ("16qam", "1", "lp", "2/3"): 10.8,
    ("16qam", "1", "hp", "3/4"): 9.4,
    ("16qam", "1", "lp", "3/4"): 11.7,
    ("16qam", "1", "hp", "5/6"): 11.0,
    ("16qam", "1", "lp", "5/6"): 12.7,
    ("16qam", "1", "hp", "7/8"): 11.9,
    ("16qam", "1", "lp", "7/8"): 13.4,
    ("16qam", "2", "hp", "1/2"): 3.2,
    ("16qam", "2", "lp", "1/2"): 11.9,
    ("16qam", "2", "hp", "2/3"): 5.5,
    ("16qam", "2", "lp", "2/3"): 13.8,
    ("16qam", "2", "hp", "3/4"): 6.6,
    ("16qam", "2", "lp", "3/4"): 14.7,
    ("16qam", "2", "hp", "5/6"): 8.1,
    ("16qam", "2", "lp", "5/6"): 15.8,
    ("16qam", "2", "hp", "7/8"): 8.9,
    ("16qam", "2", "lp", "7/8"): 16.4,
    ("16qam", "4", "hp", "1/2"): 2.4,
    ("16qam", "4", "lp", "1/2"): 16.1,
    ("16qam", "4", "hp", "2/3"): 4.4,
    ("16qam", "4", "lp", "2/3"): 17.9,
    ("16qam", "4", "hp", "3/4"): 5.4,
    ("16qam", "4", "lp", "3/4"): 18.9,
    ("16qam", "4", "hp", "5/6"): 6.6,
    ("16qam", "4", "lp", "5/6"): 19.9,
    ("16qam", "4", "hp", "7/8"): 7.4,
    ("16qam", "4", "lp", "7/8"): 20.6,
    ("64qam", "1", "hp", "1/2"): 5.7,
    ("64qam", "1", "lp", "1/2"): 13.6,
    ("64qam", "1", "hp", "2/3"): 9.3,
    ("64qam", "1", "lp", "2/3"): 15.9,
    ("64qam", "1", "hp", "3/4"): 11.9,
    ("64qam", "1", "lp", "3/4"): 17.1,
    ("64qam", "1", "hp", "5/6"): 14.6,
    ("64qam", "1", "lp", "5/6"): 18.4,
    ("64qam", "1", "hp", "7/8"): 16.0,
    ("64qam", "1", "lp", "7/8"): 19.1,
    ("64qam", "2", "hp", "1/2"): 4.3,
    ("64qam", "2", "lp", "1/2"): 15.1,
    ("64qam", "2", "hp", "2/3"): 7.0,
    ("64qam", "2", "lp", "2/3"): 17.4,
    ("64qam", "2", "hp", "3/4"): 8.7,
    ("64qam", "2", "lp", "3/4"): 18.6,
    ("64qam", "2", "hp", "5/6"): 10.6,
    ("64qam", "2", "lp", "5/6"): 19.9,
    ("64qam", "2", "hp", "7/8"): 11.8,
    ("64qam", "2", "lp", "7/8"): 20.6,
    ("64qam", "4", "hp", "1/2"): 3.0,
    ("64qam", "4", "lp", "1/2"): 17.6,
    ("64qam", "4", "hp", "2/3"): 5.4,
    ("64qam", "4", "lp", "2/3"): 20.0,
    ("64qam", "4", "hp", "3/4"): 6.6,
    ("64qam", "4", "lp", "3/4"): 21.2,
    ("64qam", "4", "hp", "5/6"): 8.1,
    ("64qam", "4", "lp", "5/6"): 22.5,
    ("64qam", "4", "hp", "7/8"): 8.9,
    ("64qam", "4", "lp", "7/8"): 23.2,
}
SAFE, LOST = 0.8, -1.2  # dB over the edge: at more no packet is lost, at less most are


def normal(x):
    """The share of Gaussian noise of deviation 1 below x."""
    return 1.0 if x == math.inf else 0.0 if x == -math.inf else (1 + math.erf(x / 2**0.5)) / 2


def density(x):
    """The density of Gaussian noise of deviation 1 at x, and x times it."""
    if math.isinf(x):
        return 0.0, 0.0
    at = math.exp(-x * x / 2) / (2 * math.pi) ** 0.5
    return at, x * at


def decided(points, deviation):
    """On one axis, all levels sent equally often in Gaussian noise of this deviation: the mean power of the nearest level, and of the
    distance to it."""
    ends = [-math.inf, *points.edges.tolist(), math.inf]
    ideal = error = 0.0
    for sent in points.levels.tolist():
        for near, low, high in zip(points.levels.tolist(), ends, ends[1:]):
            a, b, off = (low - sent) / deviation, (high - sent) / deviation, sent - near
            share, (da, xa), (db, xb) = normal(b) - normal(a), density(a), density(b)
            ideal += near * near * share
            error += off * off * share + 2 * off * deviation * (da - db) + deviation**2 * (share + xa - xb)
    return ideal / len(points.levels), error / len(points.levels)


def shown_for(shares, ratio):
    """The MER against the nearest points, where the true one is `ratio` and the noise Gaussian. `shares` has for each constellation
    its count of data cells."""
    ideal = error = 0.0
    deviation = UNIT * 10 ** (-ratio / 20) / 2**0.5
    for points, count in shares.items():
        sums = decided(points, deviation)
        ideal, error = ideal + count * sums[0], error + count * sums[1]
    return 10 * math.log10(ideal / error)


def turning_point(shares):
    """The MER against the nearest points below which it is too high by more than BIAS."""
    low, high = -10.0, 60.0
    while high - low > 0.001:
        middle = (low + high) / 2
        is_well = shown_for(shares, middle) - middle <= BIAS
        low, high = (low, middle) if is_well else (middle, high)
    return high + BIAS


def true_for(shares, shown):
    """The true MER where the one against the nearest points is `shown` and the noise Gaussian."""
    low, high = -20.0, shown
    while high - low > 0.001:
        middle = (low + high) / 2
        low, high = (low, middle) if shown_for(shares, middle) > shown else (middle, high)
    return (low + high) / 2


def rows(parameters, ratio):
    """What `receive` makes of cells with this MER: the line and the values by name for each stream of each of these settings."""
    for settings in parameters:
        is_flat = settings["hierarchy"] == "none"
        for stream in ("hp",) if is_flat else ("hp", "lp"):
            rate = settings[f"rate_{stream}"]
            edge = EDGES[settings["constellation"], settings["hierarchy"], stream, rate]
            name = settings["constellation"].upper().replace("QAM", "-QAM")
            name += f" {rate}" if is_flat else f" with hierarchy {settings['hierarchy']}, {stream.upper()} {rate}"
            line = f"expected of receive in Gaussian noise, {name}: {expected(ratio - edge)} {place(ratio, edge)}"
            values = {"stream": stream, "constellation": settings["constellation"], "hierarchy": settings["hierarchy"], "rate": rate}
            yield line, {**values, "edge_db": edge, "above_db": round(ratio - edge, 1), "text": expected(ratio - edge)}


def expected(margin):
    """What comes back at so many dB over the edge."""
    if margin >= SAFE:
        return "every packet comes back"
    return "some packets are lost" if margin > LOST else "most packets are lost"


def place(ratio, edge):
    """Where an MER is beside the edge."""
    off = round(ratio - edge, 1)
    at = f"{abs(off):.1f} dB {'above' if off > 0 else 'below'}" if off else "at"
    return f"(MER {at} the edge of {edge:.1f} dB, at which one word in a hundred is bad)"
