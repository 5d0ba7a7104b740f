"""Channels for measurements: the profiles of EN 300 744 (annex B), a single echo, a typical urban channel that moves, and
phase errors. A channel gives the cells that come, without noise, and the gain of each cell. Needs numpy.
"""
import numpy as np

USEFUL = {"2k": 224.0, "8k": 896.0}  # microseconds of the useful part of a symbol, in a channel of 8 MHz (4.4)
POINTS = {"2k": 2048, "8k": 8192}
# The twenty paths of annex B: amplitude, delay in microseconds, phase in radians.
PATHS = [
    (0.057662, 1.003019, 4.855121), (0.176809, 5.422091, 3.419109), (0.407163, 0.518650, 5.864470), (0.303585, 2.751772, 2.215894),
    (0.258782, 0.602895, 3.758058), (0.061831, 1.016585, 5.430202), (0.150340, 0.143556, 3.952093), (0.051534, 0.153832, 1.093586),
    (0.185074, 3.324866, 5.775198), (0.400967, 1.935570, 0.154459), (0.295723, 0.429948, 5.928383), (0.350825, 3.228872, 3.053023),
    (0.262909, 0.848831, 0.628578), (0.225894, 0.073883, 2.128544), (0.170996, 0.203952, 1.099463), (0.149723, 0.194207, 3.462951),
    (0.240140, 0.924450, 3.664773), (0.116587, 1.381320, 2.833799), (0.221155, 0.640512, 3.334290), (0.259730, 1.368671, 0.393889),
]
RICEAN = 10  # the power of the direct path of F1 over that of the twenty together
# Typical urban, six paths (COST 207): delay in microseconds, decibels.
URBAN = [(0.0, -3.0), (0.2, 0.0), (0.5, -2.0), (1.6, -6.0), (2.3, -8.0), (5.0, -10.0)]
WAVES = 24  # that make up a path that moves
GRID = 64  # samples from one computed gain of such a path to the next; straight lines between


def response(mode, paths):
    """The gain at each carrier by paths (complex amplitude, delay in microseconds), with mean power 1 over the carriers."""
    carriers = 1705 if mode == "2k" else 6817
    frequencies = (np.arange(carriers) - (carriers - 1) // 2) / USEFUL[mode]  # MHz
    gain = sum(amplitude * np.exp(-2j * np.pi * delay * frequencies) for amplitude, delay in paths)
    return gain / np.sqrt(np.mean(abs(gain) ** 2))


class Still:
    """A channel that does not change: the same gain in each symbol."""

    def __init__(self, name, mode, paths):
        self.name, self.mode, self.gain = name, mode, response(mode, paths)

    def through(self, cells):
        """The cells that come, and the gain of each."""
        return cells * self.gain, np.broadcast_to(self.gain, cells.shape)


def gaussian(mode):
    """A gain of 1 everywhere."""
    return Still("Gaussian", mode, [(1, 0)])


def ricean(mode):
    """F1 of annex B: a direct path, and twenty echoes of a tenth of its power together."""
    direct = np.sqrt(RICEAN * sum(amplitude**2 for amplitude, _, _ in PATHS))
    return Still("Ricean F1", mode, [(direct, 0)] + annex_paths())


def rayleigh(mode):
    """P1 of annex B: the twenty echoes alone."""
    return Still("Rayleigh P1", mode, annex_paths())


def annex_paths():
    """The twenty paths of annex B, as complex amplitudes with their delays."""
    return [(amplitude * np.exp(-1j * phase), delay) for amplitude, delay, phase in PATHS]


def echo(mode, samples, decibels, phase=2.0):
    """A direct path, and one echo so many samples later (of 2,048 or 8,192 of a symbol) at that level."""
    delay = samples * USEFUL[mode] / POINTS[mode]
    level = 10 ** (decibels / 20) * np.exp(1j * phase)
    return Still(f"echo of {decibels} dB after {samples} samples", mode, [(1, 0), (level, delay)])


class Turned:
    """A channel whose symbols are each turned by a random angle, of this deviation in degrees: common phase error."""

    def __init__(self, under, degrees, seed=5):
        self.name, self.mode = f"{under.name}, common phase error {degrees:g} degrees", under.mode
        self.under, self.deviation, self.seed = under, np.deg2rad(degrees), seed

    def through(self, cells):
        came, gain = self.under.through(cells)
        angles = np.random.RandomState(self.seed).normal(0, 1, len(cells)) * self.deviation
        turn = np.exp(1j * angles)[:, None]
        return came * turn, gain * turn


class Moving:
    """The typical urban channel at a Doppler frequency in Hz: six paths that fade, in the time domain, so that carriers also
    disturb one another. Delays are rounded to samples of 7/64 microseconds. The gain of a cell is its mean over the useful part."""

    def __init__(self, mode, guard, doppler, seed=1):
        self.name, self.mode = f"typical urban, {doppler:g} Hz", mode
        self.points = POINTS[mode]
        self.guard = self.points // int(guard.partition("/")[2])
        self.delays = [round(delay * 64 / 7) for delay, _ in URBAN]
        random = np.random.RandomState(seed)
        powers = np.array([10 ** (level / 10) for _, level in URBAN])
        self.levels = np.sqrt(powers / powers.sum() / WAVES)
        angles = 2 * np.pi * (np.arange(WAVES) + random.uniform(size=(len(URBAN), 1))) / WAVES  # from all sides alike
        self.steps = 2 * np.pi * doppler * 7e-6 / 64 * np.cos(angles)  # radians a sample
        self.phases = random.uniform(0, 2 * np.pi, (len(URBAN), WAVES))

    def gains(self, path, first, count):
        """The gain of a path at the samples from `first` on."""
        grid = np.arange(first, first + count + GRID, GRID)
        coarse = self.levels[path] * np.exp(1j * (self.steps[path, :, None] * grid + self.phases[path, :, None])).sum(axis=0)
        return np.interp(np.arange(first, first + count), grid, coarse)

    def through(self, cells):
        parts = [self.piece(cells[first : first + 272], first) for first in range(0, len(cells), 272)]
        return np.concatenate([came for came, _ in parts]), np.concatenate([gain for _, gain in parts])

    def piece(self, cells, symbol):
        """The cells that come of symbols, the first of them number `symbol`, and their gains."""
        count = cells.shape[1]
        size = self.points + self.guard
        places = (np.arange(count) - (count - 1) // 2) % self.points
        spectrum = np.zeros((len(cells), self.points), complex)
        spectrum[:, places] = cells
        body = np.fft.ifft(spectrum)
        sent = np.concatenate([body[:, -self.guard :], body], axis=1).ravel()
        came, gain = np.zeros(len(sent), complex), np.zeros(cells.shape, complex)
        for path, delay in enumerate(self.delays):
            gains = self.gains(path, symbol * size, len(sent))
            came[delay:] += gains[delay:] * sent[: len(sent) - delay]
            mean = gains.reshape(-1, size)[:, self.guard :].mean(axis=1)
            gain += mean[:, None] * np.exp(-2j * np.pi * delay * np.where(places < self.points // 2, places, places - self.points) / self.points)
        points = np.fft.fft(came.reshape(-1, size)[:, self.guard :])
        return points[:, places], gain
