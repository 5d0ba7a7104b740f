"""The likeliest cause of a difference, found by trying it: each shift in symbols and carriers, conjugated or not, and the gain that fits.

A wrong sign, I and Q exchanged, a quarter turn and a scale are all gains, real or not, of the cells or of their conjugates. So
for each shift two correlations try them all.
"""
import cmath
import math

import numpy as np

SHIFTS = range(-3, 4)  # symbols, and carriers
CLEAR = 10  # dB by which undoing a cause has to reduce the difference
CLOSE = 20  # dB: cells that are nearer than this differ by noise, or in single places


class Cause:
    """A way in which A differs from B: symbol m + late and carrier k + up of A is symbol m and carrier k of B, times the gain."""

    def __init__(self, late, up, is_conjugated, ours, theirs):
        self.late, self.up, self.is_conjugated = late, up, is_conjugated
        self.rows = slice(max(late, 0), len(ours) + min(late, 0)), slice(max(up, 0), ours.shape[1] + min(up, 0))
        self.ours = ours[self.rows]
        self.theirs = theirs[max(-late, 0) : len(theirs) - max(late, 0), max(-up, 0) : theirs.shape[1] - max(up, 0)]
        ours, theirs = self.ours.ravel(), self.theirs.ravel()
        sum_of = np.dot(theirs, ours) if is_conjugated else np.vdot(theirs, ours)
        powers = np.vdot(ours, ours).real, np.vdot(theirs, theirs).real
        self.gain = complex(sum_of / powers[1]) if powers[1] else 0j
        self.likeness = float(abs(sum_of) / math.sqrt(powers[0] * powers[1])) if all(powers) else 0.0

    def undone(self):
        """The cells of A without it."""
        found = self.ours / self.rounded()
        return found.conj() if self.is_conjugated else found

    def rounded(self):
        """The gain, at a whole quarter turn and at 1 if it is near them."""
        scale, turn = abs(self.gain), math.degrees(cmath.phase(self.gain))
        quarter = round(turn / 90) * 90
        turn = quarter if abs(turn - quarter) < 2 else turn
        return (1 if abs(scale - 1) < 0.005 else scale) * cmath.exp(1j * math.radians(turn))

    def parts(self):
        """It in words, one for each part of it."""
        gain = self.rounded()
        turn = round(math.degrees(cmath.phase(gain)), 1) % 360
        of_conjugates = {
            0: "the imaginary part has the wrong sign (conjugated)",
            90: "I and Q are exchanged",
            180: "the real part has the wrong sign",
            270: "I and Q are exchanged and both have the wrong sign",
        }
        of_cells = {0: None, 180: "both parts have the wrong sign"}
        if self.is_conjugated:
            yield of_conjugates.get(turn, f"conjugated and turned by {turn:.1f} degrees")
        elif of_cells.get(turn, turn):
            yield of_cells.get(turn, f"turned by {turn:.1f} degrees")
        if abs(gain) != 1 and abs(abs(gain) - 1) >= 0.005:
            yield f"scaled by {abs(gain):.4f}"
        if self.late:
            yield f"{plural(abs(self.late), 'symbol')} {'late' if self.late > 0 else 'early'}"
        if self.up:
            yield f"carriers shifted by {abs(self.up)} {'up' if self.up > 0 else 'down'}"


def plural(count, name):
    return f"{count} {name}{'s' * (count != 1)}"


def ratio(cells, wanted):
    """How far cells are from others, in dB below the power of these."""
    error, power = np.sum(abs(cells - wanted) ** 2), np.sum(abs(wanted) ** 2)
    return math.inf if error == 0 else 10 * math.log10(power / error) if power else -math.inf


def likeliest(ours, theirs, within):
    """The cause that fits cells best, in words, or None. Both are arrays of symbols by carriers by two parts, of double precision."""
    ours, theirs = (it[..., 0] + 1j * it[..., 1] for it in (ours, theirs))
    shifts = [(late, up) for late in SHIFTS for up in SHIFTS if abs(late) < len(ours)]
    found = max(
        (Cause(late, up, is_conjugated, ours, theirs) for late, up in shifts for is_conjugated in (False, True)),
        key=lambda it: (round(it.likeness, 6), -abs(it.late) - abs(it.up)),
    )
    parts = list(found.parts()) if found.likeness > 0.3 else []
    if not parts:
        return None
    rest = found.undone() - found.theirs
    near = within + math.ceil(1 / min(1, abs(found.gain)))  # undoing a scale enlarges what was rounded
    is_same = np.maximum(abs(rest.real), abs(rest.imag)) <= near
    before, after = ratio(ours, theirs), ratio(found.undone(), found.theirs)
    if is_same.mean() < 0.5 and not (before < CLOSE and after > before + CLEAR):
        return None
    agreed = f"{100 * is_same.mean():.3g} % of the cells agree"
    if is_same.mean() < 0.5:
        agreed = f"the cells are {after:.1f} dB apart, before {before:.1f}"
    return f"{', '.join(parts)}; with that undone {agreed}"
