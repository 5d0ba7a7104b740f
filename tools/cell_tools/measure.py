"""How good the cells of a file are: modulation error ratio, pilots, TPS, and what `receive` makes of them."""
import math

import numpy as np

from cell_tools import expect
from cell_tools.files import Version1, Votes
from cell_tools.plots import plots, save
from cell_tools.result import Result, number
from cell_tools.settings import Unfit, settings_in
from cell_tools.standard import BOOSTED, SUPER_FRAME, read_word
from cell_tools.sums import Summing, added, in_turn, side_by_side
from cell_tools.tps import differences, fields_of


def decibels(power, error):
    """The ratio in dB, without end if there is no error."""
    return math.inf if error == 0 else 10 * math.log10(power / error) if power else -math.inf


def shown(ratio):
    return "no error" if ratio == math.inf else f"{ratio:.2f} dB"


class Measure:
    """Sums over the data cells and pilots of a file. Without `sent`, the ideal cell is the nearest point."""

    def __init__(self, file, sent):
        self.file, self.sent = file, sent
        self.of_symbols = []  # of each frame, ideal power and power of the error of its symbols
        self.of_carriers = np.zeros((file.carriers.count, 2))
        self.beyond, self.data, self.weightless, self.off = 0, 0, 0, 0
        self.furthest, self.times = 0.0, 0.0  # the longest way that a part was moved, and over the tolerance there
        self.shares = {}  # data cells of each constellation
        self.pilots = [(0, 0, 0, 0)] * 2
        self.votes = Votes(file.carriers)
        summing = Summing(file)
        for sums in in_turn(summing.frame, self.pieces()):
            self.add(sums)
        if not file.symbols:
            raise Unfit(f"{file.name} has no whole symbol of {file.size} bytes", 9, file.path)

    def pieces(self):
        """The frames of the file, each with that of `sent`."""
        for frame, sent in side_by_side(self.file, self.sent) if self.sent else ((it, None) for it in self.file.frames()):
            if frame is None:
                continue  # what `sent` has more is read to its end, to count its symbols
            if self.sent and (sent is None or sent.symbols < frame.symbols):
                raise Unfit(f"{self.sent.name} has fewer symbols than {self.file.name}", 9, self.sent.path)
            self.votes.add(frame)
            yield frame, sent

    def add(self, sums):
        """Adds the sums of a frame."""
        self.of_symbols.append(sums.of_symbols)
        self.of_carriers += sums.of_carriers
        self.beyond, self.data = self.beyond + sums.beyond, self.data + sums.data
        self.weightless, self.off = self.weightless + sums.weightless, self.off + sums.off
        self.furthest = max(self.furthest, sums.furthest)
        self.times = max(self.times, sums.furthest / sums.points.tolerance)
        self.shares[sums.points] = self.shares.get(sums.points, 0) + sums.data
        self.pilots = [added(a, b) for a, b in zip(self.pilots, sums.pilots)]

    def by_kind(self):
        """What the pilots show, by their kind."""
        return {name: pilots_by_name(*sums) for name, sums in zip(("continual", "scattered"), self.pilots)}

    def whole(self):
        return decibels(*self.of_carriers.sum(axis=0))

    def symbols(self):
        """The ratio of each symbol."""
        return np.array([decibels(*row) for rows in self.of_symbols for row in rows])

    def carriers(self):
        """Each carrier that had data, and its ratio."""
        at = np.flatnonzero(self.of_carriers[:, 0])
        return at, np.array([decibels(*self.of_carriers[k]) for k in at])


def measure(file, sent, words):
    """Measures a file. No part of the theorem's premise should fail, and all TPS words should be read."""
    if words.out:
        plots()
    found = Measure(file, sent)
    by_symbol, (at, by_carrier) = found.symbols(), found.carriers()
    frames = found.votes.words()
    errors = [word and word[1] for word in map(read_word, frames)]
    tps = {"frames": len(frames), "read": sum(it is not None for it in errors), "corrected": sum(it or 0 for it in errors)}
    tps["differs"] = contradicted(file, frames)
    lines = [f"symbols {file.symbols}, data cells {found.data}, {f'against {sent.name}' if sent else 'against the nearest points'}"]
    lines += lines_of_ratio(found, by_symbol, at, by_carrier)
    lines += [f"{name} pilots: {of_pilots(pilots)}" for name, pilots in found.by_kind().items()]
    lines += lines_of_theorem(found)
    lines.append(f"TPS words read {tps['read']} of {len(frames)}, bits corrected {tps['corrected']}")
    if tps["differs"]:
        lines.append(f"  TPS DIFFERS from the settings in {', '.join(tps['differs'])}, so the figures above are of other points")
    report = {"symbols": file.symbols, "left_over": file.left_over, "version": file.version.NUMBER, "data_cells": found.data}
    report.update(sent=sent and sent.name, mer=ratio_by_name(found), by_symbol=spread_by_name(by_symbol, range(file.symbols)))
    report.update(by_carrier=spread_by_name(by_carrier, at), pilots=found.by_kind(), **theorem_by_name(found), tps=tps)
    if words.list:
        listed = zip(range(file.symbols), by_symbol) if words.list == "symbols" else zip(at, by_carrier)
        ratios = {int(place): ratio for place, ratio in listed}
        lines += [f"{words.list[:-1]} {place} {shown(ratio)}" for place, ratio in ratios.items()]
        report["list"] = [{words.list[:-1]: place, "db": number(ratio)} for place, ratio in ratios.items()]
    if words.out:
        draw(found, words.out)
        lines.append(f"picture {words.out}")
    failing = failing_parts(found) + ([f"TPS words that can't be read: {len(frames) - tps['read']}"] if tps["read"] < len(frames) else [])
    failing += [f"TPS differs from the settings in {', '.join(tps['differs'])}"] if tps["differs"] else []
    return Result(lines, report, "; ".join(failing), [words.out] if words.out else [])


def contradicted(file, frames):
    """The keys of constellation, hierarchy and rates in which TPS words that can be read contradict the settings."""
    found = set()
    for number, bits in enumerate(frames):
        word = read_word(bits)
        settings = settings_in(file.settings, number // 4 + 1)  # of the next super-frame (4.6.2)
        found.update(differences(word[0], fields_of(word[0]), settings) if word else ())
    return [key for key in ("constellation", "hierarchy", "rate_hp", "rate_lp") if key in found]


def ratio_by_name(found):
    """The MER by name. Without --sent it may be too high."""
    ideal, error = found.of_carriers.sum(axis=0)
    point = None if found.sent else expect.turning_point(found.shares)
    values = {"db": number(found.whole()), "ideal_power": ideal, "error_power": error, "is_decision_directed": not found.sent}
    return {**values, "too_high_below_db": point and number(point), "true_db": number(true_ratio(found))}


def spread_by_name(ratios, places):
    """The spread of ratios by name, and where the least is. Ratios without an error are null."""
    values = {"least_db": ratios.min(), "middle_db": np.median(ratios), "greatest_db": ratios.max()}
    return {**{name: number(value) for name, value in values.items()}, "least_at": int(places[int(np.argmin(ratios))])}


def theorem_by_name(found):
    """What `lines_of_theorem` says, by name. Whether the theorem applies is not known without --sent, if no part of it fails."""
    failing = failing_parts(found)
    expected = [values for _, values in expectation(found)]
    values = {"tolerance": tolerances(found), "beyond": found.beyond}
    values.update(furthest=round(found.furthest), furthest_times=number(found.times))
    values.update(weightless=found.weightless, theorem={"applies": False if failing else True if found.sent else None, "failing": failing})
    return {**values, "expected": expected}


def lines_of_ratio(found, by_symbol, at, by_carrier):
    """The MER, what it is worth, and its spread."""
    ratio = found.whole()
    how = "all data cells" if found.sent else "decision-directed"
    yield f"MER {shown(ratio)} (ETSI TR 101 290: ideal power over error power, {how})"
    if ratio == math.inf:
        return
    if not found.sent:
        edge = expect.turning_point(found.shares)
        if ratio < edge:
            yield f"  too high: below {edge:.1f} dB cells are decided wrongly. The true MER is about {true_ratio(found):.1f} dB in Gaussian noise"
    yield f"  by symbol:  {spread(by_symbol)}, least in symbol {int(np.argmin(by_symbol))}"
    yield f"  by carrier: {spread(by_carrier)}, least at carrier {at[int(np.argmin(by_carrier))]}"


def true_ratio(found):
    """The MER against what was sent, or what it is about."""
    ratio = found.whole()
    if found.sent or ratio >= expect.turning_point(found.shares):
        return ratio
    return expect.true_for(found.shares, ratio)


def lines_of_theorem(found):
    """How far the data cells were moved, whether the theorem on noise applies, and if not, what to expect."""
    beyond = f"data cells beyond it {found.beyond}"
    if found.beyond:
        beyond += f" of {found.data} ({percent(found.beyond, found.data)}), "
        beyond += f"the furthest moved by {round(found.furthest)}, {found.times:.1f} times the tolerance"
    yield f"tolerance {', '.join(map(str, tolerances(found)))} on each axis: {beyond}"
    yield f"data cells of weight 0: {found.weightless}{', which count here; dvbt measure leaves them out' if found.weightless else ''}"
    yield f"  {verdict(failing_parts(found), found.sent)}"
    yield from (f"  {line}" for line, _ in expectation(found))


def tolerances(found):
    """The tolerance of each constellation of the file."""
    return list(dict.fromkeys(points.tolerance for points in found.shares))


def expectation(found):
    """What to expect of `receive` if the theorem does not apply: a line and its values for each stream."""
    if not failing_parts(found) or found.whole() == math.inf:
        return []
    return expect.rows(stretches(found.file), true_ratio(found))


def percent(count, whole):
    """A share in percent, with two digits that count."""
    return f"{100 * count / whole:.2g} %"


def stretches(file):
    """The different parameters of the file's super-frames."""
    seen = {}
    for number in range(-(-file.symbols // SUPER_FRAME)):
        settings = settings_in(file.settings, number)
        key = tuple(settings.get(it) for it in ("constellation", "hierarchy", "rate_hp", "rate_lp"))
        seen.setdefault(key, settings)
        if not settings["plan"] or number >= settings["plan"][-1]["after"]:
            break
    return list(seen.values())


def failing_parts(found):
    """The parts of the premise of the theorem on noise that fail. The premise is `Returns` in
    crates/cmd_receive/specs/OwnLaws.antt and `IsWithin` in crates/law_link/specs/Returned.antt. That `receive` accepts the
    file at all is added here."""
    file, sent, most = found.file, found.sent, found.file.settings["max_symbols"]
    parts = [
        (found.beyond, f"data cells beyond the tolerance: {found.beyond}"),
        (found.weightless, f"data cells of weight 0: {found.weightless}"),
        (file.symbols % SUPER_FRAME, f"its {file.symbols} symbols are no whole super-frames"),
        (file.settings["start"] != "zero", "the settings do not start at zero"),
        (file.version is Version1, "it has no header, so receive refuses it"),
        (file.symbols > most, f"receive takes {most} symbols of it, by max_symbols"),
    ]
    if sent:
        parts.append((sent.symbols != file.symbols, f"it has {file.symbols} symbols, and {sent.symbols} were sent"))
        parts.append((found.off, f"{sent.name} is no transmission: data cells of it that stand on no point: {found.off}"))
    return [text for fails, text in parts if fails]


def verdict(failing, sent):
    """Whether the theorem on noise applies to the cells, or what keeps it from that."""
    if failing:
        return f"the theorem on noise does not apply: {'; '.join(failing)}"
    if sent:
        return "the theorem on noise applies: what was sent comes back, then null packets"
    return "no part of the premise of the theorem on noise fails; which points were sent, and how many symbols, is not known without --sent"


def spread(ratios):
    """Least, middle and greatest of some ratios."""
    return f"least {shown(ratios.min())}, middle {shown(float(np.median(ratios)))}, greatest {shown(ratios.max())}"


def pilots_by_name(count, re, im, power):
    """Amplitude and phase of pilots, each over its nominal value, from their count, both sums and the sum of their powers."""
    if not count:
        return {"count": 0, "amplitude": None, "phase_degrees": None, "spread": None}
    spread = math.sqrt(max(count * power - re * re - im * im, 0)) / count / BOOSTED
    amplitude, phase = math.hypot(re, im) / count / BOOSTED, math.degrees(math.atan2(im, re))
    return {"count": count, "amplitude": number(amplitude), "phase_degrees": number(phase), "spread": number(spread)}


def of_pilots(values):
    if not values["count"]:
        return "none"
    return "{count}, amplitude {amplitude:.4f}, phase {phase_degrees:.2f} degrees, spread {spread:.4f}".format(**values)


def draw(found, out):
    """Draws the ratio over carriers and over symbols to a PNG. Nothing is drawn at carriers and symbols without error."""
    figure, (above, below) = plots().subplots(2, 1, figsize=(10, 7), dpi=100)
    at, by_carrier = found.carriers()
    rows = [(above, at, by_carrier, "carrier"), (below, np.arange(found.file.symbols), found.symbols(), "symbol")]
    for axes, places, ratios, name in rows:
        is_drawn = np.isfinite(ratios)
        axes.plot(places[is_drawn], ratios[is_drawn], ".", markersize=3, color="#1f5fa8")
        axes.set(xlabel=name, ylabel="MER in dB")
        axes.grid(color="#e8e8e8")
    figure.suptitle(f"{found.file.name}: MER {shown(found.whole())} over {found.data} data cells")
    save(figure, out)
