"""What is in a cell file: symbols, TPS, powers, and a picture of the constellation."""
import numpy as np

from cell_tools.files import Votes
from cell_tools.plots import plots, save
from cell_tools.result import Result, number
from cell_tools.settings import Unfit, settings_in
from cell_tools.standard import (
    CONTINUAL_PILOT, DATA, FRAME, KINDS, NAMES, SCATTERED_PILOT, SYNC, TPS_CARRIER, UNIT,
    bch_rest, described, field, ideal_points, spaced,
)
from cell_tools.tps import differences, fields_of

SHOWN = ["data", "continual pilots", "scattered pilots", "TPS"]


class Look:
    """What is gathered of a file as it is read: TPS, powers, and the cells that are drawn."""

    def __init__(self, file, symbols, names):
        self.file, self.symbols = file, symbols
        self.votes = Votes(file.carriers)
        self.totals, self.counts = np.zeros(4), np.zeros(4, int)
        self.found = {kind: [np.zeros(0, "u4"), 0] for name in names for kind in KINDS[name]}
        kinds = [file.carriers.kinds(l) for l in range(4)]
        if (symbols.start or 0) < 0 or (symbols.stop or 0) < 0 or (symbols.step or 1) < 0:
            if not file.is_plain:
                raise Unfit("--symbols counts from the end, which is not known in a pipe", 2)
        self.chosen = range(file.symbols)[symbols] if file.is_plain else range(1 << 62)[symbols]
        for frame in file.frames():
            self.votes.add(frame)
            for l in range(min(4, frame.symbols)):
                self.powers(kinds[l], frame.cells[l::4].astype(np.float32))
            self.choose(frame, kinds)
        self.chosen = range(file.symbols)[symbols]

    def powers(self, kinds, parts):
        """Counts and powers of the four kinds of carriers."""
        power = np.einsum("mkp,mkp->k", parts, parts, dtype=float)
        self.totals += np.bincount(kinds, power, 4)
        self.counts += np.bincount(kinds, minlength=4) * len(parts)

    def choose(self, frame, kinds):
        """Gathers the points of a frame that are drawn, each once, and counts the cells."""
        for m in range(frame.symbols) if self.found else ():
            if frame.first + m in self.chosen:
                words = np.ascontiguousarray(frame.words[m])
                for kind, kept in self.found.items():
                    cells = words[kinds[m % 4] == kind]
                    kept[0], kept[1] = np.union1d(kept[0], cells), kept[1] + len(cells)

    def points(self):
        """For each kind that is drawn the distinct points, and how many cells stand on them."""
        return {kind: (words.view(">i2").reshape(-1, 2) / UNIT, count) for kind, (words, count) in sorted(self.found.items())}


def look(file, words):
    """Looks into the file and draws it. Each TPS word should be as the settings say."""
    symbols = words.symbols or slice(0, 4)
    seen = Look(file, symbols, words.kinds if words.out else [])
    if not file.symbols:
        raise Unfit(f"{file.name} has no whole symbol of {file.size} bytes", 9, file.path)
    if (words.symbols or words.out) and not seen.chosen:
        raise Unfit(f"no symbol of the {file.symbols} in the file is in --symbols", 2)
    if words.out and len({file.points(m) for m in seen.chosen}) > 1:
        raise Unfit("the symbols of --symbols have different constellations; draw those of one", 2)
    tps = Words(file, seen.votes, words.frames)
    if tps.words and not tps.numbers:
        raise Unfit(f"no frame of the {len(tps.words)} in the file is in --frames", 2)
    lines = [f"symbols {file.symbols} of {file.size} bytes, bytes left over {file.left_over}"]
    lines += [*tps.lines(words.verbose), *lines_of_powers(seen)]
    if words.out:
        draw(file, seen, words.labels, words.out)
        lines.append(f"picture {words.out}")
    report = {"symbols": file.symbols, "symbol_bytes": file.size, "left_over": file.left_over, "version": file.version.NUMBER}
    report.update(tps=tps.report(), power=powers_by_name(seen))
    failing = f"{tps.wrong} of {len(tps.numbers)} TPS words are wrong" if tps.wrong else None
    return Result(lines, report, failing, [words.out] if words.out else [])


class Words:
    """The TPS words of whole frames, and whether they are as the settings say."""

    def __init__(self, file, votes, frames):
        self.file, self.votes, self.words = file, "".join(votes.bits), votes.words()
        self.numbers = range(len(self.words))[frames]
        self.said, self.wrong, self.detailed = {}, 0, []  # the frames of each text, those that are wrong, and three lines for each
        for n in self.numbers:
            self.add(n, self.words[n])

    def add(self, n, word):
        """Takes the word of frame n."""
        text = described(word, settings_in(self.file.settings, n // 4 + 1))  # of the next super-frame (4.6.2)
        sync, _, _, fields = text.split(", ", 3)
        is_placed = word[:16] not in SYNC or field(word, 23, 24) == n % 4
        self.wrong += "DIFFERS" in text or bch_rest(word) != 0 or sync == "sync wrong" or not is_placed
        self.said.setdefault(f"{sync}, {fields}" if sync == "sync wrong" else fields, []).append(n)
        self.detailed.append(f"frame {n % 4 + 1} of super-frame {n // 4}, symbols {FRAME * n} to {FRAME * n + 67}")
        self.detailed += [f"  s1..s67 {spaced(word)}", f"  {text}"]
        if not is_placed:
            self.detailed.append("  (a cell file begins with frame 1 of a super-frame; this one does not)")

    def lines(self, is_verbose):
        """A line for words that say the same, or with `is_verbose` three lines for each."""
        yield from self.detailed if is_verbose else ()
        yield f"frames {len(self.words)}, symbols after the last whole one {self.file.symbols % FRAME}"
        yield f"TPS words looked at {len(self.numbers)}, wrong {self.wrong}"
        for text, at in () if is_verbose else self.said.items():
            yield f"  {text} ({len(at)} frame{'s' * (len(at) > 1)}, from 0: {listed(at)})"
        begins = self.begins()
        if begins is not None:
            yield f"  no frame begins where it should, but one begins at symbol {begins}: a cell file begins with a frame"

    def fields(self, n):
        """The fields of the word of frame n by name."""
        word, settings = self.words[n], settings_in(self.file.settings, n // 4 + 1)
        found = fields_of(word)
        checks = {"is_parity_right": bch_rest(word) == 0, "differs": differences(word, found, settings)}
        return {**found, "length": field(word, 17, 22), **checks}

    def begins(self):
        """Which symbol begins a frame in a file that does not begin with one, or None."""
        if not self.words or any(word[:16] in SYNC for word in self.words):
            return None
        starts = range(len(self.votes) - FRAME + 1)
        return next((m for m in starts if self.votes[m + 1 : m + 17] in SYNC and bch_rest(self.votes[m + 1 : m + 68]) == 0), None)

    def report(self):
        """The same by name."""
        said = [{"text": text, "frames": at, **self.fields(at[0])} for text, at in self.said.items()]
        found = {"frames": len(self.words), "symbols_after": self.file.symbols % FRAME, "looked_at": len(self.numbers), "wrong": self.wrong}
        return {**found, "said": said, "frame_begins_at": self.begins()}


def listed(numbers):
    """The first numbers of a list, in words."""
    return ", ".join(map(str, numbers[:4])) + (f" and {len(numbers) - 4} more" if len(numbers) > 4 else "")


def lines_of_powers(seen):
    """Counts and mean powers of the four kinds of carriers, over all symbols."""
    yield f"mean power (1 is {UNIT}^2)"
    for name, total, count in zip(SHOWN, seen.totals, seen.counts):
        yield f"  {name:17} {total / count / UNIT**2:.4f}  of {count} cells"


def powers_by_name(seen):
    rows = zip(NAMES, seen.totals, seen.counts)
    return {name: {"cells": int(count), "mean": number(total / count / UNIT**2)} for name, total, count in rows}


def draw(file, seen, labels, out):
    """Draws the constellation to a PNG."""
    found = seen.points()
    figure, axes = plots().subplots(figsize=(8, 8.4), dpi=100)
    frame_axes(axes, found)
    for kind, (points, count) in found.items():
        draw_kind(axes, kind, points, count)
    if DATA in found:
        draw_ideal(axes, file.settings_at(seen.chosen[0]), labels)
    axes.set_title(title(file, seen.chosen))
    legend = axes.legend(loc="upper center", bbox_to_anchor=(0.5, -0.08), ncol=2, frameon=False)
    handles = legend.legend_handles if hasattr(legend, "legend_handles") else legend.legendHandles
    for handle in handles:
        handle.set_sizes([40])
        handle.set_alpha(1)
    save(figure, out)


def draw_kind(axes, kind, points, count):
    """The cells of one kind: large marks for few points, small ones for clouds."""
    colour, mark, name, large, small, height = {
        DATA: ("#1f5fa8", "o", "data cells", 26, 4, 4),
        SCATTERED_PILOT: ("#e67e22", "D", "scattered pilots", 90, 5, 5),
        CONTINUAL_PILOT: ("#a01c12", "s", "continual pilots", 22, 8, 6),
        TPS_CARRIER: ("#1e8449", "^", "TPS cells", 50, 14, 7),
    }[kind]
    shown = {"s": large} if len(points) <= 64 else {"s": small, "alpha": 0.6}
    shown |= {"marker": mark, "color": colour, "linewidths": 0, "zorder": height}
    axes.scatter(points[:, 0], points[:, 1], label=f"{count} {name}", **shown)


def title(file, numbers):
    """The title of a picture of these symbols."""
    first, last = numbers[0], numbers[-1]
    settings = file.settings_at(first)
    words = [settings["mode"].upper(), settings["constellation"].upper().replace("QAM", "-QAM")]
    if settings["hierarchy"] != "none":
        words.append(f"hierarchical, α = {settings['hierarchy']}")
    words.append(f"symbol {first}" if first == last else f"symbols {first} to {last}")
    return ", ".join(words)


def frame_axes(axes, found):
    """The frame of a picture: the same scale both ways, wide enough for all points."""
    reach = max([1.5] + [abs(points).max() + 0.1 for points, count in found.values() if count])
    axes.set(xlim=(-reach, reach), ylim=(-reach, reach), aspect="equal")
    axes.set(xlabel=f"real part, 1 is {UNIT}", ylabel=f"imaginary part, 1 is {UNIT}")
    axes.axhline(0, color="#888888", linewidth=0.8, zorder=1)
    axes.axvline(0, color="#888888", linewidth=0.8, zorder=1)
    axes.grid(color="#e8e8e8")
    axes.set_axisbelow(True)


def draw_ideal(axes, settings, labels):
    """Rings round the points of the standard; their labels, and with a hierarchy the HP bits of the quadrants."""
    points = ideal_points(settings)
    places = [p[0] for p in points], [p[1] for p in points]
    ring = {"s": 70, "facecolors": "none", "edgecolors": "black", "linewidths": 0.9, "zorder": 9}
    axes.scatter(*places, label="points of the standard", **ring)
    is_flat = settings["hierarchy"] == "none"
    if labels:
        paper = {"facecolor": "white", "edgecolor": "none", "alpha": 0.7, "pad": 0.5}
        for x, y, label in points:
            text = label if is_flat else f"{label[:2]} {label[2:]}"
            shown = {"ha": "center", "fontsize": 7, "family": "monospace", "bbox": paper, "zorder": 8}
            axes.annotate(text, (x, y), xytext=(0, 7), textcoords="offset points", **shown)
    if not is_flat:
        for re, x in (("0", 0.985), ("1", 0.015)):
            for im, y in (("0", 0.985), ("1", 0.015)):
                shown = {"ha": "right" if re == "0" else "left", "va": "top" if im == "0" else "bottom"}
                shown |= {"fontsize": 11, "weight": "bold", "color": "#666666"}
                axes.text(x, y, f"HP {re}{im}", transform=axes.transAxes, **shown)
