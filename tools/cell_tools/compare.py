"""How two cell files differ: the first place, counts by kind of carrier, by label bit and by TPS bit, and the likeliest cause."""
import functools

import numpy as np

from cell_tools.causes import likeliest, plural
from cell_tools.result import Result
from cell_tools.settings import Unfit
from cell_tools.standard import CONTINUAL_PILOT, DATA, FRAME, NAMES, ROWS, SCATTERED_PILOT, TPS_CARRIER
from cell_tools.sums import side_by_side

# The clauses of EN 300 744 that say what such a carrier carries.
CLAUSES = {
    CONTINUAL_PILOT: "4.5.4 (place), 4.5.2 and 4.5.5 (value)",
    SCATTERED_PILOT: "4.5.3 (place), 4.5.2 and 4.5.5 (value)",
    TPS_CARRIER: "4.6",
}
LISTED = 12  # carriers that are listed
SAMPLE = 24  # symbols by which causes are tried


def compare(one, other, within):
    """How the file `one` differs from `other`, the measure; it should not. Parts that differ by `within` at most count as the same."""
    if str(one.path) == str(other.path) == "-":
        raise Unfit("only one of the files can be standard input", 2)
    found = Differences(one, within)
    for ours, theirs in side_by_side(one, other):
        if ours and theirs:
            found.add(ours, theirs)
    files = ("A", one), ("B", other)
    lines = [f"{name} {it.name}: {it.symbols} symbols, bytes left over {it.left_over}" for name, it in files]
    report = {name.lower(): {"symbols": it.symbols, "left_over": it.left_over, "version": it.version.NUMBER} for name, it in files}
    if not found.both:
        nothing = "no whole symbol, so nothing is compared"
        return Result([*lines, nothing], {**report, **found.report()}, nothing)
    lines += found.lines()
    is_same_length = (one.symbols, one.left_over) == (other.symbols, other.left_over)
    if not is_same_length:
        lines.append("the files have different lengths")
    is_same = is_same_length and found.counts.sum() == 0 and found.weighed == 0
    lines.append("the same" if is_same and within == 0 else f"the same within {within}" if is_same else "DIFFERENT")
    return Result(lines, {**report, **found.report()}, None if is_same else "the files differ")


class Differences:
    """Counts of the cells that differ."""

    def __init__(self, file, within):
        self.file, self.within = file, within
        self.kinds = [file.carriers.kinds(l) for l in range(4)]
        self.counts, self.totals = np.zeros(4, int), np.zeros(4, int)
        self.by_carrier = np.zeros(file.carriers.count, int)
        self.bits = np.zeros(0, int)
        self.only_size = 0  # data cells that differ and have the same label
        self.first, self.first_symbols, self.sorted_alike, self.symbols, self.weighed = None, {}, 0, 0, 0
        self.both = 0  # symbols that both files have
        self.samples = []  # symbols of the first frames that differ, at most two: a cause that begins in mid-frame is whole in the next

    def add(self, one, other):
        """Counts a frame of both files; of the longer one its symbols that the other has."""
        symbols = min(one.symbols, other.symbols)
        self.both += symbols
        self.weighed += int(np.count_nonzero(one.weights[:symbols] != other.weights[:symbols]))
        for l in range(min(4, symbols)):
            self.totals += np.bincount(self.kinds[l], minlength=4) * len(range(l, symbols, 4))
        if np.array_equal(one.words[:symbols], other.words[:symbols]):
            return
        ours, theirs = one.cells[:symbols].astype(int), other.cells[:symbols].astype(int)
        wrong = np.any(abs(ours - theirs) > self.within, axis=2)
        if not wrong.any():
            return
        if len(self.samples) < 2:
            begin = max(0, min(int(np.argmax(wrong.any(axis=1))), symbols - SAMPLE))
            self.samples.append([it.cells[begin : begin + SAMPLE].astype(float)[: symbols - begin] for it in (one, other)])
        self.symbols += int(np.count_nonzero(wrong.any(axis=1)))
        self.by_carrier += wrong.sum(axis=0)
        self.find_first(one.first, wrong, ours, theirs)
        for l in range(min(4, symbols)):
            self.counts += np.bincount(self.kinds[l], wrong[l::4].sum(axis=0), minlength=4).astype(int)
            self.labels(self.file.points(one.first), self.kinds[l] == DATA, wrong[l::4], ours[l::4], theirs[l::4])

    def find_first(self, first, wrong, ours, theirs):
        """Keeps the first cell that differs, and the first symbol of each kind."""
        for m in np.flatnonzero(wrong.any(axis=1)):
            kinds = self.kinds[m % 4]
            if self.first is None:
                k = int(np.argmax(wrong[m]))
                self.first = first + int(m), k, int(kinds[k]), ours[m, k], theirs[m, k]
            for kind in set(kinds[wrong[m]].tolist()) - set(self.first_symbols):
                self.first_symbols[kind] = first + int(m)
            if len(self.first_symbols) == 4:
                return

    def labels(self, points, is_data, wrong, ours, theirs):
        """Counts the label bits that differ in data cells, and the symbols that have the same labels in another order."""
        data = wrong & is_data
        if not data.any():
            self.sorted_alike += int(np.count_nonzero(wrong.any(axis=1)))
            return
        turned = points.labels(ours[data]) != points.labels(theirs[data])
        if len(self.bits) < points.width:
            self.bits = np.pad(self.bits, (0, points.width - len(self.bits)))
        self.bits[: points.width] += turned.sum(axis=0)
        self.only_size += int(np.sum(~turned.any(axis=1)))
        rows = np.flatnonzero(wrong.any(axis=1))
        values = 1 << np.arange(points.width)
        sorted_labels = [np.sort(points.labels(it[rows][:, is_data]) @ values, axis=1) for it in (ours, theirs)]
        self.sorted_alike += int(np.sum(np.all(sorted_labels[0] == sorted_labels[1], axis=1)))

    def lines(self):
        """The first difference, the counts and where to look."""
        yield from self.first_lines() if self.first else ()
        yield f"of {self.both} symbols {self.symbols} differ"
        for kind, name in enumerate(NAMES):
            since = f", first in symbol {self.first_symbols[kind]}" if kind in self.first_symbols else ""
            yield f"  {name:9} {self.counts[kind]} of {self.totals[kind]} cells differ{since}"
        if self.counts[DATA]:
            yield "  label bits that differ: " + ", ".join(f"y{bit} {count}" for bit, count in enumerate(self.bits))
            yield f"  data cells with the same label and another value: {self.only_size}"
        always = self.always()
        if always:
            more = f" and {len(always) - LISTED} more" if len(always) > LISTED else ""
            yield f"  carriers that differ in all symbols: {', '.join(map(str, always[:LISTED]))}{more}"
        if self.first:
            yield f"  {self.hint}"
        if self.weighed:
            yield f"weights that differ: {self.weighed} of {self.both * self.file.carriers.count}"

    def always(self):
        """The carriers that differ in all symbols, if these are some and not all."""
        found = np.flatnonzero(self.by_carrier == self.both) if self.both > 1 else []
        return list(map(int, found)) if len(found) < self.file.carriers.count else []

    def report(self):
        """The same by name."""
        kinds = {name: {"cells": int(self.totals[kind]), "differ": int(self.counts[kind]), "first_symbol": self.first_symbols.get(kind)}
                 for kind, name in enumerate(NAMES)}
        values = {"symbols": self.both, "symbols_that_differ": self.symbols, "cells": kinds, "label_bits": list(map(int, self.bits))}
        values.update(same_label=self.only_size, carriers_in_all_symbols=self.always(), weights_that_differ=self.weighed, first=None)
        if self.first:
            m, k, kind, ours, theirs = self.first
            values["first"] = {"symbol": m, "carrier": k, "kind": NAMES[kind], "a": list(map(int, ours)), "b": list(map(int, theirs))}
        return {**values, "hint": self.hint if self.first else None}

    def first_lines(self):
        """The first cell that differs, and what the standard has there."""
        m, k, kind, ours, theirs = self.first
        l, frame = m % FRAME, m // FRAME
        yield f"first difference: symbol {m} (symbol {l} of frame {frame % 4 + 1} of super-frame {frame // 4}), carrier {k}, {NAMES[kind]}"
        yield f"  A {ours[0]}, {ours[1]}; B {theirs[0]}, {theirs[1]}"
        if kind == DATA:
            q = int(np.sum(self.file.carriers.kinds(l)[:k] == DATA))
            points = self.file.points(m)
            a, b = ("".join(map(str, points.labels(it))) for it in (ours, theirs))
            bits = [f"y{bit}" for bit in range(points.width) if a[bit] != b[bit]]
            differs = f"{', '.join(bits)} differ{'s' * (len(bits) == 1)}" if bits else "the same label: levels, 4.3.5"
            yield f"  payload carrier {q} of the symbol; label of the nearest point: A {a}, B {b}; {differs}"
            interleaver = f"symbol interleaver, {'odd' if m % 2 else 'even'} symbol"
            yield f"  clauses: 4.3.4.1 (demultiplexing, bit interleavers), 4.3.4.2 ({interleaver}), 4.3.5 (mapping)"
            return
        if kind == TPS_CARRIER:
            row = next(text for first, last, text in ROWS if first <= l <= last)
            yield f"  it carries s{l}, {row}" if l else f"  it carries {row}"
        yield f"  clause: {CLAUSES[kind]}"

    @functools.cached_property
    def hint(self):
        """Where to look first: the likeliest cause, then pilots, TPS, and the pattern of the data cells that differ."""
        if self.counts.sum() == 1:
            return "a single cell differs: a fault of storing or passing on, not of modulation"
        cause = likeliest(*self.samples[-1], self.within)
        if cause:
            return f"likeliest cause: {cause}"
        pilots = self.counts[CONTINUAL_PILOT] + self.counts[SCATTERED_PILOT]
        if pilots > 0.01 * (self.totals[CONTINUAL_PILOT] + self.totals[SCATTERED_PILOT]):
            return self.hint_of_pilots()
        if not self.counts[DATA]:
            only_tps = "only TPS differs: look at the row of the table of TPS bits (4.6.2)"
            return "few pilots differ, and no data cells: look at the first difference" if pilots else only_tps
        return self.hint_of_data()

    def hint_of_pilots(self):
        """Where to look when pilots differ: whatever comes after them can't be right."""
        if self.only_size == self.counts[DATA] and not self.counts[SCATTERED_PILOT]:
            return "continual pilots differ: look at their carriers and the reference sequence (4.5.2, 4.5.4), before anything else"
        if not self.counts[CONTINUAL_PILOT]:
            return "scattered pilots differ: is the first symbol number 0 of a frame (4.5.3)? Look at them before anything else"
        return "pilots differ, too: look at their carriers, signs and values (4.5.2 to 4.5.5) before the data cells and their coding"

    def hint_of_data(self):
        """Where to look when data cells differ and pilots don't."""
        if self.only_size == self.counts[DATA]:
            return "all labels agree: look at the levels of the constellation (4.3.5)"
        if self.only_size > 0.9 * self.counts[DATA]:
            return "nearly all labels agree: noise, or the levels of the constellation (4.3.5); cells.py measure says how much"
        if self.sorted_alike == self.symbols:
            return "each symbol has the same labels in another order: look at the symbol interleaver (4.3.4.2)"
        if np.count_nonzero(self.bits) < len(self.bits):
            return "some label bits always agree: look at the bit interleavers and the mapping of the others (4.3.4.1, 4.3.5)"
        if self.counts[DATA] > 0.4 * self.totals[DATA]:
            return "nearly all data cells differ: look at the coding before the interleavers (4.3.1 to 4.3.3), and at what was sent"
        return f"{plural(int(self.counts[DATA]), 'data cell')} of {plural(self.symbols, 'symbol')} differ: look at the first difference"
