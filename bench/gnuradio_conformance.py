#!/usr/bin/env python3
"""Compares GNU Radio's DVB-T transmitter (gr-dtv) with the rows of conformance/cells.tsv that it can send: those without a
hierarchy and without a plan.

usage: bench/gnuradio_conformance.py [--program CMD] [ROW ..]

For each row GNU Radio modulates the row's packets and null packets after them; of its symbols the first super-frame is turned to
cells and compared with those of the program, which must have the sums of the row. One line a row: the greatest difference of a
part over all carriers, and the carriers that differ by more than 1, by kind. The last line counts the rows that agree within 1.

Not part of the gate. Needs numpy and GNU Radio 3.10 (Debian: python3-numpy, gnuradio), run by the python3 that has them, on
Debian /usr/bin/python3.
"""
import argparse
import collections
import os
import pathlib
import shlex
import sys

TOP = pathlib.Path(__file__).resolve().parent.parent
sys.path.insert(0, str(TOP / "tools"))
sys.dont_write_bytecode = True

import numpy as np  # noqa: E402
from gnuradio import blocks, dtv, gr  # noqa: E402

from conformance_set import look, rows, streams, work  # noqa: E402
from conformance_set.layers import HEADER, Symbols  # noqa: E402

NULL = streams.NULL_HEADER + bytes([0xFF] * streams.PAYLOAD)
CONSTELLATIONS = {"qpsk": dtv.MOD_QPSK, "16qam": dtv.MOD_16QAM, "64qam": dtv.MOD_64QAM}
RATES = {"1/2": dtv.C1_2, "2/3": dtv.C2_3, "3/4": dtv.C3_4, "5/6": dtv.C5_6, "7/8": dtv.C7_8}
GUARDS = {"1/32": dtv.GI_1_32, "1/16": dtv.GI_1_16, "1/8": dtv.GI_1_8, "1/4": dtv.GI_1_4}
MODES = {"2k": (dtv.T2k, 2048), "8k": (dtv.T8k, 8192)}
CELL = np.dtype([("re", ">i2"), ("im", ">i2"), ("weight", "u1")])


def theirs(found, folder):
    """The parts of GNU Radio's cells in the first super-frame: symbols by carriers by real and imaginary part."""
    mode, points = MODES[found["mode"]]
    payload = rows.PAYLOAD[found["mode"]]
    rate = RATES[found["rate_hp"]]
    shape = (payload, CONSTELLATIONS[found["constellation"]], dtv.NH)
    count = rows.counts(found)["hp"]
    (folder / "in.ts").write_bytes(streams.packets("prbs23", count) + NULL * (2 * count + 24))
    cell_id = found.get("cell_id")
    # without a hierarchy the bits of the LP rate are sent as 000, those of 1/2 (EN 300 744, 4.6.2.6)
    signals = (*shape[1:], rate, dtv.C1_2, GUARDS[found["guard"]], mode, int(cell_id is not None), cell_id or 0)
    top = gr.top_block()
    top.connect(
        blocks.file_source(1, str(folder / "in.ts"), False),
        dtv.dvbt_energy_dispersal(1),
        dtv.dvbt_reed_solomon_enc(2, 8, 0x11D, 255, 239, 8, 51, 8),
        dtv.dvbt_convolutional_interleaver(136, 12, 17),
        dtv.dvbt_inner_coder(1, *shape, rate),
        dtv.dvbt_bit_inner_interleaver(*shape, mode),
        dtv.dvbt_symbol_inner_interleaver(payload, mode, 1),
        dtv.dvbt_map(*shape, mode, 1),
        dtv.dvbt_reference_signals(gr.sizeof_gr_complex, payload, points, *signals),
        blocks.head(gr.sizeof_gr_complex * points, rows.SUPER_FRAME),
        blocks.file_sink(gr.sizeof_gr_complex * points, str(folder / "samples"), False),
    )
    top.run()
    carriers = Symbols(found["mode"]).carriers
    first = (points - carriers + 1) // 2  # the place of carrier 0 among the points, the centre in the middle
    samples = np.fromfile(folder / "samples", np.complex64).reshape(-1, points)
    cells = np.fft.fftshift(np.fft.fft(samples), axes=1)[:, first : first + carriers]
    cells = cells * (4 / 3 / abs(cells[0, 0])) * 16384
    return np.stack([cells.real, cells.imag], axis=-1)


def compared(row, program):
    """What differs between GNU Radio's cells and those of a row, in words, and whether nothing does by more than 1."""
    found = rows.from_fields(row)
    symbols = Symbols(found["mode"])
    with work.Bench(program) as bench:
        content = work.modulated(bench, found)
        if work.digest(content) != row["cells"]:
            return "the program does not send the cells of this row", False
        ours = np.frombuffer(content, CELL, offset=HEADER).reshape(-1, symbols.carriers)
        sent = theirs(found, bench.folder)
    apart = np.abs(sent - np.stack([ours["re"], ours["im"]], axis=-1).astype(float)).max(axis=-1)
    if apart.shape[0] != ours.shape[0]:
        return f"GNU Radio gives {len(sent)} symbols", False
    wrong = np.argwhere(apart > 1)
    kinds = collections.Counter(look.kind(symbols, m, k).split(" (")[0].split(" ", 1)[1] for m, k in wrong[:200000:7])
    text = f"greatest difference {apart.max():.3f}"
    if len(wrong):
        tps = sorted({int(m) % 68 for m, k in wrong if k in symbols.tps})
        text += f", {len(wrong)} cells by more than 1, of them (each seventh) {dict(kinds)}, symbols {sorted(set(wrong[:, 0]))[:6]}.. , TPS bits {tps[:12]}"
    return text, not len(wrong)


def main():
    asked = argparse.ArgumentParser(usage=__doc__.split("\n\n")[1])
    asked.add_argument("--program", default=os.environ.get("DVBT_PROGRAM", str(TOP / "dist/dvbt-x86-64-v2")))
    asked.add_argument("rows", nargs="*")
    words = asked.parse_args()
    import csv

    with open(TOP / "conformance/cells.tsv", newline="") as file:
        every = list(csv.DictReader(file, delimiter="\t"))
    flat = [row for row in every if row["hierarchy"] == "none" and row["plan"] == "-" and row["row"] in (words.rows or [row["row"]])]
    agree = 0
    for row in flat:
        text, same = compared(row, shlex.split(words.program))
        agree += same
        print(f"row {row['row']} ({look.in_words(row)}): {text}", flush=True)
    print(f"{agree} of {len(flat)} rows agree within 1")


gr.logging().set_default_level(gr.log_levels.error)
if __name__ == "__main__":
    main()
