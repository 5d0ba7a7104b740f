#!/usr/bin/env python3
"""Runs a chain of GNU Radio's blocks (gr-dtv, gr-fec) over the files of a folder, for bench/peers, and prints the processor seconds of its
threads, without the start of Python.

usage: bench/gnuradio_chains.py transmitter|receiver|decoder 8k|2k FOLDER

transmitter: packets (MODE.ts) to the samples of each symbol, without guard intervals. receiver: the carriers of each symbol (points, as
write_points writes them) to packets (theirs.ts), after synchronisation; its decoder decides hard. decoder: soft bits of the rate 1/2 code
(soft) to bits of a byte each (theirs.bits). 8k is 64-QAM at 2/3, 2k QPSK at 1/2.

Needs GNU Radio 3.10 and numpy (Debian: gnuradio, python3-numpy), run by the python3 that has them, on Debian /usr/bin/python3.
"""
import os
import sys
import time

import numpy as np
from gnuradio import blocks, dtv, fec, gr

CELL = np.dtype([("re", ">i2"), ("im", ">i2"), ("weight", "u1")])
# carriers, payload cells and points of a symbol, constellation, rate, mode
MODES = {"8k": (6817, 6048, 8192, dtv.MOD_64QAM, dtv.C2_3, dtv.T8k), "2k": (1705, 1512, 2048, dtv.MOD_QPSK, dtv.C1_2, dtv.T2k)}
FRAME = 8192  # bits that gr-fec decodes at once


def transmitter(name):
    _, payload, points, shape, rate, mode = MODES[name]
    return [
        blocks.file_source(1, f"{name}.ts", False),
        dtv.dvbt_energy_dispersal(1),
        dtv.dvbt_reed_solomon_enc(2, 8, 0x11D, 255, 239, 8, 51, 8),
        dtv.dvbt_convolutional_interleaver(136, 12, 17),
        dtv.dvbt_inner_coder(1, payload, shape, dtv.NH, rate),
        dtv.dvbt_bit_inner_interleaver(payload, shape, dtv.NH, mode),
        dtv.dvbt_symbol_inner_interleaver(payload, mode, 1),
        dtv.dvbt_map(payload, shape, dtv.NH, mode, 1),
        dtv.dvbt_reference_signals(gr.sizeof_gr_complex, payload, points, shape, dtv.NH, rate, rate, dtv.GI_1_32, mode, 0, 0),
        blocks.file_sink(gr.sizeof_gr_complex * points, "theirs.samples", False),
    ]


def receiver(name):
    _, payload, points, shape, rate, mode = MODES[name]
    return [
        blocks.file_source(gr.sizeof_gr_complex * points, "points", False),
        dtv.dvbt_demod_reference_signals(gr.sizeof_gr_complex, points, payload, shape, dtv.NH, rate, rate, dtv.GI_1_32, mode, 0, 0),
        dtv.dvbt_demap(payload, shape, dtv.NH, mode, 1),
        dtv.dvbt_symbol_inner_interleaver(payload, mode, 0),
        dtv.dvbt_bit_inner_deinterleaver(payload, shape, dtv.NH, mode),
        blocks.vector_to_stream(1, payload),
        dtv.dvbt_viterbi_decoder(shape, dtv.NH, rate, 768),
        dtv.dvbt_convolutional_deinterleaver(136, 12, 17),
        dtv.dvbt_reed_solomon_dec(2, 8, 0x11D, 255, 239, 8, 51, 8),
        dtv.dvbt_energy_descramble(8),
        blocks.file_sink(1, "theirs.ts", False),
    ]


def decoder(_name):
    code = fec.cc_decoder.make(FRAME, 7, 2, [0x4F, 0x6D], 0, -1, fec.CC_TRUNCATED, False)
    return [blocks.file_source(1, "soft", False), fec.decoder(code, 1, 1), blocks.file_sink(1, "theirs.bits", False)]


def write_points(cells, name, to):
    """The carriers of a cell file among the points of a symbol, as GNU Radio has them."""
    carriers, _, points, *_ = MODES[name]
    file = np.fromfile(cells, CELL, offset=8).reshape(-1, carriers)
    first = (points - carriers + 1) // 2  # the place of carrier 0 among the points, the centre in the middle
    found = np.zeros((len(file), points), np.complex64)
    found[:, first : first + carriers] = (file["re"] + 1j * file["im"]) / 16384
    found.tofile(to)


def main():
    chain, name, folder = sys.argv[1:]
    os.chdir(folder)
    gr.logging().set_default_level(gr.log_levels.error)  # not how it chose its buffers
    top = gr.top_block()
    top.connect(*{"transmitter": transmitter, "receiver": receiver, "decoder": decoder}[chain](name))
    begun = time.process_time()
    top.run()
    print(time.process_time() - begun)


if __name__ == "__main__":
    main()
