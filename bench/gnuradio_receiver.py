#!/usr/bin/env python3
"""Takes a cell file to samples by the recipe of docs/use/FILES.md and lets GNU Radio's DVB-T receiver take them back to packets.

usage: bench/gnuradio_receiver.py SETTINGS TS CELLS

SETTINGS and TS are those that CELLS was made with. Prints how many packets came back, how many of them are packets of TS
and whether these follow one another without a gap; ends with 0 where at least one came back and all that came back are
packets of TS (or null packets behind it), in order. The receiver gives nothing until it has found a super-frame's
start, so make TS long: three super-frames or more. Transmissions without a hierarchy alone: its blocks know no other.

An outside check, no part of the gate. Needs numpy and GNU Radio 3.10 (Debian: python3-numpy, gnuradio); run it by the
python3 that has them, on Debian /usr/bin/python3.
"""
import pathlib
import sys
import tempfile
import tomllib

import numpy as np
from gnuradio import blocks, dtv, fft, gr

NULL = bytes([0x47, 0x1F, 0xFF, 0x10]) + b"\xff" * 184
SIZES = {"2k": (1705, 1512, 2048, dtv.T2k), "8k": (6817, 6048, 8192, dtv.T8k)}
SHAPES = {"qpsk": (dtv.MOD_QPSK, 2), "16qam": (dtv.MOD_16QAM, 4), "64qam": (dtv.MOD_64QAM, 6)}
RATES = {"1/2": dtv.C1_2, "2/3": dtv.C2_3, "3/4": dtv.C3_4, "5/6": dtv.C5_6, "7/8": dtv.C7_8}
GUARDS = {"1/32": dtv.GI_1_32, "1/16": dtv.GI_1_16, "1/8": dtv.GI_1_8, "1/4": dtv.GI_1_4}


def write_samples(path, cells, carriers, points, guard):
    """The samples of a cell file, by the recipe of docs/use/FILES.md."""
    file = np.fromfile(cells, dtype=[("re", ">i2"), ("im", ">i2"), ("weight", "u1")], offset=8).reshape(-1, carriers)
    values = (file["re"] + 1j * file["im"]) / 16384
    spectrum = np.zeros((len(values), points), complex)
    spectrum[:, (np.arange(carriers) - (carriers - 1) // 2) % points] = values
    body = np.fft.ifft(spectrum) * points / carriers**0.5
    np.concatenate([body[:, -guard:], body], axis=1).ravel().astype(np.complex64).tofile(path)


def receive(settings, samples, out):
    """Runs GNU Radio's receiver from a file of samples to a file of packets."""
    carriers, payload, points, mode = SIZES[settings["mode"]]
    shape, _ = SHAPES[settings["constellation"]]
    rate, guard = RATES[settings["rate_hp"]], GUARDS[settings["guard"]]
    cell = settings.get("cell_id")
    top = gr.top_block()
    top.connect(
        blocks.file_source(gr.sizeof_gr_complex, samples, False),
        dtv.dvbt_ofdm_sym_acquisition(1, points, carriers, points // int(settings["guard"][2:]), 30),
        fft.fft_vcc(points, True, [1.0] * points, True, 1),
        dtv.dvbt_demod_reference_signals(
            gr.sizeof_gr_complex, points, payload, shape, dtv.NH, rate, rate, guard, mode, int(cell is not None), cell or 0
        ),
        dtv.dvbt_demap(payload, shape, dtv.NH, mode, 1),
        dtv.dvbt_symbol_inner_interleaver(payload, mode, 0),
        dtv.dvbt_bit_inner_deinterleaver(payload, shape, dtv.NH, mode),
        blocks.vector_to_stream(1, payload),
        dtv.dvbt_viterbi_decoder(shape, dtv.NH, rate, 768),
        dtv.dvbt_convolutional_deinterleaver(136, 12, 17),
        dtv.dvbt_reed_solomon_dec(2, 8, 0x11D, 255, 239, 8, 51, 8),
        dtv.dvbt_energy_descramble(8),
        blocks.file_sink(1, out, False),
    )
    top.run()


def packets(path):
    """The packets of a transport file."""
    content = pathlib.Path(path).read_bytes()
    return [content[i : i + 188] for i in range(0, len(content) - 187, 188)]


def main():
    if len(sys.argv) != 4:
        sys.exit(__doc__)
    settings = tomllib.loads(pathlib.Path(sys.argv[1]).read_text())
    if settings.get("hierarchy", "none") != "none":
        sys.exit("GNU Radio's receiver knows no hierarchy")
    carriers, _, points, _ = SIZES[settings["mode"]]
    with tempfile.TemporaryDirectory() as folder:
        samples, out = folder + "/samples", folder + "/out.ts"
        write_samples(samples, sys.argv[3], carriers, points, points // int(settings["guard"][2:]))
        receive(settings, samples, out)
        back = packets(out)
    sent = packets(sys.argv[2])
    # null packets follow the last packet that was sent
    first = sent.index(back[0]) if back and back[0] in sent else None
    is_run = first is not None and back == (sent[first:] + [NULL] * len(back))[: len(back)]
    ours = min(len(back), len(sent) - first) if is_run else sum(packet in set(sent) for packet in back)
    print(f"sent {len(sent)}, back {len(back)}, of them sent ones {ours}, {'in a row' if is_run else 'NOT in a row'}"
          + (f", packets {first} to {first + ours - 1}" if is_run else ""))
    sys.exit(0 if is_run else 1)


if __name__ == "__main__":
    main()
