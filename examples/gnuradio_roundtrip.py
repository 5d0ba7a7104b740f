#!/usr/bin/env python3
"""Round trips between dvbt and GNU Radio's DVB-T blocks (gr-dtv), step by step, as a notebook.

usage: examples/gnuradio_roundtrip.py

One way: GNU Radio modulates a transport file, `dvbt receive` takes its cells back, and tools/cells.py compares them with those of
`dvbt modulate`. Other way: `dvbt modulate` makes cells, and GNU Radio takes them back to packets. Ends with 0 where the
packets come back both ways. Passed over with a message where GNU Radio 3.10 or numpy is not installed (Debian: gnuradio,
python3-numpy). Each part `# %%` is a cell for editors that know them.
"""
# %% What is needed
import os
import pathlib
import random
import subprocess
import sys
import tempfile

TOP = pathlib.Path(__file__).resolve().parent.parent
sys.path.insert(0, str(TOP / "tools"))
from cell_tools.interpreter import try_debian  # noqa: E402

try:
    import numpy as np
    from gnuradio import blocks, dtv, gr
except ImportError as error:
    try_debian()
    print(f"gnuradio_roundtrip.py: passed over: GNU Radio or numpy is not installed ({error})")
    sys.exit(0)

CARRIERS, PAYLOAD, POINTS = 1705, 1512, 2048  # of the 2K mode
SETTINGS = 'mode = "2k"\nconstellation = "qpsk"\nrate_hp = "1/2"\nguard = "1/32"\ncell_id = 0\n'
SHAPE = (PAYLOAD, dtv.MOD_QPSK, dtv.NH)
SIGNALS = (dtv.MOD_QPSK, dtv.NH, dtv.C1_2, dtv.C1_2, dtv.GI_1_32, dtv.T2k, 1, 0)
FIRST = (POINTS - CARRIERS + 1) // 2  # the place of carrier 0 among the points, the centre in the middle
COUNT = 252 * 4  # packets: four super-frames


def run(*words):
    """Runs a command of the repository and shows it."""
    print("$", *words)
    ran = subprocess.run([TOP / words[0], *words[1:]], stdout=subprocess.PIPE, text=True)
    print(ran.stdout, end="")
    return ran.returncode


def connected(*parts):
    """Runs these blocks, one behind the other."""
    top = gr.top_block()
    top.connect(*parts)
    top.run()


gr.logging().set_default_level(gr.log_levels.error)  # not how it chose its buffers
folder = tempfile.TemporaryDirectory()
os.chdir(folder.name)
pathlib.Path("s.toml").write_text(SETTINGS)
random.seed(1)
packets = [b"\x47" + random.randbytes(187) for _ in range(COUNT)]
pathlib.Path("in.ts").write_bytes(b"".join(packets))

# %% GNU Radio modulates: each block is a layer of EN 300 744
connected(
    blocks.file_source(1, "in.ts", False),
    dtv.dvbt_energy_dispersal(1),  # 4.3.1
    dtv.dvbt_reed_solomon_enc(2, 8, 0x11D, 255, 239, 8, 51, 8),  # 4.3.2
    dtv.dvbt_convolutional_interleaver(136, 12, 17),  # 4.3.2
    dtv.dvbt_inner_coder(1, *SHAPE, dtv.C1_2),  # 4.3.3
    dtv.dvbt_bit_inner_interleaver(*SHAPE, dtv.T2k),  # 4.3.4.1
    dtv.dvbt_symbol_inner_interleaver(PAYLOAD, dtv.T2k, 1),  # 4.3.4.2
    dtv.dvbt_map(*SHAPE, dtv.T2k, 1),  # 4.3.5
    dtv.dvbt_reference_signals(gr.sizeof_gr_complex, PAYLOAD, POINTS, *SIGNALS),  # 4.4 to 4.6
    blocks.file_sink(gr.sizeof_gr_complex * POINTS, "theirs.samples", False),
)
# the last block has made samples of each symbol, without its guard interval; carrier 0 is always a pilot of 4/3
samples = np.fromfile("theirs.samples", np.complex64).reshape(-1, POINTS)
symbols = len(samples) // 272 * 272
cells = np.fft.fftshift(np.fft.fft(samples[:symbols]), axes=1)[:, FIRST : FIRST + CARRIERS]
cells *= 4 / 3 / abs(cells[0, 0])
CELL = np.dtype([("re", ">i2"), ("im", ">i2"), ("weight", "u1")])
HEADER = b"DVTC\x02\x00\x00\x00"  # a cell file of the 2K mode
file = np.empty(cells.shape, CELL)
file["re"], file["im"], file["weight"] = np.rint(cells.real * 16384), np.rint(cells.imag * 16384), 15
pathlib.Path("theirs.cells").write_bytes(HEADER + file.tobytes())
print(f"GNU Radio made {len(samples)} symbols, {symbols} of them in whole super-frames")

# %% dvbt receives them
run("bin/dvbt", "receive", "s.toml", "theirs.cells", "back.ts")
back = pathlib.Path("back.ts").read_bytes()
received = [back[i : i + 188] for i in range(0, len(back), 188)]
is_first_well = len(received) > 200 and received == packets[: len(received)]
print(f"received {len(received)} packets, {'the first ones that were sent' if is_first_well else 'NOT those that were sent'}")

# %% and its own modulator makes the same cells, as far as no later packet comes in
run("bin/dvbt", "modulate", "s.toml", "in.ts", "ours.cells")
size = len(HEADER) + CELL.itemsize * CARRIERS * symbols
pathlib.Path("ours.cells").write_bytes(pathlib.Path("ours.cells").read_bytes()[:size])
is_same = run("tools/cells.py", "compare", "s.toml", "theirs.cells", "ours.cells", "--within", "1") == 0

# %% The other way: dvbt modulates, GNU Radio receives
ours = np.fromfile("ours.cells", CELL, offset=len(HEADER)).reshape(-1, CARRIERS)
points = np.zeros((len(ours), POINTS), np.complex64)
points[:, FIRST : FIRST + CARRIERS] = (ours["re"] + 1j * ours["im"]) / 16384
points.tofile("ours.points")
connected(
    blocks.file_source(gr.sizeof_gr_complex * POINTS, "ours.points", False),
    dtv.dvbt_demod_reference_signals(gr.sizeof_gr_complex, POINTS, PAYLOAD, *SIGNALS),
    dtv.dvbt_demap(*SHAPE, dtv.T2k, 1),
    dtv.dvbt_symbol_inner_interleaver(PAYLOAD, dtv.T2k, 0),
    dtv.dvbt_bit_inner_deinterleaver(*SHAPE, dtv.T2k),
    blocks.vector_to_stream(1, PAYLOAD),
    dtv.dvbt_viterbi_decoder(dtv.MOD_QPSK, dtv.NH, dtv.C1_2, 768),
    dtv.dvbt_convolutional_deinterleaver(136, 12, 17),
    dtv.dvbt_reed_solomon_dec(2, 8, 0x11D, 255, 239, 8, 51, 8),
    dtv.dvbt_energy_descramble(8),
    blocks.file_sink(1, "theirs.ts", False),
)
back = pathlib.Path("theirs.ts").read_bytes()
received = [back[i : i + 188] for i in range(0, len(back) - 187, 188)]
at = packets.index(received[0]) if received and received[0] in packets else None
is_second_well = at is not None and received == packets[at : at + len(received)]
where = f"in a row from number {at} on" if is_second_well else "NOT a run of those that were sent"
print(f"GNU Radio received {len(received)} packets, {where}")

# %% What came of it
sys.exit(0 if is_first_well and is_same and is_second_well else 1)
