#!/usr/bin/env python3
"""A flow graph of GNU Radio with dvbt's blocks on both sides in place of those of gr-dtv: packets there and back, live.

usage: examples/gnuradio_live.py

Packets go round and round into the modulator. Its symbols become samples by GNU Radio's transform and cyclic prefix, noise is added, the
prefix is taken off, and the transform gives the cells back. The receiver gives the packets, until a thousand have come. Prints how many
came back in a row, and how many packets were on their way at most. Ends with 0 if all came back. Passed over with a message
where GNU Radio 3.10 or numpy is not installed (Debian: gnuradio, python3-numpy). Each part `# %%` is a cell for editors that know them.
"""
# %% What is needed
import pathlib
import random
import sys
import tempfile

TOP = pathlib.Path(__file__).resolve().parent.parent
sys.path[:0] = [str(TOP / "tools"), str(TOP / "python")]
from cell_tools.interpreter import try_debian  # noqa: E402

try:
    from gnuradio import analog, blocks, digital, fft, gr

    import dvbt.gnuradio
except ImportError as error:
    try_debian()
    print(f"gnuradio_live.py: passed over: GNU Radio or numpy is not installed ({error})")
    sys.exit(0)

SETTINGS = {"mode": "2k", "constellation": "16qam", "rate_hp": "2/3", "guard": "1/32"}
CARRIERS, POINTS, GUARD = 1705, 2048, 64  # of the 2K mode at guard 1/32
BELOW, ABOVE = 172, 171  # points without a carrier
SIZE = gr.sizeof_gr_complex
NOISE = 0.02  # on each sample, beside cells of mean power 1
COUNT = 1000  # packets

gr.logging().set_default_level(gr.log_levels.error)  # not how it chose its buffers
random.seed(1)
packets = [b"\x47" + random.randbytes(187) for _ in range(300)]
folder = tempfile.TemporaryDirectory()
sent = pathlib.Path(folder.name, "sent.ts")
sent.write_bytes(b"".join(packets))

# %% The flow graph
top = gr.top_block()
source = blocks.file_source(1, str(sent), True)
modulator = dvbt.gnuradio.modulator(SETTINGS)
points = blocks.stream_mux(SIZE, [BELOW, CARRIERS, ABOVE])  # the K carriers in the middle of the transform
zeros = [blocks.null_source(SIZE), blocks.null_source(SIZE)]
carriers = blocks.vector_to_stream(SIZE, CARRIERS)
samples = [
    blocks.stream_to_vector(SIZE, POINTS), fft.fft_vcc(POINTS, False, (), True), digital.ofdm_cyclic_prefixer(POINTS, POINTS + GUARD, 0, ""),
    blocks.multiply_const_cc(POINTS**-0.5),
]
channel, noise = blocks.add_cc(), analog.noise_source_c(analog.GR_GAUSSIAN, NOISE, 1)
cells = [
    blocks.keep_m_in_n(SIZE, POINTS, POINTS + GUARD, GUARD), blocks.stream_to_vector(SIZE, POINTS), fft.fft_vcc(POINTS, True, (), True),
    blocks.vector_to_stream(SIZE, POINTS), blocks.keep_m_in_n(SIZE, CARRIERS, POINTS, BELOW), blocks.multiply_const_cc(POINTS**-0.5),
    blocks.stream_to_vector(SIZE, CARRIERS),
]
receiver = dvbt.gnuradio.receiver(SETTINGS)
head, back = blocks.head(1, 188 * COUNT), blocks.vector_sink_b()
top.connect(source, modulator, carriers, (points, 1))
top.connect(zeros[0], (points, 0))
top.connect(zeros[1], (points, 2))
top.connect(points, *samples, channel)
top.connect(noise, (channel, 1))
top.connect(channel, *cells, receiver, head, back)

# %% It runs until a thousand packets have come
top.run()
found = bytes(back.data())
received = [found[at : at + 188] for at in range(0, len(found), 188)]
wanted = (packets * (COUNT // len(packets) + 1))[:COUNT]
is_well = received == wanted
way = source.nitems_written(0) // 188 - len(received)
print(f"received {len(received)} packets, {'in a row as they were sent' if is_well else 'NOT those that were sent'}")
print(f"packets that were on their way at the end: {way}")
sys.exit(0 if is_well else 1)
