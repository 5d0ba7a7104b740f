#!/usr/bin/env python3
"""A real signal from end to end: GNU Radio's DVB-T transmitter, a long echo, `dvbt track` and `dvbt receive`, as a notebook.

usage: examples/gnuradio_channel.py

GNU Radio modulates a transport file to samples. A channel rotates and attenuates them, adds an echo of 0.9 of the guard interval,
noise and a frequency offset, and cuts off the beginning. A short front end finds the symbols and the frequency and converts
the samples to carriers; it estimates nothing of the channel. `dvbt track` corrects the cells by the pilots of neighbouring symbols,
and `dvbt receive` decodes them. `dvbt equalise` and GNU Radio's own receiver get the same signal. Prints how many packets each of
them gives. Ends with 0 if those of `track` are packets that were sent, in a row, and no word is bad. Passed over with a message if
GNU Radio 3.10 or numpy is not installed (Debian: gnuradio, python3-numpy). Each part `# %%` is a
cell for editors that know them.
"""
# %% What is needed
import os
import pathlib
import random
import subprocess
import sys
import tempfile

TOP = pathlib.Path(__file__).resolve().parent.parent
sys.path[:0] = [str(TOP / "tools"), str(TOP / "bench")]
from cell_tools.interpreter import try_debian  # noqa: E402

try:
    import numpy as np
    from cell_tools.standard import Carriers
    from gnuradio import blocks, dtv, gr
    import gnuradio_receiver
except ImportError as error:
    try_debian()
    print(f"gnuradio_channel.py: passed over: GNU Radio or numpy is not installed ({error})")
    sys.exit(0)

CARRIERS, PAYLOAD, POINTS, GUARD = 1705, 1512, 2048, 512  # of the 2K mode at guard 1/4
SYMBOL = POINTS + GUARD
SETTINGS = {"mode": "2k", "constellation": "16qam", "rate_hp": "2/3", "guard": "1/4", "cell_id": 0}
SHAPE = (PAYLOAD, dtv.MOD_16QAM, dtv.NH)
# TPS has no LP rate without a hierarchy: three zeros (4.6.2), which are GNU Radio's 1/2
SIGNALS = (dtv.MOD_16QAM, dtv.NH, dtv.C2_3, dtv.C1_2, dtv.GI_1_4, dtv.T2k, 1, 0)
WORDS = 672  # outer words of a super-frame: 68 * 4 symbols of 1512 carriers with 4 bits at rate 2/3, in 1632 bits each
GAIN = 0.8 * np.exp(1.1j)  # weaker, and rotated
ECHO, DELAY = 0.7 * np.exp(2j), 460  # the amplitude of the echo relative to the direct path (-3 dB), and its samples: 0.9 of the guard
OFFSET = 3.37  # the wrong carrier frequency, in carriers
RATIO = 24  # decibels of the signal above the noise
SYNC = [int(bit) for bit in "0011010111101110"]  # s1 to s16 of TPS in frames 1 and 3, the opposite in 2 and 4 (4.6.2)
MARGIN = 4  # so many samples before the end of the guard interval the transform begins


def run(*words):
    """Runs a command of the repository and shows it."""
    print("$", *words)
    ran = subprocess.run([TOP / words[0], *words[1:]], stdout=subprocess.PIPE, text=True)
    print(ran.stdout, end="")
    return ran


def transmit(packets):
    """The samples of the packets by GNU Radio's blocks, each a layer of EN 300 744."""
    pathlib.Path("in.ts").write_bytes(b"".join(packets))
    top = gr.top_block()
    top.connect(
        blocks.file_source(1, "in.ts", False),
        dtv.dvbt_energy_dispersal(1),  # 4.3.1
        dtv.dvbt_reed_solomon_enc(2, 8, 0x11D, 255, 239, 8, 51, 8),  # 4.3.2
        dtv.dvbt_convolutional_interleaver(136, 12, 17),  # 4.3.2
        dtv.dvbt_inner_coder(1, *SHAPE, dtv.C2_3),  # 4.3.3
        dtv.dvbt_bit_inner_interleaver(*SHAPE, dtv.T2k),  # 4.3.4.1
        dtv.dvbt_symbol_inner_interleaver(PAYLOAD, dtv.T2k, 1),  # 4.3.4.2
        dtv.dvbt_map(*SHAPE, dtv.T2k, 1),  # 4.3.5
        dtv.dvbt_reference_signals(gr.sizeof_gr_complex, PAYLOAD, POINTS, *SIGNALS),  # 4.4 to 4.6
        blocks.file_sink(gr.sizeof_gr_complex * POINTS, "sent.samples", False),
    )
    top.run()
    body = np.fromfile("sent.samples", np.complex64).reshape(-1, POINTS)
    return np.concatenate([body[:, -GUARD:], body], axis=1).ravel()  # the guard interval: the end of each symbol before it


def through_channel(samples, rng):
    """The samples after the channel: rotated, attenuated, with an echo, noise and a frequency offset, and without their beginning."""
    echo = np.concatenate([np.zeros(DELAY), samples[:-DELAY]]) * ECHO
    came = GAIN * (samples + echo) * np.exp(2j * np.pi * OFFSET / POINTS * np.arange(len(samples)))
    power = np.mean(abs(came) ** 2) / 10 ** (RATIO / 10)
    noise = rng.normal(size=(2, len(came))) * (power / 2) ** 0.5
    return (came + noise[0] + 1j * noise[1])[5000:]


def synchronised(samples):
    """The samples of whole symbols, with their frequency corrected to less than a carrier: a guard interval equals the end of its
    symbol, but for the phase that the frequency offset adds from one to the other."""
    count = len(samples) // SYMBOL - 1
    likeness = samples[:-POINTS].conj() * samples[POINTS:]
    sums = likeness[: count * SYMBOL].reshape(count, SYMBOL).sum(axis=0)
    sums = np.convolve(np.concatenate([sums, sums[: GUARD - 1]]), np.ones(GUARD), "valid")
    first = int(np.argmax(abs(sums)))
    fraction = np.angle(sums[first]) / (2 * np.pi)
    samples = samples[first:] * np.exp(-2j * np.pi * fraction / POINTS * np.arange(len(samples) - first))
    count = len(samples) // SYMBOL
    return samples[: count * SYMBOL].reshape(count, SYMBOL), fraction


def carriers_of(symbols, kinds):
    """The cells of symbols, after the transform, with the frequency corrected by whole carriers: at the right one the continual
    pilots are alike from symbol to symbol. Also the rotation from a symbol to the next."""
    points = np.fft.fftshift(np.fft.fft(symbols[:, GUARD - MARGIN : SYMBOL - MARGIN]), axes=1)
    middle = (POINTS - CARRIERS + 1) // 2
    best = None
    for shift in range(-20, 21):
        pilots = points[:100, middle + shift + kinds.continual]
        likeness = np.sum(pilots[1:] * pilots[:-1].conj())
        if best is None or abs(likeness) > abs(best[1]):
            best = shift, likeness
    shift, likeness = best
    return points[:, middle + shift : middle + shift + CARRIERS], shift, likeness / abs(likeness)


def first_super_frame(cells, kinds, turn):
    """The first symbol of a super-frame, by TPS: a bit is 1 if the TPS cells change sign from a symbol to the next."""
    tps = cells[:, kinds.tps]
    turns = np.sum((tps[1:] * tps[:-1].conj() / turn).real, axis=1)
    bits = (turns < 0).astype(int).tolist()  # bits[m] is the TPS bit of symbol m + 1
    for m in range(len(bits) - 68):
        word = bits[m : m + 67]  # s1 to s67, if symbol m is the first of a frame
        number = 2 * word[22] + word[23]  # s23 and s24: the number of the frame, from 0 (4.6.2)
        if word[:16] == [bit ^ number & 1 for bit in SYNC]:
            return m + 68 * (-number % 4)
    sys.exit("no frame was found")


def received(command):
    """The packets that `receive` gives once the command has corrected the cells, and whether they are sent ones in a row."""
    run("bin/dvbt", "-q", command, "s.toml", "came.cells", "right.cells")
    report = run("bin/dvbt", "-q", "receive", "s.toml", "right.cells", "back.ts").stdout
    back = gnuradio_receiver.packets("back.ts")
    at = packets.index(back[0]) if back and back[0] in packets else None
    # null packets follow the last packet that was sent
    wanted = [] if at is None else (packets[at:] + [gnuradio_receiver.NULL] * len(back))[: len(back)]
    is_well = back != [] and back == wanted and " bad 0 " in report.splitlines()[-1]
    right = sum(packet in sent for packet in back)
    print(f"{command}: {right} packets that were sent" + (f", in a row from number {at} on, and no word is bad" if is_well else ""))
    return is_well


gr.logging().set_default_level(gr.log_levels.error)  # not how it chose its buffers
folder = tempfile.TemporaryDirectory()
os.chdir(folder.name)
text = "".join(f"{key} = {value!r}\n".replace("'", '"') for key, value in SETTINGS.items())
pathlib.Path("s.toml").write_text(text + 'start = "any"\n')
random.seed(1)
packets = [b"\x47" + random.randbytes(187) for _ in range(WORDS * 5)]
sent = set(packets)

# %% From packets to the samples that came
came = through_channel(transmit(packets), np.random.default_rng(1))
came.astype(np.complex64).tofile("came.samples")
print(f"{len(came)} samples came: gain {abs(GAIN):.2f}, an echo of {abs(ECHO):.2f} after {DELAY} samples, {RATIO} dB, {OFFSET} carriers off")

# %% To carriers
kinds = Carriers("2k")
symbols, fraction = synchronised(came)
cells, shift, turn = carriers_of(symbols, kinds)
first = first_super_frame(cells, kinds, turn)
cells = cells[first : first + (len(cells) - first) // 272 * 272]
print(f"found {len(symbols)} symbols, {fraction + shift:.2f} carriers off; {len(cells)} are in whole super-frames")
# the mean pilot at 0.9 of the nominal amplitude; the cells fit 16 bits
cells = cells * (0.9 * 21845 / np.mean(abs(cells[:, kinds.continual])))
file = np.empty(cells.shape, [("re", ">i2"), ("im", ">i2"), ("weight", "u1")])
file["re"], file["im"], file["weight"] = np.rint(cells.real.clip(-32768, 32767)), np.rint(cells.imag.clip(-32768, 32767)), 15
pathlib.Path("came.cells").write_bytes(b"DVTC\x02\x00\x00\x00" + file.tobytes())

# %% dvbt corrects and receives
received("equalise")
is_well = received("track")

# %% and GNU Radio's own receiver
gnuradio_receiver.receive(SETTINGS, "came.samples", "theirs.ts")
theirs = gnuradio_receiver.packets("theirs.ts")
print(f"GNU Radio's receiver: {sum(packet in sent for packet in theirs)} packets that were sent, of {len(theirs)} that it gives")

# %% The result
sys.exit(0 if is_well else 1)
