#!/usr/bin/env python3
"""A notch over 5 % of the carriers, received with and without weights (docs/use/WEIGHTS.md).

usage: examples/weights.py [--out PICTURE.svg]

Makes a super-frame of packets, sends it by `bin/dvbt modulate` through a channel with a notch and white noise, equalises
it, and runs `bin/dvbt receive` twice: with all weights 15, and with weights by the rule of docs/use/WEIGHTS.md. Prints for each
strength of the noise how many packets come back as they were sent. --out draws them. The noise comes from a fixed seed.
Needs numpy (Debian: python3-numpy).
"""
import argparse
import os
import pathlib
import random
import tempfile

import air
from air import np

SETTINGS = 'mode = "2k"\nconstellation = "64qam"\nrate_hp = "2/3"\nguard = "1/32"\n'
PACKETS = 997  # a super-frame of these settings gives 997 packets back
NOTCH, WIDTH, DEPTH = 800, 85, 25  # its first carrier, how many it has, and how deep it is in its middle, in dB
RATIOS = range(13, 27)  # MER in dB of the cells outside the notch
CURVES = [("notch, weights", 2), ("no notch", 0), ("notch, all weights 15", 1)]


def channel():
    """The power of the channel at each carrier: 1, and less within the notch."""
    power = np.ones(air.CARRIERS)
    places = (np.arange(WIDTH) + 0.5) / WIDTH
    power[NOTCH : NOTCH + WIDTH] = 10 ** (-DEPTH / 10 * np.sin(np.pi * places) ** 2)
    return power


def received(cells, weights, sent):
    """How many packets come back as they were sent."""
    air.write_cells("air.cells", cells, weights)
    air.run(air.DOOR, "receive", "s.toml", "air.cells", "back.ts")
    back = pathlib.Path("back.ts").read_bytes()
    packets = {sent[i : i + 188] for i in range(0, len(sent), 188)}
    return sum(back[i : i + 188] in packets for i in range(0, len(back), 188))


def row(sent_cells, sent, ratio):
    """Packets that come back at this MER: without the notch, with it by weights of 15, and with it by its weights."""
    power = channel()
    noise = air.noise_of(np.random.RandomState(ratio), ratio, sent_cells.shape)
    equalised = sent_cells + noise / np.sqrt(power)
    weights = air.weights_of(power, 10 ** (-ratio / 10), "64qam")
    return received(sent_cells + noise, 15, sent), received(equalised, 15, sent), received(equalised, weights, sent)


def main():
    parser = argparse.ArgumentParser(description=__doc__.split("\n")[0])
    parser.add_argument("--out", type=pathlib.Path, metavar="SVG", help="draw the packets to this file")
    out = parser.parse_args().out
    out = out.absolute() if out else None
    with tempfile.TemporaryDirectory() as folder:
        os.chdir(folder)
        generator = random.Random(300744)
        sent = b"".join(b"\x47" + generator.randbytes(187) for _ in range(PACKETS))
        pathlib.Path("s.toml").write_text(SETTINGS)
        pathlib.Path("in.ts").write_bytes(sent)
        air.run(air.DOOR, "modulate", "s.toml", "in.ts", "out.cells")
        cells = air.read_cells("out.cells")
        weights = air.weights_of(channel(), 10 ** (-RATIOS[0] / 10), "64qam")[NOTCH : NOTCH + WIDTH]
        print(f"weights within the notch at {RATIOS[0]} dB: {' '.join(map(str, weights))}")
        print(f"packets of {PACKETS} that come back\n MER, dB   no notch   notch, all weights 15   notch, weights")
        rows = {}
        for ratio in RATIOS:
            rows[ratio] = row(cells, sent, ratio)
            print(f"{ratio:8} {rows[ratio][0]:10} {rows[ratio][1]:23} {rows[ratio][2]:16}", flush=True)
        if out:
            air.picture(out, rows, PACKETS, CURVES, "MER of the cells outside the notch, dB")


if __name__ == "__main__":
    main()
