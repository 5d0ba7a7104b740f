#!/usr/bin/env python3
"""What `rescue` is worth: packets that come back at the edge, by `receive` and by `rescue` (docs/use/RESCUE.md).

usage: examples/rescue.py [--out FOLDER] [--program CMD] [--only TEXT]

For each of three settings it sends some super-frames of packets by `modulate`, adds white noise from a fixed seed, and runs
`receive` and `rescue`. It prints for each MER the share of packets that come back as sent, the number of rescued words, and the
packets that nobody sent and that have no error mark: words decoded to a wrong codeword. At the end it prints the MER from which
half of the packets come back, and 99 of 100, and how many dB less `rescue` needs. With --out it draws a picture of each setting
there. Needs numpy (Debian: python3-numpy).
"""
import argparse
import os
import pathlib
import random
import re
import tempfile

import air
from air import np

START = 11  # packets that the delay lines of a receiver hold back
# Each setting: its name, the words of a super-frame in 2K, super-frames, and the MER in dB around the edge, in tenths.
ROWS = [
    ("qpsk", "1/2", 252, 12, range(10, 25)),
    ("16qam", "3/4", 756, 4, range(98, 113)),
    ("64qam", "2/3", 1008, 3, range(139, 154)),
]
CURVES = [("rescue", 1), ("receive", 0)]


def packets_back(program, command, sent):
    """What comes back by the command: packets as they were sent, packets that no one sent and that bear no error mark, and
    the report."""
    report = air.run(program, command, "s.toml", "air.cells", "back.ts")
    back = pathlib.Path("back.ts").read_bytes()
    got = [back[i : i + 188] for i in range(0, len(back), 188)]
    return sum(packet in sent for packet in got), sum(packet not in sent and not packet[1] & 0x80 for packet in got), report


def row(program, cells, sent, tenths):
    """Both commands at this MER: packets that come back by receive and by rescue, words that were rescued, wrong packets
    without a mark by receive and by rescue."""
    ratio = tenths / 10
    air.write_cells("air.cells", cells + air.noise_of(np.random.RandomState(tenths), ratio, cells.shape), 15)
    received, wrong_received, _ = packets_back(program, "receive", sent)
    rescued, wrong_rescued, report = packets_back(program, "rescue", sent)
    words = int(re.search(r"^hp words .* rescued (\d+)", report, re.MULTILINE)[1])
    return received, rescued, words, wrong_received, wrong_rescued


def least(rows, column, wanted):
    """The MER in dB from which so many packets come back, on the line between the two rows around it."""
    ratios = sorted(rows)
    for low, high in zip(ratios, ratios[1:]):
        below, above = rows[low][column], rows[high][column]
        if below < wanted <= above:
            return low + (high - low) * (wanted - below) / (above - below)
    return None


def setting(program, name, rate, words, frames, tenths):
    """Prints the rows of a setting; answers these and how many packets there are."""
    count = words * frames - START
    generator = random.Random(f"{name} {rate}")
    # a sync byte and no error mark, as packets on air have
    packets = [b"\x47\x01" + generator.randbytes(186) for _ in range(count)]
    pathlib.Path("s.toml").write_text(f'mode = "2k"\nconstellation = "{name}"\nrate_hp = "{rate}"\nguard = "1/32"\n')
    pathlib.Path("in.ts").write_bytes(b"".join(packets))
    air.run(program, "modulate", "s.toml", "in.ts", "out.cells")
    cells = air.read_cells("out.cells")
    print(f"{name} {rate}, {count} packets\n MER, dB   receive   rescue   words rescued   wrong by receive   wrong by rescue")
    rows = {}
    for each in tenths:
        rows[each / 10] = row(program, cells, set(packets), each)
        received, rescued, saved, wrong, wrong_rescued = rows[each / 10]
        print(f"{each / 10:8} {received / count:9.2%} {rescued / count:8.2%} {saved:15} {wrong:18} {wrong_rescued:17}", flush=True)
    for share in (50, 99):
        plain, saved = (least(rows, column, count * share / 100) for column in (0, 1))
        if plain is not None and saved is not None:
            print(f"{share} of 100 packets from {plain:.2f} dB on by receive, {saved:.2f} dB by rescue: {plain - saved:.2f} dB")
    return rows, count


def main():
    parser = argparse.ArgumentParser(description=__doc__.split("\n")[0])
    parser.add_argument("--out", type=pathlib.Path, metavar="FOLDER", help="draw the pictures there")
    parser.add_argument("--program", default=air.DOOR, metavar="CMD", help="the program and its first words, bin/dvbt if none")
    parser.add_argument("--only", default="", metavar="TEXT", help="only settings whose name and rate hold it")
    words = parser.parse_args()
    out = words.out.absolute() if words.out else None
    with tempfile.TemporaryDirectory() as folder:
        os.chdir(folder)
        for name, rate, in_frame, frames, tenths in ROWS:
            if words.only not in f"{name} {rate}":
                continue
            rows, count = setting(words.program, name, rate, in_frame, frames, tenths)
            if out:
                air.picture(out / f"rescue-{name}.svg", rows, count, CURVES, f"MER, dB ({name.upper().replace('QAM', '-QAM')}, rate {rate})")


if __name__ == "__main__":
    main()
