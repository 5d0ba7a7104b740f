#!/usr/bin/env python3
"""What `dvbt measure` says of a signal that fades and comes back, and whether it is right (docs/use/MEASURING.md).

usage: examples/measuring.py [--out PICTURE.svg] [--check [--all]]

Sends super-frames of random packets in the 2K mode, 64-QAM 2/3, by `bin/dvbt modulate`, adds white noise that grows and
falls again, and prints what `bin/dvbt measure` says of each super-frame beside the true MER. --out draws it.

--check compares, at the C/N that EN 300 744 (table A.1, Gaussian channel, without hierarchy) requires, the bit error rate
before the Reed-Solomon decoder with a count by a receiver of its own (examples/inner.py) that knows the bits sent, and the MER
with the true one. Ends with 1 if they differ by more than 20 % or 0.05 dB. --all takes all 15 rows of the table in place of
three. The noise is generated from a fixed number. Needs numpy (Debian: python3-numpy).
"""
import argparse
import math
import os
import pathlib
import random
import sys
import tempfile

import air
import inner
from air import np

FADE = [24, 24, 22, 20, 18.5, 17.5, 17, 16.5, 16, 15.5, 15, 14, 12, 9, 9, 12, 14, 15, 15.5, 16, 16.5, 17, 17.5, 18.5, 20, 22, 24, 24]
# The C/N in dB that the standard requires in a Gaussian channel, by constellation and rate (EN 300 744, table A.1).
REQUIRED = {
    "qpsk": {"1/2": 3.1, "2/3": 4.9, "3/4": 5.9, "5/6": 6.9, "7/8": 7.7},
    "16qam": {"1/2": 8.8, "2/3": 11.1, "3/4": 12.5, "5/6": 13.5, "7/8": 13.9},
    "64qam": {"1/2": 14.4, "2/3": 16.5, "3/4": 18.0, "5/6": 19.3, "7/8": 20.1},
}
FEW = [("qpsk", "1/2"), ("16qam", "3/4"), ("64qam", "2/3")]
STEPS = 3_000_000  # about so many bits are counted in a row of the check
WORD = 8 * 204


def settings_of(constellation, rate):
    return {"mode": "2k", "constellation": constellation, "hierarchy": "none", "rate_hp": rate, "guard": "1/32"}


def words_in(constellation, rate):
    """The outer words of a super-frame (4.7)."""
    over, under = map(int, rate.split("/"))
    return 272 * inner.PAYLOAD * {"qpsk": 2, "16qam": 4, "64qam": 6}[constellation] * over // under // WORD


def sent(settings, frames, seed):
    """The cells of so many full super-frames, and the bytes that the inner coder gets."""
    generator = random.Random(seed)
    number = words_in(settings["constellation"], settings["rate_hp"]) * frames
    pathlib.Path("in.ts").write_bytes(b"".join(b"\x47" + generator.randbytes(187) for _ in range(number)))
    document = "".join(f'{key} = "{value}"\n' for key, value in settings.items())
    pathlib.Path("s.toml").write_text(document)
    air.run(air.DOOR, "modulate", "s.toml", "in.ts", "sent.cells")
    air.run(air.DOOR, "outer", "in.ts", "sent.bytes")
    return air.read_cells("sent.cells")[: 272 * frames], pathlib.Path("sent.bytes").read_bytes()


def measured(cells):
    """What `measure` says: the counts of each super-frame, with those of HP in the same dictionary."""
    air.write_cells("noisy.cells", cells, 15)
    found = []
    for line in air.run(air.DOOR, "measure", "s.toml", "noisy.cells").splitlines():
        words = line.split()
        if words[0] == "superframe":
            found.append({"tps": int(words[14]), **pairs(words[2:12])})
        elif words[:2] == ["hp", "bits"]:
            found[-1].update(pairs(words[1:]))
    return found


def pairs(words):
    return {name: int(value) for name, value in zip(words[::2], words[1::2])}


def decibels(power, error):
    return 10 * math.log10(power / error) if power and error else math.inf


def rates(counts):
    """The bit error rates before Viterbi and before RS. The second one is the least possible if words are bad."""
    words = counts["clean"] + counts["corrected"] + counts["bad"]
    return counts["wrong"] / max(1, counts["bits"]), (counts["repaired"] + 9 * counts["bad"]) / (WORD * max(1, words))


def check(rows):
    """Compares the figures with independent ones; answers how many rows differ."""
    differ = 0
    print("                C/N   BER before RS: measured, counted, bad words     MER: measured, true")
    for constellation, rate in rows:
        settings, ratio = settings_of(constellation, rate), REQUIRED[constellation][rate]
        frames = max(1, round(STEPS / (WORD * words_in(constellation, rate))))
        cells, coded = sent(settings, frames, f"{constellation} {rate}")
        noise = air.noise_of(np.random.RandomState(300744), ratio, cells.shape)
        found = measured(cells + noise)
        total = {name: sum(counts[name] for counts in found) for name in found[0]}
        air_cells = air.read_cells("noisy.cells")
        bits = inner.received_bits(air_cells, settings)
        truth = np.unpackbits(np.frombuffer(coded, "u1"))
        count = min(len(bits), len(truth)) - 64
        counted = np.count_nonzero(bits[:count] != truth[:count]) / count
        before_rs = rates(total)[1]
        ideal, received = inner.data_cells(cells), inner.data_cells(air_cells)
        true = decibels(np.sum(abs(ideal) ** 2), np.sum(abs(received - ideal) ** 2))
        mer = decibels(total["power"], total["error"])
        right = abs(before_rs - counted) <= 0.2 * counted and abs(mer - true) <= 0.05
        differ += not right
        print(f"{constellation:>6} {rate}  {ratio:7.1f}   {before_rs:.3e}, {counted:.3e}, {total['bad']:3}"
              f"                    {mer:.3f}, {true:.3f} dB   {'as it should be' if right else 'DIFFERS'}", flush=True)
    return differ


def fade(out):
    """Prints the figures of a fade, and draws them."""
    settings = settings_of("64qam", "2/3")
    cells, _ = sent(settings, len(FADE), 8)
    state = np.random.RandomState(8)
    noisy = np.concatenate([part + air.noise_of(state, ratio, part.shape) for part, ratio in zip(np.split(cells, len(FADE)), FADE)])
    rows = []
    print("super-frame   true MER   MER   BER before Viterbi   before RS   bad words   TPS read")
    for number, (counts, ratio) in enumerate(zip(measured(noisy), FADE)):
        before_viterbi, before_rs = rates(counts)
        mer = decibels(counts["power"], counts["error"])
        rows.append((ratio, mer, before_viterbi, before_rs, counts["bad"]))
        print(f"{number:11} {ratio:10.1f} {mer:5.1f} {before_viterbi:20.1e} {before_rs:11.1e} {counts['bad']:11} {counts['tps']:10}")
    if out:
        draw(out, rows)


LEFT, WIDTH, HEIGHT, GAP, TOP = 90, 520, 190, 60, 20


def draw(path, rows):
    """Two panels over the same super-frames: MER, and both error rates on a scale of powers of ten."""
    lines = [*panel(TOP, "MER, dB", range(0, 31, 5), str), *panel(TOP + HEIGHT + GAP, "bit error rate", range(-7, 1), lambda it: f"1e{it}" if it else "1")]
    across = lambda number: LEFT + WIDTH * (number + 0.5) / len(rows)  # noqa: E731

    def curve(top, values, least, most, style, name, place):
        def height(value):
            return top + HEIGHT * (1 - (min(most, max(least, value)) - least) / (most - least))

        points = " ".join(f"{across(number):.1f},{height(value):.1f}" for number, value in enumerate(values) if value is not None)
        lines.append(f'<polyline fill="none" stroke="black" stroke-width="2" stroke-dasharray="{style}" points="{points}"/>')
        y = top + HEIGHT - 12 - 18 * place
        lines.append(f'<line x1="{LEFT + 12}" y1="{y - 4}" x2="{LEFT + 52}" y2="{y - 4}" stroke="black" stroke-width="2" stroke-dasharray="{style}"/>')
        lines.append(f'<text x="{LEFT + 60}" y="{y}">{name}</text>')

    power = lambda value: math.log10(value) if value else None  # noqa: E731
    for number, row in enumerate(rows):
        if row[4]:
            lines += [f'<rect x="{across(number) - WIDTH / len(rows) / 2:.1f}" y="{top}" width="{WIDTH / len(rows):.1f}" height="{HEIGHT}" fill="#dddddd"/>'
                      for top in (TOP, TOP + HEIGHT + GAP)]
    shades = [it for it in lines if 'fill="#dddddd"' in it]
    lines[:] = shades + [it for it in lines if it not in shades]
    curve(TOP, [row[0] for row in rows], 0, 30, "2,3", "true", 0)
    curve(TOP, [row[1] for row in rows], 0, 30, "none", "measured", 1)
    second = TOP + HEIGHT + GAP
    curve(second, [power(row[2]) for row in rows], -7, 0, "none", "before Viterbi", 1)
    curve(second, [power(row[3]) for row in rows], -7, 0, "6,4", "before RS (grey: at least this)", 0)
    for number in range(0, len(rows), 4):
        lines.append(f'<text x="{across(number):.1f}" y="{second + HEIGHT + 18}" text-anchor="middle">{number}</text>')
    lines.append(f'<text x="{LEFT + WIDTH / 2}" y="{second + HEIGHT + 40}" text-anchor="middle">super-frame (grey: words are bad, so decided bits are partly wrong)</text>')
    size = f'width="{LEFT + WIDTH + 20}" height="{second + HEIGHT + 55}"'
    body = "\n".join(lines)
    path.write_text(f'<svg xmlns="http://www.w3.org/2000/svg" {size} font-family="sans-serif" font-size="13">\n<rect width="100%" height="100%" fill="white"/>\n{body}\n</svg>\n')


def panel(top, title, marks, text):
    """The frame of a panel, the marks of its axis and its title."""
    marks = list(marks)
    lines = [f'<rect x="{LEFT}" y="{top}" width="{WIDTH}" height="{HEIGHT}" fill="none" stroke="grey"/>']
    for mark in marks:
        y = top + HEIGHT * (1 - (mark - marks[0]) / (marks[-1] - marks[0]))
        lines.append(f'<line x1="{LEFT - 4}" y1="{y:.1f}" x2="{LEFT}" y2="{y:.1f}" stroke="grey"/>')
        lines.append(f'<text x="{LEFT - 8}" y="{y + 4:.1f}" text-anchor="end">{text(mark)}</text>')
    middle = top + HEIGHT / 2
    lines.append(f'<text x="30" y="{middle:.1f}" text-anchor="middle" transform="rotate(-90 30 {middle:.1f})">{title}</text>')
    return lines


def main():
    parser = argparse.ArgumentParser(description=__doc__.split("\n")[0])
    parser.add_argument("--out", type=pathlib.Path, metavar="SVG", help="draw the fade to this file")
    parser.add_argument("--check", action="store_true", help="compare with independent figures")
    parser.add_argument("--all", action="store_true", help="all rows of the table")
    given = parser.parse_args()
    out = given.out.absolute() if given.out else None
    with tempfile.TemporaryDirectory() as folder:
        os.chdir(folder)
        if given.check:
            sys.exit(1 if check([(it, rate) for it, row in REQUIRED.items() for rate in row] if given.all else FEW) else 0)
        fade(out)


if __name__ == "__main__":
    main()
