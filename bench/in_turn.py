#!/usr/bin/env python3
"""Runs two programs in turn, A B A B, and prints the least of each figure that both print, and the ratio.

For programs that other scripts of this folder have built, as crates/bench_inner/out/bench_inner in the scratch folder of
bench/inner_decoder.sh, of two commits: on a machine that others use only what ran in turn can be compared. A figure is a
number with a unit behind it; figures are told apart by their place among a program's lines.
usage: bench/in_turn.py PROGRAM_A PROGRAM_B [ROUNDS]
"""
import re
import subprocess
import sys

FIGURE = re.compile(r"(\d+(?:\.\d+)?) ?(ps|ns)\b|nanos_per_word=(\d+)")


def figures(program):
    """Each figure that a run prints, by its line and its place there."""
    found = {}
    lines = subprocess.run([program], stdout=subprocess.PIPE, text=True, check=True).stdout.splitlines()
    for n, line in enumerate(lines):
        for k, match in enumerate(FIGURE.finditer(line)):
            label = line[: match.start()].split(";")[-1].strip() or f"line {n}"
            found[(n, k)] = (f"{line.split(':')[0]}: {label.split(':')[-1].strip()}", float(match.group(1) or match.group(3)))
    return found


def main():
    programs = sys.argv[1:3]
    rounds = int(sys.argv[3]) if len(sys.argv) > 3 else 5
    least = [{}, {}]
    for _ in range(rounds):
        for side, program in enumerate(programs):
            for place, (name, figure) in figures(program).items():
                if place not in least[side] or figure < least[side][place][1]:
                    least[side][place] = (name, figure)
    for place in sorted(least[0].keys() & least[1].keys()):
        name, a = least[0][place]
        b = least[1][place][1]
        print(f"{name}: {a:.0f} and {b:.0f}, {a / b:.3f} times as fast")


if __name__ == "__main__":
    main()
