#!/usr/bin/env bash
# Times `dvbt equalise` of SUPERFRAMES super-frames of 8K that came through a channel of one gain, beside `cp` of what it has
# written, all files in memory (/dev/shm, about 19 MB a super-frame). Prints seconds, processor seconds (user and system),
# millions of cells a second and how many times real time that is (8K at guard 1/32: 1082 symbols a second), the best of five
# runs; and whether each cell of the first super-frame is within 64 of the one that was sent, with a weight of at least 1.
# usage: bench/equalise.sh [SUPERFRAMES] [PROGRAM WORDS..]
set -eu
. "$(dirname "$0")/program.sh"
begin 20 -- "$@"
python3 - "$folder" "${numbers[0]}" "${program[@]}" <<'PY'
import sys
from one_gain import CARRIERS, RATE, SYMBOLS, is_restored, received
from timing import best
folder, frames, *program = sys.argv[1:]
settings, came, sent = received(program, folder, int(frames))
new, copy = f"{folder}/new", f"{folder}/copy"
equalised = best([*program, "equalise", settings, came, new], new, 5)
copied = best(["cp", new, copy], copy, 5)
cells = int(frames) * SYMBOLS * CARRIERS
for name, (wall, cpu, _) in (("dvbt equalise", equalised), ("cp", copied)):
    print(f"{name:14} {wall:.3f} s, {cpu:.3f} processor s, {cells / cpu / 1e6:.1f} million cells a processor second")
print(f"{equalised[2].strip()} | {cells / equalised[1] / RATE:.1f} times real time on one processor")
right = is_restored(new, sent, 64)
print("as it should be" if right else "CELLS ARE NOT RESTORED")
sys.exit(0 if right else 1)
PY
