#!/usr/bin/env bash
# Times `dvbt track` of SUPERFRAMES super-frames of 8K that came through a channel of one gain, beside `dvbt equalise` of the
# same, all files in memory (/dev/shm, about 28 MB a super-frame). Prints seconds, processor seconds (user and system),
# millions of cells a second and how many times real time that is (8K at guard 1/32: 1082 symbols a second), the best of three
# runs; and whether each cell of the first super-frame is within 256 of the one that was sent, with a weight of at least 1.
# usage: bench/track.sh [SUPERFRAMES] [PROGRAM WORDS..]
set -eu
. "$(dirname "$0")/program.sh"
begin 10 -- "$@"
python3 - "$folder" "${numbers[0]}" "${program[@]}" <<'PY'
import sys
from one_gain import CARRIERS, RATE, SYMBOLS, is_restored, received
from timing import best
folder, frames, *program = sys.argv[1:]
settings, came, sent = received(program, folder, int(frames))
runs = {}
for command in ("track", "equalise"):
    runs[command] = best([*program, command, settings, came, f"{folder}/{command}"], f"{folder}/{command}", 3)
cells = int(frames) * SYMBOLS * CARRIERS
for command, (wall, cpu, _) in runs.items():
    name, times = f"dvbt {command}", cells / cpu / RATE
    print(f"{name:14} {wall:.3f} s, {cpu:.3f} processor s, {cells / cpu / 1e6:.1f} million cells a processor second, {times:.1f} times real time on one processor")
print(f"{runs['track'][2].strip()} | {runs['track'][1] / runs['equalise'][1]:.1f} times the processor time of equalise")
right = is_restored(f"{folder}/track", sent, 256)
print("as it should be" if right else "CELLS ARE NOT RESTORED")
sys.exit(0 if right else 1)
PY
