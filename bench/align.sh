#!/usr/bin/env bash
# Times `dvbt align` of SUPERFRAMES super-frames of 8K cells that begin at symbol 5, all files in memory (/dev/shm, about 9 MB a
# super-frame). Prints seconds, processor seconds (user and system), both beside the time that the signal takes on air (guard
# 1/32, 8 MHz), the best of five runs, and whether OUT is the header and the cells from the next super-frame on.
# usage: bench/align.sh [SUPERFRAMES] [PROGRAM WORDS..]
set -eu
. "$(dirname "$0")/program.sh"
begin 40 -- "$@"
python3 - "$folder" "$top/examples/settings/64qam.toml" "$top/examples/sample.ts" "${numbers[0]}" "${program[@]}" <<'PY'
import subprocess, sys
from timing import best
folder, settings, sample, frames, *program = sys.argv[1:]
frames = int(frames)
SYMBOL, AIR = 5 * 6817, 896e-6 * 33 / 32  # bytes, seconds
one, cells, out = (f"{folder}/{name}" for name in ("one", "cells", "out"))
subprocess.run([*program, "modulate", settings, sample, one], check=True, stdout=subprocess.DEVNULL)
with open(one, "rb") as f:
    header, frame = f.read(8), f.read(272 * SYMBOL)
with open(cells, "wb") as f:
    f.write(header + frame[5 * SYMBOL :])
    for _ in range(frames - 1):
        f.write(frame)
wall, cpu, report = best([*program, "align", settings, cells, out], out, 5, by=0)
air = (272 * frames - 5) * AIR
print(f"{wall:.3f} s, {cpu:.3f} processor s for {air:.2f} s of signal: {air / wall:.1f} times real time, {air / cpu:.1f} by processor time")
with open(out, "rb") as f:
    same = f.read(8) == header and all(f.read(len(frame)) == frame for _ in range(frames - 1)) and not f.read(1)
print("as it should be" if same else "OUT DIFFERS")
sys.exit(0 if same else 1)
PY
