#!/usr/bin/env bash
# Times `dvbt upgrade` of random old cells of 8K in SUPERFRAMES super-frames beside `cp` of what it has written, all files
# in memory (/dev/shm, about 17 MB a super-frame). Prints seconds, processor seconds (user and system), and MB read and
# written a second of each, the best of five runs, and whether the new file is the header and each old cell with the
# weight 15.
# usage: bench/upgrade.sh [SUPERFRAMES] [PROGRAM WORDS..]
set -eu
. "$(dirname "$0")/program.sh"
begin 40 -- "$@"
python3 - "$folder" "$top/examples/settings/64qam.toml" "${numbers[0]}" "${program[@]}" <<'PY'
import os, random, sys
from timing import best
folder, settings, frames, *program = sys.argv[1:]
SUPER_FRAME = 272 * 6817 * 4  # bytes of old cells
random.seed(1)
old, new, copy = (f"{folder}/{name}" for name in ("old", "new", "copy"))
piece = random.randbytes(SUPER_FRAME)
with open(old, "wb") as f:
    for _ in range(int(frames)):
        f.write(piece)
upgraded = best([*program, "upgrade", settings, old, new], new, 5, by=0)
copied = best(["cp", new, copy], copy, 5, by=0)
read, written = os.path.getsize(old), os.path.getsize(new)
for name, (wall, cpu, _), count in (("dvbt upgrade", upgraded, read + written), ("cp", copied, 2 * written)):
    print(f"{name:12} {wall:.3f} s, {cpu:.3f} processor s, {count / wall / 1e6:.0f} MB/s read and written")
print(upgraded[2].strip(), f"| {written} bytes; seconds of upgrade to those of cp: {upgraded[0] / copied[0]:.2f}")
cells = bytearray(SUPER_FRAME // 4 * 5)
for place in range(4):
    cells[place::5] = piece[place::4]
cells[4::5] = bytes([15]) * (SUPER_FRAME // 4)
with open(new, "rb") as f:
    same = f.read(8) == b"DVTC\x02\x01\0\0" and all(f.read(len(cells)) == cells for _ in range(int(frames))) and not f.read(1)
print("as it should be" if same else "THE NEW FILE DIFFERS")
sys.exit(0 if same else 1)
PY
