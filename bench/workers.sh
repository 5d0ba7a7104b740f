#!/usr/bin/env bash
# Times `dvbt receive` by 1, 2 and 4 workers on noisy cells of two streams: 8K, hierarchical 64-QAM with alpha 2, rates
# 1/2 and 3/4, two super-frames of random packets, all files in memory (/dev/shm, about 20 MB). Gaussian noise of the
# standard deviation NOISE is added on both axes. Prints the report, seconds, processor seconds (user and system) and
# Mbit/s of both transport streams a second, and whether all outputs are the same. The best of five runs each, taken
# in turn.
# usage: bench/workers.sh [NOISE] [PROGRAM WORDS..]
set -eu
. "$(dirname "$0")/program.sh"
begin 1200 -- "$@"
python3 - "$folder" "${numbers[0]}" "${program[@]}" <<'PY'
import array, os, random, sys
from timing import measure
folder, noise, *program = sys.argv[1:]
random.seed(1)
settings = 'mode = "8k"\nconstellation = "64qam"\nhierarchy = "2"\nrate_hp = "1/2"\nrate_lp = "3/4"\nguard = "1/32"\n'
def write(name, data):
    with open(os.path.join(folder, name), "wb") as f:
        f.write(data)
def run(*words):
    return measure([*program, *words], cwd=folder)
for name, count in [("hp.ts", 2 * 1008 - 11), ("lp.ts", 2 * 3024 - 11)]:
    write(name, b"".join(b"\x47" + random.randbytes(187) for _ in range(count)))
write("sent.toml", settings.encode())
run("modulate", "sent.toml", "hp.ts", "lp.ts", "cells")
cells = array.array("h")
with open(os.path.join(folder, "cells"), "rb") as f:
    head, file = f.read(8), bytearray(f.read())
del file[4::5]
cells.frombytes(bytes(file))
cells.byteswap()
sigma = float(noise)
noisy = array.array("h", (max(-32768, min(32767, v + round(random.gauss(0, sigma)))) for v in cells))
noisy.byteswap()
parts, file = noisy.tobytes(), bytearray(b"\x0F" * (len(noisy) // 2 * 5))
for place in range(4):
    file[place::5] = parts[place::4]
write("noisy", head + bytes(file))
best, outputs = {}, set()
for _ in range(5):
    for workers in (1, 2, 4):
        write("s.toml", f"{settings}workers = {workers}\n".encode())
        for name in ("hp.out", "lp.out"):
            if os.path.exists(os.path.join(folder, name)):
                os.remove(os.path.join(folder, name))
        wall, cpu, report = run("receive", "s.toml", "noisy", "hp.out", "lp.out")
        got = [open(os.path.join(folder, name), "rb").read() for name in ("hp.out", "lp.out")]
        outputs.add((report, *got))
        bits = 8 * sum(map(len, got))
        if workers not in best or wall < best[workers][0]:
            best[workers] = (wall, cpu)
print(", ".join(report.splitlines()))
for workers, (wall, cpu) in best.items():
    print(f"workers {workers}: {wall:.3f} s, {cpu:.3f} processor s, {bits / wall / 1e6:.2f} Mbit/s")
print("outputs the same" if len(outputs) == 1 else "OUTPUTS DIFFER")
sys.exit(0 if len(outputs) == 1 else 1)
PY
