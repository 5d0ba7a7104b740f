#!/usr/bin/env bash
# Speed of the modulator: Mbit/s of transport packets by processor seconds, 100,000 null packets, 8K, 64-QAM,
# rate 2/3. Makes a scratch repository of the crates, proves and builds the program of this folder there by
# LLVM, and runs it three times. Usage: bench/modulator/run.sh [FOLDER]
set -eu
here="$(cd "$(dirname "$0")" && pwd)"
to=${1:-$(mktemp -d)}
. "$here/../scratch.sh"
crate_of "$here/../.." "$to" bench_modulator "$here/modulator.txt" anyhow mode_set ts_packet modulator
mkdir -p proofs/transmit
: > proofs/Lib.antt
cat > proofs/transmit/Invariants.antt <<'END'
use Rattle.std.proofs.Common.{◌≤◌}
use Rattle.std.specs.Prelude.{vec_capacity}
use Rattle.bench_modulator.proofs.transmit.Given as goal

abbrev pub invariant-loop : goal.invariant-loop
invariant-loop l = 34085 ≤ vec_capacity l.to
END
build
python3 - <<'PY'
import resource, subprocess
best = None
for _ in range(3):
    before = resource.getrusage(resource.RUSAGE_CHILDREN)
    subprocess.run(["out/bench_modulator"], check=True, stdout=subprocess.DEVNULL)
    after = resource.getrusage(resource.RUSAGE_CHILDREN)
    spent = after.ru_utime + after.ru_stime - before.ru_utime - before.ru_stime
    best = spent if best is None else min(best, spent)
print(f"{best:.2f} processor seconds, {100000 * 188 * 8 / best / 1e6:.1f} Mbit/s of packets, {best / 6746 * 1e6:.0f} microseconds a symbol")
PY
