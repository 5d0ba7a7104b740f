#!/usr/bin/env bash
# Times the gains at all carriers of an 8K symbol (guard 1/32) and the correction of its cells, beside the plain bodies:
# points that differ little, weights from 12 to 15. Builds the program of this folder over the repository's crates in a
# scratch repository, optimised by LLVM, and runs it five times. Prints picoseconds a carrier, the least of many runs.
# usage: bench/track_cells/run.sh [flags of rt run, as --cpu x86-64-v3]
set -e
here="$(cd "$(dirname "$0")" && pwd)"
. "$here/../scratch.sh"
crate_of "$here/../.." "${SCRATCH:-/tmp/bench-track-cells}" bench_track_cells "$here/cells.txt" anyhow mode_set qam_map track_arithmetic track_cells
mkdir -p proofs/fill
cp "$here/Invariants.txt" proofs/fill/Invariants.antt
build "$@"
for _ in 1 2 3 4 5; do out/bench_track_cells; done | sort -k1,1 -k3,3n | awk '!seen[$1]++'
