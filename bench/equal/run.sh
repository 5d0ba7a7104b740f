#!/usr/bin/env bash
# Times the correction of cells by the pilots: 8K symbols that came through a channel, of a gain that turns from carrier to
# carrier, near the nominal amplitude or far below, and of no signal at all. Builds the program of this folder over the
# repository's crates in a scratch repository, optimised by LLVM, and runs it five times. Prints picoseconds a cell, of the
# fastest of short runs of five symbols, and how many times real time that is in the 8K mode at guard 1/32.
# usage: bench/equal/run.sh [flags of rt run, as --cpu x86-64-v3]
set -e
here="$(cd "$(dirname "$0")" && pwd)"
. "$here/../scratch.sh"
crate_of "$here/../.." "${SCRATCH:-/tmp/bench-equal}" bench_equal "$here/equal.txt" anyhow mode_set pilots qam_map cell_equal
build "$@"
for _ in 1 2 3 4 5; do out/bench_equal; done | sort -t' ' -k1,1 -k2,2n | awk '!seen[$1]++ { printf "%s %d ps a cell, %.1f times real time\n", $1, $2, 1e12 / ($2 * 1082 * 6817) }'
