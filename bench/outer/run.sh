#!/usr/bin/env bash
# Figures of the outer code: builds the programs of this folder over the repository's crates in a
# scratch repository, optimised by LLVM, and runs them.
# Usage: bench/outer/run.sh [rs204|chain|erasures]
set -e
here="$(cd "$(dirname "$0")" && pwd)"
which="${1:-rs204}"
case "$which" in
  rs204) crates=(rs204) ;;
  chain) crates=(ts_packet rs204 outer_chain) ;;
  erasures) crates=(rs204 rs_erasure) ;;
  *) echo "usage: bench/outer/run.sh [rs204|chain|erasures]" >&2; exit 2 ;;
esac
. "$here/../scratch.sh"
crate_of "$here/../.." "${SCRATCH:-/tmp/bench-outer}" "bench_$which" "$here/$which.txt" anyhow "${crates[@]}"
rt run
