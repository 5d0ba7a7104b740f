#!/usr/bin/env bash
# What it takes to hand work to threads: times `for_each_chunk_mut` over 24 numbers in one piece, in two and in four, and
# `join_mut` of two closures, all of which do next to nothing, 20,000 calls each. Builds the program of this folder in a scratch
# repository, optimised by LLVM, and runs it five times. Prints the nanoseconds of the fastest by the clock, and what all runs
# took of the processors.
# usage: bench/threads/run.sh [flags of rt run, as --cpu x86-64-v3]
set -e
here="$(cd "$(dirname "$0")" && pwd)"
. "$here/../scratch.sh"
crate_of "$here/../.." "${SCRATCH:-/tmp/bench-threads}" bench_threads "$here/threads.txt" anyhow
build "$@"
time (for _ in 1 2 3 4 5; do out/bench_threads; done | sort -t: -k1,1 -k2,2n | awk -F: '!seen[$1]++')
