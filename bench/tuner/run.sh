#!/usr/bin/env bash
# Speed of the tuner: nanoseconds a symbol in both modes, and of a whole reading of 67 votes, which comes where the
# first 16 fit a sync word. Makes a scratch repository of the crates, proves and builds the program of this folder
# there by LLVM, and runs it. Usage: bench/tuner/run.sh [FOLDER] [flags of rt run, as --cpu x86-64-v3]
set -eu
here="$(cd "$(dirname "$0")" && pwd)"
to=${1:-$(mktemp -d)}
[ $# -gt 0 ] && shift
. "$here/../scratch.sh"
crate_of "$here/../.." "$to" bench_tuner "$here/tuner.txt" anyhow mode_set qam_map tps_word tune_in
rt run "$@"
