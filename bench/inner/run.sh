#!/usr/bin/env bash
# Figures of the inner coding: builds a program of this folder over the repository's crates in a scratch repository, optimised by
# LLVM, and runs it. It codes bytes as the command `inner` does. Usage: bench/inner/run.sh bytes [try]
# With `try` it is run without any proof.
set -e
here="$(cd "$(dirname "$0")" && pwd)"
if [ "${1:-bytes}" != bytes ]; then
  echo "usage: bench/inner/run.sh bytes [try]" >&2
  exit 2
fi
. "$here/../scratch.sh"
crate_of "$here/../.." "${SCRATCH:-/tmp/bench-inner}" bench_inner "$here/bytes.txt" anyhow arrayvec mode_set bit_pack puncture
rt "${2:-run}"
