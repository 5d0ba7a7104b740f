# What the benchmarks of the commands share. Read by `.`, not run.
top=$(cd "$(dirname "${BASH_SOURCE[0]}")/.." && pwd)
export PYTHONPATH="$top/bench"

# Makes $folder, a folder in memory that goes at the end; ${numbers[@]}, the leading words of the command line, or the defaults of
# those that are missing; and ${program[@]}, the words of the program to time: the rest of the command line, or the program of this
# repository's sources as they stand, built first where it isn't.
begin() { # the defaults, --, the words of the command line
  local default defaults=()
  while [ "$1" != -- ]; do
    defaults+=("$1")
    shift
  done
  shift
  numbers=()
  for default in "${defaults[@]}"; do
    numbers+=("${1:-$default}")
    if [ $# -gt 0 ]; then shift; fi
  done
  folder=$(mktemp -d /dev/shm/dvbt-bench.XXXXXX)
  trap 'rm -rf "$folder"' EXIT
  program=("$@")
  if [ ${#program[@]} -eq 0 ]; then
    local built
    built=$("$top/bin/dvbt" --program)
    program=("$built")
  fi
}
