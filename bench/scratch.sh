# What the benchmarks of single crates share. Read by `.`, not run.

# Makes a scratch repository of these crates of this one and of those that they stand on by crates.txt, or makes it anew,
# without must-fail edits. Names of the toolchain's crates are passed over. What was proved of a crate in this repository (as by
# bin/dvbt, where it builds from source) goes along as links; rt takes it where it is of the same sources.
copy_crates() { # this repository, the scratch folder, the crates
  local top=$1 to=$2 crate part
  shift 2
  mkdir -p "$to"
  cp "$top/HANDLES" "$to/"
  : > "$to/crates.txt"
  for crate in $(with_those_below "$top" "$@"); do
    mkdir -p "$to/crates/$crate"
    for part in src specs proofs; do
      rm -rf "${to:?}/crates/$crate/$part"
      if [ -d "$top/crates/$crate/$part" ]; then cp -r "$top/crates/$crate/$part" "$to/crates/$crate/"; fi
    done
    if [ -d "$top/crates/$crate/out/rlib" ]; then
      mkdir -p "$to/crates/$crate/out"
      rm -rf "${to:?}/crates/$crate/out/rlib"
      cp -rl "$top/crates/$crate/out/rlib" "$to/crates/$crate/out/" 2> /dev/null || rm -rf "${to:?}/crates/$crate/out/rlib"
    fi
    grep "^$crate:" "$top/crates.txt" >> "$to/crates.txt"
  done
}

# Makes such a repository with one more crate, the program in this file over these crates, and enters its folder.
crate_of() { # this repository, the scratch folder, the crate, the file, the crates below
  copy_crates "$1" "$2" "${@:5}"
  mkdir -p "$2/crates/$3/src"
  echo "$3: ${*:5}" >> "$2/crates.txt"
  cp "$4" "$2/crates/$3/src/main.rt"
  cd "$2/crates/$3"
}

# Proves and builds the program in the folder, and runs it once. Shows the errors alone.
build() { # flags of rt run
  rt run "$@" > out.log 2>&1 || {
    grep -v '^statements\|^logic \|^library' out.log | tail -20
    exit 1
  }
}

with_those_below() { # this repository, the crates
  python3 - "$@" <<'END'
import sys
uses = {}
for line in open(sys.argv[1] + "/crates.txt", encoding="utf-8"):
    name, colon, named = line.partition("#")[0].partition(":")
    if colon:
        uses[name.split()[0]] = named.split()
found = {}
def add(crate):
    if crate in uses and crate not in found:
        for below in uses[crate]:
            add(below)
        found[crate] = True
for crate in sys.argv[2:]:
    add(crate)
print(*found)
END
}
