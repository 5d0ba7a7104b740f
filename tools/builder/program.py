"""The program for the sources as they stand: found by checksums, never by times.

A program is of a tree where the checksums of all that it is built from are those beside it: each file of src, specs and
proofs of the crates that `dvbt` stands on, crates.txt and HANDLES. `out/dvbt` was proved and built here, and is of the
toolchain whose line (`rt version`) stands with its sums. `dist/` has programs that come with the repository.
"""
import hashlib
import os
import subprocess
import sys
import time

from builder import stamp
from builder.level import LEVELS, level_of_processor
from door.explain import say
from door.main import program_named

PARTS = ("src", "specs", "proofs")  # the folders of a crate that the program is built from


def fail(status, text):
    say(text)
    sys.exit(status)


def named_of(top):
    """Of each crate of crates.txt, the libraries that it names: those of the repository and those of the toolchain."""
    named = {}
    with open(f"{top}/crates.txt", encoding="utf-8") as file:
        for line in file:
            name, _, used = line.partition("#")[0].partition(":")
            if name.strip():
                named[name.split()[0]] = used.split()
    return named


def uses_of(top):
    """The crates that `dvbt` stands on and itself, lowest first, each with those of them that it names."""
    named, found = named_of(top), {}

    def add(name):
        used = [it for it in named.get(name, []) if it in named]
        for it in used:
            add(it)
        found.setdefault(name, used)

    add("dvbt")
    return found


def crates_of(top):
    """The crates that `dvbt` stands on and itself, lowest first."""
    return list(uses_of(top))


def sources_of(top, crate):
    """The paths of the files that a crate is built from."""
    files = []
    for part in PARTS:
        for at, _, names in os.walk(f"{top}/crates/{crate}/{part}"):
            files += [os.path.relpath(f"{at}/{name}", top) for name in names if name.endswith((".rt", ".antt"))]
    return files


def sums_of(top, *crates, known={}):
    """The checksum of each file that the program is built from, or these crates of it alone, by its path from the top. `known` has some
    of them, by path and state."""
    files = [it for crate in crates or crates_of(top) for it in sources_of(top, crate)]
    files = sorted(files + ([] if crates else ["crates.txt", "HANDLES"]))
    return {it: known and known.get((it, stamp.state(f"{top}/{it}"))) or sum_of(f"{top}/{it}") for it in files}


def written(sums, toolchain):
    """Sums as a file for `sha256sum -c`, with the toolchain's line."""
    return f"# {toolchain}\n" + "".join(f"{value}  {path}\n" for path, value in sums.items())


def read_sums(path):
    """The toolchain's line and the sums of such a file, or None."""
    try:
        with open(path, encoding="utf-8") as file:
            lines = file.read().splitlines()
    except (OSError, UnicodeDecodeError):
        return None
    head = lines[0][2:] if lines and lines[0].startswith("# ") else ""
    sums = {}
    for line in lines:
        value, gap, path = line.partition("  ")
        if gap and not line.startswith("#"):
            sums[path] = value
    return head, sums


def sum_of(path):
    try:
        with open(path, "rb") as file:
            return hashlib.sha256(file.read()).hexdigest()
    except OSError:
        return None


def toolchain_of():
    """The line of `rt version`, or None if there is no rt on the PATH."""
    if not stamp.path_of_rt():
        return None
    ran = subprocess.run(["rt", "version"], stdin=subprocess.DEVNULL, stdout=subprocess.PIPE, stderr=subprocess.DEVNULL, text=True)
    return ran.stdout.strip() or None


def stat_of_rt():
    """What tells that rt is the one whose line was asked: where it is, its time and size. Asking it takes 0.2 s."""
    rt = stamp.path_of_rt()
    return f"{rt} {os.stat(rt).st_mtime_ns} {os.stat(rt).st_size}" if rt else None


def built_here(top, sums):
    """out/dvbt, where it was built from these sources by the toolchain on the PATH (or where none is there)."""
    kept = read_sums(f"{top}/out/dvbt.sources")
    if not kept or kept[1] != sums or not os.access(f"{top}/out/dvbt", os.X_OK):
        return None
    try:
        with open(f"{top}/out/dvbt.by", encoding="utf-8") as file:
            by = file.read().split("\n")
    except OSError:
        return None
    if by[0] != sum_of(f"{top}/out/dvbt"):
        return None
    now = stat_of_rt()
    if now and now != by[1]:
        toolchain = toolchain_of()
        if toolchain != kept[0]:
            return None
    return f"{top}/out/dvbt"


def of_dist(top, sums):
    """The program of dist/ for this processor, where dist/ is of these sources and its file is whole."""
    kept, level = read_sums(f"{top}/dist/SOURCES.sha256"), level_of_processor()
    if not kept or kept[1] != sums or not level:
        return None
    name = f"dvbt-{level}"
    listed = read_sums(f"{top}/dist/SHA256SUMS")
    if not listed or sum_of(f"{top}/dist/{name}") != listed[1].get(name):
        say(f"dist/{name} is not the file that dist/SHA256SUMS lists, so it is not run")
        return None
    if not os.access(f"{top}/dist/{name}", os.X_OK):
        say(f"dist/{name} may not be run here (its mode, or a file system without programs)")
        return None
    return f"{top}/dist/{name}"


def found(top, known=None):
    """The program to run, or None if it has to be built. `known` has the checksums of the stamp; without it all are made anew, and no
    stamp is written."""
    named = program_named(top)
    if named:
        return named
    begun = time.monotonic_ns()
    sums = sums_of(top, known=known or {})
    file = built_here(top, sums) or of_dist(top, sums)
    if file and known is not None:
        stamp.write(top, file, sums, others_of(top), begun)
    return file


def others_of(top):
    """What the program is found by beside the sources, whether it is there or not: folders of sources, the programs and their sums."""
    folders = []
    for crate in crates_of(top):
        for part in PARTS:
            folders += [f"crates/{crate}/{part}"] + [os.path.relpath(at, top) for at, _, _ in os.walk(f"{top}/crates/{crate}/{part}")][1:]
    names = [f"dvbt-{it}" for it in LEVELS] + ["SOURCES.sha256", "SHA256SUMS"]
    return folders + [f"out/dvbt{it}" for it in ("", ".sources", ".by")] + [f"dist/{it}" for it in names]


def sum_of_all(sums):
    """One checksum of all sources."""
    return hashlib.sha256("".join(f"{value}  {path}\n" for path, value in sums.items()).encode()).hexdigest()


def version(top):
    """What VERSION says."""
    try:
        with open(f"{top}/VERSION", encoding="ascii") as file:
            return file.read().strip()
    except OSError:
        return "of no version"


def described(top):
    """The lines of --version."""
    sums = sums_of(top)
    lines = [f"dvbt {version(top)}, sources {sum_of_all(sums)[:16]} ({len(sums)} files)"]
    file = program_named(top) or built_here(top, sums) or of_dist(top, sums)
    if not file:
        lines.append("program: none of these sources is built yet; the first command builds it")
        return [*lines, f"toolchain: {toolchain_of() or 'rt is not on the PATH'}"]
    lines.append(f"program: {os.path.relpath(file, top) if file.startswith(top + os.sep) else file}")
    if os.environ.get("DVBT_PROGRAM"):
        return [*lines, "named by $DVBT_PROGRAM: its sources are not known"]
    kept = read_sums(f"{top}/out/dvbt.sources" if file == f"{top}/out/dvbt" else f"{top}/dist/SOURCES.sha256")
    return [*lines, f"proved and built by {kept[0]}"]
