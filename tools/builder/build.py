"""Proves and builds the program from the sources: out/dvbt.

The libraries are proved side by side (`proofs`), and the program over them. The old program goes first, so that a failed proof
leaves none.
"""
import contextlib
import fcntl
import os
import sys
import time

from builder import program, proofs, stamp
from builder.program import fail
from door.explain import clock, say, spoken

# Seconds that the proof and build of the program took when it was measured, from nothing, by processors.
MEASURED = {2: 1102, 4: 684}
# Memory that one check takes at most, in bytes.
EACH = 2_000_000_000


def build(top, is_quiet):
    """Builds out/dvbt and answers its path; ends with 126 or 127 if that can't be."""
    if not stamp.path_of_rt():
        fail(127, "the program is not built from these sources, and the toolchain's command rt is not on the PATH")
    with alone(top) as has_waited:
        file = has_waited and program.built_here(top, program.sums_of(top))
        return file or built(top, program.level_of_processor(), is_quiet)


@contextlib.contextmanager
def alone(top):
    """Waits while another build of the program works in the tree, and gives whether it had to."""
    os.makedirs(f"{top}/out", exist_ok=True)
    with open(f"{top}/out/lock", "w") as lock:
        has_waited = False
        try:
            fcntl.flock(lock, fcntl.LOCK_EX | fcntl.LOCK_NB)
        except BlockingIOError:
            say("waiting for another build of the program to end")
            fcntl.flock(lock, fcntl.LOCK_EX)
            has_waited = True
        yield has_waited


def built(top, level, is_quiet=False):
    """The same under the lock, for processors of this level."""
    for name in ("dvbt", "dvbt.sources", "dvbt.by"):
        remove(f"{top}/out/{name}")
    toolchain, sums = program.toolchain_of(), program.sums_of(top)
    began = time.monotonic()
    target = f"{top}/out/dvbt"
    work = prove(top, is_quiet)
    link(work, level, f"{target}.new")
    work.stop()
    if program.sums_of(top) != sums:
        fail(126, "the sources changed while the program was built; run the command again")
    seconds = round(time.monotonic() - began)
    os.replace(f"{target}.new", target)
    write(f"{top}/out/dvbt.sources", program.written(sums, toolchain))
    write(f"{top}/out/dvbt.by", f"{program.sum_of(target)}\n{program.stat_of_rt()}\n")
    write(f"{top}/out/seconds", f"{seconds}\n")
    if not is_quiet:
        say(f"proved and built in {clock(seconds)}")
    return target


def prove(top, is_quiet):
    """Proves the libraries that the program stands on, side by side, as processors and memory allow; answers what `link` goes on with."""
    number, processors = len(program.uses_of(top)), len(os.sched_getaffinity(0))
    if not is_quiet:
        say(f"proving and building the program from its sources, {number} crates. {last_time(top, processors)}")
    began, is_terminal = time.monotonic(), sys.stderr.isatty() and not is_quiet
    with open(f"{top}/out/build.log", "w", encoding="utf-8") as log:

        def tell(crate, said, done):
            log.write(f"== {crate}\n{said}")
            log.flush()
            if not is_quiet:
                last = "; now the program itself" if done == number - 1 else ""
                shown = f"{done} of {number} crates, {crate} done, after {clock(time.monotonic() - began)}{last}"
                sys.stderr.write(f"\rdvbt: {shown}\033[K" if is_terminal else f"dvbt: {shown}\n")
                sys.stderr.flush()

        work = proofs.Proofs(top, processors, min(processors, max(1, free_memory() // EACH)), tell)
        failed = work.run()
        if failed:
            log.write("== {}\n{}".format(*failed))
    if is_terminal:
        sys.stderr.write("\r\033[K")
    if failed:
        show_failure(*failed)
        fail(126, "the program could not be built: its proof failed. The whole log is out/build.log")
    return work


def show_failure(crate, said):
    """Prints the end of what is said of the crate that failed."""
    sys.stderr.write(f"{crate}: failed\n" + "".join(said.splitlines(True)[-40:]))


def link(work, level, to):
    """Proves, compiles and links the program over its libraries, to the file `to`."""
    status, said = work.link(level, to)
    remove(f"{to}.o")
    with open(f"{work.top}/out/build.log", "a", encoding="utf-8") as log:
        log.write(f"== dvbt\n{said}")
    if status or not os.access(to, os.X_OK):
        show_failure("dvbt", said)
        remove(to)
        fail(126, "the program could not be proved or built. The whole log is out/build.log")


def last_time(top, processors):
    """How long it took the last time, here or where it was measured."""
    try:
        with open(f"{top}/out/seconds", encoding="utf-8") as file:
            return f"The last time it took {spoken(int(file.read()))}; what did not change is not proved again."
    except (OSError, ValueError):
        pass
    if processors in MEASURED:
        return f"On another machine of {processors} processors it took {spoken(MEASURED[processors])}."
    return "That is about three quarters of an hour of one processor's work, less where several share it."


def free_memory():
    try:
        with open("/proc/meminfo", encoding="utf-8") as file:
            line = next(line for line in file if line.startswith("MemAvailable"))
        return 1024 * int(line.split()[1])
    except (OSError, StopIteration, ValueError):
        return EACH


def remove(path):
    try:
        os.remove(path)
    except FileNotFoundError:
        pass


def write(path, text):
    with open(path, "w", encoding="utf-8") as file:
        file.write(text)
