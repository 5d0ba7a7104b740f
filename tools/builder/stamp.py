"""Which program to run, for a few milliseconds. A stamp, out/stamp, tells that all files that the program was found by are as
they were: size, times and inode of each, and of each folder. Else `program` compares checksums and writes the stamp anew.

As git does, the stamp has no state of a file that may have changed in the same tick of the clock as the stamp was made."""
import gc
import operator
import os
import stat
import time

YOUNG = 2_000_000_000  # nanoseconds: the coarsest tick of a file system
STATE = operator.itemgetter(stat.ST_SIZE, stat.ST_MTIME, stat.ST_CTIME, stat.ST_INO)  # whole seconds are no coarser than YOUNG


def program_of(top):
    """The program of the sources as they stand; None if it has to be built."""
    return stamped(top) or searched(top)


def searched(top):
    """The program by checksums, of what changed since the stamp."""
    from builder import program

    return program.found(top, known(top))


def read(top):
    """The parts of the stamp if it was made here: the program, the paths, all their states as one number, what was not there; and for
    `known` each state and sum."""
    try:
        with open(f"{top}/out/stamp", encoding="utf-8") as file:
            here, *parts = file.read().split("\0")
    except (OSError, ValueError):
        return None
    return parts if here == place() and len(parts) == 6 else None


def stamped(top):
    """The program, if the stamp holds."""
    parts = read(top)
    if not parts:
        return None
    file, paths, states, absent = parts[:4]
    here = os.open(".", os.O_PATH)
    try:
        os.chdir(top)  # short paths are looked up faster
        is_same = str(number_of(map(STATE, map(os.stat, paths.split("\n"))))) == states
        return f"{top}/{file}" if is_same and not any(map(os.path.lexists, absent.split("\n"))) else None
    except OSError:
        return None
    finally:
        os.fchdir(here)
        os.close(here)


def number_of(states):
    """One number for many states: whole numbers have the same hash in each run."""
    gc.disable()  # thousands of tuples, and no garbage among them
    try:
        return hash(tuple(states))
    finally:
        gc.enable()


def known(top):
    """The checksums of the stamp, by path and state."""
    parts = read(top)
    if not parts:
        return {}
    paths, states, sums = (it.split("\n") for it in (parts[1], *parts[4:]))
    return {(path, state): value for path, state, value in zip(paths, states, sums) if value}


def state(path):
    return str(STATE(os.stat(path)))


def write(top, file, sums, others, begun):
    """Writes the stamp: the program `file` was found by files with these sums, and by `others`, some of which are not there. The
    checksums were begun at `begun`, in nanoseconds of the monotonic clock."""
    new = f"{top}/out/stamp.{os.getpid()}"
    try:
        os.makedirs(f"{top}/out", exist_ok=True)
        with open(new, "w", encoding="utf-8") as made:
            begun = os.fstat(made.fileno()).st_mtime_ns - (time.monotonic_ns() - begun) - YOUNG
            rows, absent, all_states = [], [], []
            for path in [*sums, *others]:
                try:
                    found = os.stat(f"{top}/{path}")
                    is_old = max(found.st_mtime_ns, found.st_ctime_ns) < begun
                    all_states.append(STATE(found) if is_old else None)
                    rows.append((path, str(all_states[-1]), sums.get(path, "")))
                except OSError:
                    absent.append(path)
            paths, states, values = map("\n".join, zip(*rows))
            number = "young" if None in all_states else str(number_of(all_states))
            made.write("\0".join([place(), os.path.relpath(file, top), paths, number, "\n".join(absent), states, values]))
        os.replace(new, f"{top}/out/stamp")
    except OSError:
        pass  # without a stamp the next call compares checksums again


def place():
    """What the stamp is good for: this machine, with the toolchain's command that is first on the PATH."""
    rt = path_of_rt()
    found = os.stat(rt) if rt else None
    return f"dvbt 2 {os.uname().nodename} {rt} {STATE(found) if found else ''}"


def path_of_rt():
    """The toolchain's command, or None."""
    for folder in os.environ.get("PATH", os.defpath).split(os.pathsep):
        path = os.path.join(folder, "rt")
        try:
            if stat.S_ISREG(os.stat(path).st_mode) and os.access(path, os.X_OK):
                return os.path.realpath(path)
        except OSError:
            pass
    return None
