"""What the names of a call stand for, looked at before anything is opened. A call that would destroy a file is rejected.

The program opens each name anew. So two names of one file would overwrite it, and an output that is a descriptor would
begin its file anew. And the program's own files take the lowest free descriptors: no name may stand for a free one.
"""
import os
import stat

from door.explain import piece

FILE, PIPE, DISK = stat.S_IFREG, stat.S_IFIFO, stat.S_IFBLK
STANDARD = {1: "standard output", 2: "standard error"}


class Rejected(Exception):
    """The call is not run. Its message, the name that it is about, the descriptor for the message, and the status."""

    def __init__(self, why, path=None, to=2, status=64):
        super().__init__(f"rejected before the start: {why}")
        self.path, self.to, self.status = path, to, status


class File:
    """A name of the call: its descriptor if it stands for one of ours, and the key by which files are compared."""

    def __init__(self, kind, name, path):
        self.name, self.path, self.is_output = name, path, kind.startswith("out")
        self.number, self.key = descriptor_of(path), key_of(path)


def given(form, closed):
    """The arguments for the program, and whether an output is our standard output. `closed` are those of 0 to 2 that are."""
    reject_misplaced(form)
    files = [File(*it) for it in form.files]
    standard = {number: key_of_status(os.fstat(number)) for number in STANDARD if number not in closed}
    for at, file in enumerate(files):
        if file.number in closed or is_not_open(file.path):
            raise Rejected(f"{file.path} stands for a descriptor that is not open", file.path)
        for other in files[:at]:
            if file.key and file.key == other.key and (file.is_output or other.is_output or file.key[0] == PIPE):
                raise Rejected(twice(other, file), file.path)
        for number, key in standard.items():
            if key and file.key == key and not (number == 1 and file.is_output):
                to = 1 if is_begun(2) and number == 2 else 2  # not into a file that holds something
                raise Rejected(f"{STANDARD[number]} goes to {file.path}, which is {file.name}; send it elsewhere", file.path, to)
    data = [it for it in files if it.is_output and (it.number == 1 or it.key and it.key == standard.get(1))]
    if data and os.isatty(1):
        raise Rejected(f"standard output is a terminal; name a file as {data[0].name}, or pipe it on", data[0].path)
    for file in files:
        number = 1 if file in data else file.number
        if file.is_output and number is not None and is_begun(number):
            raise Rejected(f"{file.path} holds data already and would be truncated; pipe through `cat`, or name the file", file.path)
    for file in (it for it in files if it.number == 1):
        real = os.dup(1)  # the report takes the place of this one
        os.set_inheritable(real, True)
        file.path = f"/dev/fd/{real}"
    return [form.command, *(it.path for it in files), *form.numbers], bool(data)


def reject_misplaced(form):
    """An option among the names is rejected, and so are cells of version 2 for `upgrade`, which would read them as noise, and an input
    that is sure to be refused if an output is there already, which would be emptied."""
    lost = next((it for it in form.outputs if os.path.isfile(it) and os.path.getsize(it)), None)
    for kind, path in form.inputs if lost else ():
        is_cells = kind != "cells" and piece(path, 0, 4) == b"DVTC"
        if is_cells or os.path.isdir(path):
            what = f"looks like a cell file, and {form.command} reads packets" if is_cells else "is a folder"
            raise Rejected(f"{path} {what}; what {lost} holds would be lost", path)
    for _, name, path in form.files:
        if path.startswith("-"):
            raise Rejected(f"{path}: there are no options after the command; a file of that name is ./{path}", path)
        if name == "OLD" and piece(path, 0, 5) == b"DVTC\x02":
            raise Rejected(f"{path} is of version 2 already", path)


def descriptor_of(path):
    """The number of our own descriptor that a path stands for, through any links, or None."""
    own = {os.path.realpath("/proc/self/fd"), os.path.realpath("/proc/thread-self/fd")}
    for _ in range(40):
        folder, name = os.path.split(path)
        folder = os.path.realpath(folder or ".")
        if folder in own and name.isascii() and name.isdigit():
            return int(name)
        try:
            path = os.path.join(folder, os.readlink(os.path.join(folder, name)))
        except OSError:
            return None
    return None


def is_not_open(path):
    """Whether a name is not there and is of /proc, where nothing can be made: a descriptor that is not open."""
    try:
        return not os.path.exists(path) and os.stat(os.path.dirname(os.path.realpath(path))).st_dev == os.stat("/proc").st_dev
    except OSError:
        return False


def is_begun(number):
    """Whether a descriptor is a file that holds something."""
    found = os.fstat(number)
    return stat.S_ISREG(found.st_mode) and found.st_size > 0


def key_of(path):
    """Device and inode of a file, a pipe or a disk; folder and name of what is not there yet. None of what may be named twice."""
    try:
        return key_of_status(os.stat(path))
    except OSError:
        pass
    path = os.path.realpath(path)
    try:
        folder = os.stat(os.path.dirname(path))
        return folder.st_dev, folder.st_ino, os.path.basename(path)
    except OSError:
        return path


def key_of_status(found):
    """None of a folder, a terminal or a device such as /dev/null."""
    kind = stat.S_IFMT(found.st_mode)
    return (kind, found.st_dev, found.st_ino) if kind in (FILE, PIPE, DISK) else None


def twice(first, second):
    """Why two names of one file can't be run."""
    same = second.path if first.path == second.path else f"{second.path}, which is {first.path},"
    if first.is_output and second.is_output:
        return f"{same} would be written as {first.name} and as {second.name}; give each its own file"
    if not first.is_output and not second.is_output:
        return f"{same} is a pipe, and can't be read as {first.name} and as {second.name}"
    read, written = (first, second) if second.is_output else (second, first)
    return f"{same} is read as {read.name} and would be overwritten as {written.name}; nothing was touched"
