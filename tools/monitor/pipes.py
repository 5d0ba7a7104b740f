"""Pipes between programs: what passes is moved by the kernel where nobody looks at it."""
import ctypes
import errno
import fcntl
import os

PIPE = {"2k": 1 << 18, "8k": 1 << 20}  # bytes that a pipe holds, if the system allows so many: some thirty symbols
F_SETPIPE_SZ = 1031
LIBRARY = ctypes.CDLL(None, use_errno=True)


def pipe(size):
    """Both ends of a pipe."""
    read, write = os.pipe()
    widen(write, size)
    return read, write


def widen(file, size):
    """Lets a pipe hold so many bytes, if it is one and the system allows it."""
    try:
        fcntl.fcntl(file, F_SETPIPE_SZ, size)
    except OSError:
        pass


def put(to, data):
    """Writes all of it; answers whether it was taken."""
    data = memoryview(data)
    try:
        while data:
            data = data[os.write(to, data) :]
    except OSError:
        return False
    return True


def tee(source, to, count):
    """Copies up to so many bytes from pipe to pipe once there are some, and leaves them in the source; answers how many, 0 at the end."""
    return done(LIBRARY.tee, source, to, ctypes.c_size_t(count), 0)


def splice(source, to, count):
    """Moves up to so many bytes from pipe to pipe once there are some; answers how many, 0 at the end."""
    return done(LIBRARY.splice, source, None, to, None, ctypes.c_size_t(count), 0)


def done(call, *words):
    """What a call of the system answers. A signal may interrupt it."""
    while True:
        found = call(*words)
        if found >= 0:
            return found
        if ctypes.get_errno() != errno.EINTR:
            raise OSError(ctypes.get_errno(), os.strerror(ctypes.get_errno()))


def move(source, to, count):
    """Moves so many bytes that are in a pipe to another, or drops them if nobody reads there; answers whether they were taken."""
    while count:
        try:
            count -= splice(source, to, count)
        except OSError:
            while count:
                count -= len(os.read(source, count))
            return False
    return True
