"""Debian's Python, which has numpy and GNU Radio if another one lacks them."""
import os
import sys

DEBIAN = "/usr/bin/python3"


def try_debian():
    """Starts this program again by Debian's Python. Returns if that is the one which runs, or if there is none."""
    if os.path.exists(DEBIAN) and os.path.realpath(sys.executable) != os.path.realpath(DEBIAN):
        os.execv(DEBIAN, [DEBIAN, *sys.argv])
