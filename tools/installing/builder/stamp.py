"""Which program an installed dvbt runs: that of dist/ for this processor."""
import os

from builder.level import level_of_processor
from door.names import Rejected


def program_of(top):
    """The program to run. An installation that lacks it is rejected with status 126."""
    level = level_of_processor()
    if level is None:
        raise Rejected("the installed programs are for x86-64; on another processor build dvbt from its repository", status=126)
    file = f"{top}/dist/dvbt-{level}"
    if not os.access(file, os.X_OK):
        raise Rejected(f"{file} is missing or can't be run; install dvbt again", status=126)
    return file
