"""What an installed dvbt says of itself."""
import hashlib

from builder import stamp
from door.main import program_named


def described(top):
    """The lines of --version."""
    version, sources, toolchain = (read(f"{top}/{name}") for name in ("VERSION", "SOURCES", "TOOLCHAIN"))
    lines = [f"dvbt {version}, sources {sources}"]
    named = program_named(top)
    file = named or stamp.program_of(top)
    lines.append(f"program: {file}")
    if named:
        return [*lines, "named by $DVBT_PROGRAM: its sources are not known"]
    with open(file, "rb") as content:
        if f"{hashlib.sha256(content.read()).hexdigest()}  {file.rsplit('/', 1)[1]}" not in read(f"{top}/dist/SHA256SUMS").splitlines():
            return [*lines, "NOT the program that was installed: its checksum differs"]
    return [*lines, f"proved and built by {toolchain}"]


def read(path):
    with open(path, encoding="utf-8") as file:
        return file.read().strip()
