#!/usr/bin/env python3
"""Writes the texts of examples/settings/ into the test of the settings that reads them.

A test starts in an empty folder, so it holds the texts itself. Run this at the top of the
repository after a change of an example; with --check it only says whether the two agree.
"""
import pathlib
import sys

TARGET = pathlib.Path("crates/test_station/src/tests/examples.rt")


def generated():
    out = ["// The documents of examples/settings/, written here by tools/settings_examples.py.", ""]
    out += ["// Each begins with a line `== NAME`.", 'pub(super) const EXAMPLES: &str = "\\']
    for path in sorted(pathlib.Path("examples/settings").glob("*.toml")):
        out.append(f"== {path.stem}\\n\\")
        for line in path.read_text().splitlines():
            out.append(line.replace("\\", "\\\\").replace('"', '\\"') + "\\n\\")
    out.append('";')
    return "\n".join(out) + "\n"


if __name__ == "__main__":
    text = generated()
    if "--check" in sys.argv:
        if TARGET.read_text() != text:
            sys.exit(f"{TARGET} is not what {sys.argv[0]} writes")
    else:
        TARGET.parent.mkdir(exist_ok=True)
        TARGET.write_text(text)
