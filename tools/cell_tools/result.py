"""What a command of cells.py found: lines for a reader, and the same by name for a program (docs/use/JSON.md)."""
import json
import math
import os
import sys

from cell_tools import files


class Result:
    """The lines, the values by name, what fails of the checks (None if all hold), and the files that were written."""

    def __init__(self, lines, report, failing=None, outputs=()):
        self.lines, self.report, self.failing, self.outputs = list(lines), report, failing, list(outputs)

    @property
    def status(self):
        return 1 if self.failing else 0


def show(verb, result, is_json, to):
    """Prints a result to the file `to`; answers its status."""
    if is_json:
        return show_object(verb, result.status, result.report, None, to, result.outputs, result.failing)
    print(*result.lines, sep="\n", file=to)
    return result.status


def show_object(verb, status, report, refusal, to, outputs=(), verdict=None):
    """Prints the object of a run; answers its status."""
    found = {"command": verb, "status": status, **({"verdict": verdict} if verdict else {})}
    found.update({"warnings": files.WARNINGS} if files.WARNINGS else {})
    sizes = [{"file": it, "bytes": os.path.getsize(it)} for it in outputs if os.path.isfile(it)]
    print(json.dumps({**found, "report": report, "refusal": refusal, "outputs": sizes}), file=to)
    return status


def standard(path):
    """Where the lines go: to standard error if the output `path` is standard output."""
    return sys.stderr if path in ("-", "/dev/stdout") else sys.stdout


def number(value, digits=4):
    """A value as JSON has it: null where there is none, as the ratio without an error."""
    return round(float(value), digits) if math.isfinite(value) else None
