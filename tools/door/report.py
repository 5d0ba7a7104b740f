"""The report as JSON (docs/use/JSON.md)."""
import json
import os

from cell_tools.standard_error import put
from commands import lines
from door.explain import cause_in, document_of
from door.watch import name_of, printed


class Report:
    """The report of a run of `form` so far. What is printed goes to the descriptor `to`."""

    def __init__(self, form, to, refusal=None):
        self.form, self.to, self.rest, self.at, self.found = form, to, "", None, {}
        self.refusal, self.verdict, self.frames = refusal, None, None
        if form and form.command == "measure":
            from door.measuring import Frames

            self.frames = Frames(form)

    def take(self, piece):
        """Takes what the program prints."""
        *whole, self.rest = (self.rest + piece.decode("utf-8", "replace")).split("\n")
        for line in whole:
            self.line(line)

    def line(self, line):
        place, values = lines.parsed(line)
        if place == "live" and self.frames:
            frame = self.frames.take(line)
            if frame:
                put(json.dumps(frame.described()).encode() + b"\n", self.to)
        elif place == "live":
            self.at = values.get("superframe", self.at)
            put(json.dumps({"superframe": self.at, **values}).encode() + b"\n", self.to)
        elif place == "refusal":
            self.refusal = {"text": line, **values}
        else:
            lines.add(self.found, place, values)

    def close(self, status):
        """Prints the object of the run; answers the status. One below 0 is a signal."""
        form, found = self.form, {"command": self.form and self.form.command, "status": status if status >= 0 else 128 - status}
        found.update({"signal": name_of(-status)} if status < 0 else {}, **({"verdict": self.verdict} if self.verdict else {}))
        if self.refusal and form:
            self.refusal.update(cause_of(form, self.refusal))
        sizes = [{"file": it, "bytes": os.path.getsize(it)} for it in (form.outputs if form else []) if os.path.isfile(it)]
        return printed(json.dumps({**found, "report": self.found, "refusal": self.refusal, "outputs": sizes}), status, self.to)


def cause_of(form, refusal):
    """The file of a refusal, and its key or offset, as far as its text and the names tell."""
    kind = refusal["text"].split()[0]
    if kind == "settings":
        return {"file": form.settings, **key_at(form, refusal.get("index"))}
    if "packet" in refusal:
        return {"file": dict(form.inputs).get(refusal["stream"]), "offset": 188 * refusal["packet"]}
    if kind in ("cells", "tune"):
        return {"file": form.cells, **({"offset": 0} if kind == "cells" else {})}
    if kind == "limit" and form.settings and form.command != "inner" and (form.command, refusal["limit"]) != ("modulate", 100_000_000):
        return {"file": form.settings, "key": "max_symbols"}
    failed = cause_in(form, {"read": "read", "write": "written"}.get(kind))[0]
    return {} if failed is None else {"file": failed}


def key_at(form, index):
    """The key of the settings with this number among those in byte order, if Python reads the document."""
    keys = sorted((document_of(form.settings) or {}) if index is not None else [], key=str.encode)
    return {"key": keys[index]} if keys and index < len(keys) else {}
