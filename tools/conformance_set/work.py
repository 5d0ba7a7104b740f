"""Runs a program on the rows and sums up what it gives."""
import hashlib
import pathlib
import subprocess
import tempfile

from conformance_set import rows, streams
from conformance_set.cases import disturbed
from conformance_set.layers import Symbols

SEQUENCES = {"hp": "prbs23", "lp": "prbs15"}


class Failed(Exception):
    """A program that did not do its work, in words for the user."""


def digest(content):
    """SHA-256 of bytes or of text."""
    return hashlib.sha256(content.encode() if isinstance(content, str) else content).hexdigest()


class Bench:
    """A folder in which a program is run."""

    def __init__(self, program):
        self.program = program

    def __enter__(self):
        self.kept = tempfile.TemporaryDirectory(prefix="conformance-")
        self.folder = pathlib.Path(self.kept.name)
        return self

    def __exit__(self, *_):
        self.kept.cleanup()

    def put(self, name, content):
        """Writes an input file."""
        (self.folder / name).write_bytes(content.encode() if isinstance(content, str) else content)

    def run(self, *words):
        """What the program reports."""
        how = {"cwd": self.folder, "stdin": subprocess.DEVNULL, "capture_output": True}
        ran = subprocess.run([*self.program, *words], **how)
        report = ran.stdout.decode("utf-8", "replace")
        if ran.returncode:
            raise Failed(f"`{' '.join(words)}` ended with status {ran.returncode}: {report.strip() or ran.stderr.decode('utf-8', 'replace').strip()}")
        return report

    def read(self, name):
        """An output file."""
        return (self.folder / name).read_bytes()


def coded(job):
    """The sums of what `outer` and `inner` give for a stream's packets, by its rate; no rate, no `inner`."""
    program, stream, count, rate = job
    with Bench(program) as bench:
        bench.put("in.ts", streams.packets(SEQUENCES[stream], count))
        bench.run("outer", "in.ts", "outer")
        sums = {"outer": digest(bench.read("outer"))}
        if rate:
            bench.put("s.toml", rows.document(rows.settings(0, "2k", "qpsk", "none", rate, None)))
            bench.run("inner", "s.toml", "in.ts", "inner")
            sums["inner"] = digest(bench.read("inner"))
        return sums


def modulated(bench, found):
    """The cells of a row."""
    bench.put("s.toml", rows.document(found))
    names = []
    for stream, count in rows.counts(found).items():
        bench.put(f"{stream}.ts", streams.packets(SEQUENCES[stream], count))
        names.append(f"{stream}.ts")
    bench.run("modulate", "s.toml", *names, "cells")
    return bench.read("cells")


def sums_of_cells(content, mode):
    """The sums of a cell file: of all of it, of its data cells, of its TPS bits."""
    symbols = Symbols(mode)
    return {"cells": digest(content), "data": digest(symbols.data(content)), "tps": digest(symbols.tps_bits(content))}


def sent(job):
    """The sums of the cells of a row, or why there are none."""
    program, found = job
    try:
        with Bench(program) as bench:
            return sums_of_cells(modulated(bench, found), found["mode"])
    except Failed as failure:
        return {"failed": str(failure)}


def received(job):
    """The sums and the report of what a command makes of a disturbed row, or why there are none."""
    program, maker, case = job
    constellation, hierarchy, *rates = case["parameters"].split()
    found = rows.settings(0, case["mode"], constellation, hierarchy, *rates, *[None] * (2 - len(rates)))
    try:
        with Bench(maker) as bench:
            content = modulated(bench, found)
        with Bench(program) as bench:
            bench.put("s.toml", rows.document(found | {"start": case["start"]}))
            bench.put("cells", disturbed(content, case["mode"], int(case["noise"]), case["weights"], case["muted"]))
            outputs = [f"{stream}.ts" for stream in rows.counts(found)]
            sums = {}
            for command in ("receive", "rescue"):
                report = bench.run(command, "s.toml", "cells", *outputs)
                closing = [line for line in report.splitlines() if " unmerged at " not in line]
                sums |= {f"{command}_lines": "; ".join(closing), f"{command}_report": digest(report)}
                for output in outputs:
                    sums[f"{command}_{output[:2]}"] = digest(bench.read(output))
            return sums
    except Failed as failure:
        return {"failed": str(failure)}
