"""The texts of `bin/dvbt --help`. The pages of the manual are made of the same."""
from commands import forms

SHORT = {
    "modulate": "transport packets to the cells of the OFDM carriers",
    "receive": "cells, noisy or not, to transport packets",
    "rescue": "like receive; decodes failed words once more, with their least reliable bytes erased",
    "tune": "like receive, from any symbol on; reads the parameters from the TPS",
    "align": "cells from any symbol on to cells from a super-frame on; reports the parameters in the TPS",
    "measure": "reports MER, bit error rates, words and TPS of each super-frame, while the cells come",
    "upgrade": "a cell file of version 1 to version 2",
    "equalise": "corrects and weights cells by the pilots of their own symbols",
    "track": "corrects and weights cells by the pilots of neighbouring symbols; takes echoes of up to the guard interval",
    "trial": "sends random packets over disturbed cells and counts what comes back",
    "disperse": "energy dispersal alone, 188 bytes a packet",
    "outer": "energy dispersal, Reed-Solomon code and outer interleaver, 204 bytes a packet",
    "inner": "those bytes, convolutionally coded and punctured",
}

MONITOR = "all in one: from live cells to packets and figures, on a screen or a page"

FILES = {
    "SETTINGS": "a TOML document of the transmission (docs/use/SETTINGS.md; examples/settings/)",
    "HP": "a transport file, packets of 188 bytes: the only stream, or the more robust of two",
    "LP": "a transport file: the second stream, with a hierarchy",
    "TS": "a transport file, packets of 188 bytes",
    "CELLS": "a cell file: a header, then five bytes a carrier, symbol after symbol (docs/use/FILES.md)",
    "OLD": "a cell file of version 1: four bytes a carrier, without a header (docs/use/FILES.md)",
    "NEW": "the cell file of version 2 to write: a header, then five bytes a carrier",
    "IN": "a cell file of version 2 (docs/use/FILES.md)",
    "OUT": "the file to write",
    "NUMBER": "one to ten digits, at most 4294967295; the same number gives the same lines everywhere",
}

MORE = {
    "modulate": """Writes whole super-frames, at least one: the fewest from which a receiver gets all packets. Null packets
fill the rest. Name LP if and only if the settings have a hierarchy, at the top or in their plan.""",
    "receive": """Reads cells from the first symbol of a super-frame on and writes packets as they are decided. A
packet that can't be corrected is written with transport_error_indicator set. Name LP if and only if the settings have
a hierarchy, at the top or in their plan. Set start = "any" if the cells do not begin at the start of a transmission.
Each cell has a weight of 0 to 15, which scales its costs.""",
    "rescue": """Reads cells and writes packets as `receive` does. If a word of 204 bytes has more than eight errors, its eight
least reliable bytes are erased, and it is decoded once more. If the others have at most four errors, it is recovered
and counted as rescued. Packets come later than from `receive`, and no line `tps` is printed.""",
    "tune": """Finds the first 68 symbols whose TPS word can be read, takes constellation, hierarchy, rates and guard interval from
it, and receives from the next super-frame on. Of the settings only mode, workers and max_symbols are used. Name LP if
and only if the signal has a hierarchy. `tune at I frame F` reports the first symbol of the frame, counted from 0.
Symbols before that super-frame are not received.""",
    "align": """IN begins at any symbol. Finds the first 68 symbols whose TPS word can be read, and writes the header and then each
whole symbol from the next super-frame on, unchanged and as soon as it is complete. A file that begins at a
super-frame loses its first one. `tune at I frame F` reports the first symbol of the frame, counted from 0, and
`announced ..` its parameters in the words of the settings file. `symbols N tail T` counts the symbols written and the
bytes after them. Of the settings only mode and max_symbols are used.""",
    "measure": """Compares each data cell with the cell that the decoded bits stand for. Prints sums of each super-frame three
symbols after its end: power and error of the cells (MER is 10 log10 (power / error)), bits and those that are wrong before
the inner decoder, outer words, repaired bits and TPS words. The closing lines are those of `receive`. Reads cells from the
first symbol of a super-frame on. On a terminal, and with --json, bin/dvbt prints MER and error rates (docs/use/MEASURING.md).""",
    "upgrade": """Writes the header of the settings' mode, and each cell of OLD's whole symbols with the full weight, 15.
Of the settings only mode and max_symbols are used.""",
    "equalise": """IN begins at the first symbol of a super-frame, as from align. Divides each cell by the gain interpolated between the
two pilots around it, and writes it with a weight of 0 to 15 by the power of that gain. Use it for flat gains and for
short echoes. Of the settings only mode and max_symbols are used.""",
    "track": """IN begins at the first symbol of a super-frame, as from align. Takes the gain of each carrier from the scattered
pilots of the symbols around it, which stand at every third carrier. Use it for echoes of up to the guard interval,
for a channel that changes from symbol to symbol, and for a common phase error. Each cell is weighted by its power and
the measured noise; the old weight scales that. A symbol is written after the seventh symbol that follows it, or at
the end. Of the settings mode, guard, max_symbols and the constellations, also those of the plan, are used.""",
    "trial": """Writes no file. The lines count what was sent and what came back, with null packets. `cells` and `sum` are sums of
bytes modulo 2^32.""",
    "disperse": "EN 300 744, 4.3.1.",
    "outer": "EN 300 744, 4.3.1 and 4.3.2.",
    "inner": "EN 300 744, 4.3.1 to 4.3.3, at rate_hp of the settings. Zero bits fill the last byte.",
}

EXAMPLES = {
    "modulate": ["bin/dvbt modulate examples/settings/64qam.toml examples/sample.ts out.cells"],
    "receive": ["bin/dvbt receive examples/settings/64qam.toml out.cells back.ts"],
    "rescue": ["bin/dvbt rescue examples/settings/64qam.toml noisy.cells back.ts"],
    "tune": ["bin/dvbt tune examples/settings/64qam.toml recorded.cells back.ts"],
    "align": ["bin/dvbt align examples/settings/64qam.toml recorded.cells aligned.cells"],
    "measure": ["bin/dvbt measure examples/settings/64qam.toml noisy.cells"],
    "upgrade": ["bin/dvbt upgrade examples/settings/64qam.toml old.cells new.cells"],
    "equalise": ["bin/dvbt equalise examples/settings/64qam.toml received.cells corrected.cells"],
    "track": ["bin/dvbt track examples/settings/64qam.toml received.cells corrected.cells"],
    "trial": ["bin/dvbt trial examples/settings/qpsk.toml 7"],
    "disperse": ["bin/dvbt disperse examples/sample.ts out.ts"],
    "outer": ["bin/dvbt outer examples/sample.ts out.bin"],
    "inner": ["bin/dvbt inner examples/settings/qpsk.toml examples/sample.ts out.bin"],
}

# The statuses, in one line each, and which commands have them.
STATUSES = [
    (0, "done; the lines have the counts", forms.FORMS),
    (2, "invalid command line: `usage`", forms.FORMS),
    (3, "the settings are rejected: `settings ..` says why", ("modulate", "receive", "rescue", "tune", "align", "measure", "upgrade", "equalise", "track", "trial", "inner")),
    (4, "a packet does not begin with the sync byte 47: `hp packet N`, `lp packet N`, counted from 0",
     ("modulate", "disperse", "outer", "inner")),
    (5, "a file can't be opened or read: `read fault`", forms.FORMS),
    (6, "an output can't be created, written or closed: `write fault`", forms.FORMS),
    (7, "out of memory: `memory`; no line if an argument is not UTF-8 or there is no memory for the files' buffers",
     ("modulate", "receive", "rescue", "tune", "align", "measure", "upgrade", "equalise", "track", "trial", "outer", "inner")),
    (7, "an argument is not UTF-8, or there is no memory for the files' buffers: no line", ("disperse",)),
    (8, "more packets or symbols than the limit: `limit N`", forms.FORMS),
    (9, "the cells do not begin with the header of the settings' mode: `cells header`", ("receive", "rescue", "tune", "align", "measure", "equalise", "track")),
    (10, "no TPS word can be read in the cells: `tune none`", ("tune", "align")),
    (11, "the signal has a hierarchy and LP is not given, or the reverse: `tune form`", ("tune",)),
]
OF_THE_DOOR = [
    (1, "with --strict: done, but with a verdict, such as no reception"),
    (64, "nothing was started: {}"),
    (126, "the program could not be built, or its proof failed, or the one that $DVBT_PROGRAM names can't be run"),
    (127, "the program is not built, and the toolchain's command rt is not on the PATH"),
]


USAGE = ["bin/dvbt [-q] [--strict] [--json] COMMAND ARGUMENTS", "bin/dvbt [COMMAND] --help", "bin/dvbt --version", "bin/dvbt --program"]


def help_of_all():
    """What `bin/dvbt --help` prints."""
    out = ["dvbt: a DVB-T modulator and streaming soft receiver (EN 300 744, between transport packets and OFDM cells)", ""]
    out += [f"usage: {USAGE[0]}", *(f"       {it}" for it in USAGE[1:]), ""]
    for command in forms.FORMS:
        out += [f"  {line}" for line in forms.lines_of_forms(command)]
        out += [f"        {SHORT[command]}"]
    out += ["", "  dvbt monitor [OPTIONS] CELLS [HP [LP]]", f"        {MONITOR}"]
    out += ["", "  bin/dvbt COMMAND --help     forms, files, an example and the statuses of a command"]
    out += ["  bin/dvbt --version          the sources, the toolchain and the program that would run"]
    out += ["  bin/dvbt --program          the path of that program, which is built if it isn't yet"]
    out += ["  -q, --quiet                 the program alone: no explanation, verdict or progress on standard error"]
    out += ["  --strict                    status 1 in place of 0 if there is a verdict: a line on what a run is worth"]
    out += ["  --json                      the report as one object on one line (docs/use/JSON.md)"]
    out += ["  -                           in place of a file: standard input, or output; the report then goes to standard error"]
    out += ["  $DVBT_PROGRAM               names another program to run in its place", ""]
    out += ["There and back:"]
    out += [f"  {EXAMPLES[it][0]}" for it in ("modulate", "receive")]
    out += ["", "Statuses:"] + lines_of_statuses(None)
    out += ["", "docs/use/SETTINGS.md lists the settings, docs/use/FILES.md describes the files."]
    return "\n".join(out)


def help_of(command):
    """What `bin/dvbt COMMAND --help` prints."""
    out = [f"dvbt {command}: {SHORT[command]}", ""]
    out += [f"  {line}" for line in forms.lines_of_forms(command)] + [""]
    names = dict.fromkeys(name for kinds in forms.FORMS[command] for _, name in kinds)
    width = max(map(len, names))
    out += [f"  {name:{width}}  {FILES[name]}" for name in names]
    out += ["", MORE[command], "", "Example:"] + [f"  {line}" for line in EXAMPLES[command]]
    out += ["", "Statuses:"] + lines_of_statuses(command)
    return "\n".join(out)


def lines_of_statuses(command):
    shown = {}
    for number, text, of in STATUSES:
        if command is None or command in of:
            shown.setdefault(number, text)
    causes = ["a file would be destroyed", "a descriptor is not open", "an option follows the command"]
    causes += ["OLD is of version 2"] * (command in (None, "upgrade")) + ["an output is a terminal"] * (command not in ("measure", "trial"))
    causes = f"{', '.join(causes[:-1])}, or {causes[-1]}"
    return [f"  {number:3}  {text.format(causes)}" for number, text in sorted([*shown.items(), *OF_THE_DOOR])]
