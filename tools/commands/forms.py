"""The commands of dvbt and their forms. `texts` has what --help says of them."""
from commands.form_lines import LINES

# The kinds of files by their names in a form: those that are read, and those that are created.
READ = {"HP": "hp", "LP": "lp", "TS": "hp", "CELLS": "cells", "OLD": "cells", "IN": "cells"}
CREATED = {"HP": "out-hp", "LP": "out-lp", "CELLS": "out-cells", "NEW": "out-cells"}
PACKETS = ("hp", "lp")


def kinds_of(names):
    """The arguments of a form, each with its kind and name. If packets are read, cells are created, and the other way round;
    OUT has what is read: packets or bytes of one stream (`out`), or cells."""
    reads_packets = next((READ[name] for name in names if name in READ), None) in PACKETS
    found = []
    for name in names:
        if name in ("SETTINGS", "NUMBER"):
            kind = name.lower()
        elif name == "OUT":
            kind = "out" if reads_packets else "out-cells"
        elif name in READ and (READ[name] in PACKETS) == reads_packets:
            kind = READ[name]
        else:
            kind = CREATED[name]
        found.append((kind, name))
    return tuple(found)


FORMS = {}
for line in LINES:
    FORMS.setdefault(line.split()[0], []).append(kinds_of(line.split()[1:]))

# Options stand before the command.
OPTIONS = {"-q": "quiet", "--quiet": "quiet", "--strict": "strict", "--json": "json"}


class Form:
    """The arguments of one call, matched to a form: each file by its kind. `-` is standard input or output."""

    def __init__(self, command, kinds, words):
        self.command, self.files, self.numbers = command, [], []
        for (kind, name), word in zip(kinds, words):
            if kind == "number":
                self.numbers.append(word)
            else:
                standard = "/dev/stdout" if kind.startswith("out") else "/dev/stdin"
                self.files.append((kind, name, standard if word == "-" else word))

    def of(self, *kinds):
        """The paths of these kinds."""
        return [word for kind, _, word in self.files if kind in kinds]

    @property
    def settings(self):
        return (self.of("settings") or [None])[0]

    @property
    def inputs(self):
        """Kind and path of each file that is read beside the settings."""
        return [(kind, word) for kind, _, word in self.files if kind in ("hp", "lp", "cells")]

    @property
    def outputs(self):
        return [word for kind, _, word in self.files if kind.startswith("out")]

    @property
    def cells(self):
        """The cell file of version 2 by which symbols are counted, or None: what is read, or else what is written."""
        return ((self.of("cells") if self.command != "upgrade" else []) or self.of("out-cells") or [None])[0]


def form_of(words):
    """The form that these arguments have, or None."""
    if not words:
        return None
    for kinds in FORMS.get(words[0], ()):
        if len(kinds) != len(words) - 1:
            continue
        if ("number", "NUMBER") in kinds and not is_number(words[-1]):
            continue
        return Form(words[0], kinds, words[1:])
    return None


def is_number(word):
    return word.isascii() and word.isdigit() and len(word) <= 10 and int(word) <= 4294967295


def lines_of_forms(command):
    return [" ".join(["dvbt", command, *(name for _, name in kinds)]) for kinds in FORMS[command]]
