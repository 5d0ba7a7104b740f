"""The pages of the manual, of the same texts as `--help` and docs/."""
import glob
import os
import re

from commands import forms as words
from commands import texts
from installing import roff
from monitor import arguments


DOCS = os.path.join(os.path.dirname(os.path.realpath(__file__)), "../../docs")


def installed(name, prefix):
    """Where a document of this name is installed."""
    found = glob.glob(f"{DOCS}/*/{name}")
    return f"{prefix}/share/doc/dvbt/{os.path.relpath(found[0], DOCS) if found else name}"


def placed(text, prefix):
    """A text of the repository with the names that things have once they are installed."""
    for name, page in (("docs/use/FILES.md", "dvbt-cells(5)"), ("docs/use/SETTINGS.md", "dvbt-settings(5)"), ("SETTINGS.md", "dvbt-settings(5)")):
        text = re.sub(rf"\[[^\]]*\]\((?:\.\./)*{re.escape(name)}[^)]*\)|(?<![\w/]){re.escape(name)}", page, text)
    text = re.sub(r"\[[^\]]*\]\(FILES\.md[^)]*\)", "dvbt-cells(5)", text)
    text = re.sub(r"\[(?:docs/\w+/)?([\w-]+\.md)\]\([^)]*\)", lambda found: installed(found[1], prefix), text)
    text = re.sub(r"(?<![\w/])docs/\w+/([\w-]+\.md)", lambda found: installed(found[1], prefix), text)
    text = re.sub(r"bin/dvbt((?: COMMAND)? --\w+ {2,})", r"dvbt\1    ", text)  # the columns of --help
    text = text.replace("tools/cells.py", "dvbt-cells").replace("bin/dvbt", "dvbt")
    return re.sub(r"((?<![\w/])|(?<=\\fB))examples/", f"{prefix}/share/dvbt/examples/", text)


def read(top, path):
    """A document without the sentences about the repository alone: its crates and its checks."""
    with open(f"{top}/{path}", encoding="utf-8") as file:
        text = file.read()
    begin, about = r"(?:(?<=\. )|(?<=\n\n))(?:(?!\. )[^|\n#]|\n(?!\n))*", r"`(?:crates/|tools/check-|tools/settings_)"
    return re.sub(rf"{begin}{about}(?:(?!\. )[^|]|\n(?!\n))*?\.(?=\s)", "", text)


def options():
    """The options that `--help` lists, each with its text."""
    lines = texts.help_of_all().split("\nThere and back:")[0].split("\n")
    return [found.groups() for found in (re.fullmatch(r"  ((?:bin/dvbt )?(?:COMMAND )?[-$]\S*(?: \S+)*?)  +(\S.*)", line) for line in lines) if found]


def statuses():
    return [line.strip().split("  ", 1) for line in texts.lines_of_statuses(None)]


def tagged(rows):
    """Pairs of a tag and its text."""
    return "".join(f".TP\n\\fB{roff.escaped(tag, True)}\\fR\n{roff.inline(text)}\n" for tag, text in rows)


def command(name):
    """The subsection of a command: its forms, what it does and an example."""
    out = f".SS {name}\n{roff.inline(texts.SHORT[name][:1].upper() + texts.SHORT[name][1:])}.\n"
    out += "".join(f".PP\n\\fB{roff.escaped(line, True)}\\fR\n" for line in words.lines_of_forms(name))
    out += f".PP\n{roff.inline(' '.join(texts.MORE[name].split()))}\n"
    return out + roff.literal(texts.EXAMPLES[name])


def of_program(top):
    """The body of dvbt(1)."""
    usage = [*texts.USAGE, *(line for it in words.FORMS for line in words.lines_of_forms(it))]
    synopsis = "".join(f"\\fB{roff.escaped(line, True)}\\fR\n.br\n" for line in usage)
    readme, running = read(top, "README.md"), read(top, "docs/use/RUNNING.md")
    about = roff.opening(readme).split("```")[0].strip()
    out = f".SH SYNOPSIS\n{synopsis}.SH DESCRIPTION\n{roff.body(about)}"
    out += ".SH OPTIONS\n" + tagged(options())
    out += ".SH COMMANDS\n" + "".join(map(command, words.FORMS))
    out += f".SS monitor\n{roff.literal(arguments.HELP.split(chr(10)))}"
    out += ".SH ARGUMENTS\n" + tagged(texts.FILES.items())
    out += ".SH EXIT STATUS\n" + tagged(statuses())
    out += roff.body(roff.sections(readme, "Limits")) + roff.body(roff.sections(running, "What the outputs hold", "Pipes, devices and faults"))
    return out + ".SH SEE ALSO\ndvbt\\-cells(5), dvbt\\-settings(5); ETSI EN 300 744, ETSI TR 101 290, ISO/IEC 13818\\-1\n"


def of_cells(top):
    """The body of dvbt-cells(5)."""
    text = read(top, "docs/use/FILES.md")
    names = ["Cell files", "Transport files", "Reading a cell file in numpy", "Reading a cell file in GNU Radio", "From cells to samples"]
    about = ".SH DESCRIPTION\n" + roff.body(roff.opening(text))
    return about + roff.body(roff.sections(text, *names)) + ".SH SEE ALSO\ndvbt(1), dvbt\\-settings(5)\n"


def of_settings(top):
    """The body of dvbt-settings(5)."""
    text = read(top, "docs/use/SETTINGS.md")
    about = ".SH DESCRIPTION\n" + roff.body(roff.opening(text))
    return about + roff.body(text[text.index("\n## ") :]) + ".SH SEE ALSO\ndvbt(1), dvbt\\-cells(5)\n"


PAGES = {
    "dvbt.1": (of_program, "a DVB-T modulator and streaming soft receiver"),
    "dvbt-cells.5": (of_cells, "cell files and transport files of dvbt"),
    "dvbt-settings.5": (of_settings, "the settings of a DVB-T transmission for dvbt"),
}


def pages(top, prefix, version):
    """The text of each page, by the name of its file."""
    found = {}
    for file, (body, summary) in PAGES.items():
        name, section = file.rsplit(".", 1)
        text = placed(roff.page(name, section, summary, body(top), version), prefix)
        found[file] = re.sub(r"(?<![\w/-])([A-Z][A-Z-]+\.md)", lambda it: installed(it[1], prefix), text)
    return found
