#!/bin/sh
''':' # The shell runs the next lines, for Python they are a text: Python is started with SIGINT blocked until it is there.
case $(env --help 2>/dev/null) in *--block-signal*) exec env --block-signal=INT python3 "$0" "$@" ;; esac
exec python3 "$0" "$@"
'''
import _signal  # the built-in part alone: it comes before all that takes time

__doc__ = """Looks into cell files, compares two, and measures one (docs/use/FILES.md, docs/use/CHECK-YOUR-EQUIPMENT.md).

    tools/cells.py SETTINGS CELLS               symbols, TPS and powers; with --out a picture of the constellation
    tools/cells.py compare SETTINGS A B         how A differs from B: symbol, carrier, kind, label bit, clause, likeliest cause
    tools/cells.py measure SETTINGS CELLS       MER, pilots, data cells beyond the tolerance, TPS words, what receive makes of it
    tools/cells.py disturb SETTINGS CELLS OUT   the same cells with noise, to try a receiver on

A cell file may be a pipe, and `-` is standard input (of `disturb` OUT also standard output). Files are read a frame at a
time, so their length costs no memory. With --json what is found is one object on one line (docs/use/JSON.md).

Needs Python 3.9 or later, numpy, and for --out matplotlib too. On Debian:
    apt-get install python3-numpy python3-matplotlib
Before Python 3.11 the settings have to be plain lines (cell_tools/plain_toml.py), as those of examples/settings are.
If the python3 on the PATH lacks numpy, /usr/bin/python3 is tried.

It is a reader's tool beside the program and shares no code with it. Other programs can use it as a module:
read_settings(path), CellFile(path, settings).array() and Carriers(mode).kinds(l).
"""
if __name__ == "__main__":  # Ctrl-C shows no traceback
    if _signal.getsignal(_signal.SIGINT) is _signal.default_int_handler:
        _signal.signal(_signal.SIGINT, _signal.SIG_DFL)
    _signal.pthread_sigmask(_signal.SIG_UNBLOCK, [_signal.SIGINT])

import argparse  # noqa: E402
import os  # noqa: E402
import sys  # noqa: E402

NAME = os.path.basename(sys.argv[0])  # cells.py, or dvbt-cells if it is installed
HERE = os.path.dirname(os.path.realpath(__file__))
sys.path.insert(0, HERE)
try:
    import numpy
except ImportError as error:
    if __name__ == "__main__" and os.path.exists("/usr/bin/python3") and os.path.realpath(sys.executable) != os.path.realpath("/usr/bin/python3"):
        _signal.pthread_sigmask(_signal.SIG_BLOCK, [_signal.SIGINT])
        os.execv("/usr/bin/python3", ["/usr/bin/python3", *sys.argv])
    print(f"{NAME}: {error}; it needs numpy (Debian: python3-numpy)", file=sys.stderr)
    sys.exit(126)

try:
    from cell_tools.files import CellFile, check
    from cell_tools.result import show, show_object, standard
    from cell_tools.settings import Unfit, read_settings
    from cell_tools.standard import KINDS, Carriers  # noqa: F401
    from cell_tools.standard_error import StandardError
except ModuleNotFoundError as error:
    print(f"{NAME}: {HERE} lacks a part of it: {error}", file=sys.stderr)
    print(f"{NAME}: it does not run alone; tools/install or tools/deb of its repository installs it", file=sys.stderr)
    sys.exit(126)

ABOUT = {
    "look": "Looks into a cell file: symbols, TPS, mean powers, and a picture of the constellation. "
    f"Three more: {NAME} compare --help, measure --help, disturb --help.",
    "compare": "Compares the cell file A with B: the first difference with symbol, carrier, kind, label bit and clause of EN 300 744, counts, "
    "and the likeliest cause.",
    "measure": "Measures a cell file: MER over the data cells, pilots, TPS words, whether the theorem on noise applies, and if not, what to "
    "expect of receive. Without --sent the MER is decision-directed, against the nearest points; dvbt measure compares with the cells that the "
    "decoded bits stand for (docs/use/MEASURING.md). Ends with 1 if a part of the theorem's premise fails or a TPS word can't be read.",
    "disturb": "Writes the cells with noise. The same seed gives the same noise everywhere.",
}
STATUSES = """Statuses, those of dvbt: 0 all checks hold; 1 one fails; 2 invalid command line; 3 the settings are rejected; 5 a file can't be
read; 6 a file or standard output can't be written; 9 the cells are empty or do not fit the settings; 64 OUT is a file that is read, or a
terminal;
126 numpy or matplotlib is missing."""


def span(text):
    """`A:B`, `A:`, `:B`, `A:B:STEP` or `A` as a slice."""
    try:
        parts = [int(part) if part else None for part in text.split(":")]
        if len(parts) == 1 and parts[0] is not None:
            return slice(parts[0], parts[0] + 1 or None)
        if 2 <= len(parts) <= 3 and parts[2:] != [0]:
            return slice(*parts)
    except ValueError:
        pass
    raise argparse.ArgumentTypeError(f"{text!r} is no range such as 0:4 or 7")


def kind_list(text):
    """A list of kinds with commas between them."""
    names = text.split(",")
    for name in names:
        if name not in KINDS:
            raise argparse.ArgumentTypeError(f"{name!r} is none of {', '.join(KINDS)}")
    return names


def reach(text):
    """A whole number from 0 to 65535: how far two parts of a cell can be apart."""
    if text.isascii() and text.isdecimal() and int(text) <= 65535:
        return int(text)
    raise argparse.ArgumentTypeError(f"{text!r} is no whole number from 0 to 65535")


def ratio(text):
    """A ratio in dB. Beyond 100 dB either way the noise or the signal is gone."""
    try:
        if -100 <= float(text) <= 100:
            return float(text)
    except ValueError:
        pass
    raise argparse.ArgumentTypeError(f"{text!r} is no number from -100 to 100")


def seed(text):
    """A whole number from 0 to 4294967295."""
    if text.isascii() and text.isdecimal() and int(text) < 1 << 32:
        return int(text)
    raise argparse.ArgumentTypeError(f"{text!r} is no whole number from 0 to 4294967295")


class Parser(argparse.ArgumentParser):
    """A parser that keeps its options, and says what is wrong by an exception."""

    def __init__(self, verb):
        super().__init__(prog=f"{NAME} {verb}" if verb != "look" else NAME, description=ABOUT[verb], epilog=STATUSES)
        self.options = ["--help"]

    def add(self, *names, to=None, **how):
        self.options += [it for it in names if it.startswith("-")]
        (to or self).add_argument(*names, **how)

    def _print_message(self, message, file=None):
        file.write(message)  # argparse's own drops a fault

    def error(self, message):
        self.print_usage(sys.stderr)
        if self.prog == NAME:
            print(f"       {NAME} compare|measure|disturb .., {NAME} COMMAND --help", file=sys.stderr)
        raise Unfit(message, 2)


def parser_of(verb):
    """The parser of a command."""
    parser = Parser(verb)
    add = parser.add
    add("settings", metavar="SETTINGS", help="the settings of the transmission (docs/use/SETTINGS.md)")
    if verb == "compare":
        add("cells", metavar="A", help="the cell file that is judged")
        add("other", metavar="B", help="the cell file that it is judged by, as dvbt modulate writes it")
        add("--within", type=reach, default=0, metavar="N", help="parts that differ by N at most count as the same (default: 0)")
    else:
        add("cells", metavar="CELLS", help="the cell file (docs/use/FILES.md), - for standard input")
    if verb == "measure":
        add("--sent", metavar="CELLS",
            help="measure against this file, which dvbt modulate wrote by the same settings, not against the nearest points")
        add("--list", choices=["symbols", "carriers"], help="print the MER of each symbol or of each carrier too")
        add("--out", metavar="PNG", help="draw the MER over carriers and over symbols to this file")
    if verb == "disturb":
        add("out", metavar="OUT", help="the cell file to write")
        noise = parser.add_mutually_exclusive_group(required=True)
        add("--within", to=noise, type=reach, metavar="N", help="move each data cell evenly by at most N on each axis, pilots and TPS not at all")
        add("--mer", to=noise, type=ratio, metavar="DB", help="Gaussian noise on all cells, for this MER of the data cells")
        add("--seed", type=seed, default=1, help="the seed of the noise (default: 1)")
    if verb == "look":
        add("--frames", type=span, default=slice(None), metavar="A:B", help="the frames whose TPS is looked at, from 0 (default: all)")
        add("--verbose", action="store_true", help="three lines for each frame: where it is, s1 to s67, what they say")
        add("--symbols", type=span, metavar="A:B", help="the symbols that are drawn, from A to before B (default: 0:4)")
        add("--kinds", type=kind_list, default=["data", "pilot", "tps"], metavar="LIST",
            help="the kinds of cells that are drawn: data, pilot (both of the next), continual, scattered, tps, "
            "with commas between (default: data,pilot,tps)")
        add("--labels", action="store_true", help="write the label y0 y1 .. at each point of the constellation")
        add("--out", metavar="PNG", help="draw the constellation to this file; without it nothing is drawn")
    add("--json", action="store_true", help="print what is found as one object on one line (docs/use/JSON.md)")
    add("--version", action="version", version=version(), help="print the versions of this, of Python and of numpy")
    return parser


def version():
    try:
        with open(f"{os.path.dirname(HERE)}/VERSION", encoding="ascii") as file:
            number = file.read().strip()
    except OSError:
        number = "of no version"
    return f"{NAME} of dvbt {number}, Python {sys.version.split()[0]}, numpy {numpy.__version__}"


def slip_in(verb, words, parser):
    """What is wrong with a command or an option that is not there, or None."""
    from difflib import get_close_matches

    plain = [it for it in words if not it.startswith("-") or it == "-"]
    if verb is None and plain and not os.path.exists(plain[0]):
        near = get_close_matches(plain[0].lower(), ABOUT, 1)
        near = [f"--{plain[0]}"] if plain[0] in ("help", "version") else near
        if near or len(plain) > 2:
            what = f"did you mean {near[0]}?" if near else f"the commands are {', '.join(ABOUT)}"
            return f"there is no command {plain[0]!r}; {what}"
    for word in words[: words.index("--")] if "--" in words else words:
        name = word.partition("=")[0]
        if not word.startswith("--") or any(it.startswith(name) for it in parser.options):
            continue
        of = [it for it in ABOUT if name in parser_of(it).options]
        near = get_close_matches(name, parser.options, 1)
        what = f"it is of {' and '.join(of)}" if of else f"did you mean {near[0]}?" if near else f"the options are {', '.join(parser.options)}"
        return f"{verb or 'look'} has no option {name}; {what}"
    return None


def split(words):
    """The command, if one is named, and the other words. Options may stand before it."""
    at = next((at for at, word in enumerate(words) if not word.startswith("-")), len(words))
    is_command = words[at : at + 1] != [] and words[at] in ABOUT
    return (words[at], words[:at] + words[at + 1 :]) if is_command else (None, words)


def arguments(words):
    """The command line."""
    verb, words = split(words)
    parser = parser_of(verb or "look")
    slip = slip_in(verb, words, parser)
    if slip:
        parser.error(slip)
    return verb or "look", parser.parse_args(words)


def opened(path, settings):
    """A cell file that fits its settings."""
    file = CellFile(path, settings)
    check(file)
    return file


def keep(words):
    """Rejects an output that is a file of the call, by whatever name, before anything is opened."""
    out = getattr(words, "out", None)
    if out in ("-", "/dev/stdout") and sys.stdout.isatty():
        raise Unfit("standard output is a terminal: name a file, or pipe it on", 64)
    for path in (words.settings, words.cells, getattr(words, "sent", None)) if out and os.path.isfile(out) else ():
        path = "/dev/stdin" if path == "-" else path
        if path and os.path.exists(path) and os.path.samefile(path, out):
            raise Unfit(f"{out} is read and would be overwritten", 64, out)


def run(verb, words):
    """Runs the command; answers what it found."""
    keep(words)
    settings = read_settings(words.settings)
    if verb == "compare":
        from cell_tools.compare import compare

        return compare(CellFile(words.cells, settings), opened(words.other, settings), words.within)
    file = opened(words.cells, settings)
    if verb == "measure":
        from cell_tools.measure import measure

        return measure(file, opened(words.sent, settings) if words.sent else None, words)
    if verb == "disturb":
        from cell_tools.disturb import disturb

        return disturb(file, words)
    from cell_tools.look import look

    return look(file, words)


def main(words):
    """Runs the command line and prints what it finds; answers the status."""
    verb, is_json, to = split(words)[0] or "look", "--json" in words, sys.stdout
    try:
        verb, words = arguments(words)
        is_json, to = words.json, standard(getattr(words, "out", None))
        return show(verb, run(verb, words), is_json, to)
    except Unfit as error:
        print(f"{NAME}: {error}", file=sys.stderr)
        if is_json:
            show_object(verb, error.status, {}, {"text": str(error), **({"file": error.path} if error.path else {})}, to)
        return error.status


def ended(words):
    """Runs the command line; answers the status, 6 if standard output can't be written."""
    sys.stderr = StandardError(2 if sys.stderr else None)
    if sys.stdout is None:
        print(f"{NAME}: standard output is closed", file=sys.stderr)
        return 6
    try:
        try:
            status = main(words)
        except SystemExit as end:  # after --help and --version
            status = end.code
        sys.stdout.flush()
        return status
    except OSError as error:
        os.dup2(os.open(os.devnull, os.O_WRONLY), 1)  # else Python tries once more at its end
        if not isinstance(error, BrokenPipeError):
            print(f"{NAME}: standard output could not be written: {error.strerror}", file=sys.stderr)
        return 6


if __name__ == "__main__":
    sys.exit(ended(sys.argv[1:]))
