"""What bin/dvbt says on standard error if a run fails: which file, key or byte, and what the outputs hold."""
import os
import stat
import sys

from cell_tools.kinds import EIGHT, kind_in, sync_in
from commands import forms
from commands.lines import values_of

PACKET = 188
USEFUL = {"2k": 224e-6, "8k": 896e-6}  # seconds of a symbol without guard in a channel of 8 MHz
OTHERS = {204: "the last 16 bytes of each, its parity", 192: "the first 4 bytes of each, its time stamp"}  # packets not read
HEADER, SYMBOL = 8, {"2k": 8525, "8k": 34085}  # bytes of a cell file
WRITTEN = {"outer": 204, "inner": 0}  # bytes of an output for each packet, if not 188; `inner` has no whole number
STANDS = {4: "output for the packets before it", 5: "output for what was read", 6: "the full output, or a prefix of it",
          8: "output within the limit"}


def say(text):
    """Prints each line on standard error, after the program's name."""
    for line in [text] if isinstance(text, str) else text:
        line = line.replace("/dev/stdin", "standard input").replace("/dev/stdout", "standard output")
        print(f"dvbt: {line}", file=sys.stderr, flush=True)


def clock(seconds):
    """Seconds as minutes and seconds, or with hours."""
    seconds = round(seconds)
    hours, minutes = seconds // 3600, seconds // 60 % 60
    return f"{hours}:{minutes:02}:{seconds % 60:02}" if hours else f"{minutes}:{seconds % 60:02}"


def spoken(seconds):
    if seconds < 120:
        return f"{round(seconds)} seconds" if seconds >= 10 else f"{seconds:.2g} seconds"
    return f"{round(seconds / 60)} minutes" if seconds < 7200 else f"{seconds / 3600:.1f} hours"


def of_usage(words):
    """An invalid command line."""
    from difflib import get_close_matches

    command = (words or [""])[0]
    if command in forms.FORMS:
        say(option_in(words) or f"{command} takes these arguments:")
        say(f"  {line}" for line in forms.lines_of_forms(command))
        say("NUMBER has one to ten digits and is at most 4294967295" if command == "trial" else [])
    elif command.startswith("-"):
        options = f"{', '.join(forms.OPTIONS)}, before the command, and --help, --version and --program without a command"
        is_alone = command in ("--version", "--program")
        say(f"{command} takes no arguments" if is_alone else f"there is no option {command}; the options are {options}")
    elif command in ("help", "version"):
        of = f"{words[1]} " if command == "help" and words[1:] and words[1] in forms.FORMS else ""
        say(f"{command} is --{command}: bin/dvbt {of}--{command}")
    else:
        names = [*forms.FORMS, "monitor"]
        near = get_close_matches(command.lower(), names, 1)
        what = f"there is no command {command!r}" if words else "no command was given"
        say(f"{what}: did you mean {near[0]}?" if near else f"{what}; the commands are {', '.join(names)}")
    say(f"bin/dvbt {command} --help explains them" if command in forms.FORMS else "bin/dvbt --help explains the commands")


def option_in(words):
    """What is wrong with an option among the arguments of a command, or None."""
    found = next((word for word in words[1:] if word.startswith("-") and word != "-" and not word[1:].isdecimal()), None)
    return found and f"{found}: there are no options after the command; a file of that name is ./{found}"


def of_refusal(form, words, status, text, before):
    """Explains a status other than 0. `text` is the last line of the report, empty if it was not seen, and `before` has
    what tells whether an output was written."""
    if status == 7 and not text and any(0xDC80 <= ord(it) <= 0xDCFF for word in words for it in word):
        say("an argument is not UTF-8")
    elif form is None:
        of_usage(words)
    else:
        causes = {3: of_settings, 4: of_packet, 5: of_reading, 6: of_writing, 8: of_limit, 9: of_header, 10: of_no_frame, 11: of_form}
        say(causes[status](form, text) if status in causes else "there is not enough memory" if status == 7 else [])
        say(what_stands(form, before, status) if status > 3 else [])


def of_settings(form, text):
    """The settings are rejected."""
    from cell_tools import settings

    path, refusal = form.settings, text.partition(" ")[2]
    if refusal == "form":
        no_lp = "has no hierarchy, so there is no LP: leave its file out, or set hierarchy and rate_lp"
        return f"{path} {no_lp if len(form.files) > 3 else 'has a hierarchy, at the top or in its plan: name a file of LP too'}"
    kind = kind_in(piece(path, 0, EIGHT))
    if kind:
        return f"{path} looks like {kind}: SETTINGS comes first"
    name = f"{path}, read as SETTINGS," if refusal in ("too long", "not toml") else path
    return f"{name} {settings.why_rejected(piece(path, 0, 65536), refusal)} (docs/use/SETTINGS.md)"


def of_packet(form, text):
    """A packet does not begin with the sync byte."""
    found = values_of("S packet {packet}", text) or {"stream": None}
    path = dict(form.inputs).get(found["stream"])
    if not path:
        return "a packet does not begin with the sync byte 47"
    number, at = found["packet"], PACKET * found["packet"]
    head = piece(path, at, EIGHT)
    there = f" is {head[0]:02X}, not" if head else " is not"
    lines = [f"{path}: byte {at:,}, the first of packet {number:,} (counted from 0),{there} the sync byte 47"]
    spacing, offset = sync_in(head)
    if spacing in OTHERS:
        lines.append(f"{path} has packets of {spacing} bytes, and only those of 188 are read: leave out {OTHERS[spacing]}")
    elif spacing and number == 0:
        lines.append(f"{path} begins within a packet: sync at offset {offset} (tail -c +{offset + 1} cuts it there)")
    elif spacing:
        lines.append(f"{path}: sync again at byte {at + offset:,}; bytes were lost or added before it")
    elif number == 0 and kind_in(head):
        lines.append(f"{path} looks like {kind_in(head)}, and {form.command} reads packets")
    return lines


def of_reading(form, text):
    """A file can't be opened or read."""
    named = [path for _, _, path in form.files if path not in form.outputs]
    return cause_in(form, "read")[1] or f"{' or '.join(named)} could not be read"


def of_writing(form, text):
    """A file can't be created, written or closed. If the line is missing, it is standard output that failed."""
    paths = form.outputs if text == "write fault" else []
    names = " or ".join(paths) or "standard output"
    is_pipe = paths and all(os.path.exists(path) and stat.S_ISFIFO(os.stat(path).st_mode) for path in paths)
    failed = f"{names} could not be written{': nobody reads it any more' if is_pipe else ''}"
    return paths and cause_in(form, "written")[1] or failed


def cause_in(form, verb):
    """The first of the files to be `read` or `written` that can't be, and why. (None, None) if each can, as far as is seen here."""
    for kind, name, path in form.files:
        why = kind.startswith("out") == (verb == "written") and (why_unwritten if verb == "written" else why_unread)(path)
        if why:
            return path, f"{path or name} can't be {verb}: {why}"
    return None, None


def why_unread(path):
    """Why a file can't be read, or None."""
    if not os.path.exists(path):
        return unfit(path) or "there is no such file"
    return "it is a folder" if os.path.isdir(path) else None if os.access(path, os.R_OK) else "this user may not read it"


def why_unwritten(path):
    """Why a file can't be made or written, or None."""
    folder = os.path.dirname(path) or "."
    if not os.path.isdir(folder) or os.path.isdir(path):
        return "it is a folder" if os.path.isdir(path) else f"there is no folder {folder}"
    if unfit(path) or not os.access(path if os.path.exists(path) else folder, os.W_OK):
        return unfit(path) or "this user may not write it"
    is_on_disk = os.path.isfile(path) or not os.path.exists(path)
    return "the disk is full" if is_on_disk and os.statvfs(path if os.path.exists(path) else folder).f_bavail == 0 else None


def unfit(path):
    """Why no file can have this name, or None."""
    try:
        os.stat(path)
    except OSError as error:
        is_absent = isinstance(error, FileNotFoundError)
        return error.strerror if not is_absent else None if path else "its name is empty"
    return None


def of_limit(form, text):
    """More packets or symbols than the limit."""
    number = (values_of("limit {limit}", text) or {}).get("limit")
    if not number:
        return "there are more packets or symbols than the limit"
    if form.of("out") or form.command == "modulate" and number == 100_000_000:
        return f"an input has more than {number:,} packets ({number * PACKET / 1e9:.1f} GB), the most for one run"
    what = {"modulate": "the transmission has", "trial": "the trial has"}.get(form.command, "the cells have")
    has = f"{what} more than {number:,} symbols{air_of(form.settings, number)}, which is max_symbols in {form.settings}"
    return [has, "max_symbols may be up to 4294967295; without the key it is 1,000,000"]


def air_of(path, symbols):
    """How long so many symbols are on air in a channel of 8 MHz."""
    seconds = seconds_of_symbol(document_of(path) or {})
    return f" ({spoken(symbols * seconds)} of air in a channel of 8 MHz)" if seconds else ""


def seconds_of_symbol(document):
    """The seconds of a symbol on air in a channel of 8 MHz by the settings, or None."""
    useful, guard = USEFUL.get(str(document.get("mode"))), str(document.get("guard")).partition("1/")[2]
    return useful * (1 + 1 / int(guard)) if useful and guard.isdecimal() else None


def of_header(form, text):
    """The cells do not begin with the header of the mode."""
    from cell_tools import beginning

    path = form.of("cells")[0]
    begin = piece(path, 0, beginning.BYTES["8k"])
    if begin[:8] in (b"DVTC\x02\0\0\0", b"DVTC\x02\1\0\0"):
        return f"{path} has cells of the {['2k', '8k'][begin[5]]} mode; {form.settings} has the other mode"
    if begin and beginning.is_version_1(begin, os.path.getsize(path)):
        return f"{path} looks like version 1: bin/dvbt upgrade {form.settings} {path} NEW makes a file of version 2"
    if sync_in(begin[:EIGHT])[0]:
        return f"{path} looks like a transport file, and {form.command} reads cells: modulate makes them of packets"
    begins = f" ({begin[:8].hex(' ').upper()})" if begin else ""
    return f"{path} does not begin with the header of a cell file of version 2{begins}: docs/use/FILES.md"


def of_no_frame(form, text):
    """`tune` or `align` finds no frame."""
    from cell_tools import beginning

    path = form.of("cells")[0]
    none = f"{path}: no 68 symbols in a row have a TPS word that can be read (EN 300 744, 4.6)"
    begin = piece(path, 0, beginning.BYTES["8k"])
    return [none, f"{path}: {beginning.why_no_frame(begin)}"]


def of_form(form, text):
    """The signal has a hierarchy and LP is not named, or the reverse."""
    has = "a hierarchy: name a second output, for LP" if len(form.outputs) == 1 else "no hierarchy: leave out the output of LP"
    return f"the signal in {form.of('cells')[0]} has {has}"


def what_stands(form, before, status=None):
    """What the outputs hold after a run that failed, or that a signal ended."""
    what = f": {STANDS[status]}" if status in STANDS else ""
    for kind, _, path in form.files:
        now = seen(path)
        if not kind.startswith("out") or now and not stat.S_ISREG(now[3]):
            continue
        if now and now != before.get(path):
            yield f"{path} holds {now[1]:,} bytes{counted(form, kind, now[1])}{what}" if now[1] else f"{path} is empty"
        elif path:
            yield f"{path} {'is unchanged' if now else 'was not created'}"


def counted(form, kind, size):
    """How many packets, or symbols after the header, so many bytes of an output have."""
    is_cells = kind == "out-cells"
    each = SYMBOL.get(str((document_of(form.settings) or {}).get("mode"))) if is_cells else WRITTEN.get(form.command, PACKET)
    number = max(0, size - HEADER * is_cells) // each if each else None
    return "" if number is None else f", {number:,} {'symbol' if is_cells else 'packet'}{'s' * (number != 1)}"


def seen(path):
    """What tells whether a file was written: its time, size, inode and kind."""
    try:
        found = os.stat(path)
    except OSError:
        return None
    return found.st_mtime_ns, found.st_size, found.st_ino, found.st_mode


def piece(path, at, size):
    """At most so many bytes of a file from a place on. Nothing that is not a regular file is opened again."""
    try:
        if os.path.isfile(path):
            with open(path, "rb") as file:
                file.seek(at)
                return file.read(size)
    except OSError:
        pass
    return b""


def document_of(path):
    """The settings as Python reads them, or None if it rejects them."""
    from cell_tools import settings

    try:
        return settings.document(piece(path, 0, 65536))
    except (ValueError, RecursionError):
        return None
