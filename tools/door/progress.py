"""How far a run is, by what the system tells of the program's descriptors. Nothing is asked of the program."""
import os
import stat
import sys
import time

from commands.lines import parsed
from door import explain

FIRST, EACH = 1.0, 0.5  # seconds until the progress is shown, and between two times
LOADER = 832  # bytes that the loader reads of the C library, before the program reads its files
BY_DEFAULT = 1_000_000  # max_symbols


class Progress:
    """The progress of the program, once its number `pid` is known; on a terminal if `is_shown`."""

    def __init__(self, form, is_shown):
        self.pid, self.form, self.is_shown = None, form, is_shown and form is not None
        self.began = time.monotonic()
        self.next, self.is_there, self.last, self.counts, self.kept = self.began + FIRST, False, {}, {}, None

    def show(self):
        """Shows the line, if it is time."""
        now = time.monotonic()
        if self.is_shown and now >= self.next:
            self.next, self.is_there = now + EACH, True
            line, width = f"dvbt: {self.line(now - self.began)}", (os.get_terminal_size(2).columns or 999) - 3  # room for ^C
            while len(line) > width and ", " in line:
                line = line.rpartition(", ")[0]
            print(f"\r{line[:width]}\033[K", end="", file=sys.stderr, flush=True)

    def tell(self, *_):
        """Answers SIGUSR1 by a line of its own."""
        self.clear()
        explain.say(self.line(time.monotonic() - self.began) if self.form else [])

    def note(self, lines):
        """Counts the words of a command that reports them while it runs."""
        for found in (parsed(it.decode("utf-8", "replace"))[1] for it in lines if b" bits " in it):
            for name, shown in (("words", "words"), ("bad", "bad words")):
                self.counts[shown] = self.counts.get(shown, 0) + found.get(name, 0)

    def clear(self):
        if self.is_there:
            self.is_there = False
            print("\r\033[K", end="", file=sys.stderr, flush=True)

    def line(self, gone):
        """What can be known after so many seconds: counts, and the shares of the regular files that are read."""
        shares = {path: self.position(path) / max(os.path.getsize(path), 1) for _, path in self.form.inputs if os.path.isfile(path)}
        parts = [" and ".join(f"{100 * share:.0f} % of {os.path.basename(path)}" for path, share in shares.items())]
        parts[0] += f"{' after' if shares else 'for'} {explain.clock(gone)}"
        least = min(shares.values(), default=0)
        parts += [f"about {explain.clock(gone * (1 - least) / least)} more"] if 0.02 < least < 1 else []
        parts += [*self.symbols(gone), *(f"{number:,} {name}" for name, number in self.counts.items())]
        return f"{self.form.command} {', '.join(parts)}"

    def symbols(self, gone):
        """Symbols that were read or written so far, their time on air, and that time beside the clock's."""
        symbol, air = self.settings()
        if not symbol or not self.form.cells:
            return []
        number = max(0, self.position(self.form.cells) - explain.HEADER) // symbol
        counted = f"{'' if os.path.isfile(self.form.cells) else 'about '}{number:,} symbols"
        return [counted, f"{number * air:.3g} s of air", f"{number * air / gone:.2g} times real time"] if air else [counted]

    def settings(self):
        """Bytes of a symbol and its seconds on air, if the settings tell. `tune` and `align` take the guard interval from the signal."""
        if self.kept is None:
            document = (self.form.settings and explain.document_of(self.form.settings)) or {}
            air = explain.seconds_of_symbol(document) if self.form.command not in ("tune", "align") else None
            self.kept = explain.SYMBOL.get(str(document.get("mode"))), air
        return self.kept

    def position(self, path):
        """The bytes of a file that were read or written: by its descriptor, or of a pipe by all that the program read or wrote."""
        try:
            found = os.stat(path)
            is_file, is_output = stat.S_ISREG(found.st_mode), path in self.form.outputs
            if not is_file:
                before = 0 if is_output else LOADER + os.path.getsize(self.form.settings)
                self.last[path] = number_in(f"/proc/{self.pid}/io", "wchar:" if is_output else "rchar:") - before
            for name in os.listdir(f"/proc/{self.pid}/fd") if is_file else []:
                if int(name) > 2 and os.path.samestat(os.stat(f"/proc/{self.pid}/fd/{name}"), found):
                    self.last[path] = number_in(f"/proc/{self.pid}/fdinfo/{name}", "pos:")
        except (OSError, StopIteration):
            pass  # it is closed, or the program is gone
        return self.last.get(path, 0)


def number_in(path, name):
    """The number after a name in a file of /proc."""
    with open(path, encoding="ascii") as file:
        return int(next(line for line in file if line.startswith(name)).split()[1])


def of_limit(form):
    """What to say at the start of a run that reads a pipe and ends at max_symbols, if that is near its default; else nothing."""
    if not form.settings or all(os.path.isfile(path) or os.path.isdir(path) or os.path.realpath(path) == os.devnull or not os.path.exists(path)
                                for _, path in form.inputs):
        return []
    most = (explain.document_of(form.settings) or {}).get("max_symbols", BY_DEFAULT)
    air = explain.air_of(form.settings, most) if type(most) is int and most < 2 * BY_DEFAULT else None
    return [f"the run ends with status 8 after {most:,} symbols{air}: max_symbols in {form.settings} sets that"] if air is not None else []
