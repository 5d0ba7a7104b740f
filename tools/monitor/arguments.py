"""The arguments of `bin/dvbt monitor` and its help."""
import getopt

HELP = """dvbt monitor: cells, live or recorded, to packets and figures: align, track, receive and measure joined by pipes

  dvbt monitor [OPTIONS] CELLS
  dvbt monitor [OPTIONS] CELLS HP
  dvbt monitor [OPTIONS] CELLS HP LP
  dvbt monitor --report LOG [PICTURE]

  CELLS  a cell file of version 2, a FIFO, or - for standard input; it may begin at any symbol
  HP     the packets received: the only stream, or the more robust of two; without it there are figures alone
  LP     the packets of the second stream, if the signal has a hierarchy

It finds a super-frame and reads the parameters (align), corrects the cells (track), receives (receive) and measures (measure).
If the signal is lost it says so and starts again at align. The programs are proved; what joins them is not.

Options:
  --mode 2k|8k                     reject cells of the other mode; without it the mode is that of the header of CELLS
  --equaliser track|symbol|none    what corrects the cells: track (the default), equalise, or nothing
  --rescue                         rescue in place of receive
  --lost N                         the signal is lost after N super-frames without reception (default: 4)
  --channel 6|7|8                  MHz of the channel, for times (default: 8)
  --json                           a line of JSON a super-frame, and one for each event (docs/use/MONITOR.md)
  --log FILE                       append events, alarms and a line a minute, with time stamps
  --alarm LIMITS                   mer=DB viterbi=RATE rs=RATE bad=COUNT lock, with commas between
  --page PORT                      a page at http://127.0.0.1:PORT/; after the end of CELLS it stays until Ctrl-C

--report reads what --log or --json wrote, LOG, and prints the events, the gaps in reception and the worst minute of each stream. PICTURE is
an SVG file of MER and bit error ratio over time; by second from the lines of --json, by minute from a log.

LIMITS: an alarm is raised if the MER is below DB, the bit error ratio before Viterbi or before Reed-Solomon is above RATE, there
are more than COUNT bad words a minute, or lock is lost. Each alarm prints a line, and the exit status is then 1.

Example:
  bin/dvbt monitor --alarm mer=20,rs=2e-4,lock --log LOG received.cells back.ts
  bin/dvbt monitor --report LOG mer.svg

Statuses:
    0  the cells ended, or Ctrl-C, and no alarm was raised
    1  an alarm was raised
    2  invalid command line
    5  CELLS or LOG can't be opened or read
    6  an output can't be created or written
    9  CELLS does not begin with the header of a cell file, or of the mode
   10  no TPS word can be read in the cells; LOG has no line of the monitor
   64  nothing was started: a file would be destroyed, or the port of --page is taken
  126  a program of the chain failed, or could not be built
  130  a second Ctrl-C"""

LIMITS = {
    "mer": "MER below {} dB", "viterbi": "bit error ratio before Viterbi above {}", "rs": "bit error ratio before Reed-Solomon above {}",
    "bad": "more than {} bad words a minute", "lock": "lock lost",
}
OPTIONS = ["mode=", "equaliser=", "rescue", "lost=", "channel=", "json", "log=", "alarm=", "page=", "report="]
VALUES = {"mode": ("2k", "8k"), "equaliser": ("track", "symbol", "none"), "channel": ("6", "7", "8")}


class Invalid(Exception):
    """What is wrong with the command line."""


class Arguments:
    """The arguments: the three files (HP and LP may be None), and the options by name."""

    def __init__(self, words):
        self.mode, self.equaliser, self.channel, self.rescue, self.json = None, "track", 8, False, False
        self.lost, self.log, self.page, self.report, self.picture, self.limits = 4, None, None, None, None, {}
        try:
            found, files = getopt.gnu_getopt(words, "", OPTIONS)
        except getopt.GetoptError as error:
            raise Invalid(str(error)) from None
        if any(name == "--report" for name, _ in found):
            self.of_report(found, files)
            return
        if not 1 <= len(files) <= 3:
            raise Invalid("no cells are named" if not files else f"too many files: {files[3]}")
        self.cells, self.hp, self.lp = (*files, None, None)[:3]
        for name, value in found:
            self.take(name[2:], value)
        if self.rescue and not self.hp:
            raise Invalid("--rescue needs a file for HP")

    def of_report(self, found, files):
        """The arguments of a report."""
        if len(found) > 1 or len(files) > 1:
            raise Invalid("--report LOG has no other option" if len(found) > 1 else f"too many files: {files[1]}")
        self.report, self.picture = found[0][1], (*files, None)[0]

    def take(self, name, value):
        """Takes an option."""
        if name in VALUES and value not in VALUES[name]:
            raise Invalid(f"--{name} is {' or '.join(VALUES[name])}, not {value}")
        if name in ("lost", "page") and not (value.isascii() and value.isdecimal() and 0 < int(value) < 65536):
            raise Invalid(f"--{name} is a whole number from 1 to 65535, not {value}")
        if name == "alarm":
            self.limits.update(map(limit_of, value.split(",")))
        else:
            setattr(self, name, int(value) if name in ("lost", "page", "channel") else True if name in ("rescue", "json") else value)


def limit_of(text):
    """The name and the number of a limit such as `mer=20`."""
    name, _, number = text.partition("=")
    try:
        if name == "lock" and not number:
            return name, True
        if name in LIMITS and name != "lock":
            return name, float(number)
    except ValueError:
        pass
    raise Invalid(f"--alarm {text}: a limit is mer=DB, viterbi=RATE, rs=RATE, bad=COUNT or lock")
