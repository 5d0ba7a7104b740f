"""What a log of the monitor, or its lines of JSON, says: events, gaps, the worst minute; and a picture of MER and bit error ratio."""
import json
import re
import sys

from monitor.figures import Figures, Stream, SuperFrame, clock, decibels, rate, seconds_of
from monitor.history import said, tenths

MOST = 1920  # parts of the time that a picture shows at most
STAMP = re.compile(r"(\d{4}-\d\d-\d\dT\S+Z) (.*)$")
HEARD = re.compile(r".* nothing received since ([0-9:.]+):")
LINE = re.compile(r"(\d+:\d\d:\d\d(?:\.\d)?) ((\w+).*)$")
MINUTE = re.compile(r"minute: MER (\S+)(?: dB)?, least (\S+)(?: dB)?; (.*)$")
STREAM = re.compile(r"(HP|LP) BER before Viterbi (\S+), before RS (\S+), words (\d+), bad (\d+)")


class Span:
    """The figures of a part of the time, from the JSON or as a log has them."""

    def __init__(self, mer, least, streams, stamp):
        self.mer, self.least, self.streams, self.stamp = mer, least, streams, stamp


class Report:
    """One run: what happened, the figures by minute, and from JSON those by parts of `step` seconds. A file of several runs gives the last one."""

    def __init__(self):
        self.runs = 0
        self.clear()

    def clear(self):
        self.runs, self.at, self.is_over = self.runs + 1, 0.0, False
        self.events, self.minutes, self.parts, self.step, self.gaps, self.gone, self.changes = [], {}, {}, 1, [], None, []

    def read(self, lines):
        """Takes the lines of a file; what is no line of the monitor is passed over."""
        for line in lines:
            found = STAMP.match(line)
            if found:
                self.take_line(*found.groups())
            elif line.startswith("{"):
                self.take_object(line)

    def turn_to(self, at):
        """Begins anew if this is of another run: after the end of one, or earlier than what came."""
        if self.is_over or at < self.at - 1:
            self.clear()
        self.at = max(self.at, at)

    # A log

    def take_line(self, stamp, text):
        found = LINE.match(text)
        if not found:
            return
        at, rest, kind = seconds_of(found[1]), found[2], found[3]
        if rest.startswith("of signal"):
            self.at, self.is_over = max(self.at, at), True
        elif kind == "minute":  # comes after later events
            self.take_minute(int(at // 60), rest, stamp)
        else:
            self.turn_to(at)
            self.take_event(kind, at, text)

    def take_minute(self, minute, text, stamp):
        found = MINUTE.match(text)
        if found:
            streams = {name.lower(): [*map(number, ratios), int(words), int(bad)] for name, *ratios, words, bad in STREAM.findall(found[3])}
            self.minutes[minute] = Span(number(found[1]), number(found[2]), streams, stamp)

    # Lines of JSON

    def take_object(self, line):
        try:
            found = json.loads(line)
        except ValueError:
            return  # the last line of a file that is being written
        if not isinstance(found, dict) or "at" not in found:
            return
        if found.get("event") == "end":
            self.at, self.is_over = max(self.at, found["at"]), True
        elif "event" in found:
            self.turn_to(found["at"])
            self.take_event(found["event"], found["at"], said(found))
        elif "superframe" in found:
            self.turn_to(found["at"])
            self.take_frame(found)

    def take_frame(self, found):
        counts = {**found, "tps_read": found["tps"]["read"], "tps_bad": found["tps"]["bad"]}
        frame = SuperFrame(counts, found["superframe"], found["symbol"], found["at"])
        frame.streams = {name: Stream(found[name]) for name in ("hp", "lp") if name in found}
        minute = int(frame.at // 60)
        self.minutes.setdefault(minute, Figures()).add(frame)
        self.minutes[minute].stamp = found["time"]
        self.parts.setdefault(int(frame.at // self.step), Figures()).add(frame)
        if len(self.parts) > MOST:
            self.join()

    def join(self):
        """Makes the parts twice as long."""
        before, self.parts, self.step = self.parts, {}, 2 * self.step
        for at, figures in before.items():
            self.parts.setdefault(at // 2, Figures()).add(figures)

    # What it comes to

    def take_event(self, kind, at, text):
        self.events.append(text)
        if kind == "found":
            if self.gone is not None:
                self.gaps.append((self.gone, at))
            self.gone = None
            self.changes.append((at, text.partition("found: ")[2].partition(", super-frame")[0]))
        elif kind == "lost":
            heard = HEARD.match(text)
            self.gone = seconds_of(heard[1]) if heard else at
            if self.gaps and self.gone <= self.gaps[-1][0] + 0.1:
                self.gaps.pop()  # it was found meanwhile, and nothing was received

    def close(self):
        """Ends the reading: the figures become spans, a gap at the end is one."""
        if self.gone is not None:
            self.gaps.append((self.gone, max(self.at, self.gone)))
        self.minutes = {at: spanned(it) for at, it in self.minutes.items()}
        self.parts = {at * self.step: spanned(it) for at, it in self.parts.items()}

    def worst(self, name):
        """The minute of the worst ratio before RS, and of those before Viterbi, of a stream: minute and span, or None."""
        found = [(minute, it) for minute, it in self.minutes.items() if name in it.streams]
        return max(found, key=lambda it: [value or 0 for value in it[1].streams[name][1::-1]], default=None)

    def lines(self):
        """The report in lines."""
        over = f"the last of {self.runs} runs: " if self.runs > 1 else ""
        yield f"{over}{clock(self.at)} of signal"
        yield from self.events
        gone = sum(end - begin for begin, end in self.gaps)
        gaps = ", ".join(f"{tenths(begin)} to {tenths(end)}" for begin, end in self.gaps)
        yield f"without reception: {gone:.1f} s, {gaps}" if gone else "received without a gap"
        least = min(((it.least, minute) for minute, it in self.minutes.items() if it.least is not None), default=None)
        if least:
            yield f"MER least {decibels(least[0])}, in the minute from {clock(60 * least[1])}"
        for name in ("hp", "lp"):
            worst = self.worst(name)
            if worst:
                yield f"{name.upper()} {self.of_stream(name, *worst)}"

    def of_stream(self, name, minute, span):
        words, bad = (sum(it.streams[name][at] for it in self.minutes.values() if name in it.streams) for at in (2, 3))
        viterbi, rs, of, of_bad = span.streams[name]
        return (f"words {words}, bad {bad}; the worst minute from {clock(60 * minute)} (logged {span.stamp}): BER before Viterbi {rate(viterbi)}, "
                f"before RS {rate(rs)}, words {of}, bad {of_bad}")


def number(text):
    return None if text == "-" else float(text)


def spanned(figures):
    """Figures as a span."""
    if isinstance(figures, Span):
        return figures
    streams = {name: [it.viterbi, it.rs, it.counts["words"], it.counts["bad"]] for name, it in figures.streams.items()}
    return Span(figures.mer, figures.least, streams, getattr(figures, "stamp", None))


def report_of(path):
    """The report of a file."""
    found = Report()
    with open(path, encoding="utf-8", errors="replace") as file:
        found.read(file)
    found.close()
    return found


def run(path, picture, is_data):
    """Prints the report of a file and draws its picture, which is standard output if `is_data`; answers the exit status."""
    from door import explain
    from monitor.picture import draw

    try:
        found = report_of(path)
    except OSError as error:
        explain.say(f"{path} can't be read: {error.strerror}")
        return 5
    if not found.events and not found.minutes:
        explain.say(f"{path} has no line of the monitor: it is written by --log, or by --json on standard output")
        return 10
    to = sys.stderr if is_data else sys.stdout
    print("\n".join(found.lines()), file=to, flush=True)
    if picture:
        try:
            draw(picture, found)
        except OSError as error:
            explain.say(f"{picture} can't be written: {error.strerror}")
            return 6
    return 0
