"""What a person sees: a screen of a few lines that stands still, or lines where there is no terminal; JSON lines; the log."""
import datetime
import json
import os
import stat
import sys
import time

from monitor.figures import clock, decibels, rate
from monitor.history import described, said

EACH = 0.25  # seconds between two pictures
BLOCKS = "▁▂▃▄▅▆▇█"
LEAST, MOST = 0, 40  # dB of the lowest and the highest block
LINES = 8


def stamp():
    """The time of the day, in UTC."""
    return datetime.datetime.now(datetime.timezone.utc).isoformat(timespec="milliseconds").replace("+00:00", "Z")


def shown(to, state, is_json):
    """What shows the run: a screen if the descriptor `to` is a terminal, else lines there. If they go to a file, and standard error is a
    terminal, it has a screen too."""
    is_terminal = {number: os.isatty(number) and os.environ.get("TERM") != "dumb" for number in (to, 2)}
    if is_terminal[to] and not is_json:
        return Screen(to, state)
    lines = (Json if is_json else Lines)(to)
    return Both(lines, Screen(2, state)) if is_terminal[2] and stat.S_ISREG(os.fstat(to).st_mode) else lines


class Both:
    """Two that show the same."""

    def __init__(self, *both):
        self.both = both
        self.summaries = [to for it in both for to in it.summaries]

    def event(self, event):
        for it in self.both:
            it.event(event)

    def frame(self, frame):
        for it in self.both:
            it.frame(frame)

    def tick(self):
        for it in self.both:
            it.tick()

    def clear(self):
        for it in self.both:
            it.clear()


class Screen:
    """A screen on the descriptor `to`, drawn again at most four times a second. `summaries` get the lines at the end."""

    def __init__(self, to, state):
        self.to, self.state, self.next, self.is_there, self.summaries = to, state, 0.0, False, [to]
        self.is_colourful = not os.environ.get("NO_COLOR")

    def write(self, text):
        try:
            os.write(self.to, text.encode())
        except OSError:
            pass

    def event(self, event):
        """A line above the screen. At the end the screen goes, and the summary stands in its place."""
        self.clear()
        if event["event"] == "end":
            return
        self.write(f"{said(event)}\n")
        self.draw()

    def frame(self, frame):
        self.tick()

    def tick(self):
        """Draws, if it is time."""
        if time.monotonic() >= self.next:
            self.draw()

    def draw(self):
        columns = os.get_terminal_size(self.to).columns or 80
        lines = lines_of(self.state, columns, self.is_colourful)
        self.clear()
        self.write("\n".join(lines) + "\n")
        self.is_there, self.next = len(lines), time.monotonic() + EACH

    def clear(self):
        if self.is_there:
            self.write(f"\033[{self.is_there}A\033[J")
            self.is_there = False


def lines_of(state, columns, is_colourful=False):
    """The screen: lock, TPS, MER, each stream, bad words, and a line of blocks."""
    now, whole = state.last, state.seconds
    speed = f", {state.speed:.1f} times real time" if state.speed else ""
    lock = f"locked for {clock(state.at - state.since)}" if state.signal else f"searching since {clock(state.since)}"
    lines = [f"{state.name}: {clock(state.at)} of signal{speed}", f"lock   {lock}; found {state.found}, lost {state.lost}"]
    told = f"{described(state.signal)}" if state.signal else "-"
    read = f"; words read {now.counts['tps_read']}, bad {now.counts['tps_bad']}" if now and state.signal else ""
    lines.append(f"TPS    {told}{read}")
    least = f"; least {decibels(whole.least[0])} at {clock(whole.least[1])}" if whole.least else ""
    lines.append(f"MER    {decibels(now.mer if now and state.signal else None)}{least}")
    for name, stream in (now.streams if now and state.signal else {"hp": None}).items():
        rates = (stream.viterbi, stream.rs) if stream else (None, None)
        at_least = "at least " if stream and stream.counts["bad"] else ""
        lines.append(f"{name.upper()}     BER before Viterbi {rate(rates[0])}, before RS {at_least}{rate(rates[1])}")
    since = "none so far" if whole.last_bad is None else f"the last one {clock(state.at - whole.last_bad)} ago"
    lines.append(f"words  bad {whole.bad_a_minute} a minute, {since}; alarms raised {len(state.alarms.raised)}, so far {state.alarms.count}")
    room = max(10, min(columns - 8, 120))
    lines = [line[:columns] for line in lines]
    return [*lines, f"MER    {blocks(list(whole.done)[-5 * room :], room, is_colourful)}"]


def blocks(points, room, is_colourful):
    """A block for five seconds each: as high as the least MER, red if words were bad, `x` if nothing was received."""
    by_five = {}
    for point in points:
        by_five.setdefault(point["at"] // 5, []).append(point)
    if not by_five:
        return ""
    text, last = "", max(by_five)
    for number in range(max(min(by_five), last - room + 1), last + 1):
        some = by_five.get(number, [])
        mers = [it["mer"] for it in some if it["mer"] is not None]
        is_bad = any(it[name]["bad"] for it in some for name in ("hp", "lp") if name in it)
        block = BLOCKS[round(7 * min(1, max(0, (min(mers) - LEAST) / (MOST - LEAST))))] if mers else "x" if some else " "
        text += f"\033[31m{block}\033[0m" if is_bad and is_colourful else block
    return text


class Lines:
    """Events as lines, where there is no terminal."""

    def __init__(self, to):
        self.to, self.summaries = to, [to]

    def event(self, event):
        if event["event"] != "end":
            write_line(self.to, said(event))

    def frame(self, frame):
        pass

    def tick(self):
        pass

    def clear(self):
        pass


class Json(Lines):
    """A line of JSON for each super-frame and each event."""

    def __init__(self, to):
        super().__init__(to)
        self.summaries = []

    def event(self, event):
        write_line(self.to, json.dumps({"time": stamp(), **event}))

    def frame(self, frame):
        write_line(self.to, json.dumps({"time": stamp(), **frame.described()}))


class Log:
    """Events, and a line for each minute of signal, with the time of the day, appended to a file."""

    def __init__(self, path):
        self.file, self.minute = open(path, "a", encoding="utf-8", buffering=1), None

    def event(self, event):
        print(stamp(), said(event), file=self.file)

    def minutes(self, seconds, at=None):
        """Writes the minutes that are over at that second, or all that are left."""
        for minute in sorted(it for it in seconds.minutes if (self.minute is None or it > self.minute) and (at is None or it < int(at // 60))):
            self.minute = minute
            print(stamp(), of_minute(minute, seconds.minutes[minute]), file=self.file)


def of_minute(minute, figures):
    """The figures of a minute in words."""
    streams = "; ".join(
        f"{name.upper()} BER before Viterbi {rate(it.viterbi)}, before RS {rate(it.rs)}, words {it.counts['words']}, bad {it.counts['bad']}"
        for name, it in figures.streams.items())
    return f"{clock(60 * minute)} minute: MER {decibels(figures.mer)}, least {decibels(figures.least)}; {streams}"


def summary(state):
    """What came of the whole, in lines."""
    seconds = state.seconds
    lines = [f"{clock(state.at)} of signal, super-frames measured {state.frames}; found {state.found}, lost {state.lost}; alarms {state.alarms.count}"]
    if seconds.least:
        lines.append(f"MER {decibels(seconds.whole.mer)}, least {decibels(seconds.least[0])} at {clock(seconds.least[1])}")
    for name, (minute, worst) in seconds.worst_minute().items():
        counts = seconds.whole.streams[name].counts
        lines.append(f"{name.upper()} words {counts['words']}, bad {counts['bad']}; BER before Viterbi {rate(seconds.whole.streams[name].viterbi)}, before RS "
                     f"{rate(seconds.whole.streams[name].rs)}; the worst minute from {clock(60 * minute)}, before RS {rate(worst.rs)}")
    return lines


def write_line(to, text):
    """Writes a line; ends the monitor with 6 if it is not taken."""
    try:
        data = f"{text}\n".encode()
        while data:
            data = data[os.write(to, data) :]
    except OSError:
        print("dvbt: standard output could not be written", file=sys.stderr, flush=True)
        raise SystemExit(6) from None
