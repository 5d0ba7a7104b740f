"""What is remembered of the figures: seconds, minutes and the whole, and the alarms."""
import collections

from monitor.arguments import LIMITS
from monitor.figures import Figures, clock

KEPT = {"screen": 600, "page": 4 * 3600}  # seconds that each can show
CLEAR = 10  # seconds without its cause until an alarm is cleared


class Seconds:
    """The figures second by second of the signal: `done` are the last of those that are over. `whole` and `minutes` sum all."""

    def __init__(self, kept):
        self.done, self.now = collections.deque(maxlen=kept), None
        self.whole, self.minutes, self.least = Figures(), {}, None
        self.last_bad, self.recent = None, collections.deque()

    def add(self, frame):
        """Takes a super-frame; answers the second that is over with it, or None."""
        self.whole.add(frame)
        self.minutes.setdefault(int(frame.at // 60), Figures()).add(frame)
        if frame.mer is not None and (self.least is None or frame.mer < self.least[0]):
            self.least = frame.mer, frame.at
        if frame.bad:
            self.last_bad = frame.at
        self.recent.append((frame.at, frame.bad))
        while self.recent[0][0] < frame.at - 60:
            self.recent.popleft()
        over = None
        if self.now is None or int(frame.at) != self.now[0]:
            over = self.close()
            self.now = int(frame.at), Figures()
        self.now[1].add(frame)
        return over

    def close(self):
        """Ends the second that is being summed; answers it, or None."""
        if self.now is None:
            return None
        self.done.append(point(*self.now))
        self.now = None
        return self.done[-1]

    def kept(self):
        """The seconds that are over, asked for by another thread: another second may come meanwhile."""
        while True:
            try:
                return list(self.done)
            except RuntimeError:
                pass

    @property
    def bad_a_minute(self):
        """Bad words of the last minute of signal."""
        return sum(bad for _, bad in self.recent)

    def worst_minute(self):
        """For each stream: the minute of the greatest ratio before Reed-Solomon, and of those before Viterbi; and its figures."""
        found = {}
        for minute, figures in self.minutes.items():
            for name, stream in figures.streams.items():
                if name not in found or stream.key > found[name][1].key:
                    found[name] = minute, stream
        return found


def point(second, figures):
    """A second as the page has it."""
    streams = {name: {"viterbi": it.viterbi, "rs": it.rs, "bad": it.counts["bad"], "words": it.counts["words"]} for name, it in figures.streams.items()}
    return {"at": second, "mer": figures.mer, "tps": [figures.counts["tps_read"], figures.counts["tps_bad"]], **streams}


class Alarms:
    """The alarms that are raised, by name and stream. `tell` gets each one as it is raised or cleared."""

    def __init__(self, limits, tell):
        self.limits, self.tell, self.raised, self.count = limits, tell, {}, 0

    def look(self, frame, bad_a_minute):
        """Looks at a super-frame."""
        limits = self.limits
        if "mer" in limits:
            self.set(frame.at, "mer", None, frame.mer, frame.mer is not None and frame.mer < limits["mer"])
        for name, stream in frame.streams.items():
            for kind in ("viterbi", "rs"):
                if kind in limits:
                    value = getattr(stream, kind)
                    self.set(frame.at, kind, name, value, value is not None and value > limits[kind])
        if "bad" in limits:
            self.set(frame.at, "bad", None, bad_a_minute, bad_a_minute > limits["bad"])

    def lock(self, at, is_lost):
        """Says that lock is lost or found."""
        if "lock" in self.limits:
            self.set(at, "lock", None, None, is_lost, 0)

    def set(self, at, name, stream, value, holds, clear=CLEAR):
        """Notes whether the cause of an alarm holds."""
        key = name, stream
        if holds:
            is_new = key not in self.raised
            self.raised[key] = at
            if is_new:
                self.count += 1
                self.tell(self.event("alarm", at, key, value))
        elif key in self.raised and at >= self.raised[key] + clear:
            del self.raised[key]
            self.tell(self.event("cleared", at, key, value))

    def event(self, kind, at, key, value):
        name, stream = key
        found = {"event": kind, "at": round(at, 3), "alarm": name, **({"stream": stream} if stream else {})}
        return {**found, **({} if name == "lock" else {"limit": self.limits[name], "value": value})}


def said(event):
    """An event in words."""
    kind, at = event["event"], tenths(event["at"])
    if kind in ("alarm", "cleared"):
        limit = event.get("limit")
        text = LIMITS[event["alarm"]].format(f"{limit:g}" if limit is not None else "")
        value = event.get("value")
        seen = "" if value is None else f": {value:.3g}"
        return f"{at} {kind} {event.get('stream', '').upper()}{' ' if 'stream' in event else ''}{text}{seen}"
    if kind == "found":
        return f"{at} found: {described(event)}, super-frame at symbol {event['symbol']}"
    if kind == "lost":
        return f"{at} lost: nothing received since {tenths(event['heard'])}: {event['why']}; searching"
    if kind == "cell":
        return f"{at} cell identifier {event['cell_id']:#06x}"
    return f"{at} {kind}{': ' + event['why'] if 'why' in event else ''}"


def tenths(seconds):
    return f"{clock(seconds)}.{int(seconds * 10) % 10}"


NAMES = {"qpsk": "QPSK", "16qam": "16-QAM", "64qam": "64-QAM"}


def described(signal):
    """The parameters that the signal announces, in words."""
    rates = signal["rate_hp"] if signal["hierarchy"] == "none" else f"{signal['rate_hp']} and {signal['rate_lp']}, hierarchy {signal['hierarchy']}"
    cell = f", cell {signal['cell_id']:#06x}" if signal.get("cell_id") is not None else ""
    return f"{signal['mode'].upper()} {NAMES[signal['constellation']]} {rates}, guard {signal['guard']}{cell}"
