"""What the lines of `measure` say: MER and bit error ratios, words, and the time on air."""
import math

from commands import lines

USEFUL = {"2k": 224e-6, "8k": 896e-6}  # seconds of a symbol without guard in a channel of 8 MHz
SUPER_FRAME = 272  # symbols
WORD = 8 * 204  # bits of an outer word
NINE = 9  # the least number of wrong bits in a bad word: nine wrong bytes


class Clock:
    """Seconds of signal by the symbols of the source, also where the guard interval changes. It stands still until `turn`."""

    def __init__(self, mode, channel):
        self.useful = USEFUL[mode] * 8 / channel
        self.symbol, self.seconds, self.each = 0, 0.0, 0.0

    def at(self, symbol):
        return self.seconds + (symbol - self.symbol) * self.each

    def turn(self, symbol, guard):
        """From this symbol on the guard interval is this one; the first call counts what came before alike."""
        each = self.useful * (1 + 1 / int(guard.partition("/")[2]))
        self.seconds = self.at(symbol) if self.each else symbol * each
        self.symbol, self.each = symbol, each


class Stream:
    """The figures of one stream, of a super-frame or of several."""

    COUNTS = ("bits", "wrong", "words", "clean", "corrected", "bad", "unphased", "unmerged", "repaired")

    def __init__(self, counts=()):
        self.counts = {name: dict(counts).get(name, 0) for name in self.COUNTS}

    def add(self, other):
        for name, value in other.counts.items():
            self.counts[name] += value

    @property
    def viterbi(self):
        """The bit error ratio before the inner decoder, or None."""
        return ratio(self.counts["wrong"], self.counts["bits"])

    @property
    def rs(self):
        """The bit error ratio before the outer decoder, or None. It is the least possible if a word is bad: of such a word nothing is
        known but that nine of its bytes are wrong."""
        words = self.counts["clean"] + self.counts["corrected"] + self.counts["bad"]
        return ratio(self.counts["repaired"] + NINE * self.counts["bad"], WORD * words)

    @property
    def key(self):
        """What is greater if reception is worse."""
        return self.rs or 0.0, self.viterbi or 0.0

    @property
    def is_lost(self):
        """Whether no word is received."""
        return self.counts["words"] in (self.counts["bad"], self.counts["unphased"])

    def described(self):
        return {**self.counts, "ber_before_viterbi": self.viterbi, "ber_before_rs": self.rs}


class Figures:
    """The figures of a super-frame or of several: power and error, TPS, each stream by its name, and the least MER of those added."""

    COUNTS = ("symbols", "cells", "muted", "power", "error", "tps_read", "tps_bad")

    def __init__(self, counts=()):
        self.counts = {name: dict(counts).get(name, 0) for name in self.COUNTS}
        self.streams, self.least = {}, None

    def add(self, other):
        """Adds the figures of a super-frame, or of several."""
        for name, value in other.counts.items():
            self.counts[name] += value
        least = other.mer if other.least is None else other.least
        if least is not None and (self.least is None or least < self.least):
            self.least = least
        for name, stream in other.streams.items():
            self.streams.setdefault(name, Stream()).add(stream)

    @property
    def mer(self):
        """The modulation error ratio in dB (ETSI TR 101 290, 9.18): None without cells, 99 at most."""
        power, error = self.counts["power"], self.counts["error"]
        return min(99.0, 10 * math.log10(power / error)) if power and error else 99.0 if power else None

    @property
    def is_lost(self):
        """Whether nothing is received: no TPS word can be read, or no word of any stream."""
        told = [stream for stream in self.streams.values() if stream.counts["words"]]
        no_tps = self.counts["tps_bad"] > 0 and self.counts["tps_read"] == 0
        return no_tps or bool(told) and all(stream.is_lost for stream in told)

    @property
    def bad(self):
        return sum(stream.counts["bad"] for stream in self.streams.values())


class SuperFrame(Figures):
    """A super-frame of `measure`: `number` of this reception, `symbol` of the source at which it begins, `at` seconds of signal."""

    def __init__(self, counts, number, symbol, at):
        super().__init__(counts)
        self.number, self.symbol, self.at = number, symbol, at

    def described(self):
        tps = {"read": self.counts["tps_read"], "bad": self.counts["tps_bad"]}
        counts = {name: value for name, value in self.counts.items() if not name.startswith("tps")}
        streams = {name: stream.described() for name, stream in self.streams.items()}
        return {"superframe": self.number, "symbol": self.symbol, "at": round(self.at, 3), "mer": self.mer, **counts, "tps": tps, **streams}


class Reader:
    """Puts the lines of `measure` together to super-frames. `streams` are the names that have a line each."""

    def __init__(self, streams):
        self.streams, self.values, self.found = streams, None, {}

    def take(self, line):
        """Takes a line; answers the values of a super-frame and of its streams once they are whole, else None."""
        place, values = lines.parsed(line)
        if place != "live":
            return None
        if "stream" not in values:
            self.values, self.found = values, {}
            return None
        self.found[values["stream"]] = Stream(values)
        if self.values is None or set(self.found) != set(self.streams):
            return None
        values, self.values = self.values, None
        return values, self.found


def ratio(part, of):
    return part / of if of else None


def rate(value):
    """A rate in words."""
    return "-" if value is None else "0" if value == 0 else f"{value:.1e}"


def decibels(value):
    return "-" if value is None else f"{value:.1f} dB"


def seconds_of(text):
    """Hours, minutes, seconds as a number."""
    hours, minutes, seconds = text.split(":")
    return 3600 * int(hours) + 60 * int(minutes) + float(seconds)


def clock(seconds):
    """Hours, minutes, seconds."""
    seconds = int(seconds)
    return f"{seconds // 3600}:{seconds // 60 % 60:02}:{seconds % 60:02}"
