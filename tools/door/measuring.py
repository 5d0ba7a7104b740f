"""What bin/dvbt shows of `measure`: a table on a terminal, and a line of JSON for each super-frame (docs/use/MEASURING.md)."""
from cell_tools.standard_error import put
from commands.lines import parsed
from door import explain
from monitor.figures import SUPER_FRAME, Reader, SuperFrame, rate


class Frames:
    """The super-frames of a run, put together from the lines of its report."""

    def __init__(self, form):
        document = explain.document_of(form.settings) or {}
        entries = [document, *(it for it in document.get("plan", ()) if isinstance(it, dict))]
        self.streams = ["hp", "lp"] if any(str(it.get("hierarchy", "none")) != "none" for it in entries) else ["hp"]
        self.reader, self.each = Reader(self.streams), explain.seconds_of_symbol(document) or 0.0

    def take(self, line):
        """Takes a line; answers the super-frame that is whole with it, else None."""
        found = self.reader.take(line)
        if found is None:
            return None
        counts, streams = found
        begin = SUPER_FRAME * counts["superframe"]
        frame = SuperFrame(counts, counts["superframe"], begin, begin * self.each)
        frame.streams = streams
        return frame


class Table:
    """A table that grows by a line for each super-frame. All other lines stand as the program prints them."""

    def __init__(self, form, to):
        self.frames, self.to, self.rest, self.has_head = Frames(form), to, "", False

    def take(self, piece):
        """Takes what the program prints."""
        *whole, self.rest = (self.rest + piece.decode("utf-8", "replace")).split("\n")
        for line in whole:
            if parsed(line)[0] != "live":
                put(f"{line}\n".encode(), self.to)
            elif frame := self.frames.take(line):
                head = [] if self.has_head else [heads(self.frames.streams)]
                self.has_head = True
                for cells in [*head, row(frame, self.frames)]:
                    put((aligned(cells) + "\n").encode(), self.to)


def heads(streams):
    """The heads of the columns."""
    of = {stream: stream.upper() if len(streams) > 1 else "BER" for stream in streams}
    return ["air", "MER dB", *(head for it in streams for head in (f"{of[it]} before Viterbi", "before RS", "bad words")), "TPS read"]


def row(frame, frames):
    """The figures of a super-frame. A figure that bad words make doubtful has a question mark, and so has a rate of a muted signal, whose
    words are clean. A rate that is the least possible has a sign."""
    doubt = "?" if frame.bad else ""
    cells = [air(frame.at + SUPER_FRAME * frames.each), "-" if frame.mer is None else f"{frame.mer:.1f}{doubt}"]
    for name in frames.streams:
        stream = frame.streams[name]
        of_stream = "?" if stream.counts["bad"] and stream.viterbi is not None else ""
        is_muted = stream.rs is not None and (frame.mer is None or stream.counts["words"] == stream.counts["unphased"])
        before_rs = f"≥ {rate(stream.rs)}" if stream.counts["bad"] else rate(stream.rs) + ("?" if is_muted else "")
        cells += [rate(stream.viterbi) + of_stream, before_rs, f"{stream.counts['bad']}"]
    read, bad = frame.counts["tps_read"], frame.counts["tps_bad"]
    return [*cells, f"{read} of {read + bad}"]


def aligned(cells):
    """Cells beside one another, each as wide as its head can be."""
    widths = [11, 8, *([19, 11, 11] * ((len(cells) - 3) // 3)), 10]
    return "".join(cell.rjust(width) for cell, width in zip(cells, widths))


def air(seconds):
    """Hours, minutes and seconds with hundredths: a super-frame in 2K takes 0.06 seconds or more."""
    hundredths = round(100 * seconds)
    return f"{hundredths // 360000}:{hundredths // 6000 % 60:02}:{hundredths // 100 % 60:02}.{hundredths % 100:02}"
