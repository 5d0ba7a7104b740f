"""bin/dvbt monitor: joins the programs, follows their lines, and begins anew if the signal is lost."""
import os
import queue
import signal
import tempfile
import time

from cell_tools.beginning import votes_in
from cell_tools.tps import cell_id_of
from commands import forms
from door import explain, names
from monitor import arguments, screen
from monitor.chain import Chain
from monitor.figures import SUPER_FRAME, Clock, Reader, SuperFrame
from monitor.history import KEPT, Alarms, Seconds
from monitor.sample import Sample
from monitor.source import Feeder, NoHeader, Source

FRAME, FRAMES = 68, 2  # symbols, and frames that tell the cell identifier
MOST = 16  # times the super-frames of --lost that a search waits at most if the ones before it brought no reception


def start(words, program, closed, is_json=False):
    """Runs the arguments after `monitor`; answers the exit status. `program` gives the program that the chain runs."""
    if words and words[-1] in ("--help", "-h"):
        print(arguments.HELP, flush=True)
        return 0
    try:
        found = arguments.Arguments(words)
    except arguments.Invalid as why:
        explain.say([str(why), "bin/dvbt monitor --help explains the arguments"])
        print("usage", flush=True)
        return 2
    if found.report:
        from monitor import report

        return report.run(*of_report(found, closed))
    found.json = found.json or is_json
    files, is_data = given(found, closed)
    try:
        source = Source(files["cells"], found.mode)
    except NoHeader as why:
        explain.say(str(why))
        return 9
    except OSError as error:
        explain.say(f"{found.cells} can't be read: {error.strerror}")
        return 5
    try:
        outputs = [opened(files[it]) for it in ("hp", "lp") if it in files]
        log = screen.Log(files["log"]) if found.log else None
    except OSError as error:
        explain.say(f"{error.filename} can't be written: {error.strerror}")
        return 6
    with tempfile.TemporaryDirectory(prefix="dvbt-monitor-") as folder:
        try:
            monitor = Monitor(program(), found, source, outputs, log, 2 if is_data else 1, folder)
        except OSError as error:
            explain.say(f"--page {found.page}: {error.strerror}")
            return 64
        return monitor.run()


def given(found, closed):
    """The path of each file by its kind, and whether an output is our standard output. A call that would destroy a file is rejected."""
    kinds = [("cells", "CELLS", found.cells), ("out-hp", "HP", found.hp), ("out-lp", "LP", found.lp), ("out-log", "--log", found.log)]
    kinds = [it for it in kinds if it[2] is not None]
    form = forms.Form("monitor", [it[:2] for it in kinds], [it[2] for it in kinds])
    words, is_data = names.given(form, closed)
    return dict(zip((kind.rpartition("-")[2] for kind, _, _ in kinds), words[1:])), is_data


def of_report(found, closed):
    """The paths of a log and of its picture, or None, and whether that is our standard output. A picture that would destroy the log is rejected."""
    kinds = [("log", "LOG", found.report), ("out-picture", "PICTURE", found.picture)]
    kinds = [it for it in kinds if it[2] is not None]
    words, is_data = names.given(forms.Form("monitor", [it[:2] for it in kinds], [it[2] for it in kinds]), closed)
    return words[1], words[2] if found.picture else None, is_data


def opened(path):
    """An output, made anew."""
    return os.open(path, os.O_WRONLY | os.O_CREAT | os.O_TRUNC | os.O_CLOEXEC, 0o666)


class Monitor:
    """The state of a run, and what is done as things come."""

    def __init__(self, program, found, source, outputs, log, to, folder):
        self.program, self.arguments, self.source, self.outputs, self.folder = program, found, source, outputs, folder
        self.log, self.name, self.queue = log, found.cells, queue.SimpleQueue()
        self.clock, self.seconds = Clock(source.mode, found.channel), Seconds(KEPT["page" if found.page else "screen"])
        self.alarms = Alarms(found.limits, self.event)
        self.signal = self.last = self.chain = self.speed = None
        self.at = self.since = self.heard = 0.0
        self.found = self.lost = self.frames = self.silent = 0
        self.patience = found.lost
        self.status, self.at_end, self.is_ended, self.running, self.began = 0, 0, False, set(), time.monotonic()
        self.page, self.asked = None, set()
        if found.page:
            from monitor.page import Page

            self.page = Page(found.page, self)
            explain.say(f"the page is at http://127.0.0.1:{found.page}/")
        self.tps = Sample(source.size, FRAMES * FRAME, FRAME)
        self.feeder = Feeder(source, self.tell, self.passes)
        self.to, self.shown = to, screen.shown(to, self, found.json)

    def passes(self, piece, first, chain):
        """Sees the cells as they came, in the thread that hands them on: the first two frames of each reception, and the page."""
        if chain.begin is None or first < chain.begin:
            return
        if chain.begin not in self.asked:
            found = self.tps.take(piece, (first - chain.begin) * self.source.size, chain)
            if found:
                self.asked.add(chain.begin)
                self.tell("frames", chain, found[0])
        if self.page:
            self.page.raw(piece, first, chain)

    def tell(self, *event):
        """Takes what a thread or a signal has to say."""
        self.queue.put(event)

    def run(self):
        """Runs until the cells end; answers the exit status."""
        for number in (signal.SIGINT, signal.SIGTERM):
            signal.signal(number, lambda number, _: self.tell("signal", number))
        self.search()
        try:
            self.feeder.start()
            while not self.is_done():
                self.take()
            return self.close()
        finally:
            self.chain.kill()

    def take(self):
        """Takes the next thing that comes, or shows that none did."""
        try:
            kind, *rest = self.queue.get(timeout=screen.EACH)
        except queue.Empty:
            self.shown.tick()
        else:
            getattr(self, f"on_{kind}")(*rest)

    def is_done(self):
        """Whether the cells have ended and so have the programs, or a fault has ended all."""
        return self.status != 0 or self.is_ended and not self.running

    def take_signal(self):
        """The number of a signal that came after the end, or None after some time."""
        try:
            kind, *rest = self.queue.get(timeout=1)
        except queue.Empty:
            return None
        return rest[0] if kind == "signal" else None

    # What comes

    def on_line(self, chain, command, line):
        """A line of a program of the chain."""
        chain.last[command] = line
        if chain is not self.chain or chain.is_left:
            return
        if command == "align":
            self.take_place(line)
        elif command == "measure":
            found = self.reader.take(line)
            if found:
                self.take_frame(*found)

    def on_frames(self, chain, symbols):
        """Two frames as they came: they have the cell identifier."""
        found = cell_id_of(votes_in(self.source.header + b"".join(symbols), self.source.mode))
        if found is not None and chain is self.chain and self.signal:
            self.signal["cell_id"] = found
            self.event({"event": "cell", "at": round(self.at, 3), "cell_id": found})

    def on_ended(self, chain, command, status):
        """A program of a chain has ended."""
        self.running.discard((chain, command))
        if chain is not self.chain or chain.is_left or status == 0 or self.status or command == "align" and status == 10:
            return
        if status == 8:
            self.lose("a program has taken as many symbols as it can")
            return
        why = f"the program lacks the command {command}" if status == 2 else chain.last.get(command, "it printed nothing")
        explain.say(f"{command} ended with status {status}: {why}")
        self.status = 126
        chain.kill()

    def on_output(self, file):
        """An output takes no more."""
        explain.say("an output could not be written: nobody reads it any more, or the disk is full")
        self.status = 6
        self.chain.kill()

    def on_source(self, fault):
        """The cells have ended."""
        self.is_ended = True
        if fault:
            explain.say(f"{self.name} can't be read: {fault}")
            self.at_end = 5
        self.at = max(self.at, self.clock.at(self.feeder.symbols))

    def on_signal(self, number):
        """Ctrl-C: what came is still received; a second one ends all."""
        if self.is_ended:
            self.status = self.status or 128 + number
            self.chain.kill()
        self.feeder.end()
        self.is_ended = True
        self.chain.close_input(may_wait=False)  # else what hands the symbols on closes it

    # What it does

    def search(self):
        """Begins at align."""
        after = self.chain.outputs if self.chain else ()
        self.signal, self.silent, self.place = None, 0, {}
        self.chain = Chain(self.program, self.arguments, self.source.mode, self.settings, self.tell, self.page, after)
        self.running.add((self.chain, "align"))
        self.feeder.turn_to(self.chain)

    def settings(self, document):
        """A file of settings of a document."""
        path = os.path.join(self.folder, f"{len(os.listdir(self.folder))}.toml")
        with open(path, "w", encoding="ascii") as file:
            for key, value in {**document, "max_symbols": 4294967295}.items():
                print(f"{key} = {value}" if type(value) is int else f'{key} = "{value}"', file=file)
        return path

    def take_place(self, line):
        """Takes a line of align; with the parameters it starts the rest of the chain."""
        from commands.lines import parsed

        place, values = parsed(line)
        if place == "tune":
            self.place = values
        if place != "announced":
            return
        chain = self.chain
        chain.begin = chain.first + self.place["at"] + FRAME * (5 - self.place["frame"])
        self.clock.turn(chain.begin, values["guard"])
        self.at = self.since = self.clock.at(chain.begin)
        self.signal = {"mode": self.source.mode, **values}
        self.found += 1
        streams = ["hp"] if values["hierarchy"] == "none" else ["hp", "lp"]
        self.reader = Reader(streams)
        chain.start(values, [*self.outputs, None][: len(streams)] if self.outputs else [])
        self.running |= {(chain, part.command) for part in chain.parts[1:]}
        self.alarms.lock(self.at, False)
        self.event({"event": "found", "at": round(self.at, 3), "symbol": chain.begin, **self.signal})
        if len(streams) == 1 and len(self.outputs) == 2:
            explain.say("the signal has no hierarchy, so nothing is written to LP")

    def take_frame(self, values, streams):
        """Takes the figures of a super-frame."""
        number = values.pop("superframe")
        symbol = self.chain.begin + SUPER_FRAME * number
        frame = SuperFrame(values, number, symbol, self.clock.at(symbol))
        frame.streams = streams
        self.last, self.at, self.frames = frame, self.clock.at(symbol + SUPER_FRAME), self.frames + 1
        self.speed = self.at / max(0.001, time.monotonic() - self.began)
        over = self.seconds.add(frame)
        self.shown.frame(frame)
        self.alarms.look(frame, self.seconds.bad_a_minute)
        if self.log:
            self.log.minutes(self.seconds, frame.at)
        if self.page:
            self.page.frame(frame, over)
        if not frame.is_lost:
            self.silent, self.patience, self.heard = 0, self.arguments.lost, self.at
            return
        self.silent += 1
        if self.silent >= self.patience:
            tps = frame.counts["tps_bad"] and not frame.counts["tps_read"]
            self.lose(f"{'no TPS word can be read' if tps else 'all words are bad'} in {self.silent} super-frames")

    def lose(self, why):
        """The signal is lost: begins anew at align."""
        self.lost, self.since, self.patience = self.lost + 1, self.at, min(2 * self.patience, MOST * self.arguments.lost)
        self.alarms.lock(self.at, True)
        self.signal = None
        self.event({"event": "lost", "at": round(self.at, 3), "heard": round(self.heard, 3), "why": why})
        self.chain.leave()
        if not self.is_ended:
            self.search()

    def event(self, event):
        self.shown.event(event)
        if self.log:
            self.log.event(event)
        if self.page:
            self.page.event(event)

    def close(self):
        """Says what came of it; answers the exit status."""
        self.shown.clear()
        for thread in self.chain.threads if not self.status else ():
            thread.join()
        over = self.seconds.close()
        if self.status not in (0, 1, 10):
            return self.status
        if self.found == 0:
            explain.say(f"{self.name}: no frame was found: no 68 symbols in a row have a TPS word that can be read (EN 300 744, 4.6)")
            self.status = 10
        whole = self.seconds.whole
        self.shown.event({"event": "end", "at": round(self.at, 3), "superframes": self.frames, "found": self.found, "lost": self.lost, "mer": whole.mer,
                          "alarms": self.alarms.count, **{name: it.described() for name, it in whole.streams.items()}})
        lines = screen.summary(self)
        for line in lines:
            for to in self.shown.summaries:
                screen.write_line(to, line)
        if self.log:
            self.log.minutes(self.seconds)
            for line in lines:
                print(screen.stamp(), line, file=self.log.file)
        if self.page:
            self.page.frame(None, over)
            self.page.stay()
        return self.at_end or self.status or (1 if self.alarms.count else 0)
