"""The programs of one reception joined by pipes: align, the equaliser, receive or rescue, and measure."""
import os
import subprocess
import threading
import time

from monitor.pipes import PIPE, move, pipe, put, splice, tee

GATHER = 0.01  # seconds in which packets are gathered: receive writes a few KB at a time
EQUALISERS = {"track": "track", "symbol": "equalise"}
KEYS = ("constellation", "hierarchy", "rate_hp", "rate_lp", "guard")
UNKNOWN = {"constellation": "qpsk", "rate_hp": "1/2", "guard": "1/32"}  # for align, which uses the mode alone


class Part:
    """A program of the chain. It reads the descriptor `source` and writes `sinks`; its lines, and at last its status, go to `tell`."""

    def __init__(self, chain, program, command, settings, source, sinks):
        self.chain, self.command = chain, command
        words = [program, command, settings, f"/dev/fd/{source}", *(f"/dev/fd/{it}" for it in sinks)]
        how = {"stdin": subprocess.DEVNULL, "stdout": subprocess.PIPE, "start_new_session": True}  # Ctrl-C is for the monitor alone
        self.child = subprocess.Popen(words, pass_fds=(source, *sinks), **how)
        for it in (source, *sinks):
            os.close(it)
        self.thread = threading.Thread(target=self.read, daemon=True)
        self.thread.start()

    def read(self):
        for line in self.child.stdout:
            self.chain.tell("line", self.chain, self.command, line.decode("utf-8", "replace").rstrip("\n"))
        self.child.stdout.close()
        self.chain.tell("ended", self.chain, self.command, self.child.wait())


class Chain:
    """One reception: from its first symbol, `first` of the source, until the signal is lost or the cells end. `settings` makes the
    file of settings of a document. `watch`, a page, sees corrected cells as they pass, if it is due."""

    def __init__(self, program, arguments, mode, settings, tell, watch=None, after=()):
        self.program, self.arguments, self.mode, self.settings, self.tell, self.watch = program, arguments, mode, settings, tell, watch
        self.first, self.begin, self.announced, self.is_broken, self.is_left = None, None, None, False, False
        self.after, self.threads, self.outputs, self.giving, self.last = list(after), [], [], threading.Lock(), {}
        self.size = PIPE[mode]
        source, self.input = pipe(self.size)
        self.aligned, to = pipe(self.size)
        self.parts = [Part(self, program, "align", settings({"mode": mode, **UNKNOWN}), source, [to])]

    def put(self, piece):
        """Hands symbols to align; answers whether it took them."""
        with self.giving:
            self.is_broken = self.input is None or not put(self.input, piece)
        return not self.is_broken

    def close_input(self, may_wait=True):
        """After the last symbol. It does not wait for a `put` if it may not."""
        if self.giving.acquire(blocking=may_wait):
            if self.input is not None:
                os.close(self.input)
                self.input = None
            self.giving.release()

    def start(self, announced, outputs):
        """Starts what comes after align by the parameters that it announced. `outputs` are the files of the streams, or empty."""
        self.announced = {key: announced[key] for key in KEYS if key in announced}
        document = self.settings({"mode": self.mode, **self.announced, "start": "any"})
        corrected, self.aligned = self.aligned, None
        if self.arguments.equaliser != "none":
            source, (corrected, to) = corrected, pipe(self.size)
            self.parts.append(Part(self, self.program, EQUALISERS[self.arguments.equaliser], document, source, [to]))
        to_measure, sinks = (corrected, []) if not outputs and not self.watch else self.piped()
        if outputs:
            source, to = pipe(self.size)
            sinks.append(to)
            ways = [pipe(self.size) for _ in outputs]
            command = "rescue" if self.arguments.rescue else "receive"
            self.parts.append(Part(self, self.program, command, document, source, [to for _, to in ways]))
            self.outputs = [self.thread(self.keep, way, file, before) for (way, _), file, before in zip(ways, outputs, self.after or [None] * 2)]
        self.parts.append(Part(self, self.program, "measure", document, to_measure, []))
        if sinks:
            self.thread(self.share, corrected, sinks)

    def piped(self):
        source, to = pipe(self.size)
        return source, [to]

    def thread(self, work, *words):
        self.threads.append(threading.Thread(target=work, args=words, daemon=True))
        self.threads[-1].start()
        return self.threads[-1]

    def share(self, source, sinks):
        """Gives the corrected cells to each program that reads them, and shows some."""
        at, taking = 0, list(sinks)
        while taking:
            if self.watch and self.watch.is_due():
                piece = os.read(source, self.size)
                count = len(piece)
                self.watch.corrected(piece, at, self)
                taking = [it for it in taking if put(it, piece)]
            else:
                count = self.pass_on(source, taking)
            if not count:
                break
            at += count
        for it in (source, *sinks):
            os.close(it)

    def pass_on(self, source, taking):
        """Gives what has come to one or two programs, without a look at it, and removes one that has ended; answers how many bytes."""
        while taking:
            try:
                count = (tee if len(taking) > 1 else splice)(source, taking[0], self.size)
            except OSError:
                del taking[0]
                continue
            if count and len(taking) > 1 and not move(source, taking[1], count):
                del taking[1]
            return count
        return 0

    def keep(self, source, file, before):
        """Writes the packets of a stream, after those of the reception before."""
        if before:
            before.join()
        is_well = True
        while True:
            piece = os.read(source, self.size)
            if not piece:
                break
            if is_well and file is not None and not put(file, piece):
                is_well = False
                self.tell("output", file)
            time.sleep(GATHER)
        os.close(source)

    def leave(self):
        """Ends the search and the correction; what was corrected is still received."""
        self.is_left = True
        for part in self.parts:
            if part.command in ("align", *EQUALISERS.values()):
                part.child.kill()
        if self.aligned is not None:
            os.close(self.aligned)
            self.aligned = None

    def kill(self):
        """Ends all."""
        for part in self.parts:
            part.child.kill()
