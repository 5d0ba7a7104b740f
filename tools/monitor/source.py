"""Where the cells come from, in whole symbols, and what hands them to the chain."""
import os
import threading

from monitor.pipes import PIPE, widen

HEADERS = {b"DVTC\x02\0\0\0": "2k", b"DVTC\x02\1\0\0": "8k"}
SYMBOL = {"2k": 5 * 1705, "8k": 5 * 6817}  # bytes


class NoHeader(Exception):
    """The cells do not begin with the header that they should have."""


class Source:
    """A file, a FIFO or standard input of cells: its mode, by the header, and its symbols."""

    def __init__(self, path, mode=None):
        self.file = os.open(path, os.O_RDONLY | os.O_CLOEXEC)
        self.header = self.first(8)
        self.mode = HEADERS.get(self.header)
        if self.mode is None:
            raise NoHeader(f"{path} does not begin with the header of a cell file of version 2 (docs/use/FILES.md)")
        if mode and mode != self.mode:
            raise NoHeader(f"{path} has cells of the {self.mode} mode, not of {mode}")
        self.size = SYMBOL[self.mode]
        widen(self.file, PIPE[self.mode])

    def first(self, size):
        found = b""
        while len(found) < size:
            piece = os.read(self.file, size - len(found))
            if not piece:
                break
            found += piece
        return found

    def pieces(self):
        """The bytes that come, in whole symbols, as soon as there are some; the next piece takes the place of the last one. A part symbol at
        the end is left out."""
        held, count = memoryview(bytearray(self.size + PIPE[self.mode])), 0
        while True:
            more = os.readv(self.file, [held[count : count + PIPE[self.mode]]])
            if not more:
                return
            count += more
            whole = count // self.size * self.size
            if whole:
                yield held[:whole]
                held[: count - whole] = held[whole:count]
                count -= whole


class Feeder(threading.Thread):
    """Hands the symbols of the source to the chain of the time. A piece that a chain did not take whole goes to the next one whole."""

    def __init__(self, source, tell, watch):
        super().__init__(daemon=True)
        self.source, self.tell, self.watch = source, tell, watch
        self.symbols, self.chain, self.changed = 0, None, threading.Condition()
        self.is_over = False

    def turn_to(self, chain):
        """From now on symbols go to this chain."""
        with self.changed:
            self.chain = chain
            self.changed.notify()

    def end(self):
        """No more symbols are handed on."""
        self.is_over = True

    def run(self):
        chain = fault = None
        try:
            for piece in self.source.pieces():
                chain = self.hand_on(piece, chain)
                self.symbols += len(piece) // self.source.size
                if self.is_over:
                    break
        except OSError as error:
            fault = error.strerror
        with self.changed:
            self.is_over = True
            if self.chain:
                self.chain.close_input()
        self.tell("source", fault)

    def hand_on(self, piece, chain):
        """Gives a piece to the chain of the time, and to the next one if that one ends; answers which took it."""
        while True:
            with self.changed:
                while self.chain is None or self.chain is chain and chain.is_broken:
                    self.changed.wait()
                if chain is not self.chain and chain:
                    chain.close_input()
                chain = self.chain
            is_first = chain.first is None
            if is_first:
                chain.first = self.symbols
            self.watch(piece, self.symbols, chain)
            if chain.put(self.source.header + piece if is_first else piece):
                return chain
