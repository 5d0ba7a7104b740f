"""Gathers some of the symbols that pass."""
import time


class Sample:
    """Symbols in a row that are gathered as they pass, from a multiple of `unit` on. After a sample nothing is gathered for `each` seconds."""

    def __init__(self, size, count, unit=1, each=0.0):
        self.size, self.count, self.unit, self.each, self.next = size, count, unit, each, 0.0
        self.clear()

    def clear(self):
        self.held, self.first, self.chain = b"", None, None

    def is_due(self):
        return time.monotonic() >= self.next

    def take(self, piece, at, chain):
        """Takes bytes that begin `at` bytes after the first symbol of the chain; answers the symbols and the number of the first, once
        there are enough, else None."""
        if not self.is_due():
            return None
        if self.chain is not chain:
            self.clear()
            skip = -at % (self.unit * self.size)
            if skip >= len(piece):
                return None
            self.chain, self.first, piece = chain, (at + skip) // self.size, piece[skip:]
        self.held += piece[: self.count * self.size - len(self.held)]
        if len(self.held) < self.count * self.size:
            return None
        found = [self.held[it : it + self.size] for it in range(0, len(self.held), self.size)], self.first
        self.next = time.monotonic() + self.each
        self.clear()
        return found
