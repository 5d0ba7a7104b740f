"""A run of the program that is fed and read without waiting, for schedulers such as GNU Radio's."""
import collections
import threading
from typing import Deque, Iterator, Optional

from dvbt.program import Run
from dvbt.settings import AnySettings

ROOM = 1 << 17  # bytes that wait for the program, and that wait to be taken


class Flow:
    """Hands bytes to a command, after `begin`, and takes what it writes, without its first `skip` bytes. With `outputs` 0 its lines are taken."""

    def __init__(self, command: str, settings: AnySettings, begin: bytes = b"", skip: int = 0, outputs: int = 1):
        self.changed, self.waiting, self.held, self.found = threading.Condition(), collections.deque(), 0, bytearray()
        self.waiting: Deque[bytes] = collections.deque([begin] if begin else [])
        self.lines: Deque[str] = collections.deque()
        self.is_over, self.is_done, self.skip = False, False, skip
        self.run = Run(command, settings, [self.given()], outputs)
        threading.Thread(target=self.take if outputs else self.listen, daemon=True).start()
        if outputs > 1:
            threading.Thread(target=lambda: [None for _ in self.run.pieces(1)], daemon=True).start()

    def given(self) -> Iterator[bytes]:
        while True:
            with self.changed:
                while not self.waiting and not self.is_over:
                    self.changed.wait()
                if not self.waiting:
                    return
                piece = self.waiting.popleft()
                self.held -= len(piece)
                self.changed.notify_all()
            yield piece

    def take(self) -> None:
        """Takes what the program writes, as long as there is room."""
        for piece in self.run.pieces():
            with self.changed:
                left, self.skip = piece[self.skip :], max(0, self.skip - len(piece))
                self.found += left
                self.changed.notify_all()
                while len(self.found) > ROOM and not self.is_over:
                    self.changed.wait()
        self.done()

    def listen(self) -> None:
        """Takes the lines that the program prints."""
        for line in self.run.report():
            with self.changed:
                self.lines.append(line)
        self.done()

    def done(self) -> None:
        with self.changed:
            self.is_done = True
            self.changed.notify_all()

    def room(self) -> int:
        """How many bytes may be put now."""
        with self.changed:
            return max(0, ROOM - self.held)

    def put(self, data: bytes) -> None:
        with self.changed:
            self.waiting.append(data)
            self.held += len(data)
            self.changed.notify_all()

    def get(self, most: int, each: int = 1) -> bytes:
        """At most so many bytes of those that have come, a multiple of `each`."""
        with self.changed:
            count = min(most, len(self.found)) // each * each
            data = bytes(self.found[:count])
            del self.found[:count]
            if count:
                self.changed.notify_all()
            return data

    def wait(self, seconds: float) -> None:
        """Waits until something changes, or so long."""
        with self.changed:
            self.changed.wait(seconds)

    def line(self) -> Optional[str]:
        """The next line that the program has printed, or None."""
        with self.changed:
            return self.lines.popleft() if self.lines else None

    def close(self) -> None:
        """Ends the program."""
        with self.changed:
            self.is_over = True
            self.changed.notify_all()
        self.run.stop()
