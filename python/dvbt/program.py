"""Finds the program and runs it: data goes to it and comes from it by pipes, piece by piece."""
import functools
import os
import shutil
import subprocess
import threading
from typing import Any, Dict, Iterable, Iterator, List, Optional, Tuple

from dvbt.settings import AnySettings, toml_of

PIECE = 1 << 16
SYNC = 188  # bytes of a packet


class Refused(Exception):
    """The program refused: its `status`, its last line `text`, the `key` of the settings, the `offset` in the packets in bytes (or None)."""

    def __init__(self, command: str, status: int, text: str):
        super().__init__(f"{command}: {text or 'no line'} (status {status})")
        words = text.split()
        self.status, self.text = status, text
        self.key: Optional[str] = words[-1] if words[:1] == ["settings"] and len(words) == 3 and words[1] in ("missing", "value", "clash") else None
        self.offset: Optional[int] = SYNC * int(words[2]) if words[1:2] == ["packet"] else None


@functools.lru_cache(None)
def find() -> str:
    """The program: that of $DVBT_PROGRAM, of the repository that this package stands in, or of the `dvbt` on the PATH."""
    named = os.environ.get("DVBT_PROGRAM")
    if named:
        return os.path.abspath(named)
    door = os.path.join(os.path.dirname(os.path.realpath(__file__)), "..", "..", "bin", "dvbt")
    door = door if os.path.isfile(door) else shutil.which("dvbt")
    if not door:
        raise FileNotFoundError("the program dvbt is not on the PATH, and $DVBT_PROGRAM does not name it")
    return subprocess.run([door, "--program"], stdout=subprocess.PIPE, text=True, check=True).stdout.strip()


class Run:
    """A run of a command. `inputs` are read as the program asks for them; `outputs` is how many files it writes."""

    def __init__(self, command: str, settings: AnySettings, inputs: Iterable[Iterable[bytes]], outputs: int = 1):
        self.command, self.lines = command, []  # type: str, List[str]
        document = os.memfd_create("settings")
        os.write(document, toml_of(settings).encode())
        sources, sinks = [os.pipe() for _ in inputs], [os.pipe() for _ in range(outputs)]
        given = [document, *(read for read, _ in sources), *(write for _, write in sinks)]
        words = [find(), command, *(f"/dev/fd/{it}" for it in given)]
        self.child = subprocess.Popen(words, stdin=subprocess.DEVNULL, stdout=subprocess.PIPE, pass_fds=given)
        for it in given:
            os.close(it)
        self.outputs, self.fault = [read for read, _ in sinks], None  # type: List[int], Optional[BaseException]
        for pieces, (_, to) in zip(inputs, sources):
            threading.Thread(target=self.give, args=(pieces, to), daemon=True).start()

    def give(self, pieces: Iterable[bytes], to: int) -> None:
        """Writes an input. An error of who makes the pieces is raised at the end of the run."""
        try:
            for piece in pieces:
                view = memoryview(piece)
                while view:
                    view = view[os.write(to, view) :]
        except BrokenPipeError:
            pass  # the program has ended, and its status says why
        except BaseException as error:
            self.fault = error
        finally:
            os.close(to)

    def pieces(self, number: int = 0) -> Iterator[bytes]:
        """What the program writes to an output, as it comes."""
        try:
            while True:
                piece = os.read(self.outputs[number], PIECE)
                if not piece:
                    return
                yield piece
        finally:
            os.close(self.outputs[number])

    def report(self) -> Iterator[str]:
        """The lines of the report, as they come."""
        for line in self.child.stdout:
            self.lines.append(line.decode("utf-8", "replace").rstrip("\n"))
            yield self.lines[-1]

    def end(self) -> List[str]:
        """The lines once the program has ended. Raises `Refused` unless its status is 0."""
        for _ in self.report():
            pass
        self.child.stdout.close()
        status = self.child.wait()
        if self.fault:
            raise self.fault
        if status:
            raise Refused(self.command, status, self.lines[-1] if self.lines else "")
        return self.lines

    def stop(self) -> None:
        """Ends the program before its end."""
        self.child.kill()
        self.child.wait()
        self.child.stdout.close()


def whole(command: str, settings: AnySettings, inputs: List[bytes], outputs: int = 1) -> Tuple[List[bytes], List[str]]:
    """Runs a command over whole inputs; answers its outputs and the lines of its report."""
    run = Run(command, settings, [[it] for it in inputs], outputs)
    found: List[bytes] = [b""] * outputs

    def keep(number: int) -> None:
        found[number] = b"".join(run.pieces(number))

    threads = [threading.Thread(target=keep, args=(number,)) for number in range(outputs)]
    for it in threads:
        it.start()
    try:
        return found, run.end()
    finally:
        for it in threads:
            it.join()


def report_of(lines: Iterable[str]) -> Dict[str, Any]:
    """The values of a report. Those of a stream, of TPS and the like stand by its name.

    >>> report_of(["symbols 272 tail 0", "tps read 4 bad 0", "announced constellation qpsk hierarchy none rate_hp 1/2 guard 1/32"])["tps"]
    {'read': 4, 'bad': 0}
    """
    found: Dict[str, Any] = {}
    for line in lines:
        if " unmerged at " in line:
            continue
        name, values = values_of(line)
        found.update({name: values} if name else values)
    return found


def values_of(line: str) -> Tuple[Optional[str], Dict[str, Any]]:
    """The name that a line begins with, if any, and its values."""
    words = line.replace(" tps read ", " tps_read ").replace(" bad ", " tps_bad ", line.startswith("superframe ")).split()
    name = words.pop(0) if len(words) % 2 else None
    return name, {key: int(value) if value.isdecimal() and key != "hierarchy" else value for key, value in zip(words[::2], words[1::2])}
