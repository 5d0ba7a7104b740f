"""The commands over whole arrays. Cells are symbols by carriers (the package's help says more); packets are bytes, 188 each."""
import dataclasses
from typing import Any, Dict, List, Optional, Union

import numpy as np

from dvbt.files import Version2, cells_in, complex_of, content_of
from dvbt.program import Refused, report_of, values_of, whole
from dvbt.settings import AnySettings, is_hierarchical, mode_of, with_mode


@dataclasses.dataclass
class Received:
    """What was received: the packets of each stream (`lp` is None without a hierarchy), and the values of the report."""

    hp: bytes
    lp: Optional[bytes]
    report: Dict[str, Any]


@dataclasses.dataclass
class Aligned:
    """Cells from the first symbol of a super-frame on: `begin` symbols after the first one given. The frame that was found begins at
    symbol `at` and is number `frame`, 1 to 4; it announces the parameters `announced`."""

    cells: np.ndarray
    at: int
    frame: int
    begin: int
    announced: Dict[str, str]


@dataclasses.dataclass
class Measured:
    """What was measured: a dictionary for each super-frame, with one for each stream in it, and the values of the closing lines."""

    superframes: List[Dict[str, Any]]
    report: Dict[str, Any]


def modulate(settings: AnySettings, hp: bytes, lp: Optional[bytes] = None, structured: bool = False) -> np.ndarray:
    """The cells of a transmission of packets, whole super-frames of 272 symbols: complex64, or structured ones if asked for.

    >>> modulate({"mode": "2k", "constellation": "qpsk", "rate_hp": "1/2", "guard": "1/8"}, b"", structured=True)[0, 0].tolist()
    (-21845, 0, 15)
    """
    (content,), _ = whole("modulate", settings, [hp] if lp is None else [hp, lp])
    cells = cells_in(content[Version2.HEADER :], mode_of(settings))
    return cells if structured else complex_of(cells)


def receive(settings: AnySettings, cells: np.ndarray, weights: Optional[np.ndarray] = None) -> Received:
    """The packets of cells that begin at a super-frame. Bad ones have transport_error_indicator set."""
    return received("receive", settings, cells, weights, is_hierarchical(settings))


def rescue(settings: AnySettings, cells: np.ndarray, weights: Optional[np.ndarray] = None) -> Received:
    """As `receive`; words with too many errors are tried once more with their least sure bytes erased."""
    return received("rescue", settings, cells, weights, is_hierarchical(settings))


def tune(settings: Union[str, AnySettings], cells: np.ndarray, weights: Optional[np.ndarray] = None) -> Received:
    """The packets of cells that begin at any symbol, by the parameters that they announce. The mode ("2k", "8k") will do as settings."""
    settings = with_mode(settings)
    try:
        return received("tune", settings, cells, weights, False)
    except Refused as refused:
        if refused.status != 11:
            raise
    return received("tune", settings, cells, weights, True)  # the signal has a hierarchy


def received(command: str, settings: AnySettings, cells: np.ndarray, weights: Optional[np.ndarray], has_lp: bool) -> Received:
    found, lines = whole(command, settings, [file_of(settings, cells, weights)], 2 if has_lp else 1)
    return Received(found[0], found[1] if has_lp else None, report_of(lines))


def align(settings: Union[str, AnySettings], cells: np.ndarray, weights: Optional[np.ndarray] = None) -> Aligned:
    """Cells that begin at any symbol, from the next super-frame on. The mode ("2k", "8k") will do as settings."""
    settings = with_mode(settings)
    (content,), lines = whole("align", settings, [file_of(settings, cells, weights)])
    report = report_of(lines)
    at, frame = report["tune"]["at"], report["tune"]["frame"]
    return Aligned(cells_in(content[Version2.HEADER :], mode_of(settings)), at, frame, at + 68 * (5 - frame), report["announced"])


def equalise(settings: AnySettings, cells: np.ndarray, weights: Optional[np.ndarray] = None) -> np.ndarray:
    """Structured cells, each corrected by the pilots of its own symbol and weighed by how strong they are."""
    return converted("equalise", settings, cells, weights)


def track(settings: AnySettings, cells: np.ndarray, weights: Optional[np.ndarray] = None) -> np.ndarray:
    """Structured cells, each corrected by the pilots of its own and the neighbouring symbols."""
    return converted("track", settings, cells, weights)


def converted(command: str, settings: AnySettings, cells: np.ndarray, weights: Optional[np.ndarray]) -> np.ndarray:
    (content,), _ = whole(command, settings, [file_of(settings, cells, weights)])
    return cells_in(content[Version2.HEADER :], mode_of(settings))


def measure(settings: AnySettings, cells: np.ndarray, weights: Optional[np.ndarray] = None) -> Measured:
    """MER (`power` over `error`), bits that differ, words and TPS, super-frame by super-frame (ETSI TR 101 290)."""
    _, lines = whole("measure", settings, [file_of(settings, cells, weights)], 0)
    gathered = Gatherer(2 if is_hierarchical(settings) else 1)
    frames = [found for found in map(gathered.take, lines) if found]
    return Measured(frames, report_of(lines[len(frames) * (1 + gathered.streams) :]))


class Gatherer:
    """Puts the lines of `measure` together to super-frames of so many streams."""

    def __init__(self, streams: int):
        self.streams, self.found = streams, None  # type: int, Optional[Dict[str, Any]]

    def take(self, line: str) -> Optional[Dict[str, Any]]:
        """Takes a line; answers a super-frame once it is whole."""
        name, values = values_of(line)
        if "superframe" in values:
            self.found = values
        elif self.found and name in ("hp", "lp") and "bits" in values:
            self.found[name] = values
            if name == ("hp", "lp")[self.streams - 1]:
                found, self.found = self.found, None
                return found
        return None


def file_of(settings: AnySettings, cells: np.ndarray, weights: Optional[np.ndarray]) -> bytes:
    """The bytes of a cell file of version 2."""
    mode = mode_of(settings)
    return Version2.header(mode) + content_of(cells, weights, mode)
