"""The commands over pieces, as generators: what is decided comes before the next piece is asked for, as far as the pipes hold.

Pieces of packets are bytes of any length. Pieces of cells are arrays of whole symbols, or pairs of them and their weights. A generator
that is closed ends the program. A refusal is raised at the end of what was decided.

>>> settings = {"mode": "2k", "constellation": "qpsk", "rate_hp": "1/2", "guard": "1/32"}
>>> cells = modulate(settings, [bytes([0x47]) + bytes(187)] * 300)
>>> sum(len(piece) for piece in receive(settings, cells)) // 188
493
"""
import threading
from typing import Any, Dict, Iterable, Iterator, List, Optional, Tuple, Union

import numpy as np

from dvbt.calls import Gatherer
from dvbt.files import CARRIERS, CELL, Version2, cells_in, complex_of, content_of
from dvbt.program import Run
from dvbt.settings import AnySettings, is_hierarchical, mode_of, with_mode

Cells = Union[np.ndarray, Tuple[np.ndarray, np.ndarray]]


def modulate(settings: AnySettings, hp: Iterable[bytes], lp: Optional[Iterable[bytes]] = None) -> Iterator[np.ndarray]:
    """complex64 symbols, as soon as the packets are there that they need."""
    for piece in symbols_of(Run("modulate", settings, [hp] if lp is None else [hp, lp]), mode_of(settings)):
        yield complex_of(piece)


def receive(settings: AnySettings, cells: Iterable[Cells], report: Optional[List[str]] = None) -> Iterator[bytes]:
    """The packets of HP, as they are decided, in pieces of any length. The lines of the report are appended to `report`. LP is dropped."""
    return packets("receive", settings, cells, 2 if is_hierarchical(settings) else 1, report)


def rescue(settings: AnySettings, cells: Iterable[Cells], report: Optional[List[str]] = None) -> Iterator[bytes]:
    """As `receive`, with words tried once more."""
    return packets("rescue", settings, cells, 2 if is_hierarchical(settings) else 1, report)


def tune(settings: Union[str, AnySettings], cells: Iterable[Cells], report: Optional[List[str]] = None) -> Iterator[bytes]:
    """The packets of a signal without a hierarchy, from any symbol on."""
    return packets("tune", with_mode(settings), cells, 1, report)


def packets(command: str, settings: AnySettings, cells: Iterable[Cells], outputs: int, report: Optional[List[str]]) -> Iterator[bytes]:
    run = Run(command, settings, [pieces_of(settings, cells)], outputs)
    if outputs > 1:
        threading.Thread(target=lambda: [None for _ in run.pieces(1)], daemon=True).start()
    yield from ended(run, run.pieces(), report)


def align(settings: Union[str, AnySettings], cells: Iterable[Cells], report: Optional[List[str]] = None) -> Iterator[np.ndarray]:
    """Structured symbols from the next super-frame on."""
    return symbols("align", with_mode(settings), cells, report)


def equalise(settings: AnySettings, cells: Iterable[Cells], report: Optional[List[str]] = None) -> Iterator[np.ndarray]:
    """Structured symbols, corrected one by one."""
    return symbols("equalise", settings, cells, report)


def track(settings: AnySettings, cells: Iterable[Cells], report: Optional[List[str]] = None) -> Iterator[np.ndarray]:
    """Structured symbols, corrected, seven symbols late."""
    return symbols("track", settings, cells, report)


def symbols(command: str, settings: AnySettings, cells: Iterable[Cells], report: Optional[List[str]]) -> Iterator[np.ndarray]:
    yield from symbols_of(Run(command, settings, [pieces_of(settings, cells)]), mode_of(settings), report)


def measure(settings: AnySettings, cells: Iterable[Cells]) -> Iterator[Dict[str, Any]]:
    """A dictionary for each super-frame, as `dvbt.measure` has them."""
    run = Run("measure", settings, [pieces_of(settings, cells)], 0)
    gathered = Gatherer(2 if is_hierarchical(settings) else 1)
    yield from ended(run, (found for found in map(gathered.take, run.report()) if found))


def ended(run: Run, found: Iterator[Any], report: Optional[List[str]] = None) -> Iterator[Any]:
    """What a run gives; at its end its status is looked at."""
    is_over = False
    try:
        yield from found
        is_over = True
    finally:
        if not is_over:
            run.stop()
    lines = run.end()
    if report is not None:
        report.extend(lines)


def symbols_of(run: Run, mode: str, report: Optional[List[str]] = None) -> Iterator[np.ndarray]:
    """The whole symbols of an output as they come."""
    each, rest = CELL.itemsize * CARRIERS[mode], b""
    begun = False
    for piece in ended(run, run.pieces(), report):
        rest += piece
        if not begun:
            if len(rest) < Version2.HEADER:
                continue
            rest, begun = rest[Version2.HEADER :], True
        count = len(rest) // each * each
        if count:
            yield cells_in(rest[:count], mode)
            rest = rest[count:]


def pieces_of(settings: AnySettings, cells: Iterable[Cells]) -> Iterator[bytes]:
    """The bytes of a cell file, as symbols come."""
    mode = mode_of(settings)
    yield Version2.header(mode)
    for piece in cells:
        given, weights = piece if isinstance(piece, tuple) else (piece, None)
        yield content_of(given, weights, mode)
