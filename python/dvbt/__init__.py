"""A DVB-T modulator and streaming soft receiver (EN 300 744, between transport packets and OFDM cells) over numpy arrays.

Each call runs the program `dvbt`, which is proved to meet its contract; this package only hands data to it and is not proved.
Transport packets are bytes, 188 a packet. Cells are arrays of symbols by carriers (1705 in 2K, 6817 in 8K), of one of two kinds:

- complex numbers, 1.0 being the amplitude of a cell of mean power. Pilots have 4/3. Each cell then has the weight 15, or that of
  the argument `weights`, an array of the same shape, 0 (says nothing) to 15.
- structured cells of the type `CELL`: `re` and `im`, 16 bits, 16384 being 1.0, and `weight`.

>>> import dvbt
>>> settings = dvbt.Settings(mode="2k", constellation="qpsk", rate_hp="1/2", guard="1/32")
>>> packets = b"".join(bytes([0x47, 0, number, 0x10]) + bytes(184) for number in range(100))
>>> cells = dvbt.modulate(settings, packets)
>>> cells.shape, cells.dtype.name
((272, 1705), 'complex64')
>>> received = dvbt.receive(settings, cells)
>>> received.hp[:18800] == packets, received.report["hp"]["bad"]
(True, 0)

`dvbt.live` has the same calls over pieces, as generators. A refusal of the program is raised as `Refused`.
"""
from dvbt.calls import Aligned, Measured, Received, align, equalise, measure, modulate, receive, rescue, track, tune
from dvbt.files import CELL, complex_of, read, structured, write
from dvbt.program import Refused, find
from dvbt.settings import Settings

__all__ = [
    "CELL", "Aligned", "Measured", "Received", "Refused", "Settings", "align", "complex_of", "equalise", "find", "measure", "modulate", "read", "receive",
    "rescue", "structured", "track", "tune", "write",
]
