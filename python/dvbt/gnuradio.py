"""Blocks of GNU Radio 3.10: the proved modulator, receiver and measurer. grc/ has them for GNU Radio Companion.

A vector is a symbol: K complex numbers, 1705 in 2K and 6817 in 8K, item k being carrier k, 1.0 the amplitude of a cell of mean power. The
first vector is the first symbol of a super-frame. Each block runs the program beside the flow graph and hands on what is decided:

- modulator: a symbol comes as soon as the packets are there that it needs;
- receiver: a packet comes eleven outer words, and at most 2048 steps of the inner code, after the symbols that carry it. Within a
  symbol nothing is decided.

On their way data wait in pipes and in queues of up to 128 KB, which fill only if the next block is slower than the one before.
"""
from typing import Any

import numpy as np
import pmt
from gnuradio import gr

from dvbt.calls import Gatherer
from dvbt.files import CARRIERS, Version2, cells_in, complex_of, content_of
from dvbt.flow import Flow
from dvbt.settings import AnySettings, is_hierarchical, mode_of

PATIENCE = 0.005  # seconds that a block waits for its program


class Block(gr.basic_block):
    """What the blocks with an output share: bytes go to the program and come from it, `size_in` and `size_out` an item."""

    def begin(self, command: str, settings: AnySettings, size_in: int, size_out: int, has_header: bool) -> None:
        self.command, self.settings, self.size_in, self.size_out, self.has_header = command, settings, size_in, size_out, has_header
        self.flow: Any = None

    def start(self) -> bool:
        head = Version2.header(mode_of(self.settings))
        outputs = 2 if self.has_header and is_hierarchical(self.settings) else 1
        self.flow = Flow(self.command, self.settings, head if self.has_header else b"", 0 if self.has_header else len(head), outputs)
        return True

    def stop(self) -> bool:
        self.flow.close()
        return True

    def forecast(self, noutput_items: int, ninputs: int) -> Any:
        return [0] * ninputs  # what comes depends on what the program has decided

    def general_work(self, input_items: Any, output_items: Any) -> int:
        given = min(min(map(len, input_items)), self.flow.room() // self.size_in)
        if given:
            self.flow.put(self.bytes_of([it[:given] for it in input_items]))
            self.consume_each(given)
        data = self.flow.get(len(output_items[0]) * self.size_out, self.size_out)
        if data:
            self.items_of(data, output_items[0])
        elif not given:
            if self.flow.is_done:
                return -1
            self.flow.wait(PATIENCE)
        return len(data) // self.size_out


class modulator(Block):
    """Bytes of a transport stream in, vectors of K complex numbers out."""

    def __init__(self, settings: AnySettings):
        self.mode = mode_of(settings)
        gr.basic_block.__init__(self, "DVB-T modulator (proved)", [np.uint8], [(np.complex64, CARRIERS[self.mode])])
        self.begin("modulate", settings, 1, Version2.WIDTH * CARRIERS[self.mode], False)

    def bytes_of(self, items: Any) -> bytes:
        return items[0].tobytes()

    def items_of(self, data: bytes, out: Any) -> None:
        cells = complex_of(cells_in(data, self.mode))
        out[: len(cells)] = cells


class receiver(Block):
    """Vectors of K complex numbers in, and vectors of K weights (bytes, 0 to 15) if `weights`; bytes of a transport stream out (HP)."""

    def __init__(self, settings: AnySettings, weights: bool = False, command: str = "receive"):
        self.mode = mode_of(settings)
        count = CARRIERS[self.mode]
        gr.basic_block.__init__(self, "DVB-T receiver (proved)", [(np.complex64, count), (np.uint8, count)][: 1 + weights], [np.uint8])
        self.begin(command, settings, Version2.WIDTH * count, 1, True)

    def bytes_of(self, items: Any) -> bytes:
        return content_of(items[0], items[1] if len(items) > 1 else None, self.mode)

    def items_of(self, data: bytes, out: Any) -> None:
        out[: len(data)] = np.frombuffer(data, np.uint8)


class measure(gr.sync_block):
    """Vectors of K complex numbers in; a message at the port `figures` for each super-frame, a dictionary of the counts of `measure`."""

    def __init__(self, settings: AnySettings):
        self.mode, self.settings = mode_of(settings), settings
        gr.sync_block.__init__(self, "DVB-T measure (proved)", [(np.complex64, CARRIERS[self.mode])], None)
        self.message_port_register_out(pmt.intern("figures"))
        self.flow: Any = None

    def start(self) -> bool:
        self.flow = Flow("measure", self.settings, Version2.header(self.mode), outputs=0)
        self.gathered = Gatherer(2 if is_hierarchical(self.settings) else 1)
        return True

    def stop(self) -> bool:
        self.flow.close()
        return True

    def work(self, input_items: Any, output_items: Any) -> int:
        given = min(len(input_items[0]), max(1, self.flow.room() // (Version2.WIDTH * CARRIERS[self.mode])))
        while self.flow.room() == 0:
            self.flow.wait(PATIENCE)
        self.flow.put(content_of(input_items[0][:given], None, self.mode))
        self.hand_on()
        return given

    def hand_on(self) -> None:
        """Publishes the super-frames that were measured."""
        line = self.flow.line()
        while line is not None:
            found = self.gathered.take(line)
            if found:
                self.message_port_pub(pmt.intern("figures"), pmt.to_pmt(found))
            line = self.flow.line()
