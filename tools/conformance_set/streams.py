"""Pseudo-random sequences, the transport streams made of them, and the disturbance of cells (docs/build/CONFORMANCE.md)."""
import array
import sys

LAGS = {"prbs15": (14, 15), "prbs23": (18, 23), "prbs31": (28, 31)}  # bit n is bit n - a xor bit n - b
NULL_HEADER = bytes([0x47, 0x1F, 0xFF, 0x10])  # a null packet, payload alone (ISO/IEC 13818-1, 2.4.3.2)
PAYLOAD = 184  # bytes of a packet after its header


def sequence(name, count):
    """The first `count` bytes of a sequence, the first bit highest. It begins with as many ones as its longer lag."""
    short, long = LAGS[name]
    wanted = 8 * count
    bits, known = (1 << long) - 1, long
    while known < wanted:
        # the recurrence holds for both lags times a power of two as well, so whole blocks follow at once
        scale = 1
        while 2 * scale * long <= known:
            scale *= 2
        block = short * scale
        mask = (1 << block) - 1
        bits = bits << block | (bits & mask) ^ (bits >> (long - short) * scale & mask)
        known += block
    return (bits >> known - wanted).to_bytes(count, "big")


def packets(name, count):
    """A transport stream of `count` null packets whose payloads are the sequence, one after another."""
    payloads = sequence(name, PAYLOAD * count)
    return b"".join(NULL_HEADER + payloads[at : at + PAYLOAD] for at in range(0, len(payloads), PAYLOAD))


class Numbers:
    """Numbers from 0 to 65535: the bits of prbs31, 16 at a time."""

    def __init__(self, count):
        self.taken = 0
        self.all = array.array("H", sequence("prbs31", 2 * count))
        if sys.byteorder == "little":
            self.all.byteswap()

    def take(self, count):
        """The next ones."""
        self.taken += count
        return self.all[self.taken - count : self.taken]
