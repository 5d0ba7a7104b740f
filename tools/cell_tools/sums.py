"""Sums over data cells and pilots, frame by frame, several frames at once.

numpy works on whole rows here: all symbols of a frame with the same scattered pilots. A value of 16 bits is looked up as it
stands in the file, high byte first, so no byte is turned.
"""
import collections
import concurrent.futures
import math
import os
import threading

import numpy as np

from cell_tools.standard import CONTINUAL_PILOT, DATA, SCATTERED_PILOT

THREADS = min(4, len(os.sched_getaffinity(0)))
VALUES = np.arange(65536, dtype="u2").view(">i2").astype(float)  # by the two bytes of the file as one number of the machine


class Tables:
    """For each value of an axis: the power of the nearest level, the power of the distance to it, whether it is no level."""

    def __init__(self, points):
        nearest = points.nearest(VALUES)
        self.ideal = (nearest.astype(float) ** 2).astype("f4")
        self.error = ((VALUES - nearest) ** 2).astype("f4")
        self.is_off = VALUES != nearest


class FrameSums:
    """The sums over a frame. Powers have two columns: ideal cells and errors."""

    def __init__(self, file, frame):
        self.first, self.symbols = frame.first, frame.symbols
        self.points = file.points(frame.first)
        self.of_symbols = np.zeros((frame.symbols, 2))
        self.of_carriers = np.zeros((file.carriers.count, 2))
        self.data, self.beyond, self.weightless, self.off, self.furthest = 0, 0, 0, 0, 0.0
        self.pilots = [(0, 0, 0, 0)] * 2


class Summing:
    """Adds up frames. The ideal cell is that of the other file if there is one, else the nearest point."""

    def __init__(self, file):
        self.file = file
        kinds = [file.carriers.kinds(l) for l in range(4)]
        self.columns = [np.flatnonzero(it == DATA) for it in kinds]
        self.pilots = [[np.flatnonzero(it == kind) for kind in (CONTINUAL_PILOT, SCATTERED_PILOT)] for it in kinds]
        self.tables, self.rooms = {}, threading.local()

    def room(self, name, shape, kind):
        """An array of this thread, used again for each frame: a new one costs more than the work in it."""
        kept = vars(self.rooms)
        found = kept.get(name)
        if found is None or found.shape != shape:
            found = kept[name] = np.empty(shape, kind)
        return found

    def tables_of(self, points):
        if points not in self.tables:
            self.tables[points] = Tables(points)
        return self.tables[points]

    def frame(self, frame, sent):
        """The sums over a frame."""
        found = FrameSums(self.file, frame)
        is_weightless = frame.is_weightless
        has_weightless = is_weightless.any()
        for l in range(min(4, frame.symbols)):
            words = self.copied("words", frame.words[l::4])
            self.data(found, l, words, self.copied("sent", sent.words[l : frame.symbols : 4]) if sent else None)
            if has_weightless:
                found.weightless += int(np.count_nonzero(is_weightless[l::4, self.columns[l]]))
            found.pilots = [added(a, self.turned(words, at)) for a, at in zip(found.pilots, self.pilots[l])]
        return found

    def copied(self, name, words):
        """The rows, one after another."""
        room = self.room(name, words.shape, "u4")
        room[:] = words
        return room

    def data(self, found, l, words, sent):
        """Adds the data cells of the symbols l, l + 4 .. of a frame."""
        columns = self.columns[l]
        shape = len(words), len(columns)
        parts = np.take(words, columns, axis=1, out=self.room("parts", shape, "u4"), mode="clip").view("u2")
        if sent is None:
            ideal, error = self.decided(found.points, parts)
        else:
            sent = np.take(sent, columns, axis=1, out=self.room("sent parts", shape, "u4"), mode="clip").view("u2")
            ideal, error = self.known(found, parts, sent)
        for place, powers in enumerate((ideal, error)):
            found.of_symbols[l::4, place] = powers.sum(axis=1)
            found.of_carriers[columns, place] += powers.sum(axis=0).reshape(-1, 2).sum(axis=1)
        limit = np.float32(found.points.tolerance**2)
        is_beyond = np.greater(error, limit, out=self.room("beyond", error.shape, bool))
        found.beyond += int(np.count_nonzero(is_beyond.view("u2")))  # a cell is beyond if one of its parts is
        found.furthest = max(found.furthest, math.sqrt(error.max()))
        found.data += words.shape[0] * len(columns)

    def decided(self, points, parts):
        """Powers of the nearest levels and of the distances to them."""
        tables, index = self.tables_of(points), self.room("index", parts.shape, np.intp)
        index[:] = parts
        ideal = np.take(tables.ideal, index, out=self.room("ideal", parts.shape, "f4"), mode="clip")
        return ideal, np.take(tables.error, index, out=self.room("error", parts.shape, "f4"), mode="clip")

    def known(self, found, parts, sent):
        """Powers of the parts that were sent and of the distances to them."""
        ideal, error = self.room("ideal", parts.shape, "f4"), self.room("error", parts.shape, "f4")
        ideal[:], error[:] = sent.view(">i2"), parts.view(">i2")
        np.subtract(error, ideal, out=error)
        is_off = np.take(self.tables_of(found.points).is_off, sent, mode="wrap")
        found.off += int(np.count_nonzero(is_off.view("u2")))
        return np.square(ideal, out=ideal), np.square(error, out=error)

    def turned(self, words, columns):
        """Of pilots, each times its sign: their count, the sums of both parts, and the sum of their powers."""
        parts = np.take(words, columns, axis=1).view(">i2")
        parts = parts.byteswap(True).view(parts.dtype.newbyteorder()).astype(float)  # sums of whole numbers, exact
        re, im = self.file.carriers.signs[columns] @ parts.sum(axis=0).reshape(-1, 2)
        return len(words) * len(columns), int(re), int(im), int(np.vdot(parts, parts))


def added(a, b):
    """The sums of two rows."""
    return tuple(x + y for x, y in zip(a, b))


def side_by_side(one, other):
    """The frames of two files in pairs, a frame of one whose partner is missing with None."""
    ours, theirs = one.frames(), other.frames()
    while True:
        pair = next(ours, None), next(theirs, None)
        if pair == (None, None):
            return
        yield pair


def in_turn(work, pieces):
    """`work` of each piece, in their order, several at once. Few pieces are read ahead, so a file of any length needs little memory."""
    with concurrent.futures.ThreadPoolExecutor(THREADS) as threads:
        waiting = collections.deque()
        for piece in pieces:
            waiting.append(threads.submit(work, *piece))
            if len(waiting) > THREADS + 1:
                yield waiting.popleft().result()
        while waiting:
            yield waiting.popleft().result()


