"""The page of `--page PORT`: served at 127.0.0.1 by the standard library alone, and followed by server-sent events."""
import http.server
import json
import os
import queue
import threading
import time

from door import explain
from monitor.cells_view import View
from monitor.sample import Sample

EACH = {"cells": 1.0, "state": 0.25}  # seconds between two of a kind
SYMBOLS = {"2k": 16, "8k": 4}  # symbols of a sample of corrected cells
WAITING = 1000  # events that a page may be behind
HOSTS = ("127.0.0.1", "localhost")
TYPES = {"/": "text/html; charset=utf-8", "/state.json": "application/json"}


class Page:
    """The page of a monitor: what it has so far, and those who follow it."""

    def __init__(self, port, monitor):
        self.monitor, self.view, self.clients, self.next = monitor, View(monitor.source.mode), [], 0.0
        self.cells, self.events, self.frames, self.is_over = {}, [], None, False
        size = monitor.source.size
        self.raw_sample, self.sample = Sample(size, 4, each=EACH["cells"]), Sample(size, SYMBOLS[monitor.source.mode], each=EACH["cells"])
        self.samples = queue.Queue(4)
        page = self

        class Handler(http.server.BaseHTTPRequestHandler):
            protocol_version = "HTTP/1.1"

            def do_GET(self):
                page.answer(self)

            def log_message(self, *_):
                pass

        self.server = http.server.ThreadingHTTPServer((HOSTS[0], port), Handler)
        self.server.daemon_threads = True
        for work in (self.server.serve_forever, self.look):
            threading.Thread(target=work, daemon=True).start()

    # What comes, from threads of the monitor

    def raw(self, piece, first, chain):
        """Sees the cells as they came."""
        self.gather("raw", self.raw_sample, piece, (first - chain.begin) * self.raw_sample.size, chain)

    def is_due(self):
        """Whether it wants to see corrected cells now."""
        return self.sample.is_due()

    def corrected(self, piece, at, chain):
        """Sees the corrected cells, from the header on."""
        if at == 0 and len(piece) > 8:
            piece, at = piece[8:], 8
        if at >= 8:
            self.gather("corrected", self.sample, piece, at - 8, chain)

    def gather(self, kind, sample, piece, at, chain):
        found = sample.take(piece, at, chain)
        if found:
            try:
                self.samples.put_nowait((kind, *found, {"mode": chain.mode, **chain.announced}))
            except queue.Full:
                pass

    def look(self):
        """Looks at samples as they come."""
        while True:
            kind, symbols, first, signal = self.samples.get()
            found = self.view.corrected(symbols, first, signal) if kind == "corrected" else self.view.channel(symbols, first)
            self.cells[kind] = found
            self.send(kind, found)

    def frame(self, frame, over):
        """Takes a super-frame, and the second that is over with it."""
        if over:
            self.send("second", over)
        if frame:
            self.frames = frame.described()
        if time.monotonic() >= self.next or frame is None:
            self.next = time.monotonic() + EACH["state"]
            self.send("state", self.state())

    def event(self, event):
        self.events = [*self.events[-99:], event]
        self.send("event", event)
        self.send("state", self.state())

    def stay(self):
        """After the end of the cells the page stays."""
        self.is_over = True
        self.frame(None, None)
        explain.say(f"the page stays at http://{HOSTS[0]}:{self.server.server_port}/ until Ctrl-C")
        while self.monitor.take_signal() is None:
            pass

    def state(self):
        """Lock, the signal, and the figures now."""
        it = self.monitor
        return {
            "name": it.name, "at": it.at, "speed": it.speed, "signal": it.signal, "since": it.since, "found": it.found, "lost": it.lost,
            "frame": self.frames, "bad_a_minute": it.seconds.bad_a_minute, "last_bad": it.seconds.last_bad, "is_over": self.is_over,
            "alarms": [[name, stream] for name, stream in list(it.alarms.raised)], "alarms_so_far": it.alarms.count,
        }

    # Those who follow

    def send(self, kind, found):
        text = f"event: {kind}\ndata: {json.dumps(found)}\n\n".encode()
        for client in list(self.clients):
            try:
                client.put_nowait(text)
            except queue.Full:
                self.clients.remove(client)  # it comes again by itself

    def whole(self):
        """All that a page needs that has just come."""
        return {"seconds": self.monitor.seconds.kept(), "events": self.events, "cells": self.cells, "state": self.state()}

    def answer(self, handler):
        """Answers a request."""
        if handler.headers.get("Host", "").rpartition(":")[0] not in HOSTS:
            handler.send_error(403)
        elif handler.path == "/events":
            self.follow(handler)
        elif handler.path in TYPES:
            with open(os.path.join(os.path.dirname(__file__), "page.html"), "rb") as file:
                body = file.read() if handler.path == "/" else json.dumps(self.whole()).encode()
            handler.send_response(200)
            handler.send_header("Content-Type", TYPES[handler.path])
            handler.send_header("Content-Length", str(len(body)))
            handler.send_header("Cache-Control", "no-store")
            handler.end_headers()
            handler.wfile.write(body)
        else:
            handler.send_error(404)

    def follow(self, handler):
        """Sends what comes until the page is gone."""
        mine = queue.Queue(WAITING)
        self.clients.append(mine)
        handler.send_response(200)
        for name, value in (("Content-Type", "text/event-stream"), ("Cache-Control", "no-store"), ("Connection", "close")):
            handler.send_header(name, value)
        handler.end_headers()
        handler.close_connection = True
        try:
            handler.wfile.write(f"event: whole\ndata: {json.dumps(self.whole())}\n\n".encode())
            while mine in self.clients:
                try:
                    handler.wfile.write(mine.get(timeout=10))
                except queue.Empty:
                    handler.wfile.write(b": still here\n\n")
        except OSError:
            pass
        finally:
            if mine in self.clients:
                self.clients.remove(mine)
