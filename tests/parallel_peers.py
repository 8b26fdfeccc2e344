"""Providers by script for a `push` that has several exchanges under way: each connection has a thread of its own."""
import contextlib
import json
import re
import select
import socket
import threading
import urllib.parse

from peers import LATE, NO_HITS, TAKEN, answer, as_far_as_it_is_read, hits, read_request
from support import wait_until

# Exchanges that a push may have for a record
MOST_EXCHANGES = 3
# Milliseconds until the end of a connection has come, at the latest: the next one may come before it
SOON = 200


class Exchange:
    """A connection with its request: its method, and the kind and name of the record that it is about."""

    def __init__(self, stream):
        self.stream, self.record = stream, None

    def read(self):
        lines, self.body = read_request(self.stream)
        self.method, target, _ = lines[0].split(" ")
        self.record = ("group" if "/Groups" in target else "user"), self.name_in(target)

    def name_in(self, target):
        if self.method == "GET":
            return urllib.parse.unquote(re.search("%22(.*)%22", target)[1])
        content = json.loads(self.body)
        return content.get("userName") or content["displayName"]

    @property
    def name(self):
        return self.record[1]

    def is_over(self, patience=0):
        """Whether push has closed the connection, or does so within so many milliseconds."""
        ends = select.poll()
        ends.register(self.stream, select.POLLRDHUP)
        return bool(ends.poll(patience))

    def __str__(self):
        return f"{self.method} of {' '.join(self.record)}" if self.record else "a connection without a request"


class Directory:
    """What a provider holds by record, and its answer to each exchange. It creates no record twice."""

    def __init__(self, **users):
        self.held = {("user", name): shown for name, shown in users.items()}

    def __call__(self, exchange):
        held = self.held.get(exchange.record)
        if exchange.method == "GET":
            return hits(held) if held else NO_HITS
        if exchange.method == "POST" and held:
            return TAKEN
        meta = {"version": '"1"', "created": "2026-11-23T12:00:00Z"}
        shown = self.held[exchange.record] = json.loads(exchange.body) | {"id": exchange.name, "meta": meta}
        return answer(201 if exchange.method == "POST" else 200, shown)


class ParallelPeer:
    """A provider that answers each exchange by what `script` makes of it: bytes, or a step as peers.py has them.

    `exchanges` are in the order of their connections. What no push with so many streams may do is in `wrong`, and is
    an error at the end of the context.
    """

    def __init__(self, script, streams):
        self.script, self.streams = script, streams
        self.exchanges, self.threads, self.wrong = [], [], []
        # the most connections that were open at once
        self.most = 0
        self.lock = threading.Lock()
        self.listener = socket.create_server(("127.0.0.1", 0), backlog=128)
        self.address = f"127.0.0.1:{self.listener.getsockname()[1]}"

    def __enter__(self):
        self.acceptor = threading.Thread(target=self.take_connections, daemon=True)
        self.acceptor.start()
        return self

    def __exit__(self, *_):
        self.stop_listening()
        for thread in self.acceptor, *self.threads:
            thread.join(LATE)
        self.listener.close()
        for exchange in self.exchanges:
            exchange.stream.close()
        if self.wrong:
            raise AssertionError("; ".join(self.wrong))

    def stop_listening(self):
        """From here on nobody can connect."""
        with contextlib.suppress(OSError):
            self.listener.shutdown(socket.SHUT_RDWR)

    def take_connections(self):
        # until nobody listens
        with contextlib.suppress(OSError):
            while True:
                stream, _ = self.listener.accept()
                stream.settimeout(LATE)
                with self.lock:
                    exchange = Exchange(stream)
                    self.exchanges.append(exchange)
                    self.count_open()
                self.threads.append(threading.Thread(target=self.converse, args=[exchange], daemon=True))
                self.threads[-1].start()

    def count_open(self):
        """Counts the connections that push has open. (One that it closed before it opened the last one is seen to be
        closed, and so is one that it closed since.)"""
        still = [exchange for exchange in self.exchanges if not exchange.is_over()]
        if len(still) > self.streams:
            still = [exchange for exchange in still if not exchange.is_over(SOON)]
        count = len(still)
        self.most = max(self.most, count)
        if count > self.streams:
            self.wrong.append(f"{count} connections at once")

    def converse(self, exchange):
        try:
            exchange.read()
            with self.lock:
                self.judge(exchange)
            said = self.script(exchange)
            step = as_far_as_it_is_read(said) if isinstance(said, bytes) else said
            step(exchange.stream)
        except Exception as error:
            self.wrong.append(f"{exchange}: {error!r}")
        # the connection stays open on this side, so that its end is push's
        with contextlib.suppress(OSError):
            exchange.stream.shutdown(socket.SHUT_WR)

    def judge(self, exchange):
        """Notes what is wrong with an exchange whose request was just read."""
        others = [other for other in self.exchanges if other.record and other is not exchange]
        same = [other for other in others if other.record == exchange.record]
        if not all(other.is_over(SOON) for other in same):
            self.wrong.append(f"{exchange} beside another exchange of that record")
        if len(same) >= MOST_EXCHANGES:
            self.wrong.append(f"{exchange} is exchange {len(same) + 1}")
        # groups begin when all users are done
        if exchange.record[0] == "user":
            is_early = any(other.record[0] == "group" for other in others)
        else:
            is_early = not all(other.is_over(SOON) for other in others if other.record[0] == "user")
        if is_early:
            self.wrong.append(f"{exchange} beside users and groups")

    def wait_for(self, push):
        """Returns once a push does nothing but wait, and all its requests were read."""
        wait_until(lambda: push.state() == "S" and not self.is_pending(), "the wait of the push")
        wait_until(lambda: all(exchange.record for exchange in self.exchanges), "its requests")

    def is_pending(self):
        """Whether somebody has connected who wasn't accepted yet."""
        waiting = select.poll()
        waiting.register(self.listener, select.POLLIN)
        return bool(waiting.poll(0))

    def asked(self, name):
        """The methods of the exchanges about a record, in their order."""
        return [exchange.method for exchange in self.exchanges if exchange.record and exchange.name == name]
