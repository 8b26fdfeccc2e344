"""Providers by script: what they answer to `push`, exchange by exchange, and how."""
import concurrent.futures
import contextlib
import json
import socket
import struct
import time

from support import PATIENCE, SOURCE, TIME_LIMIT, USER, ProgramTest, read_all, text

LIST = "urn:ietf:params:scim:api:messages:2.0:ListResponse"
# Seconds by which the end of an exchange may be noticed late
LATE = 15


# ---- what a provider may say


def head(status, **fields):
    """The head of a response, whose phrase means nothing."""
    lines = [f"{name.replace('_', '-')}: {value}" for name, value in fields.items()]
    return "\r\n".join([f"HTTP/1.1 {status} Some Phrase", *lines, "", ""]).encode()


def answer(status, body=b"", **fields):
    """A response with the length of its body, which is bytes, or what JSON is made of."""
    body = body if isinstance(body, bytes) else json.dumps(body).encode()
    return head(status, **({"Content-Length": len(body)} | fields)) + body


def user(name, revision, version='"v1"', number="7"):
    """A user as a provider shows it: without a revision or a version, if it is None."""
    shown = {"schemas": [USER], "id": number, "userName": name}
    if version is not None:
        shown["meta"] = {"version": version, "created": "2026-11-23T12:00:00Z"}
    return shown | ({SOURCE: {"revision": revision}} if revision else {})


def hits(*users, total=None):
    """The answer to a search that found these users."""
    total = len(users) if total is None else total
    return answer(200, {"schemas": [LIST], "totalResults": total, "Resources": users})


NO_HITS = hits()
TAKEN = answer(409)

# The first lines of requests for the user bob
FIND_BOB = "GET /v2/Users?filter=userName+eq+%22bob%22 HTTP/1.1"
CREATE = "POST /v2/Users HTTP/1.1"


# ---- how it may say that: steps, which are given a connection whose request was read


def late(seconds, said):
    def step(stream):
        time.sleep(seconds)
        stream.sendall(said)

    return step


def stays_after(said):
    """An answer after which the connection stays open, for the other side to close."""

    def step(stream):
        stream.sendall(said)
        say_nothing(stream, LATE)

    return step


def say_nothing(stream, seconds=TIME_LIMIT + LATE):
    """Waits until the other side closes the connection, for some seconds at most."""
    stream.settimeout(seconds)
    if read_all(stream):
        raise AssertionError("the other side said more")


def reset(stream):
    """Has the end of a connection be a reset."""
    stream.setsockopt(socket.SOL_SOCKET, socket.SO_LINGER, struct.pack("ii", 1, 0))


def reset_after(said):
    """A part of an answer, after which the connection is reset."""

    def step(stream):
        stream.sendall(said)
        reset(stream)

    return step


def as_far_as_it_is_read(said):
    """An answer of which the other side may not read all."""

    def step(stream):
        with contextlib.suppress(ConnectionError):
            stream.sendall(said)

    return step


def in_pieces(size, said):
    """An answer that is sent some bytes at a time. The other side may end the connection before it came whole."""

    def step(stream):
        stream.setsockopt(socket.IPPROTO_TCP, socket.TCP_NODELAY, 1)
        with contextlib.suppress(ConnectionError):
            for place in range(0, len(said), size):
                stream.sendall(said[place:place + size])

    return step


def take_no_request(stream):
    """A reset, when only the first byte of a request was taken. This step alone is given a connection unread."""
    stream.recv(1)
    reset(stream)


def narrow_listener():
    """A listener whose connections take few bytes ahead, so that a long request isn't sent at once."""
    listener = socket.socket()
    listener.setsockopt(socket.SOL_SOCKET, socket.SO_RCVBUF, 1)
    listener.setsockopt(socket.IPPROTO_TCP, socket.TCP_MAXSEG, 88)
    listener.bind(("127.0.0.1", 0))
    listener.listen()
    return listener


class Peer:
    """A provider that has a step for each connection: bytes that it answers, or what it does.

    At the end of its context all its steps were taken, and `requests` has their requests. `answered` is how many
    of them have ended.
    """

    def __init__(self, steps, host="127.0.0.1", port=0):
        self.steps, self.requests, self.answered = steps, [], 0
        self.listener = narrow_listener() if take_no_request in steps else socket.create_server((host, port))
        self.listener.settimeout(PATIENCE)
        self.port = self.listener.getsockname()[1]
        self.address = f"{host}:{self.port}"
        self.pool = concurrent.futures.ThreadPoolExecutor(1)

    def __enter__(self):
        self.conversation = self.pool.submit(self.converse)
        return self

    def __exit__(self, kind, *_):
        try:
            if kind is None:
                self.conversation.result(LATE)
        finally:
            with contextlib.suppress(OSError):
                self.listener.shutdown(socket.SHUT_RDWR)
            self.pool.shutdown()

    def converse(self):
        with self.listener:
            for step in self.steps[:-1]:
                self.take(step, self.listener.accept()[0])
            last, _ = self.listener.accept()
        # whoever comes later finds nobody
        self.take(self.steps[-1], last)

    def take(self, step, stream):
        with stream:
            self.requests.append(None if step is take_no_request else read_request(stream))
            stream.sendall(step) if isinstance(step, bytes) else step(stream)
        self.answered += 1


def read_request(stream):
    """A whole request: the lines of its head, and its body."""
    received = b""
    while b"\r\n\r\n" not in received:
        received += received_from(stream)
    lines, _, body = received.partition(b"\r\n\r\n")
    lines = lines.decode().split("\r\n")
    length = next((int(line.split(": ")[1]) for line in lines if line.startswith("Content-Length")), 0)
    while len(body) < length:
        body += received_from(stream)
    return lines, body


def received_from(stream):
    received = stream.recv(65536)
    if not received:
        raise AssertionError("a request ended early")
    return received


def asked(requests):
    """The first lines of requests."""
    return [lines[0] for lines, _ in requests]


# ---- assertions


class PeerTest(ProgramTest):
    def meets(self, steps, *lines, status=0, errors=(), said=None, site=None, options=()):
        """A push prints these lines when its exchanges have these answers: the requests that it sent. `said` is what it
        says on standard error about the faults of records, if that is to be asserted."""
        with Peer(steps) as peer:
            run = (site or self.site).push(peer.address, *options)
            self.assert_prints(run, *lines, status=status, errors=errors)
        if said is not None:
            self.assertEqual(run.errors, text(*said))
        return peer.requests
