#!/usr/bin/env python3
"""Measures who is served by `serve` while a flood of clients of one sort keeps coming.

    make build && python3 bench/floods.py [FLOOD..] [--all] [--seconds N] [--program PROGRAM]..

For each flood it starts `serve`. A client asks for a user again and again, each time 0.3 ms after the last answer: first
alone, then beside the flood, once each of the flood's clients has come. A line has

- the answers a second alone and beside the flood, and their ratio;
- the median time of an answer beside the flood, the slowest of 100 and the slowest of all, in milliseconds;
- how many requests weren't answered within 5 s (beside searches: within the time of six searches);
- by how many megabytes the memory of `serve` grew at most;
- how many connections a second the flood made.

Flood and client are programs in C (floods.c, serve.c), in processes of their own. Each flood lasts some seconds, and
stays on the loopback interface.

    newlines   1,000 clients that send 15,000 line ends, and then one every 200 ms
    drains     1,000 clients that ask, and then send blocks of 64 KB for 2 s; with --all also 200
    searches   300 clients at 127.0.0.2 that search 100,000 users again and again. Beside them one at 127.0.0.3 searches
    trickles   2,000 clients that send a byte of a head every 60 ms; half of them begin with most of a long head
    connects   200 clients that connect and close, 25,000 times a second at most
    evictions  4,096 clients that send 48 KB of a request, and leave after 90 ms
    crowds     6,000 clients that send the beginning of a request, and stay: more than there are places
    readers    200 clients that read 256 bytes of a list every 100 ms, and 100 that ask for one and leave after 100 ms.
               Beside them four read such a list 8 KB at a time, every 250 ms

With --program several times, it measures each program in turn, flood by flood. With --all each flood lasts twice as
long. It takes about 2 minutes for a program; --seconds sets how long each flood is measured.

The status is 1 if the program that is named last misses one of these aims beside a flood: a ratio of 0.5, 99 of 100
answers within 50 ms, each answer within a second, no request without an answer, and at most 48 MB more memory (16 MiB
for requests, 16 MiB for answers, and the places). Beside searches it has these aims instead: no request without an
answer, an answer takes at most 50 ms longer than a search alone, and a search at 127.0.0.3 at most 50 ms longer than
three searches. Beside readers each of the four also has to get its whole list.
"""
import argparse
import contextlib
import functools
import os
import pathlib
import resource
import socket
import subprocess
import sys
import tempfile
import threading
import time

from built import program
from servers import HERE, Servers
from slow import FIND, LIST, Server

# Seconds that an answer is waited for, and microseconds between an answer and the next request
PATIENCE, PAUSE = 5, 300
# The aims: the ratio of speeds; what 99 of 100 answers and all take at most, in milliseconds; and megabytes
LEAST_RATIO, MOST_OF_99, MOST_OF_ALL, MOST_MEMORY = 0.5, 50, 1_000, 48
# An honest client's own search is answered within the time of so many searches
SEARCHES_BEFORE = 3
# Seconds for which a flood goes on after the measurement, and for which a client asks alone
BEHIND, ALONE = 0.5, 2
# The number of addresses of a flood, unless it has one: a closed connection keeps its port for a minute
SPREAD = 16
USERS, SEARCHER = 100_000, "127.0.0.3"
SEARCH = b"GET /v2/Users?filter=userName%20co%20%22zz%22 HTTP/1.1\r\nHost: h\r\n\r\n"
# 90 % of a head of 16 KB
MOST_OF_A_HEAD = b"GET /v2/Users HTTP/1.1\r\nHost: h\r\nA: " + b"x" * 14_700
# A head and a body of the greatest lengths, but for the last byte
HEAD = b"POST /v2/Users HTTP/1.1\r\nHost: h\r\nContent-Type: application/json\r\nContent-Length: 32768\r\n"
UNFINISHED = HEAD + b"X: " + b"x" * (16_384 - len(HEAD) - 7) + b"\r\n\r\n" + b" " * 32_767


def trickles(count, pace):
    """Clients that each send a byte of a head at a pace. Half of them begin with most of a long head."""
    return [("trickle", count // 2, b"G", pace), ("trickle", count // 2, MOST_OF_A_HEAD, pace)]


# What comes in each flood: kinds of floods.c, how many clients, what each sends first, and a pace
FLOODS = {
    "newlines": [("trickle", 1_000, b"\n" * 15_000, 200)],
    "drains": [("drain", 1_000, FIND, 2_000)],
    "few drains": [("drain", 200, FIND, 2_000)],
    "searches": [("ask", 300, SEARCH, 0)],
    "trickles": trickles(2_000, 60),
    "connects": [("leave", 200, b"", 25_000)],
    "evictions": [("stay", 4_096, UNFINISHED, 90)],
    "crowds": [("stay", 6_000, FIND[:-2], 0)],
    "readers": [("sip", 200, LIST, 100), ("unread", 100, LIST, 100)],
}
RARE = {"few drains"}


def build(room):
    """Builds the programs in C in a folder, which it returns."""
    for name in ("serve", "floods"):
        subprocess.run(["cc", "-O2", "-pthread", "-o", room / name, HERE / f"{name}.c"], check=True)
    return room


def take_handles():
    """Raises the limit of open files and sockets, for this process and for each that it starts."""
    _, hard = resource.getrlimit(resource.RLIMIT_NOFILE)
    resource.setrlimit(resource.RLIMIT_NOFILE, (hard, hard))


class Flood:
    """Crowds of clients, each of which has come once when the context begins. They go on for some seconds. `came` is
    the number of connections that they made since."""

    def __init__(self, room, port, crowds, seconds, address="127.0.1.1", spread=SPREAD):
        self.runs, self.came = [], 0
        for number, (kind, clients, first, pace) in enumerate(crowds):
            text = room / f"first-{number}"
            text.write_bytes(first)
            words = [room / "floods", kind, port, address, spread, clients, seconds, text, pace]
            self.runs.append([str(word) for word in words])

    def __enter__(self):
        self.runs = [subprocess.Popen(words, stdout=subprocess.PIPE, text=True) for words in self.runs]
        for run in self.runs:
            run.stdout.readline()
        return self

    def __exit__(self, *_):
        for run in self.runs:
            told = run.communicate()[0]
            if run.returncode:
                sys.exit(f"a flood ended with status {run.returncode}")
            self.came += int(told.split()[0])


class SlowReaders(threading.Thread):
    """Four clients that read a list slowly. `whole` has how many got all of it."""

    def __init__(self, port, count=4):
        super().__init__(daemon=True)
        with socket.create_connection(("127.0.0.1", port)) as stream:
            stream.sendall(LIST)
            self.wanted = b"".join(iter(lambda: stream.recv(65536), b""))
        self.port, self.count, self.whole = port, count, 0

    def run(self):
        with contextlib.ExitStack() as stack:
            streams = {stack.enter_context(self.connected()): b"" for _ in range(self.count)}
            left = set(streams)
            while left:
                time.sleep(0.25)
                for stream in list(left):
                    with contextlib.suppress(OSError):
                        if more := stream.recv(8192):
                            streams[stream] += more
                            continue
                    left.remove(stream)
        self.whole = sum(text == self.wanted for text in streams.values())

    def connected(self):
        stream = socket.socket()
        stream.setsockopt(socket.SOL_SOCKET, socket.SO_RCVBUF, 1)
        stream.settimeout(30)
        stream.connect(("127.0.0.1", self.port))
        stream.sendall(LIST)
        return stream


class Bench:
    def __init__(self, room, seconds):
        self.room, self.seconds = build(room), seconds
        for name, text in (("find", FIND), ("search", SEARCH)):
            (room / name).write_bytes(text)

    @functools.cached_property
    def servers(self):
        return Servers(self.room)

    def asking(self, port, seconds, name="find", address="127.0.0.1", patience=PATIENCE):
        """A client that asks for so long."""
        words = [self.room / "serve", "wait", port, 1, seconds, 200, self.room / name, address, patience, PAUSE]
        return subprocess.Popen([str(word) for word in words], stdout=subprocess.PIPE, text=True)

    def answers(self, run):
        """What came of asking: how many answers, how many were lost, and three times in milliseconds."""
        told = run.communicate()[0].split()
        if run.returncode:
            sys.exit(f"the client ended with status {run.returncode}")
        return [int(it) for it in told[:2]] + [float(it) for it in told[2:]]

    def length_of_search(self, port):
        """The milliseconds that a search takes alone, the longest of three."""
        def search():
            begun = time.monotonic()
            self.servers.ask(port, SEARCH)
            return time.monotonic() - begun

        return 1e3 * max(search() for _ in range(3))

    def measure(self, name):
        """Prints a line of one flood: whether the aims are met."""
        is_search = name == "searches"
        store = self.servers.fresh(self.servers.make_store(USERS)) if is_search else None
        server = Server(store)
        try:
            return self.measured(name, server, is_search)
        finally:
            server.run.kill()
            server.run.wait()
            server.run.stdout.close()

    def measured(self, name, server, is_search):
        alone = self.answers(self.asking(server.port, ALONE))[0] / ALONE
        search = self.length_of_search(server.port) if is_search else 0
        patience = max(PATIENCE, int(2 * SEARCHES_BEFORE * search / 1e3))
        readers = SlowReaders(server.port) if name == "readers" else None
        memory, where = server.memory(), {"address": "127.0.0.2", "spread": 1} if is_search else {}
        with Flood(self.room, server.port, FLOODS[name], self.seconds + BEHIND, **where) as flood:
            if readers:
                readers.start()
            asking = [self.asking(server.port, self.seconds, patience=patience)]
            if is_search:
                asking.append(self.asking(server.port, self.seconds, "search", SEARCHER, patience))
            found = [self.answers(run) for run in asking]
        if server.run.poll() is not None:
            sys.exit(f"{name}: serve ended with status {server.run.returncode}")
        grown = Servers.memory_of(server.run) - memory * 1024**2 / 1e6
        count, lost, *times = found[0]
        beside = count / self.seconds
        print(f"{name:10} {alone:7.0f} {beside:7.0f} {beside / alone:6.2f} {' '.join(f'{it:8.1f}' for it in times)} "
              f"{lost:4} {grown:7.1f} {flood.came / (self.seconds + BEHIND):8.0f}", end="")
        unmet = self.unmet(beside / alone, lost, times, grown, search)
        if is_search:
            count, lost, *times = found[1]
            print(f"; a search takes {search:.0f} ms alone, at {SEARCHER} {times[0]:.0f} to {times[2]:.0f} ms "
                  f"({count} answered, {lost} not)", end="")
            if lost or times[2] > SEARCHES_BEFORE * search + MOST_OF_99:
                unmet.append(f"searches at {SEARCHER}")
        if readers:
            readers.join()
            print(f"; {readers.whole} of {readers.count} slow readers got all", end="")
            if readers.whole < readers.count:
                unmet.append("slow readers")
        print(f"   <- {', '.join(unmet)}" if unmet else "", flush=True)
        return not unmet

    @staticmethod
    def unmet(ratio, lost, times, grown, search):
        """The aims that aren't met."""
        _, most, longest = times
        limit = search + MOST_OF_99 if search else MOST_OF_ALL
        aims = {"ratio": search or ratio >= LEAST_RATIO, "99 of 100": search or most <= MOST_OF_99,
                "longest": longest <= limit, "unanswered": not lost, "memory": search or grown <= MOST_MEMORY}
        return [aim for aim, is_met in aims.items() if not is_met]


def main():
    words = argparse.ArgumentParser(description=__doc__, formatter_class=argparse.RawDescriptionHelpFormatter)
    words.add_argument("floods", nargs="*", metavar="FLOOD", help=", ".join(FLOODS))
    words.add_argument("--all", action="store_true", help="more floods, and each for twice as long")
    words.add_argument("--seconds", type=float, default=4, help="how long each is measured")
    words.add_argument("--program", action="append", type=pathlib.Path, help="may be repeated")
    given = words.parse_args()
    names = given.floods or [name for name in FLOODS if given.all or name not in RARE]
    programs = [str(it.resolve()) for it in given.program or [pathlib.Path(program())]]
    take_handles()
    print(f"{time.strftime('%Y-%m-%d')}, {os.cpu_count()} processors, load {os.getloadavg()[0]:.1f}\n"
          "flood        alone  beside  ratio   median     99th  slowest lost  memory  flood/s")
    with tempfile.TemporaryDirectory(prefix="floods-", dir="/dev/shm") as folder:
        bench, is_good = Bench(pathlib.Path(folder), given.seconds * (2 if given.all else 1)), True
        for name in names:
            for number, path in enumerate(programs):
                if len(programs) > 1:
                    print(f"{number + 1} ", end="")
                os.environ["PROGRAM"] = path
                is_met = bench.measure(name)
            is_good = is_good and is_met
    return 0 if is_good else 1


if __name__ == "__main__":
    sys.exit(main())
