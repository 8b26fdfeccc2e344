#!/usr/bin/env python3
"""Measures what slow clients cost the others of `serve`.

    make build && python3 bench/slow.py [--seconds N]

Eight clients ask for a user, first alone and then beside 200 silent clients, 20 that send a byte a second
and 5 that ask for a long list and don't read it. Whoever of these is ended comes again. Then 1,000 clients
connect at once. Status 1: the eight are answered less than 0.8 times as often, one of 100 answers takes
longer than 20 ms or any longer than a second, a slow client isn't ended by its time, 20 MB of memory don't
do, an idle server takes over 2 % of a processor, or one of the 1,000 isn't answered.
"""
import argparse
import contextlib
import os
import pathlib
import selectors
import socket
import subprocess
import sys
import tempfile
import threading
import time

from built import program

HERE = pathlib.Path(__file__).resolve().parent
SILENT, TRICKLING, UNREAD, HONEST, AT_ONCE = 200, 20, 5, 8, 1_000
# Seconds that a connection has, and by which its end may be late; and for which the eight ask at most
LIMIT, LATE, MOST_ASKING = 30, 2, 10
USERS = 200
CORE, SOURCE = "urn:ietf:params:scim:schemas:core:2.0:User", "urn:example:params:scim:schemas:extension:source:1.0"
FIND = b"GET /v2/Users/5c1a0000-0000-8000-8000-000000000001 HTTP/1.1\r\nHost: localhost:8080\r\n\r\n"
LIST = b"GET /v2/Users HTTP/1.1\r\nHost: localhost:8080\r\n\r\n"


def creation(number):
    name = f"user-{number:04}-{'x' * 80}"
    body = f'{{"schemas":["{CORE}","{SOURCE}"],"{SOURCE}":{{"revision":1}},"userName":"{name}"}}'
    head = f"POST /v2/Users HTTP/1.1\r\nHost: h\r\nContent-Type: application/scim+json\r\nContent-Length: {len(body)}"
    return f"{head}\r\n\r\n{body}".encode()


class Server:
    """A run of `serve` with some users, or with those of a store."""

    def __init__(self, store=None):
        words = [program(), "serve", "--listen", "127.0.0.1:0", "--requests", "1000000"]
        words += ["--store", store] if store else []
        self.run = subprocess.Popen(words, stdout=subprocess.PIPE, stderr=subprocess.DEVNULL, text=True)
        self.port = int(self.run.stdout.readline().rpartition(":")[2])
        for number in range(0 if store else USERS):
            with self.connect() as stream:
                stream.sendall(creation(number))
                if not stream.recv(4096).startswith(b"HTTP/1.1 201"):
                    sys.exit("a user wasn't created")

    def connect(self):
        return socket.create_connection(("127.0.0.1", self.port), timeout=60)

    def memory(self):
        """The memory that it has now, in megabytes."""
        lines = pathlib.Path(f"/proc/{self.run.pid}/status").read_text(encoding="utf-8").splitlines()
        return int(next(line for line in lines if line.startswith("VmRSS:")).split()[1]) / 1024

    def handles(self):
        """How many files and sockets it has open."""
        return len(os.listdir(f"/proc/{self.run.pid}/fd"))

    def processor(self):
        """The seconds of a processor that it took so far."""
        fields = pathlib.Path(f"/proc/{self.run.pid}/stat").read_text(encoding="utf-8").rpartition(")")[2].split()
        return (int(fields[11]) + int(fields[12])) / os.sysconf("SC_CLK_TCK")


class SlowClients:
    """Clients of three kinds. One that was ended comes again, but for those that don't read their answer: they
    can't see that. `lives` has the seconds that each had."""

    def __init__(self, server):
        self.server, self.lives, self.is_over, self.unread = server, [], False, []
        self.selector = selectors.DefaultSelector()
        for _ in range(UNREAD):
            self.unread.append(self.ask_for_a_list())
        for kind, count in (("silent", SILENT), ("trickling", TRICKLING)):
            for _ in range(count):
                self.open(kind)
        self.thread = threading.Thread(target=self.live)
        self.thread.start()

    def ask_for_a_list(self):
        """A connection that takes few bytes ahead, whose answer isn't read."""
        stream = socket.socket()
        stream.setsockopt(socket.SOL_SOCKET, socket.SO_RCVBUF, 1)
        stream.setsockopt(socket.IPPROTO_TCP, socket.TCP_MAXSEG, 88)
        stream.connect(("127.0.0.1", self.server.port))
        stream.sendall(LIST)
        return stream

    def open(self, kind):
        begun = time.monotonic()
        self.selector.register(self.server.connect(), selectors.EVENT_READ, [kind, begun, 0])

    def live(self):
        while not self.is_over:
            for key, _ in self.selector.select(0.2):
                kind, begun, _ = key.data
                self.lives.append((kind, time.monotonic() - begun))
                self.selector.unregister(key.fileobj)
                key.fileobj.close()
                self.open(kind)
            for key in list(self.selector.get_map().values()):
                kind, begun, sent = key.data
                if kind == "trickling" and time.monotonic() - begun > sent + 1:
                    key.data[2] += 1
                    with contextlib.suppress(OSError):
                        key.fileobj.send(creation(0)[sent:sent + 1])

    def stop(self):
        """Has all leave but those that don't read."""
        self.is_over = True
        self.thread.join()
        for key in list(self.selector.get_map().values()):
            self.selector.unregister(key.fileobj)
            key.fileobj.close()


class Bench:
    def __init__(self, room, seconds):
        self.room, self.seconds, self.is_good = room, seconds, True
        self.tool, self.request = room / "tool", room / "request"
        subprocess.run(["cc", "-O2", "-pthread", "-o", self.tool, HERE / "serve.c"], check=True)
        self.request.write_bytes(FIND)
        self.server = Server()

    def told(self, is_met, line):
        self.is_good = self.is_good and is_met
        print(f"{line}{'' if is_met else '   <- not met'}", flush=True)

    def honest(self, seconds):
        """Asks: answers a second, and the milliseconds that 99 of 100 and all took at most."""
        words = [self.tool, "wait", self.server.port, HONEST, seconds, 200, self.request, "127.0.0.1", LIMIT, 0]
        ran = subprocess.run([str(word) for word in words], check=True, stdout=subprocess.PIPE, text=True)
        count, lost, _, most, longest = ran.stdout.split()
        if int(lost):
            sys.exit(f"{lost} weren't answered")
        return int(count) / seconds, float(most), float(longest)

    def measure(self):
        self.honest(1)
        handles = self.server.handles()
        before, alone = self.server.memory(), self.honest(5)
        slow = SlowClients(self.server)
        time.sleep(2)
        # (the connections of one run of `serve` are limited)
        beside = self.honest(min(self.seconds, MOST_ASKING))
        time.sleep(max(0, self.seconds - MOST_ASKING))
        memory = self.server.memory() - before
        print(f"alone: {alone[0]:.0f} a second, 99 of 100 in {alone[1]:.2f} ms, all in {alone[2]:.0f} ms")
        print(f"beside {SILENT + TRICKLING + UNREAD} slow clients: {beside[0]:.0f} a second")
        self.told(beside[0] / alone[0] >= 0.8, f"of the speed without them: {beside[0] / alone[0]:.2f}")
        self.told(beside[1] <= 20, f"99 of 100 are answered in {beside[1]:.2f} ms")
        self.told(beside[2] <= 1000, f"all are answered in {beside[2]:.0f} ms")
        self.told(memory < 20, f"memory grows by {memory:.1f} MB")
        begun = self.server.processor()
        time.sleep(5)
        idle = (self.server.processor() - begun) / 5
        self.told(idle < 0.02, f"beside slow clients alone it takes {100 * idle:.1f} % of a processor")
        slow.stop()
        for kind in ("silent", "trickling"):
            lives = [life for it, life in slow.lives if it == kind]
            if self.seconds > LIMIT:
                wanted = lives and LIMIT - 1 < min(lives) and max(lives) < LIMIT + LATE
                told = f"{min(lives):.1f} to {max(lives):.1f} s" if lives else "none"
                self.told(bool(wanted), f"{kind} clients that were ended: {len(lives)}, after {told}")
        if self.seconds > LIMIT:
            time.sleep(3)
            left = self.server.handles() - handles
            self.told(left <= 0, f"clients that don't read: {UNREAD - max(left, 0)} of {UNREAD} were ended")

    def at_once(self):
        """Connects many clients at once, each of which asks as soon as it is connected, and wants an answer for each."""
        begun, answers, selector = time.monotonic(), {}, selectors.DefaultSelector()
        for number in range(AT_ONCE):
            stream = socket.socket()
            stream.setblocking(False)
            with contextlib.suppress(BlockingIOError):
                stream.connect(("127.0.0.1", self.server.port))
            selector.register(stream, selectors.EVENT_WRITE, number)
        while selector.get_map() and time.monotonic() - begun < 60:
            for key, events in selector.select(1):
                if events & selectors.EVENT_WRITE:
                    key.fileobj.send(FIND)
                    answers[key.data] = b""
                    selector.modify(key.fileobj, selectors.EVENT_READ, key.data)
                    continue
                with contextlib.suppress(OSError):
                    if more := key.fileobj.recv(65536):
                        answers[key.data] += more
                        continue
                selector.unregister(key.fileobj)
                key.fileobj.close()
        good = sum(answer.startswith(b"HTTP/1.1 200 OK") for answer in answers.values())
        self.told(good == AT_ONCE, f"of {AT_ONCE} at once, {good} are answered, in {time.monotonic() - begun:.1f} s")


def main():
    parser = argparse.ArgumentParser(description=__doc__, formatter_class=argparse.RawDescriptionHelpFormatter)
    parser.add_argument("--seconds", type=int, default=35)
    arguments = parser.parse_args()
    with tempfile.TemporaryDirectory() as folder:
        bench = Bench(pathlib.Path(folder), arguments.seconds)
        try:
            bench.measure()
            bench.at_once()
        finally:
            bench.server.run.kill()
    return not bench.is_good


if __name__ == "__main__":
    sys.exit(main())
