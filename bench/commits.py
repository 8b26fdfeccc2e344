#!/usr/bin/env python3
"""Measures what commits cost `push` and `serve` on a slow disk, and how much one commit for many could bring.

    make build && python3 bench/commits.py [--sync MILLISECONDS] [--folder FOLDER]

Files are in FOLDER, else on /dev/shm, and each sync of them takes 2 ms more (late.c). `push` carries 2,000 new
records, or as many as take about 7 s, to a provider in memory, whose answers come at once or after 50 ms. `serve
--store` is asked for 2,000 creations, by 1 client and by 8 at once. Each line has the time of a record or a request
in ms, without the delay and with it; and the time and the gain if one commit were made for as many records as there
are streams, or requests as there are clients. No program can gain more, as they don't all come at once. It judges
nothing.
"""
import argparse
import pathlib
import sys
import tempfile

from servers import POST
from streams import Streams

REQUESTS = 2_000


class Commits(Streams):
    def __init__(self, room, sync):
        super().__init__(room, None)
        self.sync = sync

    def print_line(self, what, fast, slow, together):
        """Prints the milliseconds without and with the delay, and what they were if so many had one commit."""
        least = fast + (slow - fast) / together
        print(f"| {what} | {fast:.2f} | {slow:.2f} | {least:.2f} | {slow / least:.1f} |", flush=True)

    def push(self, streams, delay):
        fast, slow = (1e3 / self.rate("scimlink", streams, delay, False, SYNC_MS=sync) for sync in (0, self.sync))
        self.print_line(f"`push --streams {streams}`, an answer takes {delay} ms", fast, slow, streams)

    def created(self, clients, sync):
        """The milliseconds that a creation takes."""
        words = self.words("serve", REQUESTS, self.fresh(self.make_store(0)))
        run, port = self.start(words, self.environment({"SYNC_MS": sync}))
        taken = self.load(port, clients, REQUESTS, POST, 201)
        if run.wait(timeout=60):
            sys.exit(f"serve ended with status {run.returncode}")
        return 1e3 * taken / REQUESTS

    def serve(self, clients):
        fast, slow = (self.created(clients, sync) for sync in (0, self.sync))
        self.print_line(f"`serve`, clients: {clients}", fast, slow, clients)

    def measure(self):
        print(f"| | ms | ms if a sync takes {self.sync} ms more | with one commit for all | gain |")
        print(f"|{'---|' * 5}", flush=True)
        for delay in (0, 50):
            for streams in (1, 16):
                self.push(streams, delay)
        for clients in (1, 8):
            self.serve(clients)


def main():
    words = argparse.ArgumentParser(description=__doc__, formatter_class=argparse.RawDescriptionHelpFormatter)
    words.add_argument("--sync", type=float, default=2)
    words.add_argument("--folder", default="/dev/shm")
    given = words.parse_args()
    with tempfile.TemporaryDirectory(prefix="commits-", dir=given.folder) as folder:
        Commits(pathlib.Path(folder), given.sync).measure()


if __name__ == "__main__":
    main()
