#!/usr/bin/env python3
"""Measures a list that is read page by page.

    make build && python3 bench/lists.py [--users N] [--folder FOLDER] [WHERE..]

The places are `memory` and `store`; without one, both. A `serve` with N users (100,000) is asked for all
pages of 200, over TCP, a connection for each page, twice. The first list looks through all rows; the later
ones read their pages alone. It prints the seconds of both ways, of the first page, and the median, the least
and the greatest of the later ones; and how long a page takes that has no resource. The store stands in
FOLDER. Status 1: a later page took over a tenth of the first one, or a page isn't the one that was asked for.
"""
import argparse
import json
import os
import pathlib
import socket
import statistics
import sys
import tempfile
import time

from serve import Bench
from servers import request

PAGE = 200


def asked(port, query):
    """The list that is answered, and the seconds that it took."""
    begun = time.perf_counter()
    with socket.create_connection(("127.0.0.1", int(port))) as peer:
        peer.sendall(request("GET", f"/v2/Users?{query}"))
        answer = b"".join(iter(lambda: peer.recv(65536), b""))
    taken = time.perf_counter() - begun
    return json.loads(answer.partition(b"\r\n\r\n")[2]), taken


def way(port, users):
    """The seconds of each page."""
    times = []
    for start in range(1, users + 1, PAGE):
        page, taken = asked(port, f"startIndex={start}&count={PAGE}")
        numbers = [int(it["id"][-12:], 16) for it in page["Resources"]]
        if page["totalResults"] != users or numbers != list(range(start, min(start + PAGE, users + 1))):
            sys.exit(f"the page from {start} on isn't the one that was asked for")
        times.append(taken)
    return times


def spread(times):
    ordered = sorted(times)
    return f"{statistics.median(ordered) * 1e3:.2f}ms ({ordered[0] * 1e3:.2f}..{ordered[-1] * 1e3:.2f})"


def measure(bench, users, has_store):
    """Prints the times of one place. Answers whether the later pages were fast."""
    run, port, opened = bench.filled(users, has_store)
    try:
        first, again = way(port, users), way(port, users)
        empty = [asked(port, "count=0")[1] for _ in range(20)]
        later = first[1:] + again[1:]
        print(f"{'serve --store' if has_store else 'serve':>13}, {users:,} users, {len(first)} pages: {sum(first):.2f}s, "
              f"again {sum(again):.2f}s; first page {first[0] * 1e3:.1f}ms, later {spread(later)}, count=0 {spread(empty)}, "
              f"{bench.memory_of(run):.0f} MB at most, listened after {opened:.1f}s", flush=True)
        return statistics.median(later) * 10 < first[0]
    finally:
        run.terminate()
        run.wait()


def main():
    words = argparse.ArgumentParser()
    words.add_argument("--users", type=int, default=100_000)
    words.add_argument("--folder", default="/dev/shm")
    words.add_argument("where", nargs="*", default=["memory", "store"])
    given = words.parse_args()
    with tempfile.TemporaryDirectory(prefix="lists-", dir=given.folder) as folder:
        bench = Bench(pathlib.Path(folder), 1, 0)
        print(f"{time.strftime('%Y-%m-%d')}, {os.cpu_count()} processors, load {os.getloadavg()[0]:.1f}", flush=True)
        good = [measure(bench, given.users, where == "store") for where in given.where]
    return 0 if all(good) else 1


if __name__ == "__main__":
    sys.exit(main())
