#!/usr/bin/env python3
"""Measures `serve` and `push` against Python's own modules and against the limit: a loop in C that
accepts, reads, writes a fixed answer and closes, and with a store commits a row by SQLite first.

    make build && python3 bench/serve.py [--rounds N] [--folder FOLDER] [--records N] [WORK..]

The works are `memory`, `store`, `search`, `push`; without one, all of them. In each round the three
do the same in turn, so that what else the machine does is in all of them, and what is printed is the
median of the rounds' ratios, with the least and the greatest. Clients are threads of a program in C,
one or eight, a connection for each request. Stores and journals stand in FOLDER: how long a disk takes
to sync decides what they cost, so it is told. Status 1: `serve` is slower than http.server somewhere.
"""
import argparse
import os
import pathlib
import statistics
import sys
import tempfile
import time

from parts import medians, write_users
from servers import HERE, MOST_REQUESTS, POST, SEARCH, WORKS, Servers, push_words, sync_cost

SERVERS = ("serve", "http.server", "limit")
COUNTS = {"memory": {"serve": 4_000, "http.server": 800, "limit": 4_000},
          "store": {"serve": 400, "http.server": 400, "limit": 400}}
CLIENTS = (1, 8)
SMALL, LARGE, SEARCHES = 1_000, 100_000, 4_000


def told(ratio):
    return f"{ratio[0]:6.2f} ({ratio[1]:.2f}..{ratio[2]:.2f})"


class Bench(Servers):
    """What is measured."""

    def __init__(self, room, rounds, records):
        super().__init__(room)
        self.rounds, self.records, self.good = rounds, records, True

    def measure(self, work, clients, where):
        """A line of the table: one work, against http.server and the limit."""
        self.save_answer(work)
        counts = COUNTS[where]
        made = None
        if where == "store":
            made = self.make_store(counts["serve"] if WORKS[work][2] else 0)
        names = [name for name in SERVERS if name != "limit" or not made or self.has_sqlite]
        found = [{name: self.cost(name, work, clients, counts[name], made) for name in names} for _ in range(self.rounds)]
        middle = {name: statistics.median(it[name] for it in found) * 1e6 for name in names}
        python = medians(found, "http.server", "serve")
        limit = told(medians(found, "limit", "serve")) if "limit" in names else "no sqlite3.h"
        self.good = self.good and python[0] > 1
        print(f"{work + (' --store' if made else ''):>22} {clients:>7} {middle['serve']:>9.1f}us {middle['http.server']:>9.1f}us "
              f"{middle.get('limit', 0):>9.1f}us {told(python):>24} {limit:>22}", flush=True)

    def requests(self, where):
        """The lines of the works in memory, or of those with a store."""
        print(f"{'':>22} {'clients':>7} {'serve':>11} {'http.server':>11} {'limit':>11} {'times http.server':>24} {'of the limit':>22}")
        for work in WORKS:
            if where == "memory" or WORKS[work][3]:
                for clients in CLIENTS:
                    self.measure(work, clients, where)

    def filled(self, users, has_store):
        """A server of so many users: its run, its port, and the seconds that it took until it listened."""
        made = self.make_store(users) if has_store else None
        begun = time.perf_counter()
        run, port = self.start(self.words("serve", MOST_REQUESTS, made))
        taken = time.perf_counter() - begun
        if not made:
            self.load(port, 8, users, POST, 201)
        return run, port, taken

    def search(self):
        """Searches by name among few and many users, and the memory of the latter."""
        for has_store in (False, True):
            where = "serve --store" if has_store else "serve"
            servers = {users: self.filled(users, has_store) for users in (SMALL, LARGE)}
            for clients in CLIENTS:
                found = [{users: self.load(port, clients, SEARCHES, SEARCH, 200, 7919, users) / SEARCHES
                          for users, (_, port, _) in servers.items()} for _ in range(self.rounds)]
                middle = {users: statistics.median(it[users] for it in found) * 1e6 for users in servers}
                print(f"search by name, {where}, {clients} clients: {middle[SMALL]:.1f}us among {SMALL:,} users, "
                      f"{middle[LARGE]:.1f}us among {LARGE:,}, ratio {told(medians(found, LARGE, SMALL))}", flush=True)
            run, _, opened = servers[LARGE]
            print(f"{where} with {LARGE:,} users: {self.memory_of(run):.0f} MB at most"
                  + (f", opened in {opened:.1f}s" if has_store else ""), flush=True)
            for run, _, _ in servers.values():
                run.kill()
                run.wait()

    def push(self):
        """The line of `push`."""
        users = self.room / "users.csv"
        write_users(users, self.records)
        runs = {"push": push_words(users),
                "Python": [sys.executable, HERE / "python_push.py", users, "JOURNAL", "TO"]}
        if self.has_sqlite:
            runs["limit"] = self.limit_of_push(self.records)
        found = [{name: self.pushed(words, self.records) for name, words in runs.items()}
                 for _ in range(min(self.rounds, 3))]
        middle = {name: statistics.median(it[name] for it in found) for name in runs}
        print(f"push of {self.records:,} records, journal in {self.room.parent}: {middle['push']:.2f}s, Python {middle['Python']:.2f}s, "
              f"times Python {told(medians(found, 'Python', 'push'))}", flush=True)
        if "limit" in runs:
            print(f"the same by the limit: {middle['limit']:.2f}s, times Python {told(medians(found, 'Python', 'limit'))}, "
                  f"push of the limit {told(medians(found, 'limit', 'push'))}", flush=True)


def main():
    words = argparse.ArgumentParser()
    words.add_argument("--rounds", type=int, default=7)
    words.add_argument("--records", type=int, default=10_000)
    words.add_argument("--folder")
    words.add_argument("works", nargs="*", default=["memory", "store", "search", "push"])
    given = words.parse_args()
    with tempfile.TemporaryDirectory(prefix="serve-", dir=given.folder) as folder:
        bench = Bench(pathlib.Path(folder), given.rounds, given.records)
        print(f"{time.strftime('%Y-%m-%d')}, {os.cpu_count()} processors, load {os.getloadavg()[0]:.1f}, "
              f"a sync in {bench.room.parent} takes {sync_cost(bench.room) * 1e6:.0f}us, {given.rounds} rounds", flush=True)
        for work in given.works:
            {"memory": lambda: bench.requests("memory"), "store": lambda: bench.requests("store"),
             "search": bench.search, "push": bench.push}[work]()
    return 0 if bench.good else 1


if __name__ == "__main__":
    sys.exit(main())
