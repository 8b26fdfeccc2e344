#!/usr/bin/env python3
"""Measures scimlink beside the same work by hand in Rust (peers/) and beside the limit in C (serve.c), and
prints one table in Markdown.

    make build && python3 bench/run.py [--only NAME].. [--rounds N] [--folder FOLDER]
    make build && python3 bench/run.py --sizes && python3 bench/plot.py

Each round does the work with each program in turn, so that what else the machine does is in all of them. A
figure is the median of the rounds. Beside it is its ratio to scimlink's: the median of the rounds' ratios,
with the least and the greatest. Stores and journals are in FOLDER, else on /dev/shm, because on a disk its
noise hides the rest. peers.py says what the programs in Rust need; without it, their columns have dashes. A
line begins no round after five minutes, and says how many it had. Status 1: a program answers otherwise than
scimlink.

With --sizes it measures the costs of more and more records in place of the table, and writes them to
out/sizes.json, from which plot.py draws docs/performance.svg.
"""
import argparse
import functools
import os
import pathlib
import statistics
import subprocess
import sys
import tempfile
import time

import heads
import lists
import peers
import sizes
from built import program
from parts import medians, write_users
from servers import GET, MOST_REQUESTS, PAGE, POST, WORKS, Servers, push_words, sync_cost

COLUMNS = {"scimlink": "scimlink", "rust": "Rust", "hyper": "Rust with hyper", "limit": "limit in C"}
WHERE = {False: "in memory", True: "with a store"}
CLIENTS = (1, 8)
# Rows of `map`, records that `push` carries, requests of a round, and users of a large provider
ROWS, RECORDS, REQUESTS, USERS = 100_000, 2_000, 2_000, 100_000
# Seconds after which a line begins no other round
BUDGET = 300


def scaled(seconds):
    """A time in its unit."""
    for unit, most in (("µs", 1e-3), ("ms", 1)):
        if seconds < most:
            return f"{seconds / most * 1e3:.3g} {unit}"
    return f"{seconds:.3g} s"


def of(ratio):
    """A ratio with two digits that count."""
    return f"{ratio:.2f}" if ratio >= 0.1 else f"{ratio:.2g}"


def megabytes(size):
    return f"{size:.3g} MB"


def seconds_of(words):
    """How long a run takes whose output isn't kept."""
    begun = time.perf_counter()
    subprocess.run(words, stdout=subprocess.DEVNULL, check=True)
    return time.perf_counter() - begun


def body_of(answer):
    return answer.partition(b"\r\n\r\n")[2]


class Bench(Servers):
    """What is measured, line by line."""

    def __init__(self, room, rounds):
        self.programs = {name: peers.built(name) for name in ("map", "push", "serve", "serve-hyper")}
        servers = {"rust": self.programs["serve"], "hyper": self.programs["serve-hyper"]}
        super().__init__(room, {name: path for name, path in servers.items() if path})
        self.rounds, self.is_good = rounds, True

    def measure(self, line, works, shown=scaled, rounds=None):
        """Prints a line of the table. `works` has a function for each program, which gives a figure."""
        begun, found, rounds = time.monotonic(), [], rounds or self.rounds
        while len(found) < rounds and (not found or time.monotonic() - begun < BUDGET):
            found.append({name: work() for name, work in works.items()})
        cells = [line if len(found) == rounds else f"{line}, {len(found)} rounds"]
        for name in COLUMNS:
            middle = shown(statistics.median(it[name] for it in found)) if name in works else "–"
            if name in works and name != "scimlink":
                ratio, least, greatest = medians(found, name, "scimlink")
                middle += f", {of(ratio)}" + (f" ({of(least)} to {of(greatest)})" if len(found) > 1 else "")
            cells.append(middle)
        print("|", " | ".join(cells), "|", flush=True)

    def compare(self, line, texts):
        """Prints which program's text isn't that of scimlink."""
        for name, text in texts.items():
            if text != texts["scimlink"]:
                print(f"{line}: {COLUMNS[name]} has another text than scimlink", file=sys.stderr)
                self.is_good = False

    def over_servers(self, work):
        """A function for each server, over a function of its name."""
        names = {"scimlink": "serve", **{name: name for name in self.peers}}
        return {name: functools.partial(work, it) for name, it in names.items()}

    def measure_map(self):
        users = self.room / "map.csv"
        write_users(users, ROWS)
        words = {"scimlink": [program(), "map", users]}
        if self.programs["map"]:
            words["rust"] = [self.programs["map"], users]
        self.compare("map", {name: subprocess.check_output(it) for name, it in words.items()})
        works = {name: functools.partial(seconds_of, it) for name, it in words.items()}
        self.measure(f"`map` of {ROWS:,} rows", works)

    def measure_push(self):
        users, made = self.room / "push.csv", self.make_store(0)
        write_users(users, RECORDS)
        words = {"scimlink": push_words(users)}
        if self.programs["push"]:
            words["rust"] = [self.programs["push"], users, "JOURNAL", "TO"]
        if self.has_sqlite:
            words["limit"] = self.limit_of_push(RECORDS)

        def pushed(name):
            return self.pushed(words[name], RECORDS, self.fresh(made))

        works = {name: functools.partial(pushed, name) for name in words}
        self.measure(f"`push` of {RECORDS:,} new records to `serve --store`", works)

    def requests(self, has_store):
        """The lines of requests, in memory or with a store."""
        for work, (_, _, is_filled, _) in WORKS.items():
            made = self.make_store(REQUESTS if is_filled else 0) if has_store else None
            self.save_answer(work)
            answers = self.over_servers(lambda name, work=work: body_of(self.answer(name, work)))
            self.compare(work, {name: answer() for name, answer in answers.items()})
            for clients in CLIENTS:
                def cost(name, work=work, clients=clients, made=made):
                    return self.cost(name, work, clients, REQUESTS, made)

                works = self.over_servers(cost)
                if self.has_sqlite or not has_store:
                    works["limit"] = functools.partial(cost, "limit")
                told = "1 client" if clients == 1 else f"{clients} clients"
                self.measure(f"{work}, {WHERE[has_store]}, {told}", works)

    def opened(self, name):
        """A store is opened and asked for a user: the seconds, and the most memory until then."""
        store = self.fresh(self.make_store(USERS))
        begun = time.perf_counter()
        with self.serving(self.words(name, MOST_REQUESTS, store)) as (run, port):
            self.ask(port, GET)
            return time.perf_counter() - begun, self.memory_of(run)

    def measure_opening(self):
        works = self.over_servers(lambda name: self.opened(name)[0])
        self.measure(f"opening a store of {USERS:,} users, to the first answer", works)

    def memory(self, name):
        """The most memory of a server in memory that was given its users."""
        with self.serving(self.words(name, MOST_REQUESTS)) as (run, port):
            self.load(port, 8, USERS, POST, 201)
            return self.memory_of(run)

    def measure_memory(self):
        line = f"peak memory of {USERS:,} users"
        self.measure(f"{line}, in memory", self.over_servers(self.memory), megabytes, 1)
        works = self.over_servers(lambda name: self.opened(name)[1])
        self.measure(f"{line}, with a store", works, megabytes, 1)

    def checked(self, name):
        """The first page of a list, after all pages had the users that were asked for."""
        store = self.fresh(self.make_store(REQUESTS))
        with self.serving(self.words(name, MOST_REQUESTS, store)) as (_, port):
            lists.way(port, REQUESTS)
            return body_of(self.ask(port, PAGE))

    def listed(self, has_store, name):
        """The seconds for all pages of a list, by a server that wasn't asked for a list before."""
        store = self.fresh(self.make_store(USERS)) if has_store else None
        with self.serving(self.words(name, MOST_REQUESTS, store)) as (_, port):
            if not store:
                self.load(port, 8, USERS, POST, 201)
            return self.load(port, 1, USERS // lists.PAGE, PAGE, 200, lists.PAGE, USERS)

    def measure_lists(self):
        pages = self.over_servers(self.checked)
        self.compare("a page of a list", {name: page() for name, page in pages.items()})
        for has_store, where in WHERE.items():
            line = f"all {USERS // lists.PAGE} pages of a list of {USERS:,} users, {where}"
            self.measure(line, self.over_servers(functools.partial(self.listed, has_store)))

    def measure_heads(self):
        costs, _ = heads.costs()
        for size in (1_024, 16_200):
            works = {"scimlink": functools.partial(costs.get, size)}
            line = f"a byte of a request's head of {size:,} bytes"
            self.measure(line, works, lambda count: f"{count:.1f} instructions", 1)

    def works(self):
        """What is measured, by the names of --only."""
        memory, store = functools.partial(self.requests, False), functools.partial(self.requests, True)
        return {"map": self.measure_map, "push": self.measure_push, "memory": memory, "store": store,
                "opening": self.measure_opening, "lists": self.measure_lists, "peak": self.measure_memory,
                "heads": self.measure_heads}


def print_head(bench):
    """What stands above the lines."""
    machine = f"{os.cpu_count()} processors, load {os.getloadavg()[0]:.1f}"
    sync = f"a sync in {bench.room.parent} takes {scaled(sync_cost(bench.room))}"
    print(f"{time.strftime('%Y-%m-%d')}, {machine}, {sync}, {bench.rounds} rounds.\n")
    print("| Work |", " | ".join(COLUMNS.values()), f"|\n|{'---|' * (len(COLUMNS) + 1)}", flush=True)


def main():
    names = "map push memory store opening lists peak heads".split()
    words = argparse.ArgumentParser()
    words.add_argument("--only", action="append", choices=names, help="a part of the table; may be repeated")
    words.add_argument("--rounds", type=int, default=7)
    words.add_argument("--folder", default="/dev/shm")
    words.add_argument("--sizes", action="store_true")
    given = words.parse_args()
    with tempfile.TemporaryDirectory(prefix="run-", dir=given.folder) as folder:
        if given.sizes:
            sizes.Sizes(pathlib.Path(folder), min(given.rounds, 3)).measure()
            return 0
        bench = Bench(pathlib.Path(folder), given.rounds)
        print_head(bench)
        works = bench.works()
        for name in given.only or names:
            works[name]()
    return 0 if bench.is_good else 1


if __name__ == "__main__":
    sys.exit(main())
