"""Measures the costs among more and more records, for `run.py --sizes`: microseconds for a record."""
import json
import os
import pathlib
import statistics
import subprocess
import time

import peers
import simulate
from built import program
from parts import TOP, write_users
from servers import GET, MOST_REQUESTS, PAGE, SEARCH, Servers, push_words

FIGURES = TOP / "out" / "sizes.json"
SIZES = (1_000, 10_000, 100_000, 1_000_000)
# the most records that a journal keeps
MOST_RECORDS = 100_000
SEARCHES, PAGES, PAGE_SIZE = 2_000, 20, 200
# Seconds that the rounds of one size may take, but for the first
BUDGET = 60


class Sizes(Servers):
    """Costs by work, program and size."""

    def __init__(self, room, rounds):
        self.programs = {name: peers.built(name) for name in ("map", "push", "serve")}
        super().__init__(room, {"rust": self.programs["serve"]} if self.programs["serve"] else {})
        self.rounds, self.costs = rounds, {}

    def has(self, name):
        """scimlink, and the program in Rust, if there is one."""
        return ["scimlink", "rust"] if self.programs[name] else ["scimlink"]

    def note(self, size, names, measure):
        """Notes the medians of what is measured with each program in turn: times in seconds, by work."""
        begun, found = time.monotonic(), {}
        for number in range(self.rounds):
            if number and time.monotonic() - begun > BUDGET:
                break
            for name in names:
                for work, seconds in measure(name).items():
                    found.setdefault((work, name), []).append(seconds)
        for (work, name), times in found.items():
            cost = statistics.median(times) * 1e6
            self.costs.setdefault(work, {}).setdefault(name, {})[size] = cost
            print(f"{work}, {name}, {size:,}: {cost:.2f} µs", flush=True)

    def map(self, size):
        users = self.room / "users.csv"
        write_users(users, size)
        words = {"scimlink": [program(), "map", users], "rust": [self.programs["map"], users]}

        def measure(name):
            begun = time.perf_counter()
            subprocess.run(words[name], stdout=subprocess.DEVNULL, check=True)
            return {"map": (time.perf_counter() - begun) / size}

        self.note(size, self.has("map"), measure)

    def push(self, size):
        if size > MOST_RECORDS:
            return
        users, made = self.room / "users.csv", self.make_store(0)
        write_users(users, size)
        words = {"scimlink": push_words(users), "rust": [self.programs["push"], users, "JOURNAL", "TO"]}
        self.note(size, self.has("push"),
                  lambda name: {"push": self.pushed(words[name], size, self.fresh(made)) / size})

    def simulate(self, size):
        path = self.room / "schedule"
        with open(path, "w", encoding="utf-8") as file:
            file.writelines(line + "\n" for line in simulate.schedule(size))
        self.note(size, ["scimlink"], lambda _: {"simulate": simulate.seconds(path) / size})

    def store(self, size):
        """Opening a store, searches by name, and pages of a list: the first one and the later ones."""
        made = self.make_store(size)

        def measure(name):
            store, begun = self.fresh(made), time.perf_counter()
            server = "serve" if name == "scimlink" else name
            with self.serving(self.words(server, MOST_REQUESTS, store)) as (_, port):
                self.ask(port, GET)
                found = {"opening": (time.perf_counter() - begun) / size}
                found["search"] = self.load(port, 1, SEARCHES, SEARCH, 200, 7919, size) / SEARCHES
                found["first page"] = self.load(port, 1, 1, PAGE, 200) / size
                pages = min(PAGES, size // PAGE_SIZE)
                step = size // pages // PAGE_SIZE * PAGE_SIZE
                found["page"] = self.load(port, 1, pages, PAGE, 200, step, size) / pages / PAGE_SIZE
                return found

        self.note(size, self.has("serve"), measure)
        made.unlink()

    def measure(self):
        for size in SIZES:
            for work in (self.map, self.push, self.simulate, self.store):
                work(size)
        FIGURES.parent.mkdir(exist_ok=True)
        told = {"day": time.strftime("%Y-%m-%d"), "processors": os.cpu_count(), "costs": self.costs}
        FIGURES.write_text(json.dumps(told, indent=1), encoding="utf-8")


def read(path=FIGURES):
    """The figures of the last run."""
    return json.loads(pathlib.Path(path).read_text(encoding="utf-8"))
