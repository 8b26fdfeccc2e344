#!/usr/bin/env python3
"""Compares a second, unchanged snapshot with a plain push of the same users as a file with revisions.

    make build && python3 bench/snapshot.py [--records N] [--rounds N] [--folder FOLDER]

The journal has all users confirmed, so no push sends anything. Each round runs all of them in turn, over the same
journal, in the reverse of the last round's order. It prints the median time, processor time and peak memory of each,
and the median, least and greatest ratio of each to the plain push. A snapshot needs --most-leavers, which has its own
cost, so a plain push with that option is measured too. Files are in FOLDER, else on /dev/shm. The status is 1 if a push
doesn't print that all are confirmed, or if the snapshot takes more than 1.3 times the time or the memory of the plain
push.
"""
import argparse
import os
import pathlib
import sqlite3
import statistics
import subprocess
import sys
import tempfile
import time

from built import program
from parts import medians

RECORDS, MOST = 100_000, 1.3
# An address on which nothing listens
NOWHERE = "127.0.0.1:1"
COSTS = {"time": "s", "processor time": "s", "memory": "MB"}
COLUMNS = "login,{}number,given,family,mail,status\n"
THRESHOLD = ["--most-leavers", "0"]
# What is measured: its name in a line, its file, and its options
WORKS = {
    "plain": ("plain push", "revisions", []),
    "threshold": ("plain push with --most-leavers", "revisions", THRESHOLD),
    "snapshot": ("unchanged snapshot", "export", ["--snapshot", *THRESHOLD]),
}


def write_file(path, count, revision):
    """A file of so many active users, with a revision or as a snapshot."""
    with open(path, "w", encoding="utf-8") as file:
        file.write(COLUMNS.format("revision," if revision else ""))
        for n in range(count):
            file.write(f"user{n:06},{revision}{n},Given{n},Family{n},user{n}@example.com,active\n")


def confirm_all(journal):
    """Has the journal count each wanted revision as confirmed."""
    with sqlite3.connect(journal) as database:
        database.execute("UPDATE user_entry_3 SET confirmed = revision, confirmed_epoch = epoch, id = name_key")
    database.close()


class Bench:
    def __init__(self, room, records):
        self.room, self.records, self.journal = room, records, room / "journal"
        for name, revision in (("revisions", "1,"), ("export", "")):
            write_file(room / name, records, revision)

    def words(self, name):
        _, file, options = WORKS[name]
        return [program(), "push", *options, "--users", self.room / file, "--journal", self.journal, "--to", NOWHERE,
                "--quiet"]

    def run(self, name):
        """A whole push: its status, what it prints, and its costs. Memory is in MB of 10^6 bytes."""
        with open(self.room / "out", "w+b") as out:
            begun = time.perf_counter()
            child = subprocess.Popen([str(word) for word in self.words(name)], stdout=out, stderr=subprocess.STDOUT)
            _, status, usage = os.wait4(child.pid, 0)
            child.returncode = os.waitstatus_to_exitcode(status)
            seconds = time.perf_counter() - begun
            out.seek(0)
            memory, processor = usage.ru_maxrss * 1024 / 1e6, usage.ru_utime + usage.ru_stime
            costs = {"time": seconds, "processor time": processor, "memory": memory}
            return child.returncode, out.read().decode(), costs

    def prepare(self):
        """A journal that a first snapshot made, and in which all is confirmed."""
        self.run("snapshot")
        confirm_all(self.journal)

    def rounds(self, count):
        for number in range(count):
            found = {}
            for name in list(WORKS)[:: 1 if number % 2 else -1]:
                status, said, found[name] = self.run(name)
                if (status, said) != (0, f"{self.records} confirmed, 0 unconfirmed, 0 rejected\n"):
                    sys.exit(f"{WORKS[name][0]}: status {status}, {said[:200]}")
            yield found


def show(what, unit, found):
    """Prints the medians of the rounds, and the ratios to a plain push: the snapshot's is the result."""
    rounds = [{name: it[name][what] for name in WORKS} for it in found]
    ratios = {name: medians(rounds, name, "plain") for name in WORKS}
    for name, (spelled, _, _) in WORKS.items():
        middle, (ratio, least, greatest) = statistics.median(it[name] for it in rounds), ratios[name]
        beside = "" if name == "plain" else f", ratio {ratio:.2f} ({least:.2f} to {greatest:.2f})"
        print(f"{what}, {spelled}: {middle:.3g} {unit}{beside}", flush=True)
    return ratios["snapshot"][0]


def main():
    words = argparse.ArgumentParser(description=__doc__.split("\n", maxsplit=1)[0])
    words.add_argument("--records", type=int, default=RECORDS)
    words.add_argument("--rounds", type=int, default=7)
    words.add_argument("--folder", default="/dev/shm")
    given = words.parse_args()
    with tempfile.TemporaryDirectory(prefix="snapshot-", dir=given.folder) as folder:
        bench = Bench(pathlib.Path(folder), given.records)
        bench.prepare()
        found = list(bench.rounds(given.rounds))
    print(f"{given.records:,} users, {os.cpu_count()} processors, {given.rounds} rounds")
    ratios = {what: show(what, unit, found) for what, unit in COSTS.items()}
    return 0 if max(ratios["time"], ratios["memory"]) <= MOST else 1


if __name__ == "__main__":
    sys.exit(main())
