#!/usr/bin/env python3
"""Measures `check` against as many searches by a client in C, and with 16 streams against one stream.

    make build && python3 bench/check.py [--records N] [--rounds N] [--folder FOLDER]

`push` carries N users to `serve`, which keeps them in memory. In each round, `check` of all of them and N searches by
name run in turn. It prints the median of the rounds' ratios, with the least and the greatest. A search by the client is
a connection, a request, and an answer that it reads to its end and doesn't parse.

Then a proxy (`hold` of serve.c) holds each answer until 50 ms after its connection came, and `check` of 160 users runs
with one stream and with 16. The journals are in FOLDER, else on /dev/shm. It takes about a minute.

Status 1: a user differs; or `check` takes over 1.1 times the searches; or over a tenth of the time with 16 streams.
"""
import argparse
import pathlib
import subprocess
import sys
import tempfile
import time

from built import program
from parts import HEADER, medians
from servers import MOST_REQUESTS, SEARCH, Servers

RECORDS, ROUNDS, MOST = 10_000, 5, 1.1
# milliseconds until an answer comes, the records of such a run, its streams, and the most that it takes of one stream
DELAY, FEW, STREAMS, MOST_OF_ONE = 50, 160, 16, 0.1


class Check(Servers):
    is_good = True

    def judge(self, is_good, line):
        self.is_good = self.is_good and is_good
        print(f"{line}{'' if is_good else '   <- not met'}", flush=True)

    def push(self, port, count):
        """The journal of a push of so many users, whose names are those that the client searches for."""
        users, journal = self.room / f"users-{count}.csv", self.room / f"journal-{count}"
        rows = (f"{n:08},1,{n},Given{n},Family{n},{n}@example.com,active\n" for n in range(count))
        users.write_text(HEADER + "".join(rows), encoding="utf-8")
        words = [program(), "push", "--quiet", "--users", users, "--journal", journal, "--to", f"127.0.0.1:{port}"]
        subprocess.run([str(word) for word in words], check=True, stdout=subprocess.DEVNULL)
        return journal

    @staticmethod
    def check(port, journal, count, streams=1):
        """The seconds of a check in which no user differs."""
        words = [program(), "check", "--journal", journal, "--to", f"127.0.0.1:{port}", "--streams", streams]
        begun = time.perf_counter()
        told = subprocess.run([str(word) for word in words], check=True, stdout=subprocess.PIPE, text=True).stdout
        taken = time.perf_counter() - begun
        if told != f"checked {count}, differing 0, unchecked 0\n":
            sys.exit(f"check found otherwise: {told[-200:]}")
        return taken

    def against_searches(self, port, count, rounds):
        journal, found = self.push(port, count), []
        for _ in range(rounds):
            searches = self.load(port, 1, count, SEARCH, 200)
            found.append({"searches": searches, "check": self.check(port, journal, count)})
        ratio, least, greatest = medians(found, "check", "searches")
        line = f"check of {count:,} users: {ratio:.2f} ({least:.2f} to {greatest:.2f}) times as long as the searches"
        self.judge(ratio <= MOST, line)

    def against_one_stream(self, port):
        journal = self.push(port, FEW)
        with self.serving([self.tool, "hold", port, DELAY]) as (_, held):
            one, many = (self.check(held, journal, FEW, streams) for streams in (1, STREAMS))
        line = f"{DELAY} ms an answer: with {STREAMS} streams {many / one:.3f} of the time with one ({one:.1f} s)"
        self.judge(many <= MOST_OF_ONE * one, line)


def main():
    words = argparse.ArgumentParser(description=__doc__, formatter_class=argparse.RawDescriptionHelpFormatter)
    words.add_argument("--records", type=int, default=RECORDS)
    words.add_argument("--rounds", type=int, default=ROUNDS)
    words.add_argument("--folder", default="/dev/shm")
    given = words.parse_args()
    with tempfile.TemporaryDirectory(prefix="check-", dir=given.folder) as folder:
        bench = Check(pathlib.Path(folder))
        with bench.serving(bench.words("serve", MOST_REQUESTS)) as (_, port):
            bench.against_searches(port, given.records, given.rounds)
        with bench.serving(bench.words("serve", MOST_REQUESTS)) as (_, port):
            bench.against_one_stream(port)
    return 0 if bench.is_good else 1


if __name__ == "__main__":
    sys.exit(main())
