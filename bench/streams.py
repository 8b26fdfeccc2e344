#!/usr/bin/env python3
"""Measures `push --streams N` where answers come late, and prints tables in Markdown.

    make build && python3 bench/streams.py [--before PROGRAM] [--folder FOLDER]

A proxy (`hold` of serve.c) holds each answer of `serve --store` until D milliseconds after its connection came; at
0 ms there is no proxy. Python's http.client with 16 threads and the program in Rust (peers/push) with 16 do the same
in the same run. Each figure is of one run of at most 2,000 new records, or of as many as take about 7 s; at 0 ms, the
median of three. In the last row the handshake of each connection takes as long as its answer, as over a network
(late.c). Stores and journals are in FOLDER, else on /dev/shm.

Then it measures the most memory of a push of 100,000 records, with 1 and with 64 streams; and with --before, whether
a push with 1 stream is as quick as that of an earlier version, in seven rounds. It takes about 5 minutes.

Status 1: with 16 streams and 50 ms scimlink is slower than both others; or a push with 1 stream is over 10 % slower
than before; or with 64 streams it needs over 10 MB more.
"""
import argparse
import concurrent.futures
import contextlib
import functools
import os
import pathlib
import statistics
import subprocess
import sys
import tempfile
import time

import peers
from built import program
from parts import medians, write_users
from servers import HERE, MOST_REQUESTS, Servers, push_words, remove

STREAMS, WORKERS = (1, 4, 16, 64), 16
# milliseconds until an answer comes
DELAYS = (0, 5, 50, 200)
# the delay and the streams at which the others are compared, and the delay of the last row
COMPARED = 50, 16
# records of a run at most, and the seconds that it is to take
RECORDS, SECONDS = 2_000, 7
# records of the runs whose memory is measured, and how much more many streams may need, in MB
MANY, MOST_MORE = 100_000, 10
# rounds beside the version before, and how much slower this one may be
ROUNDS, MOST_SLOWER = 7, 1.1


class Streams(Servers):
    def __init__(self, room, before):
        super().__init__(room)
        self.before, self.is_good = before, True
        self.rust = peers.built("push")
        self.late = room / "late.so"
        subprocess.run(["cc", "-O2", "-shared", "-fPIC", "-o", self.late, HERE / "late.c"], check=True)

    def judge(self, is_good, line):
        self.is_good = self.is_good and is_good
        print(f"{line}{'' if is_good else '   <- not met'}", flush=True)

    # ---- runs

    def users(self, count):
        path = self.room / f"users-{count}.csv"
        if not path.exists():
            write_users(path, count)
        return path

    def words_of(self, name, users, streams):
        """How a program carries these users."""
        if name == "Python":
            return [sys.executable, HERE / "python_push.py", users, "JOURNAL", "TO", streams]
        if name == "Rust":
            return [self.rust, users, "JOURNAL", "TO", streams]
        words = push_words(users) if name == "scimlink" else [self.before, *push_words(users)[1:]]
        # (a version before has no streams)
        return words + (["--streams", streams] if streams > 1 else [])

    @contextlib.contextmanager
    def held(self, port, delay):
        """The port at which a provider's answers come so late."""
        if delay:
            with self.serving([self.tool, "hold", port, delay]) as (_, held):
                yield held
        else:
            yield port

    def records(self, name, streams, delay, handshake):
        """How many records a run carries. (scimlink opens one connection after another)"""
        exchange = delay + handshake
        turn = exchange if handshake and name == "scimlink" else exchange / streams
        return min(RECORDS, int(SECONDS * 1e3 / (2 * turn))) if turn else RECORDS

    def rate(self, name, streams, delay, has_store=True, **late):
        """How many records a second a program carries to a new provider. `late` are words of late.c."""
        records = self.records(name, streams, delay, late.get("CONNECT_MS", 0))
        users, store = self.users(records), self.fresh(self.make_store(0)) if has_store else None
        remove(self.room / "journal")
        run, port = self.start(self.words("serve", 2 * records, store))
        with self.held(port, delay) as port:
            given = {"JOURNAL": self.room / "journal", "TO": f"127.0.0.1:{port}"}
            words = [str(given.get(word, word)) for word in self.words_of(name, users, streams)]
            begun = time.perf_counter()
            told = subprocess.run(words, env=self.environment(late), check=True, stdout=subprocess.PIPE).stdout
            taken = time.perf_counter() - begun
        if run.wait(timeout=60) or len(told.splitlines()) != records:
            sys.exit(f"{name} carried otherwise")
        return records / taken

    def environment(self, late):
        """That of a run whose calls are late."""
        words = {name: str(milliseconds) for name, milliseconds in late.items() if milliseconds}
        return os.environ | words | ({"LD_PRELOAD": str(self.late)} if words else {})

    def memory(self, streams):
        """A run of many records to a provider in memory: the most memory that it had, in MB."""
        with self.serving(self.words("serve", MOST_REQUESTS)) as (_, port):
            given = {"JOURNAL": self.room / f"journal-{streams}", "TO": f"127.0.0.1:{port}"}
            words = [str(given.get(word, word)) for word in self.words_of("scimlink", self.users(MANY), streams)]
            most = 0
            with subprocess.Popen(words, stdout=subprocess.DEVNULL) as run:
                while run.poll() is None:
                    # it may end just now
                    with contextlib.suppress(StopIteration, FileNotFoundError, ProcessLookupError):
                        most = max(most, self.memory_of(run))
                    time.sleep(0.01)
            if run.returncode:
                sys.exit(f"a push with {streams} streams ended with status {run.returncode}")
        return most

    # ---- what is printed

    def columns(self):
        others = ["Python", *(["Rust"] if self.rust else [])]
        return [("scimlink", streams) for streams in STREAMS] + [(name, WORKERS) for name in others]

    def print_row(self, line, rates):
        """A row, with a dash where nothing was measured."""
        cells = [f"{rates[column]:,.0f}" if column in rates else "–" for column in self.columns()]
        print("|", " | ".join([line, *cells]), "|", flush=True)

    def measure_rates(self):
        machine = f"{os.cpu_count()} processors, load {os.getloadavg()[0]:.1f}"
        print(f"{time.strftime('%Y-%m-%d')}, {machine}. Records a second:\n")
        titles = [f"{name}, {count} {'threads' if name != 'scimlink' else 'streams' if count > 1 else 'stream'}"
                  for name, count in self.columns()]
        print("| An answer takes |", " | ".join(titles), f"|\n|{'---|' * (len(titles) + 1)}", flush=True)
        rates = {delay: self.row(delay) for delay in DELAYS}
        delay, streams = COMPARED
        columns = [column for column in self.columns() if column[1] in (1, streams)]
        late = {column: self.rate(*column, delay, CONNECT_MS=delay) for column in columns}
        self.print_row(f"{delay} ms, and the handshake {delay} ms", late)
        ours = rates[delay]["scimlink", streams]
        others = {name: rate for (name, _), rate in rates[delay].items() if name != "scimlink"}
        told = ", ".join(f"{rate:.0f} by {name}" for name, rate in others.items())
        print()
        self.judge(ours >= min(others.values()), f"{streams} streams, {delay} ms: {ours:.0f} records a second, {told}")

    def row(self, delay):
        """Measures and prints a row: the rates."""
        times = 1 if delay else 3
        rates = {it: statistics.median(self.rate(*it, delay) for _ in range(times)) for it in self.columns()}
        self.print_row(f"{delay} ms", rates)
        return rates

    def measure_before(self):
        works = {name: functools.partial(self.rate, name, 1, 0) for name in ("scimlink", "before")}
        found = [{name: work() for name, work in works.items()} for _ in range(ROUNDS)]
        ratio, least, greatest = medians(found, "before", "scimlink")
        line = f"1 stream, 0 ms: {ratio:.2f} ({least:.2f} to {greatest:.2f}) times as long as before"
        self.judge(ratio <= MOST_SLOWER, line)

    def measure_memory(self):
        self.users(MANY)
        # both at once, since other work doesn't change what they need
        with concurrent.futures.ThreadPoolExecutor(2) as pool:
            few, many = pool.map(self.memory, (STREAMS[0], STREAMS[-1]))
        line = f"{few:.1f} MB with 1 stream, {many:.1f} MB with {STREAMS[-1]}"
        self.judge(many - few <= MOST_MORE, f"most memory of a push of {MANY:,} records: {line}")


def main():
    words = argparse.ArgumentParser(description=__doc__, formatter_class=argparse.RawDescriptionHelpFormatter)
    words.add_argument("--before", type=pathlib.Path, help="a program of an earlier version")
    words.add_argument("--folder", default="/dev/shm")
    given = words.parse_args()
    with tempfile.TemporaryDirectory(prefix="streams-", dir=given.folder) as folder:
        bench = Streams(pathlib.Path(folder), given.before)
        bench.measure_rates()
        if given.before:
            bench.measure_before()
        bench.measure_memory()
    return 0 if bench.is_good else 1


if __name__ == "__main__":
    sys.exit(main())
