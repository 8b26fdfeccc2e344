#!/usr/bin/env python3
"""Measures what one event costs `simulate`, in instructions.

    make build && python3 bench/simulate.py
    make build && python3 bench/simulate.py --settle

It runs schedules of 1,000, 10,000 and 100,000 events over 100 users under valgrind, which counts the
instructions of each run, so that other work on the machine isn't in the figures. The events are
mixed: of eight, two offer a row, two send, three deliver a message of the last 200 and one restarts
a side or cuts a message. The same run without valgrind gives the events a second. It ends with
status 1 where an event among 100,000 costs over twice as much as one among 1,000.

With --settle it settles instead: 10,000 random runs of 1,000 events, of which it says how many settled,
in how many exchanges at most, and how many events a second; then 1,000, 10,000 and 100,000 new users,
whose exchanges it counts in instructions, by what a run that settles takes more. It ends with status 1
where a run doesn't settle in twelve exchanges, or an exchange among 100,000 users costs over twice as
much as one among 1,000.
"""
import concurrent.futures
import os
import random
import re
import subprocess
import sys
import tempfile
import time

import parts
from built import program

PROGRAM = program()
SIZES = (1_000, 10_000, 100_000)
USERS = 100
RUNS = 10_000  # of so many events each, which settle
EVENTS = 1_000


def schedule(count):
    """A schedule of so many events. About three of eight events send a message or make one."""
    dice = random.Random(1)
    revisions = [0] * USERS
    for number in range(count):
        user = dice.randrange(USERS)
        kind = dice.randrange(8)
        message = max(1, number // 3 - dice.randrange(200))
        if kind < 2:
            revisions[user] += 1
            status = "left" if revisions[user] % 3 == 0 else "active"
            yield f"user user{user},{revisions[user]},{number},Ann,Lee,ann@example.com,{status}"
        elif kind < 4:
            yield f"send user user{user}"
        elif kind < 7:
            yield f"deliver {message}"
        elif number % 10:
            yield f"cut {message} 10"
        else:
            yield "restart connector" if number % 20 else "restart provider"


def instructions(arguments):
    """How many instructions one run takes. One that leaves a record unconfirmed ends with status 1."""
    return parts.instructions([PROGRAM, "simulate", *arguments], statuses=(0, 1))[0]


def seconds(path):
    """How long one run takes."""
    begin = time.monotonic()
    run = subprocess.run([PROGRAM, "simulate", path], stdout=subprocess.DEVNULL, check=False)
    if run.returncode not in (0, 1):
        sys.exit(f"{PROGRAM}: status {run.returncode}")
    return time.monotonic() - begin


def events():
    """What an event costs among more and more."""
    costs = {}
    with tempfile.TemporaryDirectory() as folder:
        path = os.path.join(folder, "schedule")
        with open(path, "w", encoding="utf-8"):
            pass
        start = instructions([path])
        for count in SIZES:
            with open(path, "w", encoding="utf-8") as file:
                file.writelines(line + "\n" for line in schedule(count))
            costs[count] = (instructions([path]) - start) / count
            speed = count / seconds(path)
            print(f"{count:7,} events: {costs[count]:8,.0f} instructions each, "
                  f"{speed:9,.0f} a second", flush=True)
    if costs[SIZES[-1]] > 2 * costs[SIZES[0]]:
        sys.exit("an event costs over twice as much among 100,000 as among 1,000")


def settled(seed):
    """How many exchanges settle a random run, if they do."""
    run = subprocess.run([PROGRAM, "simulate", "--seed", str(seed), "--events", str(EVENTS), "--settle"],
                         capture_output=True, text=True, check=False)
    lines = run.stdout.splitlines()[EVENTS:]
    exchanges = re.fullmatch(r"settled in (\d+) exchanges", lines[0]) if lines else None
    records = [re.search(r"wanted=(\d+) confirmed=(\d+) held=(\d+)", line).groups() for line in lines[1:]]
    if exchanges and all(wanted == confirmed == held for wanted, confirmed, held in records):
        return int(exchanges.group(1))
    return None


def random_runs():
    """Settles many random runs, side by side."""
    begin = time.monotonic()
    with concurrent.futures.ThreadPoolExecutor(os.cpu_count()) as pool:
        found = list(pool.map(settled, range(RUNS)))
    speed = RUNS * EVENTS / (time.monotonic() - begin)
    counts = [count for count in found if count is not None]
    print(f"{len(counts):,} of {RUNS:,} runs settled, in {max(counts)} exchanges at most, {speed:,.0f} events a second "
          f"on {os.cpu_count()} processors", flush=True)
    if len(counts) < RUNS or max(counts) > 12:
        sys.exit("a run doesn't settle in twelve exchanges")


def exchanges():
    """What an exchange of a settling costs among more and more users: two for each."""
    costs = {}
    with tempfile.TemporaryDirectory() as folder:
        path = os.path.join(folder, "schedule")
        for count in SIZES:
            with open(path, "w", encoding="utf-8") as file:
                file.writelines(f"user user{number},1,{number},Ann,Lee,ann@example.com,active\n" for number in range(count))
            cost = instructions([path, "--settle"]) - instructions([path])
            costs[count] = cost / (2 * count)
            print(f"{count:7,} users: {costs[count]:8,.0f} instructions an exchange", flush=True)
    if costs[SIZES[-1]] > 2 * costs[SIZES[0]]:
        sys.exit("an exchange costs over twice as much among 100,000 users as among 1,000")


def main():
    if sys.argv[1:] == ["--settle"]:
        random_runs()
        exchanges()
    else:
        events()


if __name__ == "__main__":
    main()
