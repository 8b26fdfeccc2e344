#!/usr/bin/env python3
"""CI, as `make test` runs it: `rt ci`, which proves everything and runs the program; then each module of tests/, of
Python's unittest; then the tests in Rattle; then a table of the minutes.

All of it runs, whatever fails before. The last lines say what wasn't tried, for want of a program on this machine, and
what failed. The status is 1 if anything failed.
"""
import os
import pathlib
import re
import resource
import subprocess
import sys
import time

ROOT = pathlib.Path(__file__).resolve().parent.parent
# What a line of `rt ci` says has ended: the proof of a crate, or the run of the program
ENDED = [
    ("proofs of crates", re.compile(r"rt: (\w+) (?:proved|NOT PROVED|is kept)")),
    ("runs of the program", re.compile(r"rt: (\w+) ran\b")),
]
# What unittest says of tests that it skipped, and a module of what it couldn't try
SKIPPED = re.compile(r"(?:OK|FAILED) \(.*\bskipped=(\d+)")
UNTRIED = re.compile(r".*weren't tried: (.*)")
# The table names each crate that took this many processor minutes
WORTH_NAMING = 1


class Clock:
    """The time since it was last asked, in seconds: that of the wall, and that of the processors."""

    def __init__(self, processors):
        self.processors, self.last = processors, (time.monotonic(), processors())

    def passed(self):
        now = time.monotonic(), self.processors()
        was, self.last = self.last, now
        return [at - before for at, before in zip(now, was)]


def of_children():
    """The processor time of the commands that have ended."""
    used = resource.getrusage(resource.RUSAGE_CHILDREN)
    return used.ru_utime + used.ru_stime


def of_process(pid):
    """The processor time of a running command and of those that it started and that have ended."""
    try:
        fields = pathlib.Path(f"/proc/{pid}/stat").read_text(encoding="ascii").rpartition(")")[2].split()
    except OSError:
        return 0
    return sum(map(int, fields[11:15])) / os.sysconf("SC_CLK_TCK")


class Table:
    """The minutes that each part took."""

    def __init__(self):
        self.rows, self.crates = {}, {}

    def add(self, part, passed, crate=None):
        for times, name in ((self.rows, part), (self.crates, crate)):
            if name:
                times[name] = [one + other for one, other in zip(times.get(name, (0, 0)), passed)]

    def show(self):
        print(f"\n{'minutes':40} {'wall':>9} {'processor':>9}")
        for part, (wall, used) in [*self.rows.items(), ("all", map(sum, zip(*self.rows.values())))]:
            print(f"{part:40} {wall / 60:9.1f} {used / 60:9.1f}")
        dear = sorted(((used / 60, it) for it, (_, used) in self.crates.items()), reverse=True)
        named = (f"{it} {used:.1f}" for used, it in dear if used >= WORTH_NAMING)
        print("processor minutes of proofs:", *named, sep="\n  ", flush=True)


def started(command):
    """A run of a command whose lines are read as they come."""
    how = {"stdout": subprocess.PIPE, "stderr": subprocess.STDOUT, "text": True, "errors": "replace", "bufsize": 1}
    return subprocess.Popen(command, cwd=ROOT, **how)


def is_proved(table):
    """Runs `rt ci`, and times each part as its lines come. Proofs run side by side, so each is given the time
    of the wall since the one before ended."""
    run = started(["rt", "ci"])
    whole, clock, last = Clock(of_children), Clock(lambda: of_process(run.pid)), (0, 0)
    for line in run.stdout:
        print(line, end="", flush=True)
        part, found = next(((part, it[1]) for part, form in ENDED if (it := form.match(line))), (None, None))
        if part:
            table.add(part, clock.passed(), None if part == ENDED[-1][0] else found)
    status = run.wait()
    given = [sum(it) for it in zip(*table.rows.values())] or last
    table.add("the rest of rt ci", [now - before for now, before in zip(whole.passed(), given)])
    return status == 0


def tests():
    """What to run after `rt ci`: the name and the command of each module of tests, and of the tests in Rattle."""
    for it in sorted((ROOT / "tests").glob("test_*.py")):
        yield it.stem, [sys.executable, "-B", "-m", "unittest", "discover", "-s", "tests", "-p", it.name]
    yield "scenarios", [sys.executable, "-B", "tools/scenarios.py"]


def outcome(command):
    """Runs tests and prints what they print: the status, how many were skipped, and why, if they say so."""
    run, skipped, reasons = started(command), 0, []
    for line in run.stdout:
        print(line, end="", flush=True)
        if found := SKIPPED.match(line):
            skipped += int(found[1])
        reasons += UNTRIED.findall(line)
    return run.wait(), skipped, "; ".join(reasons)


def main():
    table, failed, untried = Table(), [], []
    if not is_proved(table):
        failed.append("rt ci")
    clock = Clock(of_children)
    for name, command in tests():
        print(f"== {name}", flush=True)
        status, skipped, reason = outcome(command)
        if status:
            failed.append(name)
        if skipped:
            untried.append(f"{skipped} tests of {name}" + (f", since {reason}" if reason else ""))
        table.add(name, clock.passed())
    table.show()
    for it in untried:
        print(f"not tried: {it}")
    print("failed: " + ", ".join(failed) if failed else "everything passed")
    return 1 if failed else 0


if __name__ == "__main__":
    sys.exit(main())
