#!/usr/bin/env python3
"""Measures what it costs the connector to take one row or one answer, in instructions.

    python3 bench/connector.py

It builds `connector.rattle`, a program over the connector and a journal in memory, in a copy of the
crates that it stands on; what isn't proved there yet is proved first, which takes minutes. It runs
the program among 1,000, 10,000 and 100,000 users under valgrind, which counts the instructions of
each run, so that neither other work on the machine nor its caches are in the figures. The cost of one
call is what a run with 3,000 calls takes more than one with 1,000: the connector, and the rows and
answers that are ready for it, are the same in both. It ends with status 1 where a call costs over
twice as much among 100,000 users as among 1,000.
"""
import sys
import tempfile

from parts import build, instructions, lay_out

LIBRARIES = "scim_key scim_message provider_core source_csv mapping journal_core connector_core anyhow".split()
SIZES = (1_000, 10_000, 100_000)


def main():
    good = True
    with tempfile.TemporaryDirectory(prefix="connector-") as room:
        lay_out(room, {"connector": LIBRARIES})
        program = build(room, "connector", ["change", "1000", "1"])
        for call in ("change", "learn"):
            costs = {}
            for users in SIZES:
                few, many = (instructions([program, call, users, times])[0] for times in (1, 3))
                costs[users] = (many - few) / 2_000
                print(f"{call} among {users:7,} users: {costs[users]:6,.0f} instructions", flush=True)
            good = good and costs[100_000] <= 2 * costs[1_000]
    if not good:
        sys.exit("a call costs over twice as much among 100,000 users as among 1,000")


if __name__ == "__main__":
    main()
