#!/usr/bin/env python3
"""Measures what a request to `serve` in memory, and a record of `push`, cost in instructions and allocations.

    python3 bench/walks.py [--before FOLDER]

It builds `requests.rattle` and `records.rattle`, programs over the crates, in a copy of the crates that they stand on;
what isn't proved there yet is proved first, which takes minutes. A POST and a PUT of a user go over a socket of the
same program, whose few instructions are in the figures. A new record is read, searched for and created, with answers
that are ready and a journal in memory. Each cost is what a run with 600 takes more than one with 200, counted by
valgrind: neither other work on the machine nor the start of the process is in it. With --before, the crates of an
earlier checkout are measured too, by the same two programs. It judges nothing.
"""
import argparse
import pathlib
import re
import subprocess
import tempfile

import parts

# each program, and the crates that it calls
PROGRAMS = {"requests": "scim_key provider_core http_text connection anyhow".split(),
            "records": ("scim_key scim_message provider_core http_text connection source_csv mapping journal_core "
                        "connector_core scim_client anyhow").split()}
WALKS = {"post": "requests", "put": "requests", "push": "records"}
NAMES = {"post": "a POST", "put": "a PUT", "push": "a record of push"}
FEW, MANY, APART = 1, 3, 400


def allocations(words):
    """How often one run asks for memory."""
    run = subprocess.run(["valgrind", *map(str, words)], capture_output=True, text=True, check=True)
    return int(re.search(r"total heap usage: ([\d,]+) allocs", run.stderr).group(1).replace(",", ""))


def costs(top, room):
    """The instructions and the allocations of each walk over the crates of this checkout."""
    found = {}
    parts.lay_out(room, PROGRAMS, top)
    for name in PROGRAMS:
        program = parts.build(room, name, ["post" if name == "requests" else "push", "1"])
        for walk in [it for it, its_program in WALKS.items() if its_program == name]:
            counts = [(parts.instructions([program, walk, times])[0], allocations([program, walk, times]))
                      for times in (FEW, MANY)]
            found[walk] = tuple((many - few) / APART for few, many in zip(*counts))
    return found


def main():
    words = argparse.ArgumentParser(description=__doc__.split("\n")[0])
    words.add_argument("--before", type=pathlib.Path, metavar="FOLDER", help="a checkout of an earlier version")
    given = words.parse_args()
    tops = [parts.TOP, *([given.before.resolve()] if given.before else [])]
    rows = []
    for top in tops:
        with tempfile.TemporaryDirectory(prefix="walks-") as room:
            rows.append(costs(top, room))
    for walk in WALKS:
        shown = [f"{NAMES[walk]}: {rows[0][walk][0]:,.0f} instructions, {rows[0][walk][1]:.1f} allocations"]
        if given.before:
            shown.append(f"before: {rows[1][walk][0]:,.0f}, {rows[1][walk][1]:.1f}")
            shown.append(f"{1 - rows[0][walk][0] / rows[1][walk][0]:.0%} fewer instructions")
        print("; ".join(shown))


if __name__ == "__main__":
    main()
