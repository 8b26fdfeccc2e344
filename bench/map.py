#!/usr/bin/env python3
"""Measures `scimlink map` against the same work by a short Python script, in one run.

    make build && python3 bench/map.py

For 1,000, 10,000 and 100,000 rows it prints the best of five times of each, and their ratio.
It ends with status 1 where both don't print the same lines, where scimlink is the slower one at
some size, or where its time for a row at 100,000 rows is over twice that at 10,000.
"""
import os
import subprocess
import sys
import tempfile
import time

from built import program
from parts import write_users

PROGRAM = program()
PYTHON = """
import csv, json, sys
CORE = "urn:ietf:params:scim:schemas:core:2.0:User"
SOURCE = "urn:example:params:scim:schemas:extension:source:1.0"
out = []
with open(sys.argv[1], newline="", encoding="utf-8") as file:
    rows = csv.reader(file)
    next(rows)
    for login, revision, number, given, family, mail, status in rows:
        user = {"active": status == "active"}
        if mail:
            user["emails"] = [{"primary": True, "type": "work", "value": mail}]
        if number:
            user["externalId"] = number
        name = {k: v for k, v in (("familyName", family), ("givenName", given)) if v}
        if name:
            user["name"] = name
        user["schemas"] = [CORE, SOURCE]
        user[SOURCE] = {"revision": int(revision)}
        user["userName"] = login
        out.append(json.dumps(user, separators=(",", ":"), ensure_ascii=False))
sys.stdout.write("".join(line + "\\n" for line in out))
"""


def best(command, times=5):
    found, text = None, b""
    for _ in range(times):
        start = time.perf_counter()
        text = subprocess.run(command, stdout=subprocess.PIPE, check=True).stdout
        took = time.perf_counter() - start
        found = took if found is None else min(found, took)
    return found, text


def main():
    good, each = True, {}
    print(f"{'rows':>8} {'scimlink':>10} {'python':>10} {'ratio':>7}")
    with tempfile.TemporaryDirectory() as room:
        for count in (1_000, 10_000, 100_000):
            file = os.path.join(room, f"{count}.csv")
            write_users(file, count)
            ours, text = best([PROGRAM, "map", file])
            theirs, other = best([sys.executable, "-c", PYTHON, file])
            each[count] = ours / count
            good = good and text == other and ours < theirs
            print(f"{count:>8} {ours:>9.4f}s {theirs:>9.4f}s {theirs / ours:>6.1f}x")
            if text != other:
                print("the lines differ")
    if each[100_000] > 2 * each[10_000]:
        print("not in proportion to the rows")
        good = False
    return 0 if good else 1


if __name__ == "__main__":
    sys.exit(main())
