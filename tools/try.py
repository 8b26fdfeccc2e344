#!/usr/bin/env python3
"""Runs `loop` over the example without proofs, for a first look: `make try`.

The program is compiled with checks of its own, which stop it at an overflow or an index out of bounds.
Standard output is that of `make loop`, and one line more.
"""
import pathlib
import re
import subprocess
import sys

ROOT = pathlib.Path(__file__).resolve().parent.parent
EXAMPLES = ROOT / "examples"
NAMED = {"users": "tuesday.csv", "groups": "groups.csv"}
# What rt reports of its two ways to run a program: the interpreter isn't used, and the other one ended well
OF_THE_RUNS = re.compile(r"interpreter: |checked: ended |races: |run=ended ")


def main():
    print("make try: building without proofs, which takes about 3 minutes", file=sys.stderr, flush=True)
    words = ["rt", "try", "--steps", "1"]
    for file in NAMED.values():
        words += ["--data", f"{file}={EXAMPLES / file}"]
    words += ["--", "loop", *(word for option, file in NAMED.items() for word in (f"--{option}", file))]
    how = {"stdin": subprocess.DEVNULL, "stderr": subprocess.PIPE, "text": True}
    ran = subprocess.run(words, cwd=ROOT / "crates/scimlink", check=False, **how)
    kept = [it for it in ran.stderr.splitlines() if not OF_THE_RUNS.match(it)]
    print(*kept, sep="\n", end="\n" if kept else "", file=sys.stderr)
    if not ran.returncode:
        print("This program was built with checks and isn't proved: `make loop` builds the proved one and runs it.")
    return ran.returncode


if __name__ == "__main__":
    sys.exit(main())
