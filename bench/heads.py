#!/usr/bin/env python3
"""Measures what a byte of a request's head costs `scimlink answer`, in instructions.

    make build && python3 bench/heads.py

Heads of 200 bytes to 16 KB are answered under valgrind, which counts the instructions of each run,
so that no other work on the machine is in the figures. The cost of a byte at some size is what a
head of that size takes more than one of 200 bytes, for each byte that it is longer: the start of
the process is in neither. A head that fits the short array for reading ahead costs less. It ends with
status 1 where a byte costs over twice as much at 16 KB as at 4 KB, where a malformed head of 15,206 bytes costs over ten times a whole one of 16,200, or where
an answer isn't the one wanted.
"""
import sys

from built import program
from parts import instructions

SIZES = (200, 1_024, 2_200, 4_096, 8_192, 16_200)


def head(size):
    """A whole head of this many bytes, with one long field, as a token from a proxy."""
    start, end = b"GET /v2/Users/x HTTP/1.1\r\nHost: example.com\r\nX-Token: ", b"\r\n\r\n"
    return start + b"a" * (size - len(start) - len(end)) + end


def answered(request, status):
    """How many instructions one run takes that answers this request."""
    count, answer = instructions([program(), "answer"], sent=request)
    if not answer.startswith(b"HTTP/1.1 %d " % status):
        sys.exit(f"an answer of status {status} was wanted: {answer[:40]!r}")
    return count


def costs():
    """The instructions for a byte of a head, by the size of the head; and those for the largest head."""
    counted = [answered(head(size), 404) for size in SIZES]
    pairs = zip(SIZES[1:], counted[1:])
    return {size: (count - counted[0]) / (size - SIZES[0]) for size, count in pairs}, counted[-1]


def main():
    found, whole = costs()
    for size, cost in found.items():
        print(f"{size:6,} bytes: {cost:5.2f} instructions a byte")
    malformed = answered(head(16_200)[:15_205] + b"\0" + b"a" * 994, 400)
    print(f"16,200 bytes: {whole:,} instructions; malformed at byte 15,206: {malformed:,}")
    if found[16_200] > 2 * found[4_096] or malformed > 10 * whole:
        sys.exit("heads aren't read in linear work")


if __name__ == "__main__":
    main()
