#!/usr/bin/env python3
"""Measures whether `serve` is as quick as that of an earlier version.

    make build && python3 bench/versions.py PROGRAM [--rounds N]

PROGRAM is the earlier version. In each round both answer the same requests in turn, so that what else the machine
does is in both. Each line is the median of the rounds' ratios of a request's time, this version to the earlier one,
with the least and the greatest. Status 1: a median is above 1.02.
"""
import argparse
import pathlib
import sys
import tempfile

from parts import medians
from servers import WORKS, Servers

COUNT, CLIENTS, MOST = 4_000, (1, 8), 1.02


class Versions(Servers):
    def __init__(self, room, before):
        super().__init__(room)
        self.before = before

    def words(self, name, count, store=None, kind=None, users=None):
        words = super().words("serve", count, store, kind, users)
        return [self.before, *words[1:]] if name == "before" else words

    def ratios(self, work, clients, rounds):
        """The seconds of a request, of each round; who is first changes from round to round."""
        for number in range(rounds):
            names = ("before", "serve") if number % 2 else ("serve", "before")
            yield {name: self.cost(name, work, clients, COUNT, None) for name in names}


def main():
    words = argparse.ArgumentParser()
    words.add_argument("before", type=pathlib.Path, metavar="PROGRAM")
    words.add_argument("--rounds", type=int, default=15)
    given, is_good = words.parse_args(), True
    with tempfile.TemporaryDirectory(prefix="versions-") as folder:
        bench = Versions(pathlib.Path(folder), given.before)
        for work in WORKS:
            for clients in CLIENTS:
                median, least, most = medians(bench.ratios(work, clients, given.rounds), "serve", "before")
                is_good = is_good and median <= MOST
                print(f"{work}, {clients} at a time: {median:.3f} ({least:.3f} to {most:.3f})", flush=True)
    return 0 if is_good else 1


if __name__ == "__main__":
    sys.exit(main())
