#!/usr/bin/env python3
"""Measures what clients that trickle cost the others of `serve`.

    make build && python3 bench/trickle.py [--seconds N] [--before PROGRAM]

Many clients each send a byte of a request's head now and then, and come back at once when they are closed. Half of
them begin with most of a long head. Beside them one client asks for a user, again and again. Each line has how many
trickle, how many milliseconds lie between two bytes, and the client's answers: how many a second alone, and what part
of that beside them; the median, and the slowest of 100 and of all, in milliseconds; and how many weren't answered
within 5 s. With --before, the same follows for the program of an earlier version, in the same run. It judges nothing.
"""
import argparse
import os
import pathlib
import socket
import tempfile
import time

from floods import Flood, build, take_handles, trickles
from slow import FIND, Server

CROWDS, PACES = (256, 600, 2_000), (30, 60, 95, 150)
PATIENCE = 5


def ask(port):
    """The seconds until a user is shown; None if that takes too long."""
    began = time.monotonic()
    try:
        with socket.create_connection(("127.0.0.1", port), timeout=PATIENCE) as stream:
            stream.sendall(FIND)
            whole = b"".join(iter(lambda: stream.recv(4096), b""))
    except OSError:
        return None
    return time.monotonic() - began if whole.startswith(b"HTTP/1.1 200") else None


def answers(port, seconds):
    """What came of asking for so long: the times of the answers, and how many didn't come."""
    times, lost, end = [], 0, time.monotonic() + seconds
    while time.monotonic() < end:
        took = ask(port)
        if took is None:
            lost += 1
        else:
            times.append(took)
    return sorted(times), lost


def measured(room, count, pace, seconds):
    """What a client meets beside so many that trickle."""
    server = Server()
    alone = len(answers(server.port, 1)[0])
    with Flood(room, server.port, trickles(count, pace), seconds):
        times, lost = answers(server.port, seconds)
    server.run.kill()
    server.run.wait()
    spots = [1000 * times[min(int(share * len(times)), len(times) - 1)] for share in (0.5, 0.99, 1)] if times else []
    shown = " ".join(f"{it:.1f}" for it in spots) or "- - -"
    return f"{alone} {len(times) / seconds / alone:.2f} {shown} {lost}"


def main():
    parser = argparse.ArgumentParser(description=__doc__.split("\n")[0])
    parser.add_argument("--seconds", type=int, default=5, help="how long each line takes")
    parser.add_argument("--before", help="a program of an earlier version")
    given = parser.parse_args()
    take_handles()
    print("clients pace" + " | alone part median 99th slowest unanswered" * (2 if given.before else 1), flush=True)
    with tempfile.TemporaryDirectory(prefix="trickle-") as folder:
        room = build(pathlib.Path(folder))
        for count in CROWDS:
            for pace in PACES:
                parts = [measured(room, count, pace, given.seconds)]
                if given.before:
                    now = os.environ.get("PROGRAM")
                    os.environ["PROGRAM"] = given.before
                    parts.append(measured(room, count, pace, given.seconds))
                    os.environ.pop("PROGRAM") if now is None else os.environ.update(PROGRAM=now)
                print(f"{count} {pace}", *parts, sep=" | ", flush=True)


if __name__ == "__main__":
    main()
