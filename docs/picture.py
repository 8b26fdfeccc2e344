#!/usr/bin/env python3
"""The picture of a run: what `simulate` prints of a schedule, as a sequence diagram.

    docs/picture.py            prints the diagram
    docs/picture.py --write    puts it into the pages that show it

Each arrow is a message by its number: one that is lost never arrives, one that is held up arrives
later, and what arrived before arrives again.
"""
import os
import pathlib
import re
import subprocess
import sys

TOP = pathlib.Path(__file__).resolve().parent.parent
SCHEDULE = TOP / "examples/lost-creation.schedule"
PAGES = (TOP / "README.md", TOP / "docs/HEADLINE.md")
QUIET = ("absent", "seen", "forgotten", "nothing")  # what the connector learns without a note
HEAD = "```mermaid\nsequenceDiagram\n"
BLOCK = re.compile(re.escape(HEAD) + r".*?```\n", re.S)


def events():
    """The schedule's lines that say something."""
    lines = SCHEDULE.read_text(encoding="utf-8").splitlines()
    return [line for line in lines if line and not line.startswith("#")]


def printed():
    """The report of each event, and the lines after them."""
    program = os.environ.get("SCIMLINK") or TOP / "crates/scimlink/out/scimlink"
    run = subprocess.run([program, "simulate", SCHEDULE, "--settle"], capture_output=True, text=True, check=True)
    lines = run.stdout.splitlines()
    count = len(events())
    return [line.split(" ", 1)[1] for line in lines[:count]], lines[count:]


def arrow(number, label, from_provider, arrives):
    """A message on its way: an arrow with a cross if it doesn't arrive at once."""
    ends = ("provider", "connector") if from_provider else ("connector", "provider")
    return f"{ends[0]}{'->>' if arrives else '--x'}{ends[1]}: {number} {label}"


class Picture:
    """The lines of the diagram, and what was drawn so far."""

    def __init__(self, lines, reports):
        self.lines, self.reports = lines, reports
        self.arrows = []
        self.labels = {}  # of each message: what it says, and whether the provider sent it
        self.held = set()  # the messages that didn't arrive at once

    def sent(self, place, number, label, from_provider):
        """A message is sent by this event. It is drawn when it arrives, if that is next."""
        self.labels[number] = label, from_provider
        later = self.lines[place + 1:]
        if later[:1] == [f"deliver {number}"]:
            return
        fate = "held up" if f"deliver {number}" in later else "lost"
        self.arrows.append(arrow(number, f"{label} ({fate})", from_provider, False))
        self.held.add(number)

    def delivered(self, place, number, report):
        label, from_provider = self.labels[number]
        again = f"deliver {number}" in self.lines[:place]
        when = " (again)" if again else " (late)" if number in self.held else ""
        self.arrows.append(arrow(number, label + when, from_provider, True))
        if not from_provider:
            _, reply, status = report.split()
            self.sent(place, int(reply), status, True)
        elif report not in QUIET:
            self.arrows.append(f"Note over connector: {report}")

    def event(self, place, line, report):
        """Draws an event by its line and its report."""
        match line.split(" ", 2):
            case ["send", _, name]:
                what, number = report.split()
                self.sent(place, int(number), f"{what} {name}", False)
            case ["deliver", number]:
                self.delivered(place, int(number), report)
            case ["restart", side]:
                self.arrows.append(f"Note over {side}: {report}")
            case [kind, record] if kind in ("user", "group") and report == "new":
                name, revision, *fields = record.split(",")
                self.arrows.append(f"source->>connector: {name} {revision} {fields[-1]}")
            case _:
                sys.exit(f"no picture of `{line}`: {report}")


def diagram():
    """The run as a block of a page."""
    lines = events()
    reports, end = printed()
    picture = Picture(lines, reports)
    for place, (line, report) in enumerate(zip(lines, reports)):
        picture.event(place, line, report)
    for line in end[1:]:
        _, name, *fields = line.split()
        shown = " ".join(field for field in fields if not field.startswith(("wanted=", "version=")))
        picture.arrows.append(f"Note over connector,provider: {name} {shown}")
    return HEAD + "".join(f"    {line}\n" for line in picture.arrows) + "```\n"


def main():
    block = diagram()
    if sys.argv[1:] != ["--write"]:
        print(block, end="")
        return
    for page in PAGES:
        text = page.read_text(encoding="utf-8")
        page.write_text(BLOCK.sub(lambda _: block, text), encoding="utf-8")


if __name__ == "__main__":
    main()
