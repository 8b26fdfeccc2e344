"""The limits of REFERENCE.md, compared with the constants of the sources, name by name and value by value.

A row of its section Limits names the constants that it states, in backticks, and its second cell has their values. A
constant of `limits.rt`, of a crate that reads and writes connections, or with the name of a limit, is in some row.
"""
import collections
import itertools
import math
import pathlib
import re
import unittest

TOP = pathlib.Path(__file__).resolve().parent.parent
PAGE = TOP / "docs/REFERENCE.md"
# A number, or a product or power of two of numbers. What is calculated from other constants follows from these
NUMBER = re.compile(r"\bconst ([A-Z][A-Z0-9_]*): [iu](?:8|16|32|64|128|size) = ([0-9_ *<]+);")
TIME = re.compile(
    r"(?:\bfn (\w+)\(\) -> Duration\b[^{]*(?:\{[^{}]*\}\s*)*?\{|\bconst ([A-Z][A-Z0-9_]*): Duration =)"
    r"\s*Duration::from_(\w+)\(([0-9_]+)\)\s*[};]"
)
# Each of their constants is in the table, except the first room of a text, and error numbers of the system
CRATES = {"connection", "http_text", "timed_streams"}
LIMIT = re.compile(r"LIMIT$|^MOST_|^LAST_|_SECONDS$")
OTHERWISE = re.compile(r"_ROOM$|^E[A-Z]+$")
# A limit that no constant of ours states: that of the library which reads JSON
OF_THE_KIT = "nesting of JSON"
# What a value is counted in, as the page writes it, in nanoseconds or bytes
UNITS = {"": 1, "s": 10**9, "ms": 10**6, "µs": 10**3, "MiB": 2**20, "KiB": 2**10}
SPELLED = {"secs": "s", "millis": "ms", "micros": "µs"}
VALUE = re.compile(r"(?<![\w.])(\d[\d,]*)(?: (s|ms|µs|MiB|KiB)\b)?")


def product(terms):
    """The value of `16 * 1_024` or `1 << 20`."""
    value, *shifts = (math.prod(map(int, term.split("*"))) for term in terms.split("<<"))
    return value << sum(shifts)


def constants():
    """The values of all constants, and which of them the table must have. Each name begins with its crate."""
    values, wanted = {}, set()
    for path in sorted(TOP.glob("crates/*/src/**/*.rt")):
        crate, text = path.relative_to(TOP / "crates").parts[0], path.read_text(encoding="utf-8")
        units = {True: "s", False: ""}
        found = {name: product(terms) * UNITS[units[name.endswith("_SECONDS")]] for name, terms in NUMBER.findall(text)}
        found |= {name or other: int(count) * UNITS[SPELLED[unit]] for name, other, unit, count in TIME.findall(text)}
        for name, value in found.items():
            values[f"{crate}::{name}"] = value
            is_near = path.name == "limits.rt" or crate in CRATES
            if (is_near or LIMIT.search(name)) and not OTHERWISE.search(name):
                wanted.add(f"{crate}::{name}")
    return values, wanted


def values_of(cell):
    """The numbers of a cell, in nanoseconds, bytes or by themselves."""
    return [int(number.replace(",", "")) * UNITS[unit] for number, unit in VALUE.findall(cell)]


def each_once(values):
    """Values in their order, each of several equal ones in a row once."""
    return [value for value, _ in itertools.groupby(values)]


def rows():
    """The rows of the section: what each is about, the names in it, and the values of its second cell."""
    section = PAGE.read_text(encoding="utf-8").split("\n## Limits\n")[1].split("\n## ")[0]
    for line in section.splitlines():
        if line.startswith("|") and not re.match(r"\| What \||\|---", line):
            cells = [cell.strip() for cell in line.strip("|").split("|")]
            yield cells[0], re.findall(r"`((?:\w+::)?\w+)`", line), values_of(cells[1])


class ConstantsTest(unittest.TestCase):
    longMessage = False

    def setUp(self):
        self.values, self.wanted = constants()
        self.named = collections.defaultdict(set)
        for full in self.values:
            self.named[full].add(full)
            self.named[full.partition("::")[2]].add(full)

    def test_each_row_has_the_values_of_its_constants(self):
        for what, names, stated in rows():
            with self.subTest(what):
                if what == OF_THE_KIT:
                    continue
                unknown = [it for it in names if re.search("::|^[A-Z]", it) and it not in self.named]
                self.assertFalse(unknown, f"{what}: there is no constant {', '.join(unknown)}")
                known = [it for it in names if it in self.named]
                self.assertTrue(known, f"{what}: the row names no constant")
                doubtful = [it for it in known if len(self.named[it]) > 1]
                self.assertFalse(doubtful, f"{what}: several crates have {', '.join(doubtful)}; write CRATE::NAME")
                values = [self.values[full] for it in known for full in self.named[it]]
                self.assertEqual(each_once(values), each_once(stated), f"{what}: {', '.join(known)}")

    def test_each_constant_is_in_a_row(self):
        shown = {full for _, names, _ in rows() for it in names for full in self.named.get(it, ())}
        missing = [f"{it} {self.values[it]:,}" for it in sorted(self.wanted - shown)]
        self.assertFalse(missing, "REFERENCE.md, Limits: no row names\n" + "\n".join(missing))

    def test_it_sees_constants_of_each_form(self):
        self.assertTrue({"http_text::HEAD_LIMIT", "connection::drain_time", "connection::MOST_HELD"} <= self.wanted)
        self.assertEqual((product("16 * 1_024"), product("3 << 4")), (16_384, 48))
        self.assertEqual(values_of("16,384 bytes, 64 field lines; 16 MiB, 20 µs"), [16_384, 64, 2**24, 20_000])


if __name__ == "__main__":
    unittest.main()
