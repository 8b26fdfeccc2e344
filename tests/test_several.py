"""`simulate --connectors N`: random turns of several connectors that share a provider.

No two of them have a record in common. So what each reports is what it would report alone, with the same events and
no other connector: that run is the one of `simulate FILE`.
"""
import re
import unittest

from test_settle import VIEW, event, scheduled, simulate, words

MOST = 100  # connectors
SETTLED = re.compile(r"settled in (\d+) exchanges")


def turns(seed, count, connectors):
    """The turns of a seed: of each the connector's number, and its event as a line."""
    revisions = [dict.fromkeys("abcg", 0) for _ in range(connectors)]
    drawn = words(seed)
    for _ in range(count):
        place = next(drawn) % connectors
        yield place + 1, event(next(drawn), revisions[place], str(place + 1))


def alone(lines, *options):
    """The reports, the exchanges and the records of one connector with these events and no other connector."""
    _, out, _ = scheduled(lines, *options)
    said = out.splitlines()
    reports = [line.split(" ", 1)[1] for line in said[:len(lines)]]
    rest = said[len(lines):]
    exchanges = [int(SETTLED.fullmatch(line).group(1)) for line in rest if line.startswith("settled")]
    return reports, exchanges, [line for line in rest if not line.startswith("settled")]


class Several(unittest.TestCase):
    def expected(self, seed, count, connectors, *options):
        """What is printed, worked out from runs of each connector alone."""
        all_turns = list(turns(seed, count, connectors))
        runs = {number: alone([line for who, line in all_turns if who == number], *options)
                for number in range(1, connectors + 1)}
        left = {number: iter(reports) for number, (reports, _, _) in runs.items()}
        lines = [f"{place} {who} {next(left[who])}" for place, (who, _) in enumerate(all_turns, 1)]
        if options:
            lines.append(f"settled in {sum(exchanges[0] for _, exchanges, _ in runs.values())} exchanges")
        for number in range(1, connectors + 1):
            lines += runs[number][2]
        return lines

    def test_each_is_as_it_is_alone(self):
        for seed, count, connectors in ((0, 1_000, 3), (1, 1_000, 3), (2**64 - 1, 500, 7), (5, 300, 1)):
            for options in ([], ["--settle"]):
                with self.subTest(seed=seed, connectors=connectors, options=options):
                    _, out, err = simulate("--seed", seed, "--events", count, "--connectors", connectors, *options)
                    self.assertEqual(out.splitlines(), self.expected(seed, count, connectors, *options))
                    self.assertEqual(err, "")

    def test_runs_settle(self):
        for seed in range(20):
            with self.subTest(seed=seed):
                status, out, err = simulate("--seed", seed, "--connectors", 3, "--settle")
                lines = out.splitlines()
                self.assertLessEqual(int(SETTLED.fullmatch(lines[1_000]).group(1)), 3 * 12)
                views = [VIEW.fullmatch(line).groups() for line in lines[1_001:]]
                for _, _, wanted, confirmed, held, *_ in views:
                    self.assertEqual((confirmed, held), (wanted, wanted))
                self.assertEqual([name for _, name, *_ in views],
                                 [f"{letter}{number}" for number in (1, 2, 3) for letter in "abcg"])
                refused = any(re.fullmatch(r"\d+ \d S(7|8 .*|12)", line) for line in lines[:1_000])
                self.assertEqual((status, err), (int(refused), ""))

    def test_status(self):
        """A record that isn't confirmed is status 1, whichever connector wants it."""
        statuses = set()
        for seed in range(10):
            status, out, _ = simulate("--seed", seed, "--events", 60, "--connectors", 2)
            unconfirmed = any(wanted != confirmed for _, _, wanted, confirmed, *_ in map(tuple, VIEW.findall(out)))
            refused = any(re.fullmatch(r"\d+ \d S(7|8 .*|12)", line) for line in out.splitlines())
            self.assertEqual(status, int(unconfirmed or refused))
            statuses.add(status)
        self.assertIn(1, statuses)

    def test_one_event(self):
        _, out, _ = simulate("--seed", 1, "--events", 1, "--connectors", 3)
        who, line = next(turns(1, 1, 3))
        self.assertEqual(out.splitlines(), [f"1 {who} {alone([line])[0][0]}", *alone([line])[2]])

    def test_the_most_connectors(self):
        status, out, _ = simulate("--seed", 1, "--events", 2_000, "--connectors", MOST, "--settle")
        self.assertIn(status, (0, 1))
        self.assertEqual({int(line.split()[1]) for line in out.splitlines()[:2_000]}, set(range(1, MOST + 1)))
        names = [name for _, name, *_ in VIEW.findall(out)]
        self.assertEqual(len(names), len(set(names)))

    def test_wrong_arguments(self):
        told = f"error: --connectors is 1 to {MOST}, with --seed\n"
        for arguments in (["--seed", 1, "--connectors", 0], ["--seed", 1, "--connectors", MOST + 1]):
            with self.subTest(arguments=arguments):
                self.assertEqual(simulate(*arguments), (2, "", told))
        self.assertEqual(scheduled([], "--connectors", 2), (2, "", told))
        self.assertEqual(simulate("--connectors", 2), (2, "", "error: simulate takes one of FILE and --seed S\n"))
        for number in ("-1", "x", "", 2**32):
            with self.subTest(number=number):
                status, out, err = simulate("--seed", 1, "--connectors", number)
                self.assertEqual((status, out), (2, ""))
                self.assertTrue(err.startswith("error: "), err)


if __name__ == "__main__":
    unittest.main()
