"""`simulate --settle` and `simulate --seed`: random runs settle, also from random starts, and the worked ones as they were
worked out by hand.
"""
import os
import pathlib
import re
import subprocess
import tempfile
import unittest

TOP = pathlib.Path(__file__).resolve().parent.parent
PROGRAM = os.environ.get("SCIMLINK") or str(TOP / "crates/scimlink/out/scimlink")
VIEW = re.compile(r"(user|group) (\w+) wanted=(\d+) confirmed=(\d+) held=(\d+) version=(\d+) (active|members)=(\S+)")


def simulate(*arguments):
    """The status and both outputs of a run."""
    done = subprocess.run([PROGRAM, "simulate", *map(str, arguments)], capture_output=True, text=True, check=False)
    return done.returncode, done.stdout, done.stderr


def scheduled(lines, *arguments):
    """The same of a schedule of these lines."""
    with tempfile.TemporaryDirectory() as folder:
        path = pathlib.Path(folder) / "schedule"
        path.write_text("".join(line + "\n" for line in lines), encoding="utf-8")
        return simulate(path, *arguments)


# ---- the draws, by the arithmetic of PCG's paper: multiply and add, xorshift, rotate

MULTIPLIER = 6364136223846793005
EXPANDING = 11634580027462260723  # the increment at which a number is made into a seed


def stepped(state, increment):
    return (state * MULTIPLIER + increment) % 2**64


def word(state):
    shifted, turn = ((state >> 18 ^ state) >> 27) % 2**32, state >> 59
    return (shifted >> turn | shifted << 32 - turn) % 2**32


def words(seed):
    parts = []
    for _ in range(4):
        seed = stepped(seed, EXPANDING)
        parts.append(word(seed))
    start, increment = parts[0] + (parts[1] << 32), parts[2] + (parts[3] << 32) | 1
    state = stepped((start + increment) % 2**64, increment)
    while True:
        yield word(state)
        state = stepped(state, increment)


def record(letter, suffix, number):
    """A row at this revision, of a record whose name ends in the suffix."""
    members = (f"a{suffix} b{suffix}", f"a{suffix}")[number % 2]
    if letter == "g":
        return f"group g{suffix},{number},{members}"
    return f"user {letter}{suffix},{number},,,,," + ("active" if number % 3 else "left")


def event(drawn, revisions, suffix=""):
    """The event of a word, as a line, of records whose names end in the suffix."""
    rest, what = divmod(drawn, 8)
    letter = "abcg"[rest % 4]
    name = letter + suffix
    kind = "group" if letter == "g" else "user"
    if what < 2:
        revisions[letter] += 1
        return record(letter, suffix, revisions[letter])
    if what < 4:
        return f"send {kind} {name}"
    if what < 7:
        return f"deliver {1 + rest % 64}"
    return ("restart provider", "restart connector", f"cut {1 + rest % 64} {rest % 50}")[rest % 3]


def schedule(seed, count, first=0):
    """The events of a seed, as lines, if the records had these revisions before."""
    revisions = dict.fromkeys("abcg", first)
    return [event(drawn, revisions) for _, drawn in zip(range(count), words(seed))]


def start(seed):
    """What the provider holds at the random start of a seed, as lines."""
    drawn = words(seed)
    count = 1 + next(drawn) // 2**16 % 36
    rests = [word // 2**16 for _, word in zip(range(count), drawn)]
    return ["held " + record("abcg"[rest // 2 % 4], str(rest // 8 % 8) * (rest % 2), 1 + rest // 64 % 9) for rest in rests]


# ---- worked rows

BOB = ["user bob,1,,,,,active", "send user bob", "deliver 1", "deliver 2", "send user bob", "deliver 3", "deliver 4"]
CREW = ["user bob,1,,,,,active", "user ann,1,,,,,active", "group crew,1,bob ann", *BOB[1:], "send group crew"]
CARRIED = ["send user ann", "deliver 5", "deliver 6", "send user ann", "deliver 7", "deliver 8",
           "send group crew", "deliver 9", "deliver 10", "send group crew", "deliver 11", "deliver 12"]
LEFT = [*BOB, "user bob,4,,,,,left", "send user bob", "deliver 5", "deliver 6",
        *(f"deliver {number}" for number in (6, 5, 4, 3, 2, 1)), "send user bob"]


class Draws(unittest.TestCase):
    def test_seeds(self):
        for seed in (0, 1, 2**64 - 1):
            with self.subTest(seed=seed):
                drawn = simulate("--seed", seed)
                self.assertEqual(drawn, scheduled(schedule(seed, 1_000)))
                self.assertEqual(drawn[1].count("\n"), 1_000 + len(VIEW.findall(drawn[1])))

    def test_counts(self):
        for count in (1, 17, 2_000):
            with self.subTest(count=count):
                self.assertEqual(simulate("--seed", 7, "--events", count), scheduled(schedule(7, count)))

    def test_starts(self):
        for seed in (0, 1, 2, 2**64 - 1):
            with self.subTest(seed=seed):
                lines = [*start(seed), *schedule(seed, 200, first=9)]
                self.assertEqual(simulate("--seed", seed, "--events", 200, "--any-start"), scheduled(lines))

    def test_most(self):
        status, out, _ = simulate("--seed", 5, "--events", 100_000)
        self.assertIn(status, (0, 1))
        self.assertEqual(out.count("\n"), 100_000 + len(VIEW.findall(out)))


class Settling(unittest.TestCase):
    def test_seeds(self):
        """Four records settle in at most twelve exchanges, and the status tells of refused rows alone."""
        for seed in range(100):
            with self.subTest(seed=seed):
                status, out, err = simulate("--seed", seed, "--events", 1_000, "--settle")
                lines = out.splitlines()
                settled = re.fullmatch(r"settled in (\d+) exchanges", lines[1_000])
                self.assertLessEqual(int(settled.group(1)), 12)
                for line in lines[1_001:]:
                    _, _, wanted, confirmed, held, *_ = VIEW.fullmatch(line).groups()
                    self.assertEqual((confirmed, held), (wanted, wanted))
                refused = any(re.fullmatch(r"\d+ S(7|8 .*|12)", line) for line in lines[:1_000])
                self.assertEqual((status, err), (int(refused), ""))

    def test_starts(self):
        """1,000 random starts, at which the provider holds records of the source and others, settle as well."""
        foreign = 0
        for seed in range(1_000):
            with self.subTest(seed=seed):
                status, out, err = simulate("--seed", seed, "--events", 100, "--any-start", "--settle")
                held, lines = len(start(seed)), out.splitlines()
                settled = re.fullmatch(r"settled in (\d+) exchanges", lines[held + 100])
                self.assertLessEqual(int(settled.group(1)), 12)
                for line in lines[held + 101:]:
                    if line.startswith("other "):
                        foreign += 1
                        continue
                    _, _, wanted, confirmed, held_now, _, what, value = VIEW.fullmatch(line).groups()
                    self.assertEqual((confirmed, held_now), (wanted, wanted))
                    number = int(wanted)
                    self.assertEqual(value, str(2 - number % 2) if what == "members" else "true" if number % 3 else "false")
                refused = any(re.fullmatch(r"\d+ S(7|8 .*|12)", line) for line in lines[:held + 100])
                self.assertEqual((status, err), (int(refused), ""))
        self.assertGreater(foreign, 1_000)

    def test_no_events(self):
        self.assertEqual(scheduled([], "--settle"), (0, "settled in 0 exchanges\n", ""))

    def test_group_after_its_members(self):
        status, out, _ = scheduled(CREW, "--settle")
        self.assertEqual((status, out.splitlines()[9:]), (0, [
            "10 waits ann",
            "settled in 4 exchanges",
            "user ann wanted=1 confirmed=1 held=1 version=1 active=true",
            "user bob wanted=1 confirmed=1 held=1 version=1 active=true",
            "group crew wanted=1 confirmed=1 held=1 version=1 members=2",
        ]))

    def test_group_without_members(self):
        status, out, _ = scheduled([*CREW, *CARRIED, "group crew,2,"], "--settle")
        self.assertEqual((status, out.splitlines()[21:]), (0, [
            "22 confirmed 1",
            "23 new",
            "settled in 1 exchanges",
            "user ann wanted=1 confirmed=1 held=1 version=1 active=true",
            "user bob wanted=1 confirmed=1 held=1 version=1 active=true",
            "group crew wanted=2 confirmed=2 held=2 version=2 members=0",
        ]))

    def test_late_messages(self):
        status, out, _ = scheduled([*LEFT, "user bob,5,,,,,active"], "--settle")
        self.assertEqual((status, out.splitlines()[10:]), (0, [
            "11 confirmed 4", "12 seen", "13 answer 7 412", "14 seen", "15 answer 8 409", "16 nothing", "17 answer 9 200",
            "18 nothing", "19 new",
            "settled in 3 exchanges",
            "user bob wanted=5 confirmed=5 held=5 version=3 active=true",
        ]))

    def test_status(self):
        """Settled records don't excuse a refused row."""
        status, out, err = scheduled([*BOB, "group crew,1,zoe"], "--settle")
        self.assertEqual((status, out.splitlines()[7:], err), (1, [
            "8 S8 zoe",
            "settled in 0 exchanges",
            "user bob wanted=1 confirmed=1 held=1 version=1 active=true",
        ], ""))
        self.assertEqual(scheduled(BOB[:2])[0], 1)
        self.assertEqual(scheduled(BOB[:2], "--settle")[0], 0)


class Arguments(unittest.TestCase):
    def test_wrong(self):
        for arguments in ([], ["--settle"], ["a", "--seed", 1], ["a", "--events", 1], ["--events", 1],
                          ["--seed", 1, "--events", 0], ["--seed", 1, "--events", 100_001], ["--seed", -1],
                          ["--seed", 2**64], ["--seed", "x"], ["--seed", ""], ["--seed", 1, "--events", "x"],
                          ["a", "--any-start"], ["--any-start"], ["--seed", 1, "--connectors", 2, "--any-start"]):
            with self.subTest(arguments=arguments):
                status, out, err = simulate(*arguments)
                self.assertEqual((status, out), (2, ""))
                self.assertTrue(err.startswith("error: "), err)

    def test_told(self):
        self.assertEqual(simulate()[2], "error: simulate takes one of FILE and --seed S\n")
        self.assertEqual(simulate("--seed", 1, "--events", 0)[2], "error: --events is 1 to 100000, with --seed\n")
        self.assertEqual(simulate("a", "--any-start")[2], "error: --any-start goes with --seed, and not with --connectors\n")

    def test_greatest_seed(self):
        self.assertEqual(simulate("--seed", f"+{2**64 - 1}", "--events", 50), simulate("--seed", 2**64 - 1, "--events", 50))


if __name__ == "__main__":
    unittest.main()
