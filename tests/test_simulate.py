"""`simulate`: a schedule of events over both sides in memory.

What the runs in tests/schedules print was worked out by hand from the rules of the protocol.
"""
import pathlib

from support import EXAMPLES, ProgramTest, broken_pipe, full_disk, scimlink, text

SCHEDULES = pathlib.Path(__file__).resolve().parent / "schedules"

# Lines that are no events
NO_EVENTS = """\
user
user\x20
user  bob,1,,,,,active
user ann,0,,,,,active
user ann,2000000001,,,,,active
user ann,07x,,,,,active
user ann,1,,,,active
user ann,1,,,,,active,Sales,
user an n,1,,,,,active
user ann,1,,,,,active\ruser bob,1,,,,,active
group crew,1,ann Ann
group crew,1,ann  bob
User bob,1,,,,,active
 user bob,1,,,,,active
send bob
send user
send user b ob
send group  crew
send users bob
doubt
doubt bob
doubt user
doubt user b ob
doubt users bob
deliver
deliver\x20
deliver  1
deliver +1
deliver 1\x20
deliver 1234567890123456789
cut 1
cut 1 2 3
cut 1  2
restart
restart both
restart provider\x20
settle
other
other\x20
other user
other group
other bob,1,,,,,active
other user bob
other user bob,0,,,,,active
other group crew,1,ann Ann
other users bob,1,,,,,active
other  user bob,1,,,,,active
held
held user
held bob,1,,,,,active
held user bob,0,,,,,active
held group crew,1,ann Ann
held  user bob,1,,,,,active
held other user bob,1,,,,,active
other send user bob
other other user bob,1,,,,,active
Other user bob,1,,,,,active"""


class SimulateTest(ProgramTest):
    def simulate(self, content, **options):
        """A run of the schedule of this text."""
        path = self.folder / "schedule"
        path.write_bytes(content.encode("latin-1"))
        return scimlink("simulate", path, **options)

    def test_schedules(self):
        schedules = sorted(SCHEDULES.glob("*.schedule"))
        self.assertEqual(len(schedules), 12)
        for schedule in schedules:
            lines = schedule.with_suffix(".out").read_text().splitlines()
            # a rejected row, or a record that isn't confirmed, is status 1
            status = 1 if schedule.stem in ("lower-revision-confirmed", "refused-rows", "waiting-group") else 0
            with self.subTest(schedule=schedule.stem):
                self.assert_prints(scimlink("simulate", schedule), *lines, status=status)

    def test_the_example(self):
        lines = (SCHEDULES / "repeated-messages.out").read_text().splitlines()
        self.assert_prints(scimlink("simulate", EXAMPLES / "late-leaver.schedule"), *lines)

    def test_messages_that_are_cut_or_absent(self):
        cuts = ["cut 1 0", "cut 1 18", "cut 2 0"]
        absent = ["deliver 2", "deliver 0", "send user zoe", "send group crew"]
        events = ["user bob,1,,,,,active", "send user bob", *cuts, *absent]
        reports = ["1 new", "2 find 1", "3 cut", "4 cut", "5 none", "6 none", "7 none", "8 C7", "9 C7"]
        bob = "user bob wanted=1 confirmed=0 held=0 version=0 active=-"
        self.assert_prints(self.simulate(text(*events)), *reports, bob, status=1)

    def test_a_rejected_row_beside_confirmed_records(self):
        creation = SCHEDULES / "creation.schedule"
        *reports, bob = creation.with_suffix(".out").read_text().splitlines()
        run = self.simulate(creation.read_text() + text("user bob,1,,,,bob@example.com,active"))
        self.assert_prints(run, *reports, "9 S7", bob, status=1)

    def test_rows_with_and_without_a_department(self):
        rows = ["bob,2,,,,,active,Sales", "bob,2,,,,,active,Sales", "bob,2,,,,,active", "bob,3,,,,,active,"]
        rows += ["ann,2,,,,,active", "ann,2,,,,,active,", "ann,2,,,,,active,Sales"]
        reports = ["1 new", "2 known", "3 S7", "4 new", "5 new", "6 known", "7 S7"]
        views = [f"user {wanted} confirmed=0 held=0 version=0 active=-" for wanted in ("ann wanted=2", "bob wanted=3")]
        self.assert_prints(self.simulate(text(*(f"user {row}" for row in rows))), *reports, *views, status=1)

    def test_comments_and_line_ends(self):
        creation = SCHEDULES / "creation.schedule"
        *reports, bob = creation.with_suffix(".out").read_text().splitlines()
        events = creation.read_text().replace("\n", "\r\n")
        run = self.simulate(f"# a user\r\n\r\n{events}#\n\nsend user BOB")
        self.assert_prints(run, *reports, "9 nothing", bob)

    def test_no_events(self):
        self.assert_prints(self.simulate(""))
        self.assert_prints(self.simulate("deliver 000000000000000001\n"), "1 none")

    def test_lines_that_are_no_events(self):
        for line in NO_EVENTS.split("\n"):
            with self.subTest(line=line):
                run = self.simulate(text("# one", "user bob,1,,,,,active", line, "deliver"))
                self.assert_prints(run, status=1, errors=["schedule line 3: L1"])

    def test_files_that_cannot_be_read(self):
        self.assert_fault(self.simulate("user bob,1,\xff,,,,active\n"), "file fault")
        for path in (self.folder / "absent", self.folder):
            with self.subTest(path=path):
                self.assert_fault(scimlink("simulate", path), "file fault")

    def test_an_output_that_takes_nothing(self):
        for output in (full_disk, broken_pipe):
            with self.subTest(output=output.__name__), output() as stdout:
                run = scimlink("simulate", SCHEDULES / "creation.schedule", stdout=stdout)
                self.assert_fault(run, "file fault")

    def test_a_long_run(self):
        events = text(*(f"user user{number % 100},{number},,,,,active" for number in range(1, 20_001)))
        run = self.simulate(events)
        self.assert_reports(run, 1)
        self.assertEqual(run.lines[:20_000], [f"{number} new" for number in range(1, 20_001)])
        self.assertEqual(len(run.lines), 20_100)
        with broken_pipe() as stdout:
            self.assert_fault(self.simulate(events, stdout=stdout), "file fault")
