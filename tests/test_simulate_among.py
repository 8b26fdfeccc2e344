"""`simulate` among others, who write at the same provider.

What each schedule prints was worked out by hand from the rules of the protocol.
"""
from support import EXAMPLES, ProgramTest, scimlink, text

# What the schedule in the examples prints
OF_THE_EXAMPLE = """\
1 other 201
2 other 200
3 new
4 waits bob
5 find 1
6 answer 2 200
7 absent
8 create 3
9 answer 4 201
10 confirmed 1
11 other 201
user bob wanted=1 confirmed=1 held=1 version=1 active=true
other user dee held=1 version=2 active=false
other group crew held=1 version=1 members=2"""


class SimulateAmongTest(ProgramTest):
    def simulate(self, *lines, settle=False):
        """A run of the schedule of these lines."""
        path = self.folder / "schedule"
        path.write_text(text(*lines), encoding="utf-8")
        return scimlink("simulate", path, *["--settle"] * settle)

    def test_the_example(self):
        run = scimlink("simulate", EXAMPLES / "others.schedule")
        self.assert_prints(run, *OF_THE_EXAMPLE.split("\n"))

    def test_the_example_of_a_restored_store(self):
        run = scimlink("simulate", EXAMPLES / "restored.schedule", "--settle")
        bob = "user bob wanted=2 confirmed=2 held=2 version=2 active=false"
        self.assert_prints(run, "1 other 201", "2 other 201", "3 new", "settled in 2 exchanges", bob, "other user dee held=3 version=1 active=true")

    def test_creation_and_replacement(self):
        creation = "other user Dee,1,,Dee,,,active,Sales"
        self.assert_prints(self.simulate(creation), "1 other 201", "other user dee held=1 version=1 active=true")
        run = self.simulate(creation, "other user DEE,4,,,,,left")
        self.assert_prints(run, "1 other 201", "2 other 200", "other user dee held=4 version=2 active=false")
        # others may go back: nobody keeps them from it
        run = self.simulate(creation, "other user dee,4,,,,,left", "other user dee,2,,,,,active")
        reports = ["1 other 201", "2 other 200", "3 other 200"]
        self.assert_prints(run, *reports, "other user dee held=2 version=3 active=true")

    def test_a_group_waits_for_its_first_member_by_key(self):
        acts = ["other group crew,1,zoe Ann bob", "other user ann,1,,,,,active", "other group crew,1,zoe Ann bob"]
        waiting = "other group crew held=0 version=0 members=0"
        ann = "other user ann held=1 version=1 active=true"
        self.assert_prints(self.simulate(*acts), "1 waits ann", "2 other 201", "3 waits bob", ann, waiting)
        acts += ["other user zoe,1,,,,,active", "other user bob,1,,,,,active", "other group crew,2,zoe Ann bob"]
        views = [f"other user {key} held=1 version=1 active=true" for key in ("ann", "bob", "zoe")]
        reports = ["1 waits ann", "2 other 201", "3 waits bob", "4 other 201", "5 other 201", "6 other 201"]
        self.assert_prints(self.simulate(*acts), *reports, *views, "other group crew held=2 version=1 members=3")
        run = self.simulate(*acts, "other group Crew,3,bob")
        self.assert_prints(run, *reports, "7 other 200", *views, "other group crew held=3 version=2 members=1")

    def test_a_group_without_members(self):
        run = self.simulate("other group Crew,1,")
        self.assert_prints(run, "1 other 201", "other group crew held=1 version=1 members=0")

    def test_a_name_of_ours_that_others_take(self):
        lines = ["user bob,1,,,,,active", "# others come first", "send user bob", "deliver 1", "deliver 2"]
        lines += ["", "other user bob,3,,,,,left", "send user bob", "deliver 3", "deliver 4"]
        lines += ["send user bob", "deliver 5", "deliver 6"]
        reports = ["1 new", "2 find 1", "3 answer 2 200", "4 absent", "5 other 201", "6 create 3"]
        # what others wrote has a higher revision than the source's
        reports += ["7 answer 4 409", "8 forgotten", "9 find 5", "10 answer 6 200", "11 C1"]
        bob = "user bob wanted=1 confirmed=0 held=3 version=1 active=false"
        told = "schedule line 7: others write user bob, a record of the source"
        self.assert_prints(self.simulate(*lines), *reports, bob, status=1, errors=[told])

    def test_what_is_held_at_the_start(self):
        """Somebody had switched bob on: the source's row, of a higher revision, switches him off, and nothing is contested."""
        lines = ["held user bob,1,,,,,active", "held user dee,1,,,,,active", "held group crew,1,bob zoe", "user bob,2,,,,,left"]
        reports = ["1 other 201", "2 other 201", "3 waits zoe", "4 new"]
        others = ["other user dee held=1 version=1 active=true", "other group crew held=0 version=0 members=0"]
        bob = "user bob wanted=2 confirmed=0 held=1 version=1 active=true"
        self.assert_prints(self.simulate(*lines), *reports, bob, *others, status=1)
        bob = "user bob wanted=2 confirmed=2 held=2 version=2 active=false"
        self.assert_prints(self.simulate(*lines, settle=True), *reports, "settled in 2 exchanges", bob, *others)

    def test_what_is_held_comes_first(self):
        held = "held user bob,1,,,,,active"
        for line in ("user ann,1,,,,,active", "other user ann,1,,,,,active", "restart provider"):
            with self.subTest(line=line):
                run = self.simulate("# one", held, line, "", held)
                self.assert_prints(run, status=1, errors=["schedule line 5: L1"])

    def doubting(self, *lines):
        """The run of these lines after bob, who left, was created and confirmed, and somebody switched him on again."""
        created = ["user bob,1,,,,,left", "send user bob", "deliver 1", "deliver 2", "send user bob", "deliver 3", "deliver 4"]
        return self.simulate(*created, "other user bob,1,,,,,active", *lines)

    def assert_doubted(self, run, *reports, version, active, status=0):
        created = ["1 new", "2 find 1", "3 answer 2 200", "4 absent", "5 create 3", "6 answer 4 201", "7 confirmed 1"]
        bob = f"user bob wanted=1 confirmed=1 held=1 version={version} active={active}"
        told = "schedule line 8: others write user bob, a record of the source"
        self.assert_prints(run, *created, "8 other 200", *reports, bob, status=status, errors=[told])

    def test_what_somebody_changed_is_put_right_once_it_is_doubted(self):
        run = self.doubting("send user bob", "doubt user bob", "send user bob", "deliver 5", "deliver 6", "send user bob",
                            "deliver 7", "deliver 8", "send user bob", "doubt user eve")
        reports = ["9 nothing", "10 doubted", "11 find 5", "12 answer 6 200", "13 seen", "14 replace 7", "15 answer 8 200"]
        self.assert_doubted(run, *reports, "16 seen", "17 nothing", "18 C7", version=3, active="false")

    def test_what_is_as_wanted_is_searched_for_and_left(self):
        run = self.doubting("other user bob,1,,,,,left", "doubt user bob", "send user bob", "deliver 5", "deliver 6", "send user bob")
        created = ["1 new", "2 find 1", "3 answer 2 200", "4 absent", "5 create 3", "6 answer 4 201", "7 confirmed 1", "8 other 200"]
        reports = ["9 other 200", "10 doubted", "11 find 5", "12 answer 6 200", "13 seen", "14 nothing"]
        told = [f"schedule line {line}: others write user bob, a record of the source" for line in (8, 9)]
        bob = "user bob wanted=1 confirmed=1 held=1 version=3 active=false"
        self.assert_prints(run, *created, *reports, bob, errors=told)

    def test_an_answer_from_before_the_doubt_settles_it(self):
        """So a push learns from its own exchanges alone."""
        run = self.doubting("doubt user bob", "deliver 4", "send user bob")
        self.assert_doubted(run, "9 doubted", "10 seen", "11 nothing", version=2, active="true")

    def test_a_restart_forgets_the_doubt(self):
        run = self.doubting("doubt user bob", "restart connector", "send user bob")
        self.assert_doubted(run, "9 doubted", "10 restarted", "11 nothing", version=2, active="true")

    def test_each_line_about_a_record_of_the_source_is_told(self):
        lines = ["other user BOB,1,,,,,active", "other user dee,1,,,,,active", "other group bob,1,", "other user bob,1,,,,,left"]
        lines += ["user bob,1,,,,,active", "group crew,1,bob", "send user bob", "other group crew,1,bob"]
        reports = ["1 other 201", "2 other 201", "3 other 201", "4 other 200", "5 new", "6 new", "7 find 1", "8 other 201"]
        views = ["user bob wanted=1 confirmed=0 held=1 version=2 active=false"]
        views += ["group crew wanted=1 confirmed=0 held=1 version=1 members=1"]
        others = ["other user dee held=1 version=1 active=true", "other group bob held=1 version=1 members=0"]
        errors = [f"schedule line {line}: others write user bob, a record of the source" for line in (1, 4)]
        errors += ["schedule line 8: others write group crew, a record of the source"]
        self.assert_prints(self.simulate(*lines), *reports, *views, *others, status=1, errors=errors)

    def test_a_late_line_about_a_record_of_the_source_is_reported(self):
        """The line comes after 601 others, 301 of which are events."""
        run = self.simulate(*["# nothing"] * 300, *["deliver 1"] * 300, "user bob,1,,,,,active", "other user bob,1,,,,,left")
        reports = [*(f"{number} none" for number in range(1, 301)), "301 new", "302 other 201"]
        bob = "user bob wanted=1 confirmed=0 held=1 version=1 active=false"
        told = "schedule line 602: others write user bob, a record of the source"
        self.assert_prints(run, *reports, bob, status=1, errors=[told])

    def test_settling_among_others(self):
        lines = ["user bob,2,,,,,active", "group crew,1,bob", "other user dee,1,,,,,active", "send user bob"]
        reports = ["1 new", "2 new", "3 other 201", "4 find 1"]
        dee = "other user dee held=1 version=1 active=true"
        views = ["user bob wanted=2 confirmed=2 held=2 version=1 active=true"]
        views += ["group crew wanted=1 confirmed=1 held=1 version=1 members=1"]
        # of each record: a search that finds none, and a creation
        self.assert_prints(self.simulate(*lines, settle=True), *reports, "settled in 4 exchanges", *views, dee)

    def test_the_status_is_that_of_ours(self):
        rows = ["user bob,2,,,,,active", "user bob,2,,,,,left", "other user dee,1,,,,,active"]
        views = ["user bob wanted=2 confirmed=0 held=0 version=0 active=-", "other user dee held=1 version=1 active=true"]
        self.assert_prints(self.simulate(*rows), "1 new", "2 S7", "3 other 201", *views, status=1)

    def test_others_alone_settle_nothing(self):
        dee = "other user dee held=1 version=1 active=true"
        run = self.simulate("other user dee,1,,,,,active", settle=True)
        self.assert_prints(run, "1 other 201", "settled in 0 exchanges", dee)

    def test_a_later_line_that_says_nothing(self):
        run = self.simulate("other user dee,1,,,,,active", "user bob,1,,,,,active", "other user", "deliver")
        self.assert_prints(run, status=1, errors=["schedule line 3: L1"])
