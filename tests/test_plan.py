"""`push --plan`: what a push would ask for, which changes nothing."""
import shutil

from databases import OLDER_FORMS, group_entry, make_journal, user_entry
from support import NOWHERE, ROOT, USERS_HEADER, full_disk, resource_id, scimlink
from test_push import PushTest

OLDER = "journal fault: it is of an older format, and this command changes nothing"


class PlanTest(PushTest):
    def plan(self, *more, **options):
        command = ["push", "--plan", *self.site.source_options(), "--journal", self.site.journal]
        return scimlink(*command, *more, **options)

    def plans(self, *lines, status=0, errors=(), options=()):
        """A plan prints these lines, and leaves all files of the folder as they are."""
        before = self.site.files()
        self.assert_prints(self.plan(*options), *lines, status=status, errors=errors)
        self.assertEqual(self.site.files(), before)


class LineTest(PlanTest):
    def test_a_journal_that_is_not_there_counts_as_empty(self):
        self.site.write_users("bob,1,,,,,active", "ann,2,,,,,left")
        self.site.write_groups("crew,1,ann bob")
        self.plans("user ann new 2 left", "user bob new 1 active", "group crew new 1 members=2")
        self.assertFalse(self.site.journal.exists())

    def test_a_file_of_many_megabytes(self):
        """A file is read to its end. Empty lines are no records."""
        self.site.users.write_text(USERS_HEADER + "\n" * (17 << 20) + "bob,1,,,,,active\n")
        self.plans("user bob new 1 active")

    def test_what_the_files_change(self):
        self.join()
        self.site.write_users("bob,2,,,,,left", "ann,1,,,,,active", "cid,1,,,,,active")
        self.site.write_groups("crew,1,ann cid")
        self.plans("user bob 1 to 2 left", "user cid new 1 active", "group crew new 1 members=2")
        # the push that follows asks for these records, in this order
        self.pushes(
            6, "user ann confirmed 1", "user bob confirmed 2", "user cid confirmed 1", "group crew confirmed 1",
        )
        self.plans()

    def test_nothing_to_ask_for(self):
        self.join()
        self.plans()

    def test_a_record_that_only_the_journal_has(self):
        make_journal(self.site.journal, [user_entry("bob", revision=3, confirmed=1, id=resource_id(1))])
        self.site.write_users("ann,1,,,,,active")
        self.plans("user ann new 1 active", "user bob 1 to 3 active")

    def test_a_group(self):
        users = [user_entry("ann", confirmed=1, id=resource_id(1))]
        make_journal(self.site.journal, users, [group_entry("crew", "ann", confirmed=1, id=resource_id(2))])
        self.site.write_users("ann,1,,,,,active")
        self.site.write_groups("crew,2,")
        self.plans("group crew 1 to 2 members=0")

    def test_epochs(self):
        make_journal(self.site.journal, [user_entry("bob", revision=57, confirmed=57, id=resource_id(1))])
        self.site.write_users("bob,1:1,,,,,left")
        self.plans("user bob 57 to 1:1 left")


class ChangeTest(PlanTest):
    """What a line changes, beside the row that the journal has, if that is confirmed."""
    BOB = {"number": "1002", "given": "Bob", "family": "Ray", "mail": "bob@x", "department": "Sales"}
    HEADER = "login,revision,number,given,family,mail,status,department"

    def bob(self, change, *rows, **known):
        """The plan's line of bob, if the file has these rows, and the journal has this of him."""
        make_journal(self.site.journal, [user_entry("bob", **self.BOB | {"id": resource_id(1), "confirmed": 1} | known)])
        self.site.write_users(*rows, header=self.HEADER)
        with self.subTest(rows=rows, known=known):
            self.plans(f"user bob {change}")
        self.site.journal.unlink()

    def test_each_column(self):
        for row, name in (
            ("BOB,2,1002,Bob,Ray,bob@x,active,Sales", "login"),
            ("bob,2,1003,Bob,Ray,bob@x,active,Sales", "number"),
            ("bob,2,1002,Rob,Ray,bob@x,active,Sales", "given"),
            ("bob,2,1002,Bob,Roy,bob@x,active,Sales", "family"),
            ("bob,2,1002,Bob,Ray,BOB@x,active,Sales", "mail"),
            ("bob,2,1002,Bob,Ray,bob@x,active,", "department"),
            ("bob,2,1002,Bob,Ray,,active,Board", "mail, department"),
            ("Bob,2,,,,,active,", "login, number, given, family, mail, department"),
        ):
            self.bob(f"1 to 2: {name}", row)

    def test_a_column_that_is_gone(self):
        self.site.write_users("bob,2,1002,Bob,Ray,bob@x,active")
        make_journal(self.site.journal, [user_entry("bob", **self.BOB, confirmed=1, id=resource_id(1))])
        self.plans("user bob 1 to 2: department")

    def test_nothing_but_the_revision(self):
        self.bob("1 to 2 active", "bob,2,1002,Bob,Ray,bob@x,active,Sales")
        self.bob("1 to 2 left", "bob,2,1002,Bob,Ray,bob@x,left,Sales", active=0)

    def test_a_leaver(self):
        self.bob("1 to 2 left", "bob,2,1002,Bob,Ray,bob@x,left,Sales")
        self.bob("1 to 2 left: mail, department", "bob,2,1002,Bob,Ray,,left,")
        self.bob("1 to 2 left: mail", "bob,2,1002,Bob,Ray,bob@y,left,Sales", active=0)

    def test_somebody_who_is_back(self):
        self.bob("3 to 4 active again", "bob,4,1002,Bob,Ray,bob@x,active,Sales", active=0, revision=3, confirmed=3)
        self.bob("1 to 2 active again: mail", "bob,2,1002,Bob,Ray,bob@y,active,Sales", active=0)

    def test_beside_a_row_that_is_not_confirmed(self):
        self.bob("1 to 3 active", "bob,3,1002,Bob,Ray,bob@y,active,Sales", revision=2)
        self.bob("1 to 3 active", "bob,3,1002,Bob,Ray,bob@x,active,Sales", revision=2, active=0)
        self.bob("new 2 active", "bob,2,1002,Bob,Ray,bob@y,active,Sales", confirmed=0, id=None)

    def test_a_row_that_was_wanted_before(self):
        self.bob("1 to 2 active", "bob,2,1002,Bob,Ray,bob@x,active,Sales", revision=2)

    def test_several_rows_of_a_record(self):
        """The last of them is compared with the confirmed one."""
        self.bob("1 to 3 active", "bob,2,1002,Bob,Ray,other,active,Sales", "bob,3,1002,Bob,Ray,bob@x,active,Sales")
        self.bob("1 to 3: mail", "bob,2,1002,Bob,Ray,bob@x,left,Sales", "bob,3,1002,Bob,Ray,other,active,Sales")

    def test_groups(self):
        users = [user_entry(name, confirmed=1, id=resource_id(number)) for number, name in enumerate(("ann", "bob"), 1)]
        make_journal(self.site.journal, users, [
            group_entry(name, members, confirmed=1, id=name) for name, members in (("crew", "ann"), ("duo", "ann bob"), ("trio", "bob"))
        ])
        self.site.write_users()
        self.site.write_groups("crew,2,ann bob", "Duo,2,bob ann", "TRIO,3,")
        self.plans("group crew 1 to 2 members=2", "group duo 1 to 2 members=2: name", "group trio 1 to 3 members=0: name")

    def test_a_plan_then_a_push(self):
        self.join()
        self.site.write_users("bob,2,,,,bob@x,active", "ann,2,,,,,left", "cid,1,,,,,active")
        self.plans("user ann 1 to 2 left", "user bob 1 to 2: mail", "user cid new 1 active")
        self.pushes(6, "user ann confirmed 2", "user bob confirmed 2", "user cid confirmed 1")
        self.plans()
        self.site.write_users("ann,3,,,,ann@x,active")
        self.plans("user ann 2 to 3 active again: mail")


class RejectedTest(PlanTest):
    def test_rejected_records_are_reported_as_a_push_does(self):
        make_journal(self.site.journal, [user_entry("bob", revision=2, confirmed=2, id=resource_id(1))])
        self.site.write_users("bob,2,,,,,left", "ann,x,,,,,active", "cid,1,,,,,active")
        self.site.write_groups("crew,1,zoe")
        errors = ["users record 2: S5", "users record 1: S7", "groups record 1: S8 zoe"]
        self.plans("user cid new 1 active", status=1, errors=errors)

    def test_a_header_of_another_file(self):
        self.site.write_users("bob,1", header="login,revision")
        self.plans(status=1, errors=["users: S1"])

    def test_an_older_row(self):
        make_journal(self.site.journal, [user_entry("bob", revision=2, confirmed=2, id=resource_id(1))])
        self.site.write_users("bob,1,,,,,left")
        self.plans(errors=["users record 1: older, 1 is below 2; it says left"])


class JournalTest(PlanTest):
    def test_an_older_format_is_not_carried_over(self):
        self.site.write_users("bob,1,,,,,active")
        for form in OLDER_FORMS:
            with self.subTest(format=form.number):
                self.site.journal.unlink(missing_ok=True)
                make_journal(self.site.journal, [user_entry("bob")], form=form)
                self.plans(status=3, errors=[OLDER])

    def test_journals_that_older_versions_made(self):
        self.site.write_users("bob,1,,,,,active")
        for number in (1, 2):
            with self.subTest(format=number):
                shutil.copyfile(ROOT / f"tests/format-{number}.journal", self.site.journal)
                self.plans(status=3, errors=[OLDER])

    def test_a_file_that_is_no_journal(self):
        self.site.write_users("bob,1,,,,,active")
        self.site.journal.write_bytes(b"no database" * 100)
        self.plans(status=3, errors=["journal fault J1"])

    def test_a_damaged_journal(self):
        self.site.write_users("bob,1,,,,,active")
        make_journal(self.site.journal, [user_entry("bob", active=7)])
        self.plans(status=3, errors=["journal fault J2"])

    def test_a_newer_journal(self):
        self.site.write_users("bob,1,,,,,active")
        make_journal(self.site.journal, numbers=[4])
        self.plans(status=3, errors=["journal fault J4"])

    def test_an_empty_file_counts_as_empty(self):
        self.site.write_users("bob,1,,,,,active")
        self.site.journal.touch()
        self.assert_prints(self.plan(), "user bob new 1 active")


class ArgumentTest(PlanTest):
    def test_no_address_is_needed_and_none_is_asked(self):
        self.site.write_users("bob,1,,,,,active")
        self.plans("user bob new 1 active")
        self.plans("user bob new 1 active", options=["--to", NOWHERE])

    def test_a_push_needs_its_address(self):
        self.site.write_users("bob,1,,,,,active")
        run = scimlink("push", *self.site.source_options(), "--journal", self.site.journal)
        self.assertEqual((run.status, run.output), (2, b""))
        self.assertIn("  --to <HOST:PORT>\n", run.errors)
        self.assertFalse(self.site.journal.exists())

    def test_a_plan_is_not_quiet(self):
        self.site.write_users("bob,1,,,,,active")
        run = self.plan("--quiet")
        self.assertEqual((run.status, run.output), (2, b""))
        self.assertIn("'--plan' cannot be used with '--quiet'", run.errors)

    def test_a_file_that_is_not_there(self):
        for sources in self.site.unreadable_sources():
            self.site.write_users("bob,1,,,,,active")
            run = scimlink("push", "--plan", *sources, "--journal", self.site.journal)
            self.assert_reports(run, 3, "file fault")

    def test_lines_that_cannot_be_written(self):
        self.site.write_users("bob,1,,,,,active")
        with full_disk() as output:
            self.assert_reports(self.plan(stdout=output), 3, "file fault")


class ThresholdTest(PlanTest):
    def test_too_many_leavers_are_reported_after_the_lines(self):
        make_journal(self.site.journal, [user_entry(name, confirmed=1, id=resource_id(number)) for number, name in enumerate(("ann", "bob"), 1)])
        self.site.write_users("ann,2,,,,,left", "bob,2,,,,,left")
        lines = ["user ann 1 to 2 left", "user bob 1 to 2 left"]
        self.plans(*lines, options=["--most-leavers", "2"])
        excess = "2 users would be switched off, more than 1: nothing was done"
        self.plans(*lines, status=1, errors=[excess], options=["--most-leavers", "1"])


