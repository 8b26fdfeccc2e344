"""`push --snapshot`: which rows are offered for complete files of today, by the journal."""
import pathlib
import tempfile

from databases import department_text, group_entry, make_journal, sql, user_entry, user_text
from snapshots import ABSENT, NO_GROUP, NOBODY, SNAPSHOT, SnapshotTest, confirmed, wrong_header
from support import NOWHERE, Site, resource_id

LAST = {"revision": 2_000_000_000, "epoch": 999_999, "confirmed": 2_000_000_000, "confirmed_epoch": 999_999}
CONTENT = "SELECT content FROM resource ORDER BY number"
# A user, and the header of a file with every column
BOB = {"number": "1002", "given": "Bob", "family": "Ray", "mail": "bob@x", "department": "Sales"}
HEADER = "login,number,given,family,mail,status,department"


class UserTest(SnapshotTest):
    def test_new_users(self):
        self.users_say(HEADER, "bob,1002,Bob,Ray,bob@x,active,Sales", "ann,,,,,left,")
        self.carries(4, "ann 1", "bob 1")
        bob = department_text(
            "bob", 1, "Sales", externalId="1002", name={"givenName": "Bob", "familyName": "Ray"},
            emails=[{"type": "work", "primary": True, "value": "bob@x"}],
        )
        self.assertEqual(sql(self.site.store, CONTENT), [(user_text("ann", active=False),), (bob,)])

    def test_the_same_file_again_sends_nothing(self):
        self.users_say("login,mail", "ann,ann@x", "bob,bob@x")
        self.groups_say("name,members", "crew,ann bob", "none,")
        records = ["ann 1", "bob 1", "group crew 1", "group none 1"]
        self.carries(8, *records)
        before = self.site.journal.read_bytes()
        self.carries(0, *records, most=0)
        self.assertEqual(self.site.journal.read_bytes(), before)
        self.plans()

    def test_the_same_fields_that_are_not_confirmed(self):
        self.keep(("bob", {"revision": 3, "confirmed": 2}))
        self.users_say("login", "bob")
        self.plans("user bob 2 to 3 active")

    def test_another_field(self):
        self.keep(("bob", BOB | {"revision": 4}))
        row = {"login": "bob", "status": "active"} | BOB
        for column, value in (row | {"status": "left", "login": "BOB"}).items():
            with self.subTest(column):
                other = row | {column: value if column in ("status", "login") else "other"}
                self.users_say(HEADER, ",".join(other[it] for it in HEADER.split(",")))
                self.plans(f"user bob 4 to 5{' left' if column == 'status' else f': {column}'}")
        self.users_say(HEADER, ",".join(row[it] for it in HEADER.split(",")))
        self.plans()

    def test_another_field_is_sent(self):
        self.users_say("login,mail", "ann,ann@x", "bob,bob@x")
        self.carries(4, "ann 1", "bob 1")
        self.users_say("login,mail", "ann,ann@x", "bob,bob@y")
        self.carries(2, "ann 1", "bob 2")
        mails = {"ann": ("ann@x", 1), "bob": ("bob@y", 2)}
        contents = [
            (user_text(name, revision, emails=[{"type": "work", "primary": True, "value": mail}]),)
            for name, (mail, revision) in mails.items()
        ]
        self.assertEqual(sql(self.site.store, CONTENT), contents)

    def test_an_absent_user(self):
        """His account is off, and keeps its fields."""
        self.users_say("login,mail", "ann,ann@x", "bob,bob@x")
        self.carries(4, "ann 1", "bob 1")
        self.users_say("login,mail", "ann,ann@x")
        self.carries(2, "ann 1", "bob 2", most=1)
        bob = user_text("bob", 2, active=False, emails=[{"type": "work", "primary": True, "value": "bob@x"}])
        self.assertEqual(sql(self.site.store, CONTENT)[1], (bob,))
        self.carries(0, "ann 1", "bob 2", most=0)

    def test_absent_users_who_have_left(self):
        cid = {"revision": 5, "confirmed": 4, "active": 0}
        self.keep(("ann", {}), ("bob", {"revision": 2, "active": 0}), ("cid", cid))
        self.users_say("login", "ann")
        # an earlier file withdrew cid
        self.plans("user cid 4 to 5 left")

    def test_an_absent_user_whose_last_row_is_not_confirmed(self):
        self.keep(("ann", {}), ("bob", {"revision": 3, "confirmed": 2}))
        self.users_say("login", "ann")
        self.plans(f"user bob 2 to 4 left {ABSENT}")

    def test_the_plan_of_somebody_who_is_back(self):
        self.keep(("ann", {}), ("bob", {"revision": 3, "active": 0}))
        for mail, more in ("", ""), ("bob@x", ": mail"):
            self.users_say("login,mail", "ann,", f"bob,{mail}")
            self.plans(f"user bob 3 to 4 active again{more}")

    def test_somebody_leaves_comes_back_and_leaves(self):
        self.users_say("login", "ann", "bob")
        self.carries(4, "ann 1", "bob 1")
        for revision, records in ((2, ["ann"]), (3, ["ann", "bob"]), (4, ["ann"])):
            self.users_say("login", *records)
            self.carries(2, "ann 1", f"bob {revision}")
            bob = f"user bob held={revision} version={revision} active={'true' if 'bob' in records else 'false'}"
            self.assert_prints(self.site.show_store(), "user ann held=1 version=1 active=true", bob)

    def test_somebody_who_left_by_the_file(self):
        self.users_say("login,status", "ann,active", "bob,active")
        self.carries(4, "ann 1", "bob 1")
        self.users_say("login,status", "ann,active", "bob,left")
        self.carries(2, "ann 1", "bob 2")
        # a user without a record stays off
        self.users_say("login,status", "ann,active")
        self.carries(0, "ann 1", "bob 2")
        self.users_say("login,status", "ann,active", "bob,active")
        self.carries(2, "ann 1", "bob 3")

    def test_a_run_that_could_not_reach_the_provider(self):
        self.users_say("login", "ann", "bob")
        self.carries(4, "ann 1", "bob 1")
        self.users_say("login", "ann", "cid")
        run = self.site.push(NOWHERE, *SNAPSHOT, "9")
        self.assert_prints(run, *confirmed("ann 1"), status=3, errors=["connection fault"])
        # the journal has the rows, with their revisions
        self.carries(4, "ann 1", "bob 2", "cid 1")


class GroupTest(SnapshotTest):
    def join(self):
        self.users_say("login", "ann", "bob")
        self.groups_say("name,members", "crew,ann bob", "duo,ann")
        self.carries(8, "ann 1", "bob 1", "group crew 1", "group duo 1")

    def held(self, crew, duo):
        lines = [f"user {name} held=1 version=1 active=true" for name in ("ann", "bob")]
        self.assert_prints(self.site.show_store(), *lines, f"group crew {crew}", f"group duo {duo}")

    def test_other_members(self):
        self.join()
        # members are a set of names
        self.groups_say("name,members", "crew,BOB ann", "duo,bob")
        self.carries(2, "ann 1", "bob 1", "group crew 1", "group duo 2")
        self.held("held=1 version=1 members=2", "held=2 version=2 members=1")

    def test_an_absent_group(self):
        self.join()
        self.groups_say("name,members", "duo,ann")
        self.carries(2, "ann 1", "bob 1", "group crew 2", "group duo 1", most=0)
        self.held("held=2 version=2 members=0", "held=1 version=1 members=1")
        self.carries(0, "ann 1", "bob 1", "group crew 2", "group duo 1")
        self.groups_say("name,members", "duo,ann", "crew,bob")
        self.carries(2, "ann 1", "bob 1", "group crew 3", "group duo 1")

    def test_without_a_file_of_groups_each_group_stays(self):
        self.join()
        self.site.groups.unlink()
        self.users_say("login", "ann")
        self.carries(2, "ann 1", "bob 2", "group crew 1", "group duo 1")

    def test_a_leaver_stays_a_member_until_the_group_leaves_him_out(self):
        self.join()
        self.users_say("login", "ann")
        self.carries(2, "ann 1", "bob 2", "group crew 1", "group duo 1")
        self.groups_say("name,members", "crew,ann", "duo,ann")
        self.carries(2, "ann 1", "bob 2", "group crew 2", "group duo 1")

    def test_a_member_who_is_nowhere(self):
        self.join()
        self.groups_say("name,members", "crew,ann zoe", "duo,ann")
        records = ["ann 1", "bob 1", "group crew 1", "group duo 1"]
        # the group is in the file, so it isn't emptied
        self.carries(0, *records, status=1, errors=["groups record 1: S8 zoe"])
        self.users_say("login", "ann", "bob", "zoe")
        self.carries(4, "ann 1", "bob 1", "zoe 1", "group crew 2", "group duo 1")


class RevisionTest(SnapshotTest):
    def test_the_revision_after_the_last_of_an_epoch(self):
        largest = {"revision": 2_000_000_000, "confirmed": 2_000_000_000}
        later = largest | {"epoch": 999_998, "confirmed_epoch": 999_998}
        self.keep(("ann", largest), ("bob", later), ("cid", {"revision": 1_999_999_999}))
        self.users_say("login,mail", "ann,ann@x")
        lines = ["user ann 2000000000 to 1:1: mail", f"user bob 999998:2000000000 to 999999:1 left {ABSENT}"]
        self.plans(*lines, f"user cid 1999999999 to 2000000000 left {ABSENT}")

    def test_the_revision_after_the_last_one(self):
        self.keep(("ann", LAST), ("bob", LAST))
        records = ["ann 999999:2000000000", "bob 999999:2000000000"]
        self.users_say("login", "ann", "bob")
        self.carries(0, *records)
        # a changed row; and an absent user, whose place is after the last record
        self.users_say("login,mail", "ann,ann@x")
        self.carries(0, *records, status=1, errors=["users record 1: S14", "users record 2: S14"], most=0)
        self.plans(status=1, errors=["users record 1: S14", "users record 2: S14"])

    def test_a_group_after_the_last_revision(self):
        users = [user_entry("ann", confirmed=1, id=resource_id(1))]
        make_journal(self.site.journal, users, [group_entry("crew", "ann", id=resource_id(2), **LAST)])
        self.users_say("login", "ann")
        self.groups_say("name,members", "duo,ann")
        self.plans("group duo new 1 members=1", status=1, errors=["groups record 2: S14"])

    def test_after_a_file_of_revisions(self):
        self.site.write_users("ann,7,,,,ann@x,active", "bob,1:3,,,,,active", "cid,20261126,,,,,left")
        self.pushes(6, *confirmed("ann 7", "bob 1:3", "cid 20261126"))
        self.users_say("login,mail", "ann,ann@x")
        self.carries(2, "ann 7", "bob 1:4", "cid 20261126")
        self.users_say("login,mail", "ann,ann@y", "bob,", "cid,")
        self.carries(6, "ann 8", "bob 1:5", "cid 20261127")

    def test_a_file_of_revisions_after_it(self):
        self.users_say("login,mail", "ann,ann@x", "bob,bob@x", "cid,")
        self.carries(6, "ann 1", "bob 1", "cid 1")
        self.users_say("login,mail", "ann,ann@x", "bob,bob@y")
        self.carries(4, "ann 1", "bob 2", "cid 2")
        # the file doesn't know these revisions; who isn't in it stays as he is
        self.site.write_users("ann,1,,,,other,active", "bob,1,,,,bob@x,active")
        errors = ["users record 1: S7", "users record 2: older, 1 is below 2"]
        self.pushes(0, *confirmed("ann 1", "bob 2", "cid 2"), status=1, errors=errors)
        self.site.write_users("ann,2,,,,other,active", "cid,3,,,,,active")
        self.pushes(4, *confirmed("ann 2", "bob 2", "cid 3"))


class RejectedTest(SnapshotTest):
    def test_whoever_has_a_rejected_record_is_not_switched_off(self):
        self.keep(*((name, {}) for name in ("ann", "bob", "cid", "dee")))
        lines = ["login,status,mail", "ann,gone,", "bob,active,\xff", "cid,active,ok"]
        self.site.users.write_bytes("\n".join(lines).encode("latin-1"))
        errors = ["users record 1: S6", "users record 2: S3"]
        self.plans("user cid 1 to 2: mail", f"user dee 1 to 2 left {ABSENT}", status=1, errors=errors)

    def test_a_group_with_a_rejected_record_is_not_emptied(self):
        names = [f"g{number}" for number in range(5)]
        self.keep(("ann", {}), groups=[group_entry(name, "ann", confirmed=1, id=name) for name in names])
        many = " ".join(f"u{number}" for number in range(401))
        self.users_say("login", "ann")
        self.groups_say("name,members", "g0,ann  ann", "g1,ann Ann", f"g2,{many}", "g3,ann")
        errors = [f"groups record {place}: {code}" for place, code in enumerate(["S4", "S9", "S10"], 1)]
        self.plans(f"group g4 1 to 2 members=0 {ABSENT}", status=1, errors=errors)

    def test_two_records_of_one_name(self):
        self.keep(("ann", {}), ("bob", {}), ("cid", {}))
        self.users_say("login,status", "bob,active", "zoe,active", "BOB,left", "ann,active", "ann,gone", "zoe,active")
        errors = [f"users record {place}: S13" for place in range(1, 7)]
        self.plans(f"user cid 1 to 2 left {ABSENT}", status=1, errors=errors)
        self.users_say("login,status", "bob,active", "ann,active", "cid,left")
        self.plans("user cid 1 to 2 left")

    def test_two_records_of_one_group(self):
        self.keep(("ann", {}), groups=[group_entry("crew", "ann", confirmed=1, id="crew")])
        self.users_say("login", "ann")
        self.groups_say("name,members", "crew,", "duo,ann", "Crew,ann")
        errors = ["groups record 1: S13", "groups record 3: S13"]
        self.plans("group duo new 1 members=1", status=1, errors=errors)

    def test_records_beyond_a_full_journal(self):
        """A full snapshot is taken; the same again is known; one user more is too many."""
        names = [f"u{number:06}" for number in range(100_000)]
        self.users_say("login", *names)
        self.assert_fault(self.site.push(NOWHERE, *SNAPSHOT, "0"), "connection fault")
        counts = "SELECT count(*), min(revision), max(revision), min(active), max(epoch) FROM user_entry_3"
        confirm = "UPDATE user_entry_3 SET confirmed = 1, id = name_key"
        self.assertEqual(sql(self.site.journal, confirm, counts), [(100_000, 1, 1, 1, 0)])
        quiet = [*SNAPSHOT, "0", "--quiet"]
        self.pushes(0, "100000 confirmed, 0 unconfirmed, 0 rejected", options=quiet)
        self.assertEqual(sql(self.site.journal, counts), [(100_000, 1, 1, 1, 0)])
        self.users_say("login", *names[1:], "one-more")
        self.plans(f"user u000000 1 to 2 left {ABSENT}", status=1, errors=["users record 100000: S12"])


class UnsureTest(SnapshotTest):
    """Files by which it isn't certain who is absent. Each is pushed by a new connector, which knows ann, bob, and the
    groups crew and duo of ann. Ann's new address is taken, and bob stays on."""

    def unsure_of_users(self, content, *errors, plan=()):
        self.fresh()
        self.site.users.write_bytes(content)
        with self.subTest(content):
            self.plans(*plan, status=1, errors=errors, most=0)
            # a later file by which it is certain
            self.users_say("login", "ann")
            self.plans(f"user bob 1 to 2 left {ABSENT}")

    def unsure_of_groups(self, content, *errors, plan=()):
        self.fresh()
        self.users_say("login", "ann", "bob")
        self.site.groups.write_bytes(content)
        with self.subTest(content):
            self.plans(*plan, status=1, errors=errors)
            self.groups_say("name,members", "crew,ann")
            self.plans(f"group duo 1 to 2 members=0 {ABSENT}")

    def fresh(self):
        self.site = Site(pathlib.Path(tempfile.mkdtemp(dir=self.folder)))
        groups = [group_entry(name, "ann", confirmed=1, id=name) for name in ("crew", "duo")]
        self.keep(("ann", {}), ("bob", {}), groups=groups)

    def test_users_whose_logins_cannot_be_read(self):
        ann = ["user ann 1 to 2: mail"]
        for bad, code in ((b"b b,", "S4"), (b",", "S4"), (b"\xff,", "S3"), (b"bob", "S2"), (b"bob,,", "S2")):
            errors = [f"users record 2: {code}", f"users record 2 can't be read: {NOBODY}"]
            self.unsure_of_users(b"login,mail\nann,ann@x\n" + bad + b"\n", *errors, plan=ann)

    def test_the_first_login_that_cannot_be_read(self):
        self.unsure_of_users(
            b"login,status\nann,gone\nb b,active\n\xff,active\n", "users record 1: S6", "users record 2: S4",
            "users record 3: S3", f"users record 2 can't be read: {NOBODY}",
        )

    def test_a_quote_that_is_open(self):
        said = f"users: a quote may be missing: {NOBODY}"
        # with the file's last byte, within its last record
        self.unsure_of_users(b'login,mail\nann,"ann@x', said, plan=["user ann 1 to 2: mail"])
        self.unsure_of_users(
            b'login,mail\nann,"ann@x\nbob,\n', "users record 1: a quoted field goes over 3 lines; is a quote missing?",
            said, plan=["user ann 1 to 2: mail"],
        )

    def test_no_record(self):
        for content in (b"login,mail\n", b"login", b"\n\nlogin,mail\r\n\r\n"):
            self.unsure_of_users(content, f"users: there is no record: {NOBODY}")

    def test_another_header(self):
        for content, line in (
            (b"", ""), (b"\n", ""), (b"mail\nann@x\n", "mail"), (b"name,members\r\ncrew,ann\r\n", "name,members"),
            (b"login,mail,Login\nann,,ann\n", "login,mail,Login"), (b"login;\\\n", r"login;\x5C"),
            ("Größe".encode(), "Größe"), (b"\x1b\xff", r"\x1B\xFF"), (b"m" * 400, "m" * 400), (b"m" * 401, "m" * 400),
        ):
            self.unsure_of_users(content, *wrong_header("users", line, NOBODY))

    def test_a_file_that_ends_within_a_record(self):
        """The last record has too few fields, or a status that is cut."""
        errors = ["users record 2: S2", f"users record 2 can't be read: {NOBODY}"]
        self.unsure_of_users(b"login,mail,status\nann,ann@x,active\nbob,b", *errors, plan=["user ann 1 to 2: mail"])
        self.site = Site(pathlib.Path(tempfile.mkdtemp(dir=self.folder)))
        self.keep(("ann", {}), ("bob", {}), ("cid", {}))
        self.site.users.write_bytes(b"login,mail,status\nann,,active\nbob,,act")
        self.plans(f"user cid 1 to 2 left {ABSENT}", status=1, errors=["users record 2: S6"])

    def test_groups(self):
        empty, unreadable = ["group crew 1 to 2 members=0"], f"groups record 2 can't be read: {NO_GROUP}"
        for content, plan, *errors in (
            (b"name,members\ncrew,\n duo,ann\n", empty, "groups record 2: S4", unreadable),
            (b"name,members\ncrew,\n\xff,ann\n", empty, "groups record 2: S3", unreadable),
            (b"name,members\ncrew,\nduo", empty, "groups record 2: S2", unreadable),
            (b'name,members\ncrew,"', empty, f"groups: a quote may be missing: {NO_GROUP}"),
            (b"name,members\n", [], f"groups: there is no record: {NO_GROUP}"),
            (b"", [], *wrong_header("groups", "", NO_GROUP)),
            (b"members\nann\n", [], *wrong_header("groups", "members", NO_GROUP)),
        ):
            self.unsure_of_groups(content, *errors, plan=plan)

    def test_each_file_by_itself(self):
        self.fresh()
        self.users_say("login", "ann", "b b")
        self.groups_say("name,members", "crew,ann")
        errors = ["users record 2: S4", f"users record 2 can't be read: {NOBODY}"]
        self.plans(f"group duo 1 to 2 members=0 {ABSENT}", status=1, errors=errors)
        self.users_say("login", "ann")
        self.groups_say("name,members")
        self.plans(f"user bob 1 to 2 left {ABSENT}", status=1, errors=[f"groups: there is no record: {NO_GROUP}"])

    def test_a_whole_run(self):
        self.users_say("login,mail", "ann,", "bob,")
        self.carries(4, "ann 1", "bob 1")
        self.users_say("login,mail", "ann,ann@x", "b b,")
        errors = ["users record 2: S4", f"users record 2 can't be read: {NOBODY}"]
        self.carries(2, "ann 2", "bob 1", status=1, errors=errors, most=0)
        self.users_say("login,mail", "ann,ann@x")
        self.carries(2, "ann 2", "bob 2", most=1)
        held = ["user ann held=2 version=2 active=true", "user bob held=2 version=2 active=false"]
        self.assert_prints(self.site.show_store(), *held)
