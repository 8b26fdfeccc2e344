"""The connector's journals: entries that SQLite reads and writes, entries that are refused, and runs that stop; and
journals of older formats, which are carried over.

What is refused of any file, as a text or a locked one, is in test_openings.py.
"""
import shutil
import time

from databases import CURRENT, FORMS, OLDER_FORMS, TABLES, group_entry, make_journal, sql, user_entry
from faults import Fault, build_shim
from support import (
    DEPARTMENTS_HEADER, NOWHERE, ROOT, ProgramTest, Running, contents, journal_commands, limited_files, resource_id,
    scimlink, silent_provider, wait_until,
)

LAST_EPOCH, LAST_REVISION = 999_999, 2_000_000_000
ANN, BOB = user_entry("ann"), user_entry("bob")

# Users that are invalid beside ann
DAMAGED_USERS = {
    "another key": user_entry("bob", login="rob"),
    "a key in capitals": user_entry("Bob"),
    "no name": user_entry(""),
    "a name with a space": user_entry("b ob"),
    "revision 0": user_entry("bob", revision=0),
    "a revision that is too large": user_entry("bob", revision=LAST_REVISION + 1),
    "a revision below 0": user_entry("bob", revision=-1),
    "a revision in words": user_entry("bob", revision="one"),
    "a revision in parts": user_entry("bob", revision=1.5),
    "a long value": user_entry("bob", mail=257 * "m"),
    "bytes as a value": user_entry("bob", given=b"Bob"),
    "a long department": user_entry("bob", department=257 * "d"),
    "bytes as a department": user_entry("bob", department=b"Sales"),
    "an epoch that is too large": user_entry("bob", epoch=LAST_EPOCH + 1),
    "an epoch below 0": user_entry("bob", epoch=-1),
    "an epoch in words": user_entry("bob", epoch="one"),
    "an epoch in parts": user_entry("bob", epoch=1.5),
    "revision 0 of an epoch": user_entry("bob", epoch=1, revision=0),
    "an epoch with nothing confirmed": user_entry("bob", epoch=1, confirmed_epoch=1, id="b"),
    "a confirmed epoch below 0": user_entry("bob", confirmed=1, confirmed_epoch=-1, id="b"),
    "a confirmed epoch in words": user_entry("bob", confirmed=1, confirmed_epoch="none", id="b"),
    "confirmed in a later epoch": user_entry("bob", revision=2, confirmed=1, confirmed_epoch=1, id="b"),
    "confirmed above the revision in its epoch": user_entry("bob", epoch=1, confirmed=2, confirmed_epoch=1, id="b"),
    "active 2": user_entry("bob", active=2),
    "confirmed above the revision": user_entry("bob", confirmed=2, id="b"),
    "confirmed below 0": user_entry("bob", confirmed=-1, id="b"),
    "confirmed without an id": user_entry("bob", confirmed=1),
    "an empty id": user_entry("bob", id=""),
    "a long id": user_entry("bob", id=257 * "b"),
}

# Groups that are invalid beside the users ann and bob
DAMAGED_GROUPS = {
    "another key of a group": group_entry("crew", name="band"),
    "a group without a name": group_entry(""),
    "a group at revision 0": group_entry("crew", revision=0),
    "a group confirmed above its revision": group_entry("crew", confirmed=2, id="c"),
    "a group confirmed without an id": group_entry("crew", confirmed=1),
    "a group whose epoch is too large": group_entry("crew", epoch=LAST_EPOCH + 1),
    "a group confirmed in a later epoch": group_entry("crew", confirmed=1, confirmed_epoch=1, id="c"),
    "members out of order": group_entry("crew", "bob ann"),
    "a member twice": group_entry("crew", "ann ann"),
    "a member that is no user": group_entry("crew", "ann zoe"),
    "a member that is a group": group_entry("crew", "crew"),
    "a member in capitals": group_entry("crew", "Ann"),
    "two spaces between members": group_entry("crew", "ann  bob"),
    "a space after the members": group_entry("crew", "ann "),
}


def unconfirmed(*records):
    """What `show` prints of records that were accepted at revision 1."""
    return [f"{record} wanted=1 confirmed=0 id=-" for record in records]


class JournalTest(ProgramTest):
    def assert_shows(self, *lines):
        self.assert_prints(self.site.show_journal(), *lines)

    def entries(self):
        """The entries of both tables, as SQLite reads them."""
        return [sql(self.site.journal, f"SELECT * FROM {table} ORDER BY name_key") for table in (CURRENT.users, CURRENT.groups)]

    def remove_journal(self):
        for file in self.folder.glob("journal*"):
            file.unlink()

    def assert_current(self):
        """The journal has the number of the current format, and nothing in the tables of older ones."""
        self.assertEqual(sql(self.site.journal, "SELECT one, number FROM journal_format"), [(1, 3)])
        for form in OLDER_FORMS:
            for table in form.users, form.groups:
                self.assertEqual(sql(self.site.journal, f"SELECT * FROM {table}"), [])
        self.assertEqual(sql(self.site.journal, "PRAGMA integrity_check"), [("ok",)])

    def refuses(self, name, users=(), groups=(), form=CURRENT, fault="journal fault J2", **options):
        """No command opens a journal with these entries."""
        with self.subTest(name, form=form.number):
            path = make_journal(self.folder / f"{name} {form.number}", users, groups, form, **options)
            self.assert_refused(path, journal_commands(path), fault)


class EntryTest(JournalTest):
    def test_what_sqlite_writes_the_program_reads(self):
        users = [
            user_entry("zoe", login="Zoe", revision=LAST_REVISION, confirmed=LAST_REVISION, id="z"),
            user_entry("bob", number="1002", given="Bob", family="Ray, Jr.", mail="bob@example.com", active=0),
            user_entry("ann", revision=7, department="Sales", confirmed=5, id=resource_id(1)),
            user_entry("dan", epoch=LAST_EPOCH, revision=1, confirmed_epoch=3, confirmed=LAST_REVISION, id="d"),
        ]
        groups = [
            group_entry("night crew", "ann bob zoe", name="Night Crew"),
            group_entry("crew", epoch=1, revision=2, id=resource_id(3)),
        ]
        make_journal(self.site.journal, users, groups)
        self.assert_shows(
            f"user ann wanted=7 confirmed=5 id={resource_id(1)}",
            "user bob wanted=1 confirmed=0 id=-",
            f"user dan wanted={LAST_EPOCH}:1 confirmed=3:{LAST_REVISION} id=d",
            f"user zoe wanted={LAST_REVISION} confirmed={LAST_REVISION} id=z",
            f"group crew wanted=1:2 confirmed=0 id={resource_id(3)}",
            "group night crew wanted=1 confirmed=0 id=-",
        )

    def test_ids_that_are_no_printable_text(self):
        users = [user_entry("ann", id="x\x1b[2J\nuser bob\\"), user_entry("bob", id="\u00e9~ \x7f")]
        make_journal(self.site.journal, users)
        self.assert_shows(
            r"user ann wanted=1 confirmed=0 id=x\x1B[2J\x0Auser bob\x5C",
            r"user bob wanted=1 confirmed=0 id=\xC3\xA9~ \x7F",
        )

    def test_an_id_of_several_records(self):
        users = [user_entry("ann", id="b"), user_entry("bob", id="a"), user_entry("cid", id="b"), user_entry("dan")]
        make_journal(self.site.journal, [*users, user_entry("eve")], [group_entry("crew", id="a"), group_entry("b", id="b")])
        self.assert_prints(
            self.site.show_journal(),
            *(f"user {key} wanted=1 confirmed=0 id={id_}" for key, id_ in zip(("ann", "bob", "cid", "dan", "eve"), "bab--")),
            *(f"group {key} wanted=1 confirmed=0 id={id_}" for key, id_ in (("b", "b"), ("crew", "a"))),
            errors=["group crew has the id of user bob", "user cid has the id of user ann", "group b has the id of user cid"],
        )

    def test_what_the_program_writes_sqlite_reads(self):
        self.site.write_users()
        self.assert_prints(self.site.push(NOWHERE))
        self.assert_shows()
        self.assertEqual(self.entries(), [[], []])
        self.site.write_users('Bob,3,1002,Bob,"Ray, Jr.",bob@example.com,left', "ann,2:7,,,,,active")
        self.site.write_groups("Crew,1:1,Bob ann")
        with self.serving(6, "--store", self.site.store) as provider:
            run = self.site.push(provider.address)
            self.assert_prints(run, "user ann confirmed 2:7", "user bob confirmed 3", "group crew confirmed 1:1")
        ann = user_entry("ann", epoch=2, revision=7, confirmed_epoch=2, confirmed=7, id=resource_id(1))
        person = {"number": "1002", "given": "Bob", "family": "Ray, Jr.", "mail": "bob@example.com", "active": 0}
        bob = user_entry("bob", login="Bob", revision=3, confirmed=3, id=resource_id(2), **person)
        crew = group_entry("crew", "ann bob", name="Crew", epoch=1, confirmed_epoch=1, confirmed=1, id=resource_id(3))
        self.assertEqual(self.entries(), [[ann, bob], [crew]])
        # rows that are accepted and not carried, as no provider is there
        self.site.write_users("bob,1:1,,,,,active", "zoe,1,,,,,active")
        self.assert_reports(self.site.push(NOWHERE), 3, "connection fault")
        bob = user_entry("bob", epoch=1, revision=1, confirmed=3, id=resource_id(2))
        self.assertEqual(self.entries(), [[ann, bob, user_entry("zoe")], [crew]])
        self.assert_current()

    def test_a_department_is_kept(self):
        self.site.write_users("bob,1,,,,,active,Sales", header=DEPARTMENTS_HEADER)
        self.assert_reports(self.site.push(NOWHERE), 3, "connection fault")
        self.assertEqual(self.entries(), [[user_entry("bob", department="Sales")], []])

    def test_damaged_entries_are_refused(self):
        for form in FORMS:
            for name, entry in DAMAGED_USERS.items():
                if form.has(name):
                    self.refuses(name, [ANN, entry], form=form)
            for name, entry in DAMAGED_GROUPS.items():
                if form.has(name):
                    self.refuses(name, [ANN, BOB], [entry], form=form)
        make_journal(self.site.journal, [ANN, BOB], [group_entry("crew", "ann bob")])
        self.assert_shows(*unconfirmed("user ann", "user bob", "group crew"))

    def test_too_many_members_are_refused(self):
        names = [f"u{place:03}" for place in range(401)]
        users = [user_entry(name) for name in names]
        make_journal(self.site.journal, users, [group_entry("crew", " ".join(names[:400]))])
        self.assert_shows(*unconfirmed(*(f"user {name}" for name in names), "group crew"))
        self.refuses("401 members", users, [group_entry("crew", " ".join(names))])

    def test_too_many_groups_are_refused(self):
        groups = [group_entry(f"g{place:05}") for place in range(10_001)]
        make_journal(self.site.journal, groups=groups[:10_000])
        self.assert_shows(*unconfirmed(*(f"group g{place:05}" for place in range(10_000))))
        self.refuses("10,001 groups", groups=groups)

    def test_a_row_number_twice_is_refused(self):
        path = make_journal(self.site.journal, [ANN, BOB])
        content = bytearray(path.read_bytes())
        # bob's row in its page: its length, its number, fourteen bytes on its columns, and their texts
        at = content.index(b"bobbob") - 16
        self.assertEqual(content[at + 1 : at + 3], bytes([2, 14]))
        content[at + 1] = 1
        path.write_bytes(content)
        self.assert_refused(path, journal_commands(path), "journal fault J1")

    def test_other_formats_are_refused(self):
        for form in FORMS:
            for number in 4, 2_000_000_000:
                self.refuses(f"number {number}", [ANN], form=form, numbers=[number], fault="journal fault J4")
            for number in {0, 1, 2, 3} - {form.number}:
                self.refuses(f"number {number}", [ANN], form=form, numbers=[number])
            self.refuses("no number", [ANN], form=form, numbers=[])

    def test_later_formats_are_told_by_their_number_alone(self):
        first, entries = TABLES["journal_format"], "CREATE TABLE person (id INTEGER PRIMARY KEY, name TEXT NOT NULL)"
        view = "CREATE VIEW leaver AS SELECT name FROM person"
        for name, tables in {
            "other tables": [first, entries, view],
            "a table more": [*CURRENT.statements(), entries],
            "no other tables": [first],
        }.items():
            for numbers, fault in ([4], "J4"), ([3], "J2"), ([0], "J2"), ([], "J2"):
                with self.subTest(name, numbers=numbers):
                    path = self.folder / f"{name} {numbers}"
                    sql(path, *tables, *(f"INSERT INTO journal_format VALUES (1, {number})" for number in numbers))
                    self.assert_refused(path, journal_commands(path), f"journal fault {fault}")

    def test_tables_in_another_form_are_refused(self):
        for form in FORMS:
            for name in form.tables[1:]:
                table = TABLES[name]
                for change, other in {
                    "another column": table.replace("revision INTEGER", "version INTEGER"),
                    "a column more": table.replace("id TEXT", "id TEXT, more TEXT"),
                    "no key": table.replace(" PRIMARY KEY", ""),
                }.items():
                    self.refuses(f"{change} in {name}", form=form, statements=form.statements(**{name: other}))
            first, *rest = form.statements()
            self.refuses("another order", form=form, statements=[first, *reversed(rest)])
            self.refuses("two tables less", form=form, statements=[first, *rest[:-2]])

    def test_other_tables_are_refused(self):
        for form in FORMS:
            tables = [*form.statements(), f"INSERT INTO journal_format VALUES (1, {form.number})"]
            free = [tables[0].replace(" CHECK (one = 1)", ""), *tables[1:]]
            for name, statements in {
                "two formats": [*free, f"INSERT INTO journal_format VALUES (2, {form.number})"],
                "another one alone": ["CREATE TABLE note (id INTEGER PRIMARY KEY, title TEXT NOT NULL)"],
                "the users alone": [TABLES[form.users]],
                "another one beside": [*tables, "CREATE TABLE note (id INTEGER PRIMARY KEY)"],
                "an index beside": [*tables, f"CREATE INDEX by_revision ON {form.users} (revision)"],
                "a view beside": [*tables, f"CREATE VIEW leaver AS SELECT login FROM {form.users} WHERE active = 0"],
            }.items():
                with self.subTest(name, form=form.number):
                    path = self.folder / f"{name} {form.number}"
                    sql(path, *statements)
                    self.assert_refused(path, journal_commands(path), "journal fault J2")


class OlderFormatTest(JournalTest):
    """A journal of an older format, which each command carries over: its entries stay, at epoch 0."""

    GROUPS = [
        group_entry("crew", "ann bob", name="Crew", revision=4, confirmed=4, id=resource_id(3)),
        group_entry("night crew"),
    ]
    LINES = [
        f"user ann wanted=7 confirmed=5 id={resource_id(1)}",
        f"user bob wanted=2 confirmed=0 id={resource_id(2)}",
        "user zoe wanted=1 confirmed=0 id=-",
        f"group crew wanted=4 confirmed=4 id={resource_id(3)}",
        "group night crew wanted=1 confirmed=0 id=-",
    ]

    def each_form(self):
        """Each older format, with users that it can have: only those of format 2 have departments."""
        for form in OLDER_FORMS:
            department = "Sales" if form.number == 2 else ""
            person = {"number": "1001", "given": "Ann", "family": "Lee", "department": department}
            users = [
                user_entry("ann", revision=7, confirmed=5, id=resource_id(1), **person),
                user_entry("bob", login="Bob", revision=2, id=resource_id(2), mail="bob@example.com", active=0),
                user_entry("zoe"),
            ]
            with self.subTest(form=form.number):
                yield form, users
            self.remove_journal()

    def assert_carried(self, users, groups):
        self.assertTrue(self.entries() == [users, groups], "other entries")
        self.assert_current()

    def assert_stays(self):
        """A second opening shows the entries, and leaves the file as it was."""
        before = contents(self.site.journal)
        self.assert_shows(*self.LINES)
        self.assertEqual(contents(self.site.journal), before)

    def test_a_show(self):
        for form, users in self.each_form():
            make_journal(self.site.journal, users, self.GROUPS, form)
            self.assert_shows(*self.LINES)
            self.assert_carried(users, self.GROUPS)
            self.assert_stays()

    def test_each_command_that_then_finds_no_source(self):
        commands = [command for command in journal_commands(self.site.journal) if "nowhere" in command]
        for form, users in self.each_form():
            for command in commands:
                make_journal(self.site.journal, users, self.GROUPS, form)
                self.assert_fault(scimlink(*command), "file fault")
                self.assert_carried(users, self.GROUPS)
                self.assert_stays()
                self.remove_journal()

    def test_a_reset(self):
        for form, users in self.each_form():
            make_journal(self.site.journal, users, self.GROUPS, form)
            self.assert_prints(self.site.reset(), "reset 3 records")
            self.assert_carried(*([(*entry[:-4], 0, None, 0, 0) for entry in table] for table in (users, self.GROUPS)))

    def test_a_push(self):
        for form, _ in self.each_form():
            store = self.folder / f"store {form.number}"
            self.site.write_users("bob,1,,,,,active")
            with self.serving(2, "--store", store) as provider:
                self.assert_prints(self.site.push(provider.address), "user bob confirmed 1")
            self.remove_journal()
            make_journal(self.site.journal, [user_entry("bob", confirmed=1, id=resource_id(1))], form=form)
            self.site.write_users("bob,1:1,,,,,active,Sales", header=DEPARTMENTS_HEADER)
            with self.serving(2, "--store", store) as provider:
                self.assert_prints(self.site.push(provider.address), "user bob confirmed 1:1")
            first = {"epoch": 1, "revision": 1, "confirmed_epoch": 1, "confirmed": 1}
            self.assert_carried([user_entry("bob", department="Sales", id=resource_id(1), **first)], [])

    def test_those_that_the_program_made(self):
        # each by two runs, when the program knew no later format: `loop` confirmed ann at revision 7, bob, whom the
        # file calls Bob, and crew; `push` found no provider, and accepted ann at revision 8, zoe and night crew
        for form, _ in self.each_form():
            made = ROOT / f"tests/format-{form.number}.journal"
            original = shutil.copy(made, self.folder / "original")
            department = ("",) if form.number == 1 else ()
            users = [
                (*row[:7], *department, *row[7:], 0, 0)
                for row in sql(original, f"SELECT * FROM {form.users} ORDER BY name_key")
            ]
            groups = [(*row, 0, 0) for row in sql(original, f"SELECT * FROM {form.groups} ORDER BY name_key")]
            shutil.copy(made, self.site.journal)
            self.assert_shows(
                f"user ann wanted=8 confirmed=7 id={resource_id(1)}",
                f"user bob wanted=3 confirmed=3 id={resource_id(2)}",
                "user zoe wanted=1 confirmed=0 id=-",
                f"group crew wanted=1 confirmed=1 id={resource_id(3)}",
                "group night crew wanted=2 confirmed=0 id=-",
            )
            self.assertEqual([user[:2] for user in users], [("ann", "ann"), ("bob", "Bob"), ("zoe", "Zoe")])
            self.assertEqual([user[7] for user in users], ["Sales", "", "Sales"] if form.number == 2 else ["", "", ""])
            self.assert_carried(users, groups)

    def test_empty_ones(self):
        for form, _ in self.each_form():
            make_journal(self.site.journal, form=form)
            self.assert_shows()
            self.assert_carried([], [])

    def test_rows_beside_the_end_of_a_part(self):
        # 1,000 rows are moved at a time, by their numbers
        for form, _ in self.each_form():
            for count in 999, 1_000, 1_001, 2_000:
                users = [user_entry(f"u{place:05}", confirmed=1, id=resource_id(place)) for place in range(1, count + 1)]
                make_journal(self.site.journal, users, self.GROUPS[1:], form)
                self.assert_reports(self.site.show_journal(), 0)
                self.assert_carried(users, self.GROUPS[1:])
                self.remove_journal()

    def test_a_few_rows_are_one_part(self):
        # a part of no rows is the last one: beyond it there would be 100,000 parts of two statements each, which allocate
        for form, users in self.each_form():
            make_journal(self.site.journal, users, self.GROUPS, form)
            fault = Fault(build_shim(self.folder), self.folder, "ALLOCATION", 0)
            self.assert_prints(scimlink("show", "--journal", self.site.journal, **fault.options), *self.LINES)
            self.assertIn(fault.count(), range(1, 100_000))

    def test_rows_with_other_numbers(self):
        users = [user_entry(f"u{place:05}", confirmed=1, id=resource_id(place)) for place in range(1, 1_501)]
        for numbers in "rowid + 5000", "-rowid", "rowid * 4000000000", "CASE WHEN rowid < 9 THEN rowid ELSE rowid + 9000 END":
            for form, _ in self.each_form():
                path = make_journal(self.site.journal, users, self.GROUPS[1:], form)
                # numbers are changed by way of others, since no two rows may have one for a moment
                sql(path, f"CREATE TEMP TABLE copy AS SELECT {numbers} AS place, * FROM {form.users}",
                    f"DELETE FROM {form.users}",
                    f"INSERT INTO {form.users} (rowid, {', '.join(self.columns(path, form.users))}) SELECT * FROM copy")
                self.assert_reports(self.site.show_journal(), 0)
                self.assert_carried(users, self.GROUPS[1:])

    def columns(self, path, table):
        return [row[1] for row in sql(path, f"PRAGMA table_info({table})")]

    def test_a_full_disk(self):
        users = [user_entry(f"u{place:05}", confirmed=1, id=resource_id(place)) for place in range(1, 1_001)]
        groups = self.GROUPS[1:]
        for form, _ in self.each_form():
            path = make_journal(self.site.journal, users, groups, form)
            # the copy of the users is longer than this
            limit = limited_files(path.stat().st_size // 2)
            for command in journal_commands(path):
                self.assert_fault(scimlink(*command, **limit), "journal fault J1")
                self.assertEqual(sql(path, "SELECT number FROM journal_format"), [(form.number,)])
                left = [sql(path, f"SELECT * FROM {table} ORDER BY name_key") for table in (form.users, form.groups)]
                self.assertTrue(left == [list(map(form.user_row, users)), list(map(form.group_row, groups))], "other rows")
                self.assertEqual(sql(path, "SELECT name FROM sqlite_schema WHERE name LIKE '%entry_3'"), [])
            self.assert_reports(self.site.show_journal(), 0)
            self.assert_carried(users, groups)

    def test_an_opening_that_failed_once(self):
        """The reason is looked for, and the next opening would succeed. But nothing is carried over."""
        shim = build_shim(self.folder)
        for form, users in self.each_form():
            tables = contents(make_journal(self.site.journal, users, self.GROUPS, form))[1]
            # a plan reads as much before it sees that the format is older
            looking = Fault(shim, self.folder, "READ", 0)
            scimlink("push", "--users", "nowhere", "--journal", self.site.journal, "--to", NOWHERE, "--plan", **looking.options)
            for place in (1, looking.count() // 2, looking.count()):
                self.remove_journal()
                path = make_journal(self.site.journal, users, self.GROUPS, form)
                before = path.read_bytes()
                fault = Fault(shim, self.folder, "READ", place, "5")
                self.assert_fault(scimlink("show", "--journal", path, **fault.options), "journal fault J1")
                self.assertEqual(path.read_bytes(), before)
                self.assertEqual(contents(path)[1], tables)

    def test_as_many_records_as_a_journal_may_have(self):
        users = [user_entry(f"u{place:06}", confirmed=1, id=resource_id(place)) for place in range(1, 100_001)]
        groups = [group_entry(f"g{place:05}", "u000001 u000002") for place in range(1, 10_001)]
        for form, _ in self.each_form():
            make_journal(self.site.journal, users, groups, form)
            start = time.monotonic()
            run = self.site.show_journal()
            print(f"110,000 records of format {form.number} carried over and shown: {time.monotonic() - start:.1f} s", flush=True)
            self.assert_reports(run, 0)
            self.assert_carried(users, groups)


class ManyRowsTest(JournalTest):
    """The rows of a file are accepted together: a journal has all of them, or none."""

    def setUp(self):
        super().setUp()
        names = [f"u{place:05}" for place in range(20_000)]
        self.site.write_users(*(f"{name},1,,,,,active" for name in reversed(names)))
        self.all_rows = unconfirmed(*(f"user {name}" for name in names))

    def log_size(self):
        log = self.site.journal.with_name("journal-wal")
        return log.stat().st_size if log.exists() else 0

    def test_a_kill_while_rows_are_accepted(self):
        # when the log is made, when it has the tables, and, some times, when it grows by the rows
        for size in (1, 250_000, 500_000, 500_000, 500_000):
            with self.subTest(size=size), silent_provider() as (_, address):
                with Running(*self.site.push_command(address)) as push:
                    wait_until(lambda: self.log_size() >= size, "the log")
                    self.assertEqual(self.kill(push).output, b"")
                shown = self.site.show_journal()
                self.assert_reports(shown, 0)
                self.assertTrue(shown.lines in ([], self.all_rows), f"{len(shown.lines)} rows")
                self.remove_journal()
        self.assert_reports(self.site.push(NOWHERE), 3, "connection fault")
        self.assert_shows(*self.all_rows)

    def test_rows_that_find_no_room_are_left_out(self):
        make_journal(self.site.journal, [ANN])
        limit = self.site.journal.stat().st_size + 512 * 1024
        self.assert_fault(self.site.push(NOWHERE, **limited_files(limit)), "journal fault J1")
        self.assert_shows(*unconfirmed("user ann"))
        self.assert_reports(self.site.push(NOWHERE), 3, "connection fault")
        self.assert_shows(*unconfirmed("user ann"), *self.all_rows)
