"""`reset`: a journal forgets what the provider has shown. (What it refuses is in test_openings.py and test_journals.py.)"""
from databases import group_entry, make_journal, sql, user_entry, user_text
from support import NOWHERE, ProgramTest, full_disk, resource_id, scimlink, writes_of

USERS = [
    user_entry("ann", revision=7, confirmed=5, id=resource_id(1), number="1001", given="Ann", family="Lee"),
    # a late answer has shown the id, and no revision is confirmed
    user_entry("bob", login="Bob", revision=2, id=resource_id(2), mail="bob@example.com", active=0),
    user_entry("cid"),
    user_entry("dan", epoch=2, revision=1, confirmed_epoch=1, confirmed=9, id=resource_id(4)),
]
GROUPS = [
    group_entry("band", confirmed=1, id=resource_id(3)),
    group_entry("crew", "ann bob", name="Crew", revision=3),
]


def forgotten(entry):
    """The entry with nothing confirmed and no id; its revision stays."""
    *rest, _confirmed, _id, epoch, _confirmed_epoch = entry
    return (*rest, 0, None, epoch, 0)


class JournalTest(ProgramTest):
    def entries(self):
        """The entries of both tables, as SQLite reads them."""
        tables = ("user_entry_3", "group_entry_3")
        return [sql(self.site.journal, f"SELECT * FROM {table} ORDER BY name_key") for table in tables]


class ResetTest(JournalTest):
    def assert_forgotten(self):
        self.assertEqual(self.entries(), [list(map(forgotten, USERS)), list(map(forgotten, GROUPS))])

    def test_rows_stay(self):
        make_journal(self.site.journal, USERS, GROUPS)
        self.assert_prints(self.site.reset(), "reset 4 records")
        self.assert_forgotten()
        self.assertEqual(sql(self.site.journal, "PRAGMA integrity_check"), [("ok",)])

    def test_a_second_reset_finds_nothing(self):
        make_journal(self.site.journal, USERS, GROUPS)
        self.site.reset()
        self.assert_prints(self.site.reset(), "reset 0 records")
        self.assert_forgotten()

    def test_the_line_is_one_write(self):
        make_journal(self.site.journal, USERS)
        self.assertEqual(writes_of("reset", "--journal", self.site.journal), ["reset 3 records\n"])

    def test_no_entries(self):
        make_journal(self.site.journal)
        self.assert_prints(self.site.reset(), "reset 0 records")

    def test_an_output_that_takes_nothing(self):
        make_journal(self.site.journal, USERS, GROUPS)
        with full_disk() as stdout:
            self.assert_fault(self.site.reset(stdout=stdout), "file fault")
        self.assert_forgotten()

    def test_a_file_that_is_not_there_is_not_made(self):
        run = self.site.reset()
        self.assertEqual((run.status, run.output), (3, b""))
        self.assertEqual(run.errors, f"file fault\n {self.site.journal}: No such file or directory\n")
        self.assertEqual(list(self.folder.iterdir()), [])

    def test_many_records(self):
        names = [f"u{place:06}" for place in range(100_000)]
        make_journal(self.site.journal, (user_entry(name, confirmed=1, id=name) for name in names))
        self.assert_prints(self.site.reset(), "reset 100000 records")
        learnt = "SELECT count(*) FROM user_entry_3 WHERE confirmed <> 0 OR confirmed_epoch <> 0 OR id IS NOT NULL"
        self.assertEqual(sql(self.site.journal, learnt), [(0,)])
        self.assertEqual(sql(self.site.journal, "SELECT count(*) FROM user_entry_3"), [(100_000,)])


class NamedResetTest(JournalTest):
    """`reset` of the records that the arguments name."""

    def setUp(self):
        super().setUp()
        make_journal(self.site.journal, USERS, GROUPS)

    def assert_only_forgotten(self, *names):
        """The entries with these keys are forgotten, and the others are as they were."""
        self.assertEqual(self.entries(), [[forgotten(entry) if entry[0] in names else entry for entry in entries]
                                          for entries in (USERS, GROUPS)])

    def test_a_user(self):
        self.assert_prints(self.site.reset("user:ann"), "reset 1 records")
        self.assert_only_forgotten("ann")

    def test_a_group(self):
        self.assert_prints(self.site.reset("group:band"), "reset 1 records")
        self.assert_only_forgotten("band")

    def test_several_in_any_order_and_case(self):
        self.assert_prints(self.site.reset("user:DAN", "group:Band", "user:bOb"), "reset 3 records")
        self.assert_only_forgotten("dan", "band", "bob")
        self.assertEqual(sql(self.site.journal, "PRAGMA integrity_check"), [("ok",)])

    def test_a_name_twice_counts_once(self):
        self.assert_prints(self.site.reset("user:ann", "user:Ann", "user:ann"), "reset 1 records")
        self.assert_only_forgotten("ann")

    def test_a_record_of_which_nothing_was_learnt_is_not_counted(self):
        self.assert_prints(self.site.reset("user:cid", "group:crew", "user:ann"), "reset 1 records")
        self.assert_only_forgotten("ann")
        self.assert_prints(self.site.reset("user:cid"), "reset 0 records")

    def test_a_user_and_a_group_of_one_name_differ(self):
        self.assert_prints(self.site.reset("group:ann"), status=1, errors=["group:ann isn't in the journal"])
        self.assert_only_forgotten()

    def test_one_that_is_not_there_changes_nothing(self):
        for names, first in ((["user:zed"], "user:zed"), (["user:ann", "user:Zed", "group:none"], "user:zed"),
                             (["group:none", "user:ann", "user:zed"], "group:none")):
            with self.subTest(names=names):
                self.assert_prints(self.site.reset(*names), status=1, errors=[f"{first} isn't in the journal"])
                self.assert_only_forgotten()

    def test_words_that_name_no_record(self):
        words = ["bob", "user:", "users:bob", "user bob", "USER:bob", ":bob", "", "group:", "user:" + "a" * 1000, "user:a\nb"]
        for word in words:
            with self.subTest(word=word):
                run = self.site.reset("user:ann", word)
                shown = word.replace("\n", "\\x0A")
                self.assert_prints(run, status=2, errors=[f"error: '{shown}' isn't user:LOGIN or group:NAME"])
        self.assert_only_forgotten()

    def test_a_wrong_word_comes_before_a_journal_that_is_not_there(self):
        run = scimlink("reset", "--journal", "nowhere", "bob")
        self.assert_prints(run, status=2, errors=["error: 'bob' isn't user:LOGIN or group:NAME"])

    def test_many_names(self):
        names = [f"u{place:05}" for place in range(10_000)]
        self.site.journal.unlink()
        make_journal(self.site.journal, (user_entry(name, confirmed=1, id=name) for name in names))
        self.assert_prints(self.site.reset(*(f"user:{name}" for name in names[::5])), "reset 2000 records")
        learnt = "SELECT count(*) FROM user_entry_3 WHERE confirmed <> 0 OR id IS NOT NULL"
        self.assertEqual(sql(self.site.journal, learnt), [(8_000,)])


class LostAccountTest(JournalTest):
    """An account was deleted at the provider and made anew, with another id."""

    def test_a_reset_of_its_record_heals_it(self):
        self.site.write_users("ann,1,,,,,active", "bob,1,,,,,active")
        with self.serving(4, "--store", self.site.store) as provider:
            self.assert_prints(self.site.push(provider.address), "user ann confirmed 1", "user bob confirmed 1")
        # eve's account has the number that bob's had
        sql(self.site.store, "UPDATE resource SET number = 3 WHERE name_key = 'bob'")
        sql(self.site.store, f"INSERT INTO resource VALUES (2, 1, 'eve', 1, '{user_text('eve')}')")
        self.site.write_users("ann,1,,,,,active", "bob,2,,,,,left")
        self.assert_prints(self.site.reset("user:bob"), "reset 1 records")
        # ann sends nothing: a search for bob, and his replacement
        with self.serving(2, "--store", self.site.store) as provider:
            self.assert_prints(self.site.push(provider.address), "user ann confirmed 1", "user bob confirmed 2")
        self.assertIn(resource_id(3), self.site.show_journal().output.decode())


class LostStoreTest(JournalTest):
    """A provider that lost its store, and a connector that has confirmed all of it."""

    def test_the_next_push_asks_about_each_record(self):
        self.site.write_users("ann,1,,,,,active", "bob,1,,,,,active")
        self.site.write_groups("crew,1,ann bob")
        confirmed = ["user ann confirmed 1", "user bob confirmed 1", "group crew confirmed 1"]
        held = ["user ann held=1 version=1 active=true", "user bob held=1 version=1 active=true",
                "group crew held=1 version=1 members=2"]
        # each record is looked for, and created
        with self.serving(6, "--store", self.site.store) as provider:
            self.assert_prints(self.site.push(provider.address), *confirmed)
        for file in self.folder.glob("store*"):
            file.unlink()
        # bob has left in the meantime, and is in no file
        self.site.write_users("ann,1,,,,,active", "bob,2,,,,,left")
        self.assert_reports(self.site.push(NOWHERE), 3, "connection fault")
        self.site.write_users("ann,1,,,,,active")
        self.assert_prints(self.site.reset(), "reset 3 records")
        wanted = {"user ann": 1, "user bob": 2, "group crew": 1}
        self.assert_prints(self.site.show_journal(), *(f"{name} wanted={number} confirmed=0 id=-" for name, number in wanted.items()))
        with self.serving(6, "--store", self.site.store) as provider:
            self.assert_prints(self.site.push(provider.address), confirmed[0], "user bob confirmed 2", confirmed[2])
        self.assert_prints(self.site.show_store(), held[0], "user bob held=2 version=1 active=false", held[2])

    def test_what_the_provider_still_holds_is_found(self):
        self.site.write_users("ann,1,,,,,active", "bob,1,,,,,active")
        confirmed = ["user ann confirmed 1", "user bob confirmed 1"]
        with self.serving(4, "--store", self.site.store) as provider:
            self.assert_prints(self.site.push(provider.address), *confirmed)
        before = self.entries()
        self.assert_prints(self.site.reset(), "reset 2 records")
        # each record is looked for, and found as it is wanted
        with self.serving(2, "--store", self.site.store) as provider:
            self.assert_prints(self.site.push(provider.address), *confirmed)
        self.assertEqual(self.entries(), before)
