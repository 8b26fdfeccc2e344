"""Files that no command opens as its store or journal: each reports why, and leaves the file as it was."""
import contextlib
import itertools
import os
import pathlib
import shutil
import subprocess
import sys
import tempfile

from databases import CURRENT, FORMS, make_journal, make_store, sql, user_entry, user_resource
from faults import Fault, build_shim
from support import (
    CREATE_BOB, PROGRAM, ProgramTest, Running, is_locked, journal_commands, scimlink, silent_provider, store_commands,
)

# Another program that executes statements over a file, and holds it until its standard input ends. It isn't the test
# itself, since a process that closes a file loses all its locks on it
HOLD = """
import sqlite3, sys
database = sqlite3.connect(sys.argv[1], isolation_level=None)
for statement in sys.argv[2:]:
    database.execute(statement).fetchall()
print("held", flush=True)
sys.stdin.read()
"""
# The transactions that it may be in. SQLite has to take back one that changed the file before it ended
HOLDS = {
    "reads": ["BEGIN", "SELECT count(*) FROM sqlite_schema"],
    "is about to write": ["BEGIN IMMEDIATE"],
    "has it alone": ["BEGIN EXCLUSIVE"],
    "has written": ["BEGIN", "CREATE TABLE left (content BLOB)"],
}
CHANGES = ["PRAGMA cache_size = 1", *HOLDS["has written"], *["INSERT INTO left VALUES (zeroblob(100000))"] * 2]


class Openings:
    """The openings that both files have in common."""

    def test_a_text(self):
        path = self.folder / "text"
        path.write_text("user,bob\n" * 1000)
        self.assert_refused(path, self.commands(path), self.failed)

    def test_a_folder(self):
        self.assert_refused(self.folder, self.commands(self.folder), self.failed)

    def test_a_folder_that_is_not_there(self):
        path = self.folder / "nowhere" / "file"
        # `show` and `reset` make no file: test_places.py
        makers = [command for command in self.commands(path) if command[0] not in ("show", "reset")]
        self.assert_refused(path, makers, self.failed)
        self.assertFalse(path.parent.exists())

    def test_a_damaged_page(self):
        path = self.make()
        content = bytearray(path.read_bytes())
        content[4096:4200] = bytes(104)
        path.write_bytes(content)
        self.assert_refused(path, self.commands(path), self.failed)

    def test_a_file_that_may_not_be_written(self):
        path = self.make()
        path.chmod(0o444)
        options = {}
        if os.geteuid() == 0:
            # root may write it all the same; so another user runs a copy of the program
            self.folder.chmod(0o755)
            program = shutil.copy(PROGRAM, self.folder / "program")
            options = {"program": program, "user": 65534}
        self.assert_refused(path, self.commands(path), self.failed, **options)

    @contextlib.contextmanager
    def held(self, path, *statements):
        """Another program has executed these statements over a file, and holds it."""
        command = [sys.executable, "-c", HOLD, path, *statements]
        with subprocess.Popen(command, stdin=subprocess.PIPE, stdout=subprocess.PIPE) as holder:
            self.assertEqual(holder.stdout.readline(), b"held\n")
            yield holder
            holder.communicate()

    def assert_opened(self, path):
        """The next run opens the file with its rows."""
        self.assert_prints(scimlink(*self.commands(path)[0]), self.shown)

    def test_a_file_that_another_program_has_in_a_transaction(self):
        path = self.make()
        for mode in "delete", "wal":
            for name, statements in HOLDS.items():
                with self.subTest(name, mode=mode):
                    with self.held(path, f"PRAGMA journal_mode = {mode}", *statements):
                        self.assert_refused(path, self.commands(path), self.failed)
                        for command in self.commands(path):
                            run = scimlink(*command)
                            self.assertEqual(run.errors, f"{self.failed}\n {path}: the database is in use\n")
                    self.assert_opened(path)

    def test_a_file_that_another_program_left_in_a_transaction(self):
        path = self.make()
        original = path.read_bytes()
        with self.held(path, *CHANGES) as holder:
            holder.kill()
        before = path.read_bytes()
        self.assertNotEqual(before, original)
        for command in self.commands(path):
            with self.subTest(command=command):
                self.assert_fault(scimlink(*command), self.failed)
                self.assertEqual(path.read_bytes(), before)
        # SQLite takes back what was written
        self.assertEqual(sql(path, "SELECT count(*) FROM sqlite_schema WHERE name = 'left'"), [(0,)])
        self.assert_opened(path)

    def test_an_opening_of_which_a_call_fails(self):
        """To say why, scimlink writes nothing, though every other call succeeds."""
        path = self.make()
        self.assert_opened(path)
        before = self.files()
        room = pathlib.Path(self.enterContext(tempfile.TemporaryDirectory()))
        shim = build_shim(room)
        for kind, how, why in ("READ", "5", "disk I/O error"), ("WRITE", "28", "No space left on device"):
            reasons = set()
            for place in itertools.count(1):
                fault = Fault(shim, room, kind, place, how)
                run = scimlink(*self.commands(path)[0], **fault.options)
                if not fault.has_come:
                    break
                if run.status:
                    self.assert_fault(run, self.failed)
                    self.assertEqual(self.files(), before, fault)
                    reasons.add(run.errors.partition("\n")[2])
            self.assertIn(f" {path}: {why}\n", reasons)

    def files(self):
        """What is in each file of the folder. The first 32 bytes of a log have a number that each opening draws."""
        skipped = {True: 32, False: 0}
        return {file.name: file.read_bytes()[skipped[file.name.endswith("-wal")]:] for file in self.folder.iterdir()}

    def test_the_file_of_the_other_side(self):
        path = self.make_other()
        self.assert_refused(path, self.commands(path), self.damaged)

    def test_a_newer_format(self):
        path = self.make()
        sql(path, f"UPDATE {self.format} SET number = {self.newer_number}")
        self.assert_refused(path, self.commands(path), self.newer)


class StoreOpeningsTest(Openings, ProgramTest):
    failed, damaged, newer = "store fault Y1", "store fault Y2", "store fault Y3"
    format, newer_number, shown = "provider_format", 2, "user bob held=1 version=1 active=true"
    commands = staticmethod(store_commands)

    def make(self):
        return make_store(self.site.store, [user_resource(1, "bob")])

    def make_other(self):
        return make_journal(self.site.journal)

    def test_a_store_that_serve_holds(self):
        path = self.make()
        with self.serving(1, "--store", path) as provider:
            self.assert_refused(path, self.commands(path), self.failed)
            self.assertTrue(is_locked(path))
            provider.exchange(CREATE_BOB.replace(b'"bob"', b'"ann"'))
        self.assert_prints(self.site.show_store(), self.shown, "user ann held=1 version=1 active=true")


class JournalOpeningsTest(Openings, ProgramTest):
    failed, damaged, newer = "journal fault J1", "journal fault J2", "journal fault J4"
    format, newer_number, shown = "journal_format", 4, "user bob wanted=1 confirmed=0 id=-"
    commands = staticmethod(journal_commands)

    form = CURRENT

    def make(self):
        return make_journal(self.site.journal, [user_entry("bob")], form=self.form)

    def make_other(self):
        return make_store(self.site.store)

    def test_a_journal_that_push_holds(self):
        path = self.make()
        self.site.write_users("cid,1,,,,,active")
        with silent_provider() as (listener, address), Running(*self.site.push_command(address)) as push:
            with listener.accept()[0]:
                self.assert_refused(path, self.commands(path), self.failed)
                self.assertTrue(is_locked(path))
                self.kill(push)
        self.assert_prints(self.site.show_journal(), self.shown, "user cid wanted=1 confirmed=0 id=-")


class FirstJournalOpeningsTest(JournalOpeningsTest):
    """The same of a journal of format 1, which an opening that succeeds carries over."""

    form = FORMS[0]


class SecondJournalOpeningsTest(JournalOpeningsTest):
    """The same of a journal of format 2."""

    form = FORMS[1]


class OrderTest(ProgramTest):
    """The store is opened before the journal, and both before anything else."""

    def test_loop_opens_the_store_first(self):
        text = self.folder / "text"
        text.write_text("user,bob\n" * 1000)
        store = make_store(self.site.store, [user_resource(1, "bob")])
        for store_option, journal_option, fault in [
            (text, text, "store fault Y1"),
            (store, text, "journal fault J1"),
            # the run itself has it open
            (store, store, "journal fault J1"),
            (store, self.site.journal, "file fault"),
        ]:
            with self.subTest(fault=fault, journal=journal_option.name):
                options = ["--store", store_option, "--journal", journal_option]
                self.assert_refused(text, [["loop", "--users", self.folder / "absent", *options]], fault)
        self.assert_prints(self.site.show_store(), "user bob held=1 version=1 active=true")

    def test_a_store_is_opened_before_the_address_and_the_request(self):
        store = make_store(self.site.store)
        serve = scimlink("serve", "--listen", "192.0.2.1:1", "--requests", "1", "--store", store)
        self.assert_fault(serve, "connection fault")
        self.assert_fault(scimlink("answer", "--store", store), "connection fault")
        self.assert_prints(self.site.show_store())

    def test_arguments_are_read_before_a_store_is_opened(self):
        run = scimlink("answer", "--store", self.site.store, "--base", "x")
        self.assert_prints(run, status=2, errors=["error: --base is http://HOST/v2"])
        self.assertFalse(self.site.store.exists())


class PrivateFilesTest(ProgramTest):
    """Stores and journals have personal data."""

    def modes(self):
        """The modes of the files of both, and of their logs where they are there."""
        files = (self.site.store, self.site.journal)
        logs = [path.with_name(f"{path.name}-wal") for path in files]
        return {path.stat().st_mode & 0o777 for path in (*files, *logs) if path.exists()}

    def push(self, *lines):
        """A push, and the modes while the store is open."""
        with self.serving(2, "--store", self.site.store) as provider:
            self.assert_prints(self.site.push(provider.address), *lines)
            return self.modes()

    def test_new_files_are_for_their_owner_alone(self):
        self.site.write_users("bob,1,,,,,active")
        self.assertEqual(self.push("user bob confirmed 1"), {0o600})
        self.assertEqual(self.modes(), {0o600})

    def test_a_file_that_is_there_keeps_its_mode(self):
        self.site.write_users("bob,1,,,,,active")
        self.push("user bob confirmed 1")
        for path in self.folder.iterdir():
            path.chmod(0o640)
        self.site.write_users("bob,2,,,,,left")
        self.assertEqual(self.push("user bob confirmed 2"), {0o640})
