"""What is at the path of a store or a journal: nothing, a link, a log without its file, a file that is lost."""
import os
import pathlib
import tempfile

from databases import make_journal, make_store
from faults import Fault, build_shim
from peers import hits, user
from support import (
    CREATE_BOB, GIVEN_UP, NOWHERE, ProgramTest, Provider, Running, journal_commands, scimlink, silent_provider,
    store_commands,
)

MISSING = "No such file or directory"
DANGLING = "a symbolic link is there, and no file where it leads"
PARTED = "the file is missing or empty, but its log (-wal) has changes: put the file back beside its log"
MOVED = "the file that was open isn't there any more: it was moved, removed or replaced"
# What becomes of a file in a run, and what the run then says
LOST = {"moved": MOVED, "replaced": MOVED, "copied": MOVED, "kept": "No space left on device"}
NAMES = ["ann", "bob", "cid"]
# The length of a log without changes
EMPTY_LOG = 41


def create(name):
    """A request that creates a user. A name of three letters keeps the length that the head states."""
    return CREATE_BOB.replace(b'"bob"', f'"{name}"'.encode())


class Places:
    """What holds of a store, and of a journal. `fill` leaves changes in its log."""

    def setUp(self):
        super().setUp()
        self.site.write_users(*(f"{name},1,,,,,active" for name in NAMES))
        self.path = getattr(self.site, self.option.removeprefix("--"))
        self.log = self.path.with_name(f"{self.path.name}-wal")
        self.moved = self.path.with_name("moved")

    def held(self):
        """What is at each path of the folder: where a link leads, or the bytes of a file."""
        paths = {path.name: path for path in self.folder.iterdir()}
        return {name: os.readlink(path) if path.is_symlink() else path.read_bytes() for name, path in paths.items()}

    def refuses(self, commands, fault, why):
        """Each of these commands ends by this fault for this reason, and leaves all of the folder as it is."""
        before = self.held()
        for command in commands:
            with self.subTest(command=command[0], fault=fault):
                run = scimlink(*command, self.option, self.path, stdin=CREATE_BOB)
                self.assertEqual((run.status, run.output, run.errors), (3, b"", f"{fault}\n {self.path}: {why}\n"))
                self.assertEqual(self.held(), before)

    def assert_shows(self):
        self.assert_prints(scimlink("show", self.option, self.path), *self.shown)

    def test_what_keeps_nothing_makes_no_file(self):
        self.refuses(self.readers, "file fault", MISSING)

    def test_a_link_to_no_file(self):
        self.path.symlink_to(self.folder / "elsewhere")
        self.refuses(self.commands, self.failed, DANGLING)

    def test_a_link_to_a_file(self):
        """The log is beside the file."""
        self.fill()
        self.path.rename(self.moved)
        self.log.rename(self.folder / "moved-wal")
        self.path.symlink_to(self.moved.name)
        self.assert_shows()
        self.assertFalse(self.log.exists())

    def test_a_log_without_its_file(self):
        self.fill()
        self.path.rename(self.moved)
        self.refuses(self.commands, self.damaged, PARTED)
        # the same with an empty file, by itself or where a link leads
        self.path.touch()
        self.refuses(self.commands, self.damaged, PARTED)
        self.path.replace(self.folder / "elsewhere")
        self.path.symlink_to("elsewhere")
        self.log.rename(self.folder / "elsewhere-wal")
        self.refuses(self.commands, self.damaged, PARTED)
        (self.folder / "elsewhere-wal").rename(self.log)
        self.moved.replace(self.path)
        self.assert_shows()

    def test_a_log_without_changes(self):
        """A run that ends by itself leaves such a log. If only the file is removed, the next run makes a new one."""
        self.fill()
        self.assert_shows()
        self.assertEqual(self.log.stat().st_size, EMPTY_LOG)
        self.path.unlink()
        self.refuses(self.readers, "file fault", MISSING)
        scimlink(*self.maker, self.option, self.path, stdin=CREATE_BOB)
        self.assertTrue(self.path.is_file())

    def fault(self, place):
        """From this write on, no write of the run finds room."""
        room = pathlib.Path(self.enterContext(tempfile.TemporaryDirectory()))
        return Fault(build_shim(room), room, "WRITE", place, "28+")

    def lose(self, how):
        """The file goes away, or another one or a copy of it comes to its path."""
        if how != "kept":
            self.path.rename(self.moved)
        if how == "replaced":
            self.make(self.path)
        elif how == "copied":
            self.path.write_bytes(self.moved.read_bytes())

    def test_a_file_that_is_lost_in_a_run(self):
        """After a write found no room, no other file is opened in its place, and none is made."""
        self.fill()
        for how, why in LOST.items():
            with self.subTest(how):
                # each run begins with the same files
                self.assert_shows()
                opening = self.writes_of_opening()
                self.assert_shows()
                ended, before = self.ends(self.fault(opening + 1), how)
                self.assertEqual((ended.status, ended.errors), (3, f"{self.failed}\n {self.path}: {why}\n"))
                self.assertEqual(self.held(), before)
                if how != "kept":
                    self.moved.replace(self.path)
        self.assert_shows()


class StoreTest(Places, ProgramTest):
    option, failed, damaged = "--store", "store fault Y1", "store fault Y2"
    shown = [f"user {name} held=1 version=1 active=true" for name in NAMES]
    commands = [command[:-2] for command in store_commands("")]
    readers, maker = [["show"]], ["answer"]
    make = staticmethod(make_store)

    def fill(self):
        with Provider(1_000, "--store", self.path) as provider:
            for name in NAMES:
                self.assertTrue(provider.exchange(create(name)).startswith(b"HTTP/1.1 201 "))
            self.kill(provider)

    def writes_of_opening(self):
        fault = self.fault(0)
        with Provider(1, "--store", self.path, **fault.options) as provider:
            writes = fault.count()
            provider.ask("GET", "/v2/Users?count=0")
            provider.ends()
        return writes

    def ends(self, fault, how):
        """How a run ends whose file is lost, and what was in the folder before it met the fault."""
        with Provider(1_000, "--store", self.path, **fault.options) as provider:
            self.lose(how)
            before = self.held()
            self.assertEqual(provider.exchange(create("dan")), GIVEN_UP)
            return provider.ends(), before


class JournalTest(Places, ProgramTest):
    option, failed, damaged = "--journal", "journal fault J1", "journal fault J2"
    shown = [f"user {name} wanted=1 confirmed=0 id=-" for name in NAMES]
    commands = [*(command[:-2] for command in journal_commands("")), ["push", "--plan", "--users", "nowhere"]]
    readers, maker = [["show"], ["reset"]], ["push", "--users", "nowhere", "--to", NOWHERE]
    make = staticmethod(make_journal)

    def fill(self):
        with silent_provider() as (listener, address), Running(*self.site.push_command(address)) as push:
            with listener.accept()[0]:
                self.kill(push)

    def writes_of_opening(self):
        fault = self.fault(0)
        with silent_provider() as (listener, address):
            with Running(*self.site.push_command(address), **fault.options) as push, listener.accept()[0]:
                self.kill(push)
        return fault.count()

    def ends(self, fault, how):
        """How a run ends whose file is lost, and what was in the folder before it met the fault."""
        with silent_provider() as (listener, address):
            with Running(*self.site.push_command(address), **fault.options) as push, listener.accept()[0] as stream:
                self.lose(how)
                before = self.held()
                stream.recv(65_536)
                stream.sendall(hits(user("ann", 1)))
                return push.ends(), before
