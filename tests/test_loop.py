"""`loop`: connector and provider in one program, over TCP, in memory and over files.

What the runs print was worked out by hand from the rules of the protocol.
"""
import contextlib
import pathlib
import re
import socket
import sys

from databases import compact, make_store
from support import (
    DEPARTMENTS_HEADER, EXAMPLES, GROUP, ROOT, SOURCE, USERS_HEADER, ProgramTest, Running,
    full_disk, limited_files, limited_handles, resource_id, scimlink, text, wait_until, writes_of,
)

BOB = "user bob wanted=1 confirmed=1 held=1 version=1 active=true"
BOB_LEFT = "user bob wanted=2 confirmed=2 held=2 version=2 active=false"


class LoopTest(ProgramTest):
    def writes(self, users, groups=None):
        """The input files: users, and groups if there are any."""
        self.site.write_users(*users)
        if groups is not None:
            self.site.write_groups(*groups)

    def assert_loop(self, *lines, options=(), status=0, errors=()):
        self.assert_prints(self.site.loop(*options), *lines, status=status, errors=errors)


class RowsTest(LoopTest):
    def test_one_user(self):
        self.writes(["bob,1,,,,,active"])
        for options in ([], ["--base", "http://example.com/v2"]):
            with self.subTest(options=options):
                self.assert_loop("1 new", "settled in 2 exchanges", BOB, options=options)

    def test_a_group_comes_after_its_members(self):
        self.writes(["bob,1,,,,,active", "ann,1,,,,,active"], ["crew,1,bob ann"])
        self.assert_loop(
            "1 new",
            "2 new",
            "3 new",
            "settled in 6 exchanges",
            "user ann wanted=1 confirmed=1 held=1 version=1 active=true",
            BOB,
            "group crew wanted=1 confirmed=1 held=1 version=1 members=2",
        )

    def test_a_large_group_at_a_higher_revision(self):
        """The provider's revision is above the source's, so the group stays unconfirmed."""
        members = [{"value": f"m{number:03}"} for number in range(400)]
        content = {"schemas": [GROUP, SOURCE], SOURCE: {"revision": 5}, "displayName": "crew", "members": members}
        make_store(self.site.store, [(1, 2, "crew", 1, compact(content))])
        self.writes([], ["crew,1,"])
        crew = "group crew wanted=1 confirmed=0 held=5 version=1 members=400"
        self.assert_loop("1 new", crew, options=["--store", self.site.store], status=1)

    def test_the_example_of_the_readme(self):
        page = (ROOT / "README.md").read_text()
        printed = re.search(r"^    1 new\n(    .*\n)+", page, re.MULTILINE).group()
        run = scimlink("loop", "--users", EXAMPLES / "tuesday.csv", "--groups", EXAMPLES / "groups.csv")
        self.assert_prints(run, *(line.strip() for line in printed.splitlines()))

    def test_the_latest_row_of_a_record_counts(self):
        users = ["bob,1,,,,,active", "bob,4,,,,,left", "bob,3,,,,,active", "BOB,4,,,,,left"]
        self.writes(users, ["crew,1,bob", "crew,2,"])
        self.assert_loop(
            *["1 new", "2 new", "3 older", "4 S7", "5 new", "6 new"],
            "settled in 4 exchanges",
            "user bob wanted=4 confirmed=4 held=4 version=1 active=false",
            "group crew wanted=2 confirmed=2 held=2 version=1 members=0",
            status=1,
            errors=["users record 3: older, 3 is below 4"],
        )

    def test_the_same_row_again(self):
        self.writes(["bob,1,,,,,active"] * 2)
        self.assert_loop("1 new", "2 known", "settled in 2 exchanges", BOB)

    def test_a_department_is_a_field_of_a_row(self):
        records = ["bob,1,,,,,active,Sales", "bob,1,,,,,active,Sales", "bob,1,,,,,active,"]
        self.site.write_users(*records, header=DEPARTMENTS_HEADER)
        self.assert_loop("1 new", "2 known", "3 S7", "settled in 2 exchanges", BOB, status=1)

    def test_each_report_is_one_write(self):
        self.writes(["bob,1,,,,,active"] * 2, ["crew,1,"])
        crew = "group crew wanted=1 confirmed=1 held=1 version=1 members=0"
        *reports, rest = writes_of("loop", *self.site.source_options())
        self.assertEqual(reports, ["1 new\n", "2 known\n", "3 new\n"])
        self.assertEqual(rest, text("settled in 4 exchanges", BOB, crew))

    def test_rows_that_the_connector_rejects(self):
        self.writes(["bob,1,,,,,active", "bob,1,,,,bob@example.com,active"], ["crew,1,zoe", "crew,1,bob"])
        self.assert_loop(
            *["1 new", "2 S7", "3 S8 zoe", "4 new"],
            "settled in 4 exchanges",
            BOB,
            "group crew wanted=1 confirmed=1 held=1 version=1 members=1",
            status=1,
        )

    def test_records_that_are_skipped(self):
        revisions = ["0", "2000000001", "07x", "2000000000", "1000000:1", ":5", "1:", "1:0", "999999:2000000000"]
        self.writes([f"ann,{revision},,,,,active" for revision in revisions], ["crew,1,ann Ann", "crew,1,ann  bob"])
        self.assert_loop(
            "1 new",
            "2 new",
            "settled in 2 exchanges",
            "user ann wanted={0} confirmed={0} held={0} version=1 active=true".format("999999:2000000000"),
            status=1,
            errors=[*(f"users record {n}: S5" for n in (1, 2, 3, 5, 6, 7, 8)), "groups record 1: S9", "groups record 2: S4"],
        )

    def test_a_source_that_counts_anew(self):
        self.writes(["bob,57,,,,,active", "bob,1:1,,,,,left", "bob,2000000000,,,,,active", "bob,0:58,,,,,active"])
        self.assert_loop(
            *["1 new", "2 new", "3 older", "4 older"],
            "settled in 2 exchanges",
            "user bob wanted=1:1 confirmed=1:1 held=1:1 version=1 active=false",
            errors=["users record 3: older, 2000000000 is below 1:1", "users record 4: older, 58 is below 1:1"],
        )

    def test_a_file_with_another_header_has_no_rows(self):
        crew = "group crew wanted=1 confirmed=1 held=1 version=1 members=0"
        self.writes([], ["crew,1,"])
        for content in ("", self.site.groups.read_text()):
            self.site.users.write_text(content)
            self.assert_loop("1 new", "settled in 2 exchanges", crew, status=1, errors=["users: S1"])
        self.writes(["bob,1,,,,,active"])
        self.site.groups.write_text(USERS_HEADER)
        self.assert_loop("1 new", "settled in 2 exchanges", BOB, status=1, errors=["groups: S1"])

    def test_no_records(self):
        self.writes([], [])
        self.assert_loop("settled in 0 exchanges")


class FilesTest(LoopTest):
    """Runs over files: what was carried is there in the next run."""

    def setUp(self):
        super().setUp()
        self.store, self.journal = ["--store", self.site.store], ["--journal", self.site.journal]
        self.both = [*self.store, *self.journal]

    def join_and_leave(self):
        """Bob has joined, and left: he was searched for and created, then searched for and replaced."""
        self.writes(["bob,1,,,,,active"])
        self.assert_loop("1 new", "settled in 2 exchanges", BOB, options=self.both)
        self.writes(["bob,2,,,,,left"])
        self.assert_loop("1 new", "settled in 2 exchanges", BOB_LEFT, options=self.both)

    def test_nothing_to_do(self):
        self.writes(["bob,1,,,,,active"])
        self.assert_loop("1 new", "settled in 2 exchanges", BOB, options=self.both)
        self.assert_loop("1 known", "settled in 0 exchanges", BOB, options=self.both)
        self.assert_prints(self.site.show_store(), "user bob held=1 version=1 active=true")
        self.assert_prints(self.site.show_journal(), f"user bob wanted=1 confirmed=1 id={resource_id(1)}")

    def test_the_longest_rows(self):
        """A user and a group that meet each limit of a row. The group's members are 400."""
        login, field, crew, last = "A" * 128, "f" * 256, "C" * 128, "999999:2000000000"
        names = sorted(f"u{number}" for number in range(1, 401))
        longest = f"{login},{last},{field},{field},{field},{field},active,{field}"
        self.site.write_users(longest, *(f"{name},1,,,,,active," for name in names), header=DEPARTMENTS_HEADER)
        self.site.write_groups(f"{crew},1,{' '.join(names)}")
        views = [
            f"user {login.lower()} wanted={last} confirmed={last} held={last} version=1 active=true",
            *(f"user {name} wanted=1 confirmed=1 held=1 version=1 active=true" for name in names),
            f"group {crew.lower()} wanted=1 confirmed=1 held=1 version=1 members=400",
        ]
        for report, exchanges in ("new", 804), ("known", 0):
            reports = (f"{number} {report}" for number in range(1, 403))
            self.assert_loop(*reports, f"settled in {exchanges} exchanges", *views, options=self.both)

    def test_a_leaver_stays_off(self):
        self.join_and_leave()
        self.writes([])
        self.assert_loop("settled in 0 exchanges", BOB_LEFT, options=self.both)
        self.writes(["bob,1,,,,,active"])
        older = ["users record 1: older, 1 is below 2"]
        self.assert_loop("1 older", "settled in 0 exchanges", BOB_LEFT, options=self.both, errors=older)
        self.writes(["bob,3,,,,,active"])
        back = "user bob wanted=3 confirmed=3 held=3 version=3 active=true"
        self.assert_loop("1 new", "settled in 2 exchanges", back, options=self.both)
        self.writes(["bob,2,,,,,left"])
        older = ["users record 1: older, 2 is below 3; it says left"]
        self.assert_loop("1 older", "settled in 0 exchanges", back, options=self.both, errors=older)

    def test_a_store_alone(self):
        self.join_and_leave()
        # what the provider holds is found
        self.assert_loop("1 new", "settled in 1 exchanges", BOB_LEFT, options=self.store)
        # what is newer than the row isn't taken as the row's
        self.writes(["bob,1,,,,,active"])
        bob = "user bob wanted=1 confirmed=0 held=2 version=2 active=false"
        self.assert_loop("1 new", bob, options=self.store, status=1)
        self.assert_prints(self.site.show_store(), "user bob held=2 version=2 active=false")

    def test_a_journal_alone(self):
        self.join_and_leave()
        # what it has as confirmed isn't asked for again
        self.writes(["ann,1,,,,,active"])
        self.assert_loop(
            "1 new",
            "settled in 2 exchanges",
            "user ann wanted=1 confirmed=1 held=1 version=1 active=true",
            "user bob wanted=2 confirmed=2 held=0 version=0 active=-",
            options=self.journal,
        )

    def test_a_store_that_fails_ends_the_run(self):
        self.join_and_leave()
        self.writes(["bob,2,,,,,left", "cid,1,,,,,active", "dee,1,,,,,active"])
        run = self.site.loop(*self.store, **limited_files(4096))
        self.assert_prints(run, "1 new", "2 new", "3 new", status=3, errors=["store fault Y1"])
        self.assert_prints(self.site.show_store(), "user bob held=2 version=2 active=false")


class FaultTest(LoopTest):
    def test_files_that_cannot_be_read(self):
        self.writes(["bob,1,,,,,active"])
        for sources in self.site.unreadable_sources():
            with self.subTest(sources=sources):
                self.assert_fault(scimlink("loop", *sources), "file fault")

    def test_a_connection_that_cannot_be_opened(self):
        self.writes(["bob,1,,,,,active"])
        # the three standard streams, the listener, and what watches it
        run = self.site.loop(**limited_handles(5))
        self.assert_prints(run, "1 new", status=3, errors=["connection fault"])

    def test_an_output_that_takes_nothing(self):
        self.writes(["bob,1,,,,,active"])
        with full_disk() as stdout:
            self.assert_fault(self.site.loop(stdout=stdout), "file fault")


def listener(pid):
    """The address and the port on which a process listens, in hexadecimal digits, or None."""
    sockets = set()
    for handle in pathlib.Path(f"/proc/{pid}/fd").iterdir():
        with contextlib.suppress(FileNotFoundError):
            sockets.add(str(handle.readlink()))
    for table in "tcp", "tcp6":
        for line in pathlib.Path("/proc/net", table).read_text().splitlines()[1:]:
            _, local, _, state, *more = line.split()
            # 0A is the state of a socket that listens
            if state == "0A" and f"socket:[{more[5]}]" in sockets:
                return local.split(":")
    return None


class StrayConnectionsTest(LoopTest):
    """Connections of other programs to the port of a run: they are served first, and the run ends as without them."""

    def setUp(self):
        super().setUp()
        # so many that their reports fill a pipe of a page, and the run listens, waits for a reader, and asks nothing
        self.names = [f"u{place:03}" for place in range(1_000)]
        self.writes([f"{name},1,,,,,active" for name in self.names])
        self.loop = Running("loop", *self.site.source_options(), pipesize=4096)
        self.addCleanup(self.loop.close)
        wait_until(lambda: listener(self.loop.pid), "the listener")
        self.address, port = listener(self.loop.pid)
        self.port = int(port, 16)

    def assert_ends_as_without_them(self):
        self.assert_prints(
            self.loop.ends(),
            *(f"{number} new" for number in range(1, 1_001)),
            "settled in 2000 exchanges",
            *(f"user {name} wanted=1 confirmed=1 held=1 version=1 active=true" for name in self.names),
        )

    def test_only_this_host_can_connect(self):
        # 127.0.0.1: the system prints its four bytes as one number of the processor
        self.assertEqual(int(self.address, 16).to_bytes(4, sys.byteorder), bytes([127, 0, 0, 1]))
        self.assert_ends_as_without_them()

    def test_connections_that_close(self):
        for _ in range(3):
            socket.create_connection(("127.0.0.1", self.port)).close()
        self.assert_ends_as_without_them()

    def test_a_connection_that_asks(self):
        with socket.create_connection(("127.0.0.1", self.port)) as stray:
            stray.sendall(f"GET /v2/Users/{resource_id(1)} HTTP/1.1\r\nHost: h\r\n\r\n".encode())
            self.assert_ends_as_without_them()
            self.assertTrue(stray.recv(4096).startswith(b"HTTP/1.1 404 "))
