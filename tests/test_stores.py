"""The provider's stores: rows that SQLite reads and writes, rows that are refused, and runs that stop.

What is refused of any file, as a text or a locked one, is in test_openings.py.
"""
import re

from databases import RESOURCE, STORE_FORMAT, compact, group_text, make_store, sql, user_resource, user_text
from faults import Fault, build_shim
from support import (
    BOB, BOB_CREATED, CREATE_BOB, GIVEN_UP, USER, ProgramTest, Provider, limited_files, resource_id, scimlink,
    store_commands,
)

BOB_SHOWN = "user bob held=1 version=1 active=true"
BOB_ROW, ANN_ROW = user_resource(1, "bob"), user_resource(2, "ann")
ROWS = "SELECT number, kind, name_key, version, content FROM resource ORDER BY number"

DAMAGED = {
    "no first row": [ANN_ROW],
    "a gap": [BOB_ROW, user_resource(3, "ann")],
    "a key in capitals": [BOB_ROW, user_resource(2, "Ann", content=user_text("ann"))],
    "another name": [BOB_ROW, user_resource(2, "ann", content=user_text("zoe"))],
    "another kind": [BOB_ROW, user_resource(2, "ann", kind=2)],
    "no JSON": [BOB_ROW, user_resource(2, "ann", content="{")],
    "no attribute": [BOB_ROW, user_resource(2, "ann", content="{}")],
    "no name": [BOB_ROW, user_resource(2, "")],
    "a version that is too large": [BOB_ROW, user_resource(2, "ann", version=2**53)],
}
# What another program can write into tables without CHECKs
FORBIDDEN = {
    "number 0": [user_resource(0, "ann"), BOB_ROW],
    "kind 3": [BOB_ROW, user_resource(2, "ann", kind=3)],
    "version 0": [BOB_ROW, user_resource(2, "ann", version=0)],
}


def shown(*names):
    """What `show` prints of users as they were created."""
    return [f"user {name} held=1 version=1 active=true" for name in names]


def create(name):
    """A request that creates a user. A name of three letters keeps the length that the head states."""
    return CREATE_BOB.replace(b'"bob"', f'"{name}"'.encode())


class ListsTest(ProgramTest):
    def test_a_later_list_looks_at_its_page_alone(self):
        """Whatever connection asks, only the first list looks through all users: the allocations tell."""
        users = [user_resource(number, f"u{number:04}") for number in range(1, 1_001)]
        store = make_store(self.folder / "store", users)
        fault, counts = Fault(build_shim(self.folder), self.folder, "ALLOCATION", 0), []
        with Provider(3, "--store", store, **fault.options) as provider:
            for start in (1, 500, 1_000):
                before = fault.count()
                listed = provider.ask("GET", f"/v2/Users?startIndex={start}&count=1").content
                counts.append(fault.count() - before)
                self.assertEqual(listed["totalResults"], 1_000)
                self.assertEqual([it["userName"] for it in listed["Resources"]], [f"u{start:04}"])
        self.assertGreater(counts[0], 1_000)
        self.assertLess(max(counts[1:]), 1_000)


class StoreTest(ProgramTest):
    def assert_status(self, answer, status):
        self.assertEqual(answer.split(b"\r\n")[0].decode(), f"HTTP/1.1 {status}")

    def creates(self, provider, *names):
        for name in names:
            self.assert_status(provider.exchange(create(name)), "201 Created")

    def replaces(self, provider, number, name, revision):
        answer = provider.ask("PUT", f"/v2/Users/{resource_id(number)}", user_text(name, revision))
        self.assertEqual(answer.status, 200)

    def answers(self, status, request):
        """`answer` over the store answers a request with this status."""
        run = scimlink("answer", "--store", self.site.store, stdin=request)
        self.assert_reports(run, 0)
        self.assert_status(run.output, status)

    def assert_shows(self, *lines):
        self.assert_prints(self.site.show_store(), *lines)

    def refuses(self, name, *rows, fault="store fault Y2", **options):
        """No command opens a store with these rows."""
        with self.subTest(name):
            path = make_store(self.folder / name, rows, **options)
            self.assert_refused(path, store_commands(path), fault)


class RowTest(StoreTest):
    def test_a_store_that_is_not_there_is_made(self):
        for _ in range(2):
            # the store is opened before the request is read, and no request comes
            self.assert_fault(scimlink("answer", "--store", self.site.store), "connection fault")
            self.assert_shows()
        self.assertEqual(sql(self.site.store, ROWS), [])

    def test_what_the_program_writes_sqlite_reads(self):
        run = scimlink("answer", "--store", self.site.store, stdin=CREATE_BOB)
        self.assert_reports(run, 0)
        self.assertEqual(run.output, BOB_CREATED)
        self.assert_shows(BOB_SHOWN)
        # compact, with the members by name, as it is sent; the request's own body is so
        rows = [(1, 1, "bob", 1, BOB)]
        self.assertEqual(sql(self.site.store, ROWS), rows)
        self.answers("409 Conflict", CREATE_BOB)
        self.assertEqual(sql(self.site.store, ROWS), rows)
        self.assertEqual(sql(self.site.store, "SELECT one, number FROM provider_format"), [(1, 1)])
        self.assertEqual(sql(self.site.store, "PRAGMA integrity_check"), [("ok",)])

    def test_what_sqlite_writes_the_program_reads(self):
        ann = compact({"schemas": [USER], "userName": "ann", "active": True})
        crew = group_text("Crew", [resource_id(1), resource_id(2)])
        make_store(self.site.store, [
            user_resource(1, "bob", version=7, content=user_text("Bob", 5, active=False)),
            user_resource(2, "ann", content=ann),
            user_resource(3, "crew", kind=2, version=2, content=crew),
        ])
        lines = [
            "user bob held=5 version=7 active=false",
            "user ann held=0 version=1 active=true",
            "group crew held=0 version=2 members=2",
        ]
        self.assert_shows(*lines)
        self.answers("409 Conflict", CREATE_BOB)
        self.answers("201 Created", create("zoe"))
        self.assert_shows(*lines, *shown("zoe"))
        self.assertEqual(sql(self.site.store, ROWS)[3], (4, 1, "zoe", 1, BOB.replace('"bob"', '"zoe"')))

    def test_damaged_rows_are_refused(self):
        for name, rows in DAMAGED.items():
            self.refuses(name, *rows)

    def test_rows_beside_the_end_of_a_page(self):
        """An opening reads 200 rows by a query."""
        for count in (199, 200, 201, 400, 401):
            names = [f"user{number:03}" for number in range(1, count + 1)]
            rows = [user_resource(number, name) for number, name in enumerate(names, 1)]
            with self.subTest(count):
                path = make_store(self.folder / f"{count} rows", rows)
                self.assert_prints(scimlink("show", "--store", path), *shown(*names))
            damaged = user_resource(count, names[-1], content=user_text("zoe"))
            self.refuses(f"the last of {count} is damaged", *rows[:-1], damaged)
            self.refuses(f"a gap before the last of {count}", *rows[:-1], user_resource(count + 1, names[-1]))

    def test_rows_that_the_format_forbids_are_refused(self):
        unchecked = [re.sub(r" CHECK \([^)]*\)", "", statement) for statement in (STORE_FORMAT, RESOURCE)]
        for name, rows in FORBIDDEN.items():
            self.refuses(name, *rows, statements=unchecked)

    def test_other_formats_are_refused(self):
        self.refuses("a newer one", BOB_ROW, number=2, fault="store fault Y3")
        self.refuses("number 0", BOB_ROW, number=0)
        self.refuses("no number", BOB_ROW, number=None)
        more = RESOURCE.replace("content TEXT NOT NULL,", "content TEXT NOT NULL, more TEXT,")
        self.refuses("a column more", statements=[STORE_FORMAT, more])
        not_unique = RESOURCE.replace(",\n  UNIQUE (kind, name_key)", "")
        self.refuses("names that aren't unique", statements=[STORE_FORMAT, not_unique])

    def test_other_tables_are_refused(self):
        note = "CREATE TABLE note (id INTEGER PRIMARY KEY, title TEXT NOT NULL)"
        for name, statements in {
            "another one alone": [note],
            "the rows alone": [RESOURCE],
            "another one beside": [STORE_FORMAT, RESOURCE, "INSERT INTO provider_format VALUES (1, 1)", note],
        }.items():
            with self.subTest(name):
                path = self.folder / name
                sql(path, *statements)
                self.assert_refused(path, store_commands(path), "store fault Y2")


class RunTest(StoreTest):
    def test_a_run_goes_on_where_the_last_one_ended(self):
        with self.serving(2, "--store", self.site.store) as provider:
            self.creates(provider, "bob", "ann")
        self.assert_shows(*shown("bob", "ann"))
        with self.serving(1, "--store", self.site.store) as provider:
            self.replaces(provider, 1, "bob", 2)
        self.assert_shows("user bob held=2 version=2 active=true", *shown("ann"))

    def test_what_was_answered_outlives_a_kill(self):
        names = [f"u{place:02}" for place in range(40)]
        held = {}
        for start in range(0, 40, 8):
            with Provider(1000, "--store", self.site.store) as provider:
                self.creates(provider, *names[start : start + 8])
                self.replaces(provider, start + 1, names[start], 2)
                self.kill(provider)
            held |= dict.fromkeys(names[start : start + 8], 1) | {names[start]: 2}
            if start % 16 == 0:
                # what the killed run left is the same, whether SQLite reads it first or the program
                rows = sql(self.site.store, "SELECT name_key, version FROM resource ORDER BY number")
                self.assertEqual(rows, list(held.items()))
            self.assert_shows(*(f"user {name} held={last} version={last} active=true" for name, last in held.items()))

    def test_the_log_stays_short(self):
        # each new user is a commit of two pages or more, that of its row and that of its name. Once the log has 1,000 pages
        # it is copied into the file, and the next commit begins it anew; up to 512 kB behind its end are zeros
        count, page = 1_000, 4_096 + 24
        self.site.write_users(*(f"u{place:04},1,,,,,active" for place in range(count)))
        with Provider(10 * count, "--store", self.site.store) as provider:
            self.assert_reports(self.site.push(provider.address), 0)
            self.assertLess(self.site.store.with_name("store-wal").stat().st_size, 1_200 * page)

    def test_a_kill_while_a_request_is_sent(self):
        with Provider(1000, "--store", self.site.store) as provider:
            self.creates(provider, "bob")
            with provider.connect() as stream:
                stream.sendall(create("ann")[:300])
                self.kill(provider)
        self.assert_shows(BOB_SHOWN)


class FullDiskTest(StoreTest):
    """Stores whose files grow to a limit, so that some changes are committed and then one fails.

    The log takes a quarter of a megabyte at its first change, and more later on.
    """

    def setUp(self):
        super().setUp()
        make_store(self.site.store)
        limit = self.site.store.stat().st_size + 512 * 1024
        self.provider = Provider(1000, "--store", self.site.store, **limited_files(limit))
        self.addCleanup(self.provider.close)

    def fill(self):
        """Creates users until the store fails: the names of those that were created."""
        for place in range(1000):
            answer = self.provider.exchange(create(f"{place:03}"))
            if not answer.startswith(b"HTTP/1.1 201 Created\r\n"):
                self.assertEqual(answer, GIVEN_UP)
                self.assertGreater(place, 0, "the first change failed")
                return [f"{before:03}" for before in range(place)]
        self.fail("the store never failed")

    def test_a_store_that_failed_is_opened_again(self):
        created = self.fill()
        answer = self.provider.ask("GET", "/v2/Users?count=0")
        self.assertEqual((answer.status, answer.content["totalResults"]), (200, len(created)))
        self.kill(self.provider)
        self.assert_shows(*shown(*created))

    def test_a_store_that_cannot_be_opened_again_ends_the_run(self):
        # the run holds the file under its new name, and finds a folder when it opens it again
        store = self.site.store
        moved = store.rename(store.with_name("moved"))
        store.with_name("store-wal").rename(moved.with_name("moved-wal"))
        store.mkdir()
        created = self.fill()
        self.assert_fault(self.provider.ends(), "store fault Y1")
        self.assert_prints(scimlink("show", "--store", moved), *shown(*created))
