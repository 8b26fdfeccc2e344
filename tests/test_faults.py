"""Allocations refused in turn, and each write, sync and read of a disk: what was answered or confirmed stands."""
import contextlib
import dataclasses
import functools
import os
import pathlib
import socket
import tempfile
import time
import unittest

from databases import OLDER_FORMS, group_entry, make_journal, sql, user_entry
from faults import ENDED, Fault, build_shim, tell_all, workers
from support import (
    BOB_CREATED, CONNECTION_FAULTS, CREATE_BOB, EXAMPLES, GIVEN_UP, NOWHERE, ROOT, Provider, Running, Site, read_all,
    resource_id, scimlink, without_causes,
)

BOB_SHOWN = "user bob held=1 version=1 active=true"
FORGOTTEN = "user bob wanted=1 confirmed=0 id=-"
SCHEDULE = ROOT / "tests/schedules/restarts.schedule"
RECORDS = EXAMPLES / "personnel.csv"
ASKS_NOTHING = b"GET /v2/None HTTP/1.1\r\nHost: localhost:8080\r\n\r\n"

# What a run tells of a fault
TOLD = {
    "ALLOCATION": {"memory fault"},
    "WRITE": {"store fault Y1", "journal fault J1"},
    "READ": {"store fault Y1", "journal fault J1", "file fault"},
}
# How a disk fails: by EIO, once; full (ENOSPC) from there on; the run ends within that write; the power is cut
WRITE_FAULTS = ("5", "28+", "torn", "cut")
# The exchanges that carry three records: each is looked for, then created or replaced
EXCHANGES = 6
# A new store is opened with each allocation refused in turn, and what is there already with one in so many.
# With FAULT_STEP=1, each is refused there too
STEP = int(os.environ.get("FAULT_STEP", "10"))


def check(found, wanted, what):
    if found != wanted:
        raise AssertionError(f"{what}: {found!r} and not {wanted!r}")


def check_ending(run, fault, *more):
    """A run with a fault ends as documented. Status 1 is for records that are left."""
    if fault.has_come and fault.ends_run and run.status == ENDED:
        check(run.errors, "", "told by a run that was ended")
        return
    lines = without_causes(run.errors).splitlines()
    told = {"connection fault" if CONNECTION_FAULTS.fullmatch(line) else line for line in lines}
    allowed = TOLD[fault.kind] | set(more) if fault.has_come else set()
    if run.status not in (0, 1, 3) or (run.status == 3) != bool(told) or not told <= allowed:
        raise AssertionError(f"status {run.status}, told {run.errors!r}")


def check_lines(run, fault, lines, status=0, told=()):
    """A run that only prints prints all this, or the first of it and then a fault."""
    if fault.has_come and run.status == 3:
        check(run.lines, lines[: len(run.lines)], "lines before a fault")
        check_ending(run, fault, *told)
    else:
        check((run.status, run.lines, run.errors.splitlines()), (status, lines, list(told)), "an undisturbed run")


def show(option, file):
    """What `show` prints of a file. If there is none, it prints nothing and ends with a fault."""
    run = scimlink("show", option, file)
    wanted = (0, "") if file.exists() else (3, "file fault\n")
    check((run.status, without_causes(run.errors)), wanted, f"show {option}")
    return run.lines


def read_shown(lines):
    """The numbers of each record in lines of `show`."""
    records = [line.split() for line in lines]
    shown = {(kind, name): dict(part.split("=") for part in parts) for kind, name, *parts in records}
    check(len(shown), len(records), "records")
    return shown


def kept(site):
    """The bytes of the files of both ends."""
    files = [file for base in (site.store, site.journal) for file in (base, base.with_name(f"{base.name}-wal"))]
    return [file.read_bytes() if file.exists() else None for file in files]


def use_up(provider, address):
    """Asks for what isn't there, until the provider has answered all its requests and ends."""
    host, _, port = address.rpartition(":")
    while provider.process.poll() is None:
        with contextlib.suppress(OSError), socket.create_connection((host, int(port))) as stream:
            stream.sendall(ASKS_NOTHING)
            read_all(stream)
        time.sleep(0.001)


# ---- stories of one run


def answer(_, fault):
    """A request in memory: it is answered, or by the fixed text, or it isn't read."""
    check_answer(scimlink("answer", stdin=CREATE_BOB, **fault.options), fault)


def check_answer(run, fault):
    check_ending(run, fault)
    outputs = {0: [BOB_CREATED, GIVEN_UP], ENDED: [BOB_CREATED, GIVEN_UP, b""]}.get(run.status, [b""])
    if run.output not in (outputs if fault.has_come else [BOB_CREATED]):
        raise AssertionError(f"status {run.status}, printed {run.output!r}")


def answer_stored(folder, fault):
    """A request over a new store: its row is there if it was answered, and none where memory was refused."""
    command = ["answer", "--store", folder / "store"]
    run = scimlink(*command, stdin=CREATE_BOB, **fault.options)
    check_answer(run, fault)
    if fault.left_before(kept(Site(folder)), run.output):
        return
    again = scimlink(*command, stdin=CREATE_BOB)
    check((again.status, again.errors), (0, ""), "the next answer")
    if run.output == BOB_CREATED:
        check(again.output[:12], b"HTTP/1.1 409", "the answer after a creation")
    elif fault.kind == "ALLOCATION":
        check(again.output, BOB_CREATED, "the answer after refused memory")
    if fault.kind != "ALLOCATION":
        check(show("--store", folder / "store"), [BOB_SHOWN], "rows in the end")


def simulate(_, fault):
    lines = SCHEDULE.with_suffix(".out").read_text().splitlines()
    check_lines(scimlink("simulate", SCHEDULE, **fault.options), fault, lines)


def settle(folder, fault):
    """A run that settles. What it leaves if memory is refused is in the contract of `settle`."""
    schedule = folder / "schedule"
    schedule.write_text("user bob,1,,,,,active\nsend user bob\n")
    lines = ["1 new", "2 find 1", "settled in 2 exchanges", "user bob wanted=1 confirmed=1 held=1 version=1 active=true"]
    check_lines(scimlink("simulate", schedule, "--settle", **fault.options), fault, lines)


@functools.cache
def mapped():
    """What an undisturbed `map` prints."""
    return scimlink("map", RECORDS).lines


def map_users(_, fault):
    check_lines(scimlink("map", RECORDS, **fault.options), fault, mapped(), 1, ["users record 3: S5"])


# The entries of a journal of an older format
USERS = [
    user_entry("ann", login="Ann", mail="ann@example.com"),
    user_entry("bob", active=0, revision=3, confirmed=2, id=resource_id(1)),
]
CREW = [group_entry("crew", "ann bob", confirmed=1, id=resource_id(2))]


@functools.cache
def older_journal(form):
    """The bytes of a journal of an older format."""
    with tempfile.TemporaryDirectory() as name:
        return make_journal(pathlib.Path(name) / "journal", USERS, CREW, form).read_bytes()


def carry_over(form, folder, fault):
    """A journal of an older format is shown with a fault, and then without one, which shows all that was in it."""
    site = Site(folder)
    journal = site.journal
    journal.write_bytes(older_journal(form))
    lines = [
        "user ann wanted=1 confirmed=0 id=-",
        f"user bob wanted=3 confirmed=2 id={resource_id(1)}",
        f"group crew wanted=1 confirmed=1 id={resource_id(2)}",
    ]
    run = scimlink("show", "--journal", journal, **fault.options)
    check_ending(run, fault)
    check(run.lines, lines[: len(run.lines)], "lines")
    if fault.left_before(kept(site)):
        return
    check(show("--journal", journal), lines, "entries in the end")
    check(sql(journal, "SELECT * FROM user_entry_3 ORDER BY name_key"), USERS, "users in the end")
    check(sql(journal, "SELECT * FROM group_entry_3"), CREW, "groups in the end")
    for table in ("user_entry", "group_entry", "user_entry_2"):
        check(sql(journal, f"SELECT * FROM {table}"), [], f"rows of {table} in the end")


def carry_over_1(folder, fault):
    carry_over(OLDER_FORMS[0], folder, fault)


def carry_over_2(folder, fault):
    carry_over(OLDER_FORMS[1], folder, fault)


# ---- stories of both ends


def read(*files):
    """The bytes of files, by their names."""
    return {file.name: file.read_bytes() for file in files}


@dataclasses.dataclass
class Job:
    """Files of a source, and of both ends where there are some, and what both ends keep in the end."""

    files: dict
    # The revision at which both ends keep a record at first
    before: dict
    # What `show` prints of the store in the end: records in the order of the source
    rows: list

    def start(self, folder):
        """The files, in a new folder."""
        for name, content in self.files.items():
            (folder / name).write_bytes(content)
        return Site(folder)

    @property
    def wanted(self):
        """The revision at which each record is wanted."""
        return {name: int(row["held"]) for name, row in read_shown(self.rows).items()}

    @property
    def confirmed(self):
        """What `push` prints."""
        return [f"{kind} {name} confirmed {wanted}" for (kind, name), wanted in self.wanted.items()]

    @property
    def records(self):
        """What `loop` prints of the records."""
        revisions = [f"wanted={wanted} confirmed={wanted} held=" for wanted in self.wanted.values()]
        return [row.replace("held=", revision) for row, revision in zip(self.rows, revisions)]

    @property
    def entries(self):
        """What `show` prints of the journal in the end."""
        ids = [f"id={resource_id(place)}" for place in range(1, len(self.rows) + 1)]
        return [f"{record.partition(' held=')[0]} {id}" for record, id in zip(self.records, ids)]

    def check_kept(self, site, accepted, confirmed):
        """Both ends keep what they kept, and what was printed; the store keeps what is confirmed."""
        entries = self.check_entries(site, accepted, confirmed)
        self.check_rows(site, [f"{kind} {name} confirmed {entry['confirmed']}" for (kind, name), entry in entries.items()])

    def check_entries(self, site, accepted, confirmed):
        """The journal keeps what it kept, the first rows of the source that were accepted, and what was confirmed."""
        entries = read_shown(show("--journal", site.journal))
        for place, (name, wanted) in enumerate(self.wanted.items()):
            before, entry = self.before.get(name, 0), entries.get(name, {"wanted": 0, "confirmed": 0})
            is_confirmed = " ".join([*name, f"confirmed {wanted}"]) in confirmed
            self.check_number(name, entry["wanted"], wanted if place < accepted else before)
            self.check_number(name, entry["confirmed"], wanted if is_confirmed else before)
        return entries

    def check_rows(self, site, confirmed):
        """The store keeps what it kept, and what was confirmed."""
        lines = show("--store", site.store)
        rows = read_shown(lines)
        for name, wanted in self.wanted.items():
            is_confirmed = " ".join([*name, f"confirmed {wanted}"]) in confirmed
            row = rows.get(name, {"held": 0})
            self.check_number(name, row["held"], wanted if is_confirmed else self.before.get(name, 0))
        return lines

    def check_number(self, name, number, least):
        """A revision is this one, or the one that is wanted."""
        if int(number) not in (least, self.wanted[name]):
            raise AssertionError(f"{name} is at {number}, and not at {least}")

    def push_again(self, site, provider):
        run = site.push(provider.address)
        check((run.status, run.lines, run.errors), (0, self.confirmed, ""), "the next push")

    def push_abreast(self, folder, fault):
        """The same as `push`, with four streams at first and one then."""
        self.push(folder, fault, "--streams", "4")

    def push(self, folder, fault, *options):
        """A push with a fault, then one without."""
        site = self.start(folder)
        with Provider(1_000_000, "--store", site.store, **fault.others) as provider:
            before = kept(site)
            run = site.push(provider.address, *options, **fault.options)
            check_ending(run, fault)
            check(run.lines, self.confirmed[: len(run.lines)], "lines")
            if run.status == 0:
                check(len(run.lines), len(self.rows), "lines of a push that ends well")
            after = kept(site)
            if after == before or fault.left_before(after, run.output):
                return
            self.check_entries(site, 0, run.lines)
            self.push_again(site, provider)
        # requests on several streams may be served in any order
        order = sorted if options else list
        check(order(show("--store", site.store)), order(self.rows), "the store in the end")

    def exceed(self, folder, fault):
        """A push with a fault, whose files would switch off too many users. Whatever fails, it takes no row."""
        site = self.start(folder)
        before, excess = show("--journal", site.journal), "1 user would be switched off, more than 0: nothing was done"
        run = site.push(NOWHERE, "--most-leavers", "0", **fault.options)
        if fault.has_come and run.status != 1:
            check_ending(run, fault)
        else:
            check((run.status, run.lines, run.errors), (1, [], f"{excess}\n"), "a push within no limit")
        if not fault.left_before(kept(site), run.output):
            check(show("--journal", site.journal), before, "the journal after nothing was done")

    def serve(self, folder, fault):
        """A push to a provider with a fault, then one to a provider without."""
        site = self.start(folder)
        options = ["--listen", "127.0.0.1:0", "--requests", EXCHANGES, "--store", site.store]
        before = kept(site)
        with Running("serve", *options, **fault.options) as provider:
            address = provider.read_line().removeprefix("listening ").strip()
            run = site.push(address, **fault.others) if address else None
            if run:
                use_up(provider, address)
            check_ending(provider.ends(), fault, "connection fault")
        after = kept(site)
        if after == before or fault.left_before(after, run and (run.status, run.output)):
            return
        rows = self.check_rows(site, run.lines if run else ())
        if run and run.status == 0 and rows == self.rows:
            return
        with Provider(1_000_000, "--store", site.store) as provider:
            self.push_again(site, provider)
        check(show("--store", site.store), self.rows, "the store in the end")

    def loop(self, folder, fault):
        """A loop with a fault, then one without."""
        site = self.start(folder)
        both = ["--store", site.store, "--journal", site.journal]
        before = kept(site)
        run = site.loop(*both, **fault.options)
        check_ending(run, fault)
        reports = [line for line in run.lines if line[0].isdigit()]
        records = [line for line in run.lines if line.startswith(("user ", "group "))]
        check(records, self.records[: len(records)], "records")
        if run.status == 0:
            check(len(records), len(self.rows), "records of a loop that ends well")
        after = kept(site)
        if after == before or fault.left_before(after, run.output):
            return
        if fault.kind == "WRITE":
            self.check_kept(site, len(reports), self.confirmed[: len(records)])
        again = site.loop(*both)
        known = [report.replace("new", "known") for report in reports]
        check(again.lines[: len(known)], known, "the rows that were accepted")
        if records:
            check(again.lines[len(reports)], "settled in 0 exchanges", "the loop after all was confirmed")
        check((again.status, again.errors, again.lines[-len(self.rows) :]), (0, "", self.records), "the next loop")

    def show_store(self, folder, fault):
        self.shows(folder, fault, "--store", [BOB_SHOWN])

    def show_journal(self, folder, fault):
        self.shows(folder, fault, "--journal", [f"user bob wanted=1 confirmed=1 id={resource_id(1)}"])

    def reset(self, folder, fault, *names):
        """A reset with a fault, then one without: the journal has forgotten the record, or nothing."""
        site = self.start(folder)
        entry = f"user bob wanted=1 confirmed=1 id={resource_id(1)}"
        run = site.reset(*names, **fault.options)
        check_ending(run, fault)
        check(run.lines, ["reset 1 records"][: len(run.lines)], "lines")
        if fault.left_before(kept(site), run.output):
            return
        shown = show("--journal", site.journal)
        if shown not in ([entry], [FORGOTTEN]) or (run.output and shown == [entry]):
            raise AssertionError(f"status {run.status}, {shown!r}")
        again = site.reset(*names)
        check((again.status, again.lines), (0, [f"reset {int(shown == [entry])} records"]), "the next reset")
        check(show("--journal", site.journal), [FORGOTTEN], "the journal in the end")

    def reset_named(self, folder, fault):
        """The same, if the record is named."""
        self.reset(folder, fault, "user:bob")

    def shows(self, folder, fault, option, lines):
        """A show with a fault of what is kept at first, then one without."""
        site = self.start(folder)
        file = site.store if option == "--store" else site.journal
        before = kept(site)
        check_lines(scimlink("show", option, file, **fault.options), fault, lines)
        after = kept(site)
        if after != before and not fault.left_before(after):
            check(show(option, file), lines, "the next show")


# ---- tests


def open_journal(site):
    """A push that opens the journal, and ends as it finds no users."""
    return ["push", "--users", "nowhere", "--journal", site.journal, "--to", "127.0.0.1:1"]


class FaultsTest(unittest.TestCase):
    @classmethod
    def setUpClass(cls):
        # in memory where there is such a folder: no test here needs a disk
        memory = "/dev/shm" if os.access("/dev/shm", os.W_OK) else None
        folder = tempfile.TemporaryDirectory(prefix="scimlink-", dir=memory)
        cls.addClassCleanup(folder.cleanup)
        cls.folder = pathlib.Path(folder.name)
        cls.shim = build_shim(cls.folder)
        cls.pool = workers()
        cls.addClassCleanup(cls.pool.shutdown)
        site = Site(cls.folder)
        group = "group crew held=1 version=1 members=2"
        site.write_users("ann,1,1001,Ann,Lee,ann@example.com,active", "bob,1,,,,,active")
        site.write_groups("crew,1,ann bob")
        sources = site.users, site.groups
        cls.joiners = Job(read(*sources), {}, ["user ann held=1 version=1 active=true", BOB_SHOWN, group])
        site.groups.unlink()
        site.write_users("bob,1,,,,,active")
        check(site.loop("--store", site.store, "--journal", site.journal).status, 0, "the loop before")
        site.write_users("bob,2,,,,,left", "cid,1,1003,Cid,Poe,cid@example.com,active")
        site.write_groups("crew,1,bob cid")
        left = "user bob held=2 version=2 active=false"
        cls.leaver = Job(
            read(*sources, *cls.folder.glob("store*"), *cls.folder.glob("journal*")), {("user", "bob"): 1},
            [left, "user cid held=1 version=1 active=true", group],
        )

    def refuse(self, kind, *stories, ways=("",), **more):
        """Tells each story with each call of this kind refused in turn, in each of these ways."""
        for story in stories:
            left = pathlib.Path(tempfile.mkdtemp(dir=self.folder))
            for how in ways:
                with self.subTest(story=story.__name__, how=how):
                    count, wrong = tell_all(self.pool, story, self.shim, kind, how, left, **more)
                    print(f"{story.__name__}: refused {count} {kind.lower()}s {how}".rstrip(), *wrong[:5], sep="\n", flush=True)
                    self.assertEqual(wrong[:5], [], f"{len(wrong)} of {count}")
                    self.assertGreater(count, 0)

    def refuse_memory_after(self, opening, story):
        """Tells a story with each allocation refused in turn, but for those of the first run: it opens files alone."""
        with tempfile.TemporaryDirectory(dir=self.folder) as name:
            folder = pathlib.Path(name)
            site = self.leaver.start(folder)
            fault = Fault(self.shim, folder, "ALLOCATION", 0)
            run = scimlink(*opening(site), **fault.options)
            check((run.status, run.output), (3, b""), "an opening alone")
            # it closed the files too
            self.refuse("ALLOCATION", story, opening=fault.count() - 100, step=STEP)

    def test_memory_of_answer(self):
        self.refuse("ALLOCATION", answer, answer_stored)

    def test_memory_of_simulate_and_map(self):
        self.refuse("ALLOCATION", simulate, settle, map_users)

    def test_memory_of_show(self):
        for option, story in ("--store", self.leaver.show_store), ("--journal", self.leaver.show_journal):
            self.refuse("ALLOCATION", story, opening=None, step=STEP)

    def test_memory_of_reset(self):
        for story in self.leaver.reset, self.leaver.reset_named:
            self.refuse_memory_after(open_journal, story)

    def test_journals_of_older_formats(self):
        for story in carry_over_1, carry_over_2:
            # each has some 11,000 allocations
            self.refuse("ALLOCATION", story, opening=None, step=STEP)
            self.refuse("WRITE", story, ways=WRITE_FAULTS)
            self.refuse("READ", story, ways=["5"])

    def test_memory_of_push(self):
        for story in self.leaver.push, self.leaver.push_abreast, self.leaver.exceed:
            self.refuse_memory_after(open_journal, story)

    def test_memory_of_serve(self):
        self.refuse_memory_after(
            lambda site: ["serve", "--listen", "192.0.2.1:1", "--requests", "1", "--store", site.store], self.leaver.serve
        )

    def test_memory_of_loop(self):
        self.refuse_memory_after(
            lambda site: ["loop", "--users", "nowhere", "--store", site.store, "--journal", site.journal], self.leaver.loop
        )

    def test_writes(self):
        self.refuse("WRITE", answer_stored, self.leaver.reset, self.leaver.reset_named, ways=WRITE_FAULTS)
        for job in self.joiners, self.leaver:
            self.refuse("WRITE", job.push, job.push_abreast, job.serve, job.loop, ways=WRITE_FAULTS)

    def test_reads(self):
        leaver = self.leaver
        resets = leaver.reset, leaver.reset_named
        stories = leaver.show_store, leaver.show_journal, *resets, leaver.push, leaver.exceed, leaver.serve, leaver.loop
        self.refuse("READ", answer_stored, *stories, ways=["5"])


if __name__ == "__main__":
    unittest.main()
