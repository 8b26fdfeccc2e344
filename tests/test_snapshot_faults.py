"""`push --snapshot` with allocations, writes and reads that fail in turn: it takes all rows of a file or none, and
switches nobody off if it isn't certain who is absent."""
import pathlib
import tempfile

from databases import group_entry, make_journal, user_entry
from faults import ENDED, Fault, build_shim, tell_all, workers
from snapshots import NOBODY, SNAPSHOT
from support import NOWHERE, ProgramTest, Site, resource_id, scimlink, text, without_causes
from test_faults import STEP, TOLD

# What a run says on standard error if no fault is made
SURE = {"users: ignored columns: Site", "connection fault"}
UNSURE = SURE | {"users record 2: S4", f"users record 2 can't be read: {NOBODY}"}
BEFORE = ["user ann wanted=1 confirmed=1", "user bob wanted=1 confirmed=1", "group crew wanted=1 confirmed=1"]


def shown(journal):
    """What `show` prints of a journal, without the ids."""
    return [line.partition(" id=")[0] for line in scimlink("show", "--journal", journal).lines]


class Story:
    """A push of these files with a fault. The journal then has one of these contents: as it was, with the users, or with
    all."""

    def __init__(self, journal, files, lines, users, groups):
        self.journal, self.files, self.lines = journal, files, lines
        self.allowed = [BEFORE, [*users, BEFORE[2]], [*users, *groups]]

    def site(self, folder):
        site = Site(folder)
        site.journal.write_bytes(self.journal)
        site.users.write_text(self.files[0])
        site.groups.write_text(self.files[1])
        return site

    def __call__(self, folder, fault):
        site = self.site(folder)
        run = site.push(NOWHERE, *SNAPSHOT, "1", **fault.options)
        told = set(without_causes(run.errors).splitlines())
        is_ended = fault.ends_run and run.status == ENDED
        allowed = self.lines | (TOLD[fault.kind] if fault.has_come else set())
        if not is_ended and (run.status != 3 or not told <= allowed):
            raise AssertionError(f"status {run.status}, told {run.errors!r}")
        kept = shown(site.journal)
        if kept not in self.allowed:
            raise AssertionError(f"the journal has {kept}")


class FaultTest(ProgramTest):
    def setUp(self):
        super().setUp()
        self.shim = build_shim(self.folder)
        self.pool = workers()
        self.addCleanup(self.pool.shutdown)
        users = [user_entry(name, confirmed=1, id=resource_id(number)) for number, name in enumerate(("ann", "bob"), 1)]
        groups = [group_entry("crew", "ann bob", confirmed=1, id=resource_id(3))]
        self.journal = make_journal(self.folder / "made", users, groups).read_bytes()

    def story(self, records, lines, bob):
        files = text("login,mail,Site", *records), text("name,members", "duo,ann")
        users = ["user ann wanted=2 confirmed=1", bob, "user cid wanted=1 confirmed=0"]
        groups = ["group crew wanted=2 confirmed=1", "group duo wanted=1 confirmed=0"]
        return Story(self.journal, files, lines, users, groups)

    def refuse(self, kind, how=""):
        sure = self.story(["ann,ann@x,", "cid,,"], SURE, "user bob wanted=2 confirmed=1")
        unsure = self.story(["ann,ann@x,", "b b,,", "cid,,"], UNSURE, BEFORE[1])
        for story in sure, unsure:
            left = pathlib.Path(tempfile.mkdtemp(dir=self.folder))
            count, wrong = tell_all(self.pool, story, self.shim, kind, how, left, **self.places(kind, story))
            with self.subTest(kind=kind, how=how, is_sure=story is sure):
                self.assertEqual(wrong[:5], [], f"{len(wrong)} of {count}")
                self.assertGreater(count, 0)

    def places(self, kind, story):
        """Only one in STEP allocations of an opening fails."""
        if kind != "ALLOCATION":
            return {}
        with tempfile.TemporaryDirectory(dir=self.folder) as name:
            site = story.site(pathlib.Path(name))
            fault = Fault(self.shim, pathlib.Path(name), kind, 0)
            scimlink("push", "--users", "nowhere", "--journal", site.journal, "--to", NOWHERE, **fault.options)
            return {"opening": fault.count() - 100, "step": STEP}

    def test_memory(self):
        self.refuse("ALLOCATION")

    def test_writes(self):
        for how in ("5", "28+", "torn", "cut"):
            self.refuse("WRITE", how)

    def test_reads(self):
        self.refuse("READ", "5")
