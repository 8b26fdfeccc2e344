"""Each command with less memory than its work takes: it says so, and leaves its files as they were."""
import os
import signal
import subprocess

from databases import OLDER_FORMS, make_journal, make_store, user_entry, user_resource, user_text
from support import CREATE_BOB, EXAMPLES, NOWHERE, PROGRAM, ProgramTest, limited_memory, scimlink, text

# Enough to start, and far too little for what is asked for here
STARVED = limited_memory(12_500 * 1024)
# If a run takes the last page, the system ends it once its stack has to grow. Which limit does that depends on the size
# of the program, so such a run is made again with this one
OTHERWISE_STARVED = limited_memory(13_000 * 1024)
NAMES = [f"u{place:06}" for place in range(100_000)]
MONDAY = ["--users", EXAMPLES / "monday.csv"]


def peak(*arguments):
    """The most memory that a whole run had at once, in KiB."""
    with subprocess.Popen([PROGRAM, *map(str, arguments)], stdout=subprocess.DEVNULL) as run:
        _, status, usage = os.wait4(run.pid, 0)
        run.returncode = os.waitstatus_to_exitcode(status)
    if run.returncode != 0:
        raise AssertionError(f"status {run.returncode}")
    return usage.ru_maxrss


class MemoryTest(ProgramTest):
    def assert_starves(self, path, *arguments):
        """Out of memory at its file, the command prints nothing, and the file stays."""
        before = path.read_bytes()
        run = scimlink(*arguments, stdin=CREATE_BOB, **STARVED)
        if run.status == -signal.SIGSEGV:
            run = scimlink(*arguments, stdin=CREATE_BOB, **OTHERWISE_STARVED)
        self.assert_fault(run, "memory fault")
        self.assertTrue(path.read_bytes() == before, "the file was written")

    def test_enough_to_start(self):
        self.assert_reports(scimlink("map", EXAMPLES / "monday.csv", **STARVED), 0)

    def test_input_files(self):
        self.site.write_users(*(f"{name},1,,,,,active" for name in NAMES))
        users = self.site.users
        self.assert_starves(users, "loop", "--users", users)
        journal = make_journal(self.site.journal)
        self.assert_starves(journal, "push", "--users", users, "--journal", journal, "--to", NOWHERE)

    def test_snapshots(self):
        self.site.users.write_text(text("login", *NAMES))
        journal = make_journal(self.site.journal)
        snapshot = ["push", "--snapshot", "--most-leavers", "0", "--users", self.site.users, "--journal", journal]
        self.assert_starves(journal, *snapshot, "--to", NOWHERE)
        self.assert_starves(journal, *snapshot, "--plan")

    def test_map_holds_one_record_at_a_time(self):
        self.site.write_users(*(f"{name},1,,,,,active" for name in NAMES))
        run = scimlink("map", self.site.users, **STARVED)
        self.assert_reports(run, 0)
        self.assertEqual(len(run.lines), len(NAMES))
        self.site.write_users("ann,1,,,,,active", f"bob,1,,{'b' * 20_000_000},,,active")
        run = scimlink("map", self.site.users, **STARVED)
        self.assert_reports(run, 3, "memory fault")
        self.assertEqual(run.lines, [user_text("ann")])

    def test_a_schedule(self):
        schedule = self.folder / "schedule"
        schedule.write_text(text(*(f"user {name},1,,,,,active" for name in NAMES)))
        self.assert_starves(schedule, "simulate", schedule)

    def test_a_journal(self):
        journal = make_journal(self.site.journal, (user_entry(name, confirmed=1, id=name) for name in NAMES))
        self.assert_starves(journal, "show", "--journal", journal)
        self.assert_starves(journal, "reset", "--journal", journal)
        self.assert_starves(journal, "push", *MONDAY, "--journal", journal, "--to", NOWHERE)
        self.assert_starves(journal, "loop", *MONDAY, "--journal", journal)

    def test_journals_of_older_formats(self):
        entries = [user_entry(name, confirmed=1, id=name) for name in NAMES]
        journal = make_journal(self.site.journal, entries)
        for form in OLDER_FORMS:
            with self.subTest(form=form.number):
                older = make_journal(self.folder / f"format {form.number}", entries, form=form)
                self.assert_starves(older, "show", "--journal", older)
                self.assert_starves(older, "reset", "--journal", older)
                # with memory again, it is carried over, which takes no more than to open the entries
                self.assertLess(peak("show", "--journal", older), 1.05 * peak("show", "--journal", journal))

    def test_a_store(self):
        rows = (user_resource(number, name) for number, name in enumerate(NAMES, 1))
        store = make_store(self.site.store, rows)
        self.assert_starves(store, "show", "--store", store)
        self.assert_starves(store, "answer", "--store", store)
        self.assert_starves(store, "serve", "--listen", "127.0.0.1:0", "--requests", "1", "--store", store)
        self.assert_starves(store, "loop", *MONDAY, "--store", store)
        # and with memory again
        lines = text(*(f"user {name} held=1 version=1 active=true" for name in NAMES))
        run = self.site.show_store()
        self.assert_reports(run, 0)
        self.assertTrue(run.output.decode() == lines, "other lines")
