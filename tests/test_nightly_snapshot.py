"""examples/nightly-snapshot.sh: which exports it refuses, and what it keeps of the others."""
import csv
import os
import subprocess

from databases import sql
from support import EXAMPLES, PATIENCE, PROGRAM, ProgramTest, Provider, text

SCRIPT = EXAMPLES / "nightly-snapshot.sh"
MONDAY, TUESDAY = EXAMPLES / "export.csv", EXAMPLES / "export-tuesday.csv"
IGNORED = "users: ignored columns: Title, Site\n"


def logins(path):
    with open(path, encoding="utf-8", newline="") as file:
        return [record["Login"] for record in csv.DictReader(file)]


class NightlyTest(ProgramTest):
    def setUp(self):
        super().setUp()
        self.export, self.pushed = self.folder / "export.csv", self.folder / "export.csv.pushed"
        programs = self.folder / "bin"
        programs.mkdir()
        (programs / "scimlink").symlink_to(PROGRAM)
        self.environment = os.environ | {"PATH": f"{programs}:{os.environ['PATH']}"}
        self.provider = Provider(1000)
        self.addCleanup(self.provider.close)

    def touch(self, when):
        subprocess.run(["touch", "-d", when, self.export], check=True)

    def push(self, *options, most=2):
        to = ["--journal", self.site.journal, "--to", self.provider.address, "--most-leavers", str(most)]
        command = ["sh", SCRIPT, self.export, *to, "--quiet", *options]
        run = subprocess.run(
            command, env=self.environment, capture_output=True, text=True, timeout=PATIENCE, check=False,
        )
        # no copy is left but that of the last export
        names = {path.name for path in self.folder.glob("export*")}
        self.assertLessEqual(names, {self.export.name, self.pushed.name})
        return run.returncode, run.stdout, run.stderr

    def write(self, size, *names):
        """An export of this size, with these users and empty lines."""
        content = text("login", *names)
        self.export.write_text(content + "\n" * (size - len(content)))

    def is_pushed(self, confirmed, *options):
        self.assertEqual(self.push(*options), (0, f"{confirmed} confirmed, 0 unconfirmed, 0 rejected\n", ""))
        self.assertEqual(self.pushed.read_bytes(), self.export.read_bytes())

    def is_refused(self, why):
        before = self.held()
        self.assertEqual(self.push(), (1, "", f"{self.export} {why}: nothing was pushed\n"))
        self.assertEqual(self.held(), before)

    def test_a_call_without_options(self):
        for words in (), (self.export,):
            run = subprocess.run(["sh", SCRIPT, *words], capture_output=True, text=True, timeout=PATIENCE, check=False)
            self.assertEqual((run.returncode, run.stderr), (2, "usage: nightly-snapshot.sh EXPORT OPTION..\n"))

    def held(self):
        return [path.read_bytes() if path.exists() else None for path in (self.site.journal, self.pushed)]

    def test_the_exports_of_two_days(self):
        days, options = (MONDAY, TUESDAY), ["--column", "mail=E-Mail"]
        known = set()
        for day in days:
            known |= set(logins(day))
            self.export.write_bytes(day.read_bytes())
            said = f"{len(known)} confirmed, 0 unconfirmed, 0 rejected\n"
            self.assertEqual(self.push(*options), (0, said, IGNORED))
            self.assertEqual(self.pushed.read_bytes(), day.read_bytes())
            active = sql(self.site.journal, "SELECT name_key FROM user_entry_3 WHERE active = 1 ORDER BY name_key")
            self.assertEqual([name for name, in active], sorted(logins(day)))
        self.assertEqual((len(logins(MONDAY)), len(known)), (20, 21))

    def test_an_export_that_is_older_than_a_day(self):
        self.write(100, "ann")
        self.touch("25 hours ago")
        self.is_refused("is a day old or older")
        self.assertFalse(self.site.journal.exists())
        self.touch("23 hours ago")
        self.is_pushed(1)
        self.touch("3 days ago")
        self.is_refused("is a day old or older")

    def test_nine_tenths_of_the_last_export(self):
        self.write(1000, "ann", "bob")
        self.is_pushed(2)
        self.write(899, "ann", "bob")
        self.is_refused(f"has 899 bytes, and the last one had 1000 (if that is right, remove {self.pushed})")
        self.write(900, "ann", "bob")
        self.is_pushed(2)
        # the last export has 900 bytes
        self.write(810, "ann", "bob")
        self.is_pushed(2)
        self.export.write_bytes(b"")
        self.is_refused(f"has 0 bytes, and the last one had 810 (if that is right, remove {self.pushed})")

    def test_an_export_that_may_be_so_small(self):
        self.write(1000, "ann", "bob")
        self.is_pushed(2)
        self.write(100, "ann", "bob")
        self.is_refused(f"has 100 bytes, and the last one had 1000 (if that is right, remove {self.pushed})")
        self.pushed.unlink()
        self.is_pushed(2)

    def test_a_push_that_does_not_end_well(self):
        """The copy of the last good export stays."""
        self.write(1000, "ann", "bob", "cid", "dee")
        self.is_pushed(4)
        last = self.pushed.read_bytes()
        self.write(950, "ann")
        said = "3 users would be switched off, more than 2: nothing was done\n"
        self.assertEqual(self.push(), (1, "", said))
        self.write(950, "ann", "bob", "b b", "cid", "dee")
        said = "users record 3: S4\nusers record 3 can't be read: nobody who is absent was switched off\n"
        self.assertEqual(self.push()[::2], (1, said))
        self.assertEqual(self.push("--separator", "pipe")[0], 2)
        self.provider.close()
        self.write(950, "ann", "bob", "cid", "dee", "eve")
        self.assertEqual(self.push()[0], 3)
        self.assertEqual(self.pushed.read_bytes(), last)

    def test_an_export_that_is_not_there(self):
        status, output, _ = self.push()
        self.assertEqual((status, output, self.held()), (1, "", [None, None]))

    def test_it_can_be_run(self):
        self.assertTrue(os.access(SCRIPT, os.X_OK))
