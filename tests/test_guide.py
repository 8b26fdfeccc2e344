"""docs/GUIDE.md: its commands print what it says, in their order, and its other blocks are files of examples."""
import datetime
import os
import re
import shlex
import shutil
import subprocess
import unittest

from support import (
    EXAMPLES, PROGRAM, ROOT, USER, ProgramTest, Provider, free_port, scimlink, wait_until, watchdog,
)

PAGE = (ROOT / "docs/GUIDE.md").read_text()
# Each block of the page: its language, and its text
BLOCKS = re.findall(r"^```(\w*)\n(.*?)^```$", PAGE, re.MULTILINE | re.DOTALL)
# The address on the page, in whose place a free one is taken
ADDRESS = "127.0.0.1:8080"
# What the shell says of its jobs, which the page leaves out
OF_JOBS = re.compile(r"^.*: line \d+: +\d+ Terminated .*\n", re.MULTILINE)
# A name that try-provider.py made up
TRIED = re.compile(r"scimlink-try-[0-9a-f]{8}")


def commands():
    """The commands of the page, and what each prints."""
    for language, content in BLOCKS:
        if language == "console":
            for part in re.split(r"^\$ ", content, flags=re.MULTILINE)[1:]:
                command, _, printed = part.partition("\n")
                yield command, printed


class Shell:
    """A shell that runs commands one after another, as if they were typed."""

    def __init__(self, folder, programs):
        self.folder = folder
        environment = os.environ | {"PATH": f"{programs}:{os.environ['PATH']}", "PYTHONDONTWRITEBYTECODE": "1"}
        pipes = {"stdin": subprocess.PIPE, "stdout": subprocess.PIPE, "stderr": subprocess.DEVNULL, "text": True}
        self.process = subprocess.Popen(["bash"], cwd=folder, env=environment, **pipes)
        self.watchdog = watchdog(self.process)

    def send(self, line):
        self.process.stdin.write(f"{line}\n")
        self.process.stdin.flush()

    def run(self, command, output):
        """Runs a command, which is given the status of the one before, and prints to a file."""
        run = f"eval {shlex.quote(command)} > {output} 2>&1 < /dev/null"
        self.send(f"(exit ${{status-0}}); {run}; status=$?; echo done")
        if self.process.stdout.readline() != "done\n":
            raise AssertionError(f"the shell ended: {command}")

    def close(self):
        """Ends the shell, and what it has running."""
        self.send("kill $(jobs -p); wait")
        self.process.communicate()
        self.watchdog.cancel()


class GuideTest(ProgramTest):
    def test_commands_print_what_the_page_says(self):
        programs, work = self.folder / "bin", self.folder / "work"
        programs.mkdir()
        work.mkdir()
        (programs / "scimlink").symlink_to(PROGRAM)
        (work / "examples").symlink_to(EXAMPLES)
        shell = Shell(work, programs)
        self.addCleanup(shell.close)
        here = f"127.0.0.1:{free_port()}"
        for number, (command, printed) in enumerate(commands()):
            command, printed = command.replace(ADDRESS, here), printed.replace(ADDRESS, here)
            with self.subTest(command):
                output = self.folder / f"output.{number}"
                shell.run(command, output)
                if command.endswith("&"):
                    # it prints in its own time
                    wait_until(lambda: output.stat().st_size >= len(printed), "what it prints")
                told = OF_JOBS.sub("", output.read_text())
                self.assertEqual(TRIED.sub("TRIED", told), TRIED.sub("TRIED", printed))

    def test_blocks(self):
        self.assertEqual(PAGE.count("\n```"), 2 * len(BLOCKS))
        self.assertGreater(len(list(commands())), 50)

    def test_other_blocks_are_files_of_examples(self):
        examples = {path.read_text() for path in EXAMPLES.iterdir() if path.is_file()}
        for language, content in BLOCKS:
            if language != "console":
                with self.subTest(content.partition("\n")[0]):
                    self.assertTrue(content in examples, content)

    def test_the_mail_of_cron_has_what_is_not_confirmed(self):
        line = next(line for line in (EXAMPLES / "scimlink.cron").read_text().splitlines() if line[0] == "*")
        places = {
            "/usr/local/bin/scimlink": PROGRAM,
            "/srv/personnel/users.csv": self.site.users,
            "/srv/personnel/groups.csv": self.site.groups,
            "/var/lib/scimlink-connector/journal.db": self.site.journal,
        }
        command = line.split(" scimlink ", 1)[1]
        self.site.write_users("ann,1,,,,,active", "bob,1:2,,,,,active", "cid,2000000000,,,,,left")
        self.site.write_groups("confirmed,1,ann", "crew,1:1,ann")
        with Provider(100) as provider:
            provider.ask("POST", "/v2/Users", f'{{"schemas":["{USER}"],"userName":"bob"}}')
            for theirs, ours in (places | {ADDRESS: provider.address}).items():
                self.assertIn(theirs, command)
                command = command.replace(theirs, str(ours))
            mail = subprocess.run(["sh", "-c", command], capture_output=True, text=True, check=False)
            said = "user bob unconfirmed C1\n4 confirmed, 1 unconfirmed, 0 rejected\nuser bob: no revision of the source\n"
            self.assertEqual(mail.stdout + mail.stderr, said)

    def test_revisions_from_dates_and_times(self):
        part = PAGE[PAGE.index("### Revisions from dates and times"):PAGE.index("### Departments")]
        moment = datetime.datetime(2026, 11, 26, 14, 30, tzinfo=datetime.timezone.utc)
        seconds = int(moment.timestamp())
        day, second = divmod(seconds, 86_400)
        revisions = ["7", f"{moment:%Y%m%d}", str(seconds // 60), str(seconds), f"{day}:{second + 1}"]
        self.assertEqual(re.findall(r"^\|[^|`]*\| `([^`]*)` \|", part, re.MULTILINE), revisions)
        # each is above the one before it
        self.site.write_users(*(f"ann,{revision},,,,,active" for revision in revisions))
        self.assertEqual(self.site.loop().lines[:5], [f"{place} new" for place in range(1, 6)])
        # none of these is a revision
        too_large = re.findall(r"`(\d{10,})`", part[part.index("A timestamp as a whole"):])
        self.site.write_users(*(f"ann,{revision},,,,,active" for revision in too_large))
        errors = [f"users record {place}: S5" for place in (1, 2)]
        self.assert_prints(scimlink("map", self.site.users), status=1, errors=errors)

    def test_when_revisions_end(self):
        largest, last_epoch, minute, year = 2_000_000_000, 999_999, 60, 365.2425 * 86_400
        end = datetime.datetime.fromtimestamp(largest, datetime.timezone.utc)
        self.assertIn(f"| on {end.day} {end:%B %Y} |", PAGE)
        for seconds in (largest * minute, last_epoch * 86_400):
            self.assertIn(f"| in the year {1970 + int(seconds / year)} |", PAGE)

    @unittest.skipUnless(shutil.which("systemd-analyze"), "there is no systemd here")
    def test_units(self):
        units = [*EXAMPLES.glob("*.service"), *EXAMPLES.glob("*.timer")]
        self.assertEqual(len(units), 3)
        run = subprocess.run(["systemd-analyze", "verify", *units], capture_output=True, text=True, check=False)
        # the program itself isn't installed here
        lines = [line for line in (run.stdout + run.stderr).splitlines() if "is not executable" not in line]
        self.assertEqual(lines, [])
