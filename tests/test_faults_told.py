"""The second line of a fault, addresses that aren't HOST:PORT, and records that go over lines."""
import os
import pathlib
import shutil
import socket
import subprocess
import tempfile
import unittest

ROOT = pathlib.Path(__file__).resolve().parent.parent
PROGRAM = os.environ.get("SCIMLINK") or str(ROOT / "crates/scimlink/out/scimlink")
USERS = "login,revision,number,given,family,mail,status\n"
GROUPS = "name,revision,members\n"
SOURCES = ["--users", "users.csv", "--groups", "groups.csv"]


class Case(unittest.TestCase):
    """Runs the program in a folder with the files of one user and no group."""

    def setUp(self):
        folder = tempfile.mkdtemp()
        self.addCleanup(shutil.rmtree, folder)
        self.folder = pathlib.Path(folder)
        self.write("users.csv", USERS + "bob,1,,,,,active\n")
        self.write("groups.csv", GROUPS)

    def write(self, name, text):
        (self.folder / name).write_bytes(text.encode("utf-8"))

    def run_program(self, *words, stdout=subprocess.PIPE):
        """The status, and what is printed on standard output and on standard error."""
        ended = subprocess.run([PROGRAM, *words], cwd=self.folder, stdin=subprocess.DEVNULL,
                               stdout=stdout, stderr=subprocess.PIPE, text=True, timeout=60)
        return ended.returncode, ended.stdout, ended.stderr

    def tells(self, words, told, status=3, **more):
        found, _, errors = self.run_program(*words, **more)
        self.assertEqual((found, errors), (status, told), words)

    def lock(self, name, option):
        """Has another process open a store or a journal until the test ends."""
        if option == "--store":
            holder = [PROGRAM, "serve", "--listen", "127.0.0.1:0", "--requests", "1", "--store", name]
            return self.keep(holder)
        peer = socket.create_server(("127.0.0.1", 0))
        self.addCleanup(peer.close)
        holder = [PROGRAM, "push", *SOURCES, "--journal", name, "--to", f"127.0.0.1:{peer.getsockname()[1]}"]
        process = subprocess.Popen(holder, cwd=self.folder, stdout=subprocess.DEVNULL, stderr=subprocess.DEVNULL)
        self.addCleanup(process.wait)
        self.addCleanup(process.kill)
        # it connects once it has opened its journal, and then waits for an answer
        stream, _ = peer.accept()
        self.addCleanup(stream.close)
        return None

    def keep(self, holder):
        process = subprocess.Popen(holder, cwd=self.folder, stdout=subprocess.PIPE, text=True)
        self.addCleanup(process.stdout.close)
        self.addCleanup(process.wait)
        self.addCleanup(process.kill)
        return process.stdout.readline().split()[-1]


class InputFileTest(Case):
    def reading(self, file):
        """Each command that reads a file of this name."""
        at = ["--journal", "new.db", "--to", "127.0.0.1:1"]
        return [["map", file], ["simulate", file], ["loop", "--users", file],
                ["loop", "--users", "users.csv", "--groups", file], ["push", "--users", file, *at],
                ["push", "--users", "users.csv", "--groups", file, *at]]

    def without_folders(self, file):
        """The same, and `reset`, which makes no journal. (A folder isn't a journal: that is its fault J1.)"""
        return [*self.reading(file), ["reset", "--journal", file]]

    def test_a_file_that_is_not_there(self):
        for words in self.without_folders("nothing.csv"):
            self.tells(words, "file fault\n nothing.csv: No such file or directory\n")

    def test_a_folder(self):
        (self.folder / "folder").mkdir()
        for words in self.reading("folder"):
            self.tells(words, "file fault\n folder: Is a directory\n")

    def test_a_file_in_no_folder(self):
        for words in self.without_folders("users.csv/users.csv"):
            self.tells(words, "file fault\n users.csv/users.csv: Not a directory\n")


class DatabaseTest(Case):
    def opening(self, file):
        """Each command that opens a store or a journal of this name, and the fault."""
        to = ["--to", "127.0.0.1:1"]
        return [(["show", "--store", file], "store fault Y1"), (["show", "--journal", file], "journal fault J1"),
                (["reset", "--journal", file], "journal fault J1"),
                (["serve", "--listen", "127.0.0.1:0", "--requests", "1", "--store", file], "store fault Y1"),
                (["loop", *SOURCES, "--store", file], "store fault Y1"),
                (["loop", *SOURCES, "--journal", file], "journal fault J1"),
                (["push", *SOURCES, "--journal", file, *to], "journal fault J1")]

    def each_tells(self, file, why, missing=False):
        for words, fault in self.opening(file):
            # these make no file
            fault = "file fault" if missing and words[0] in ("show", "reset") else fault
            self.tells(words, f"{fault}\n {file}: {why}\n")

    def test_no_such_folder(self):
        self.each_tells("folder/rows.db", "No such file or directory", missing=True)

    def test_names_that_sqlite_has_for_something_else(self):
        for file in (":memory:", "file:rows.db"):
            self.each_tells(file, "unable to open database file")
            self.assertFalse((self.folder / file).exists())

    def test_a_folder(self):
        (self.folder / "folder").mkdir()
        self.each_tells("folder", "Is a directory")

    def test_no_database(self):
        self.write("text.db", "no database\n" * 1000)
        self.each_tells("text.db", "file is not a database that obeys its schema")

    def test_a_journal_of_sqlite_that_was_left(self):
        self.run_program("loop", *SOURCES, "--store", "rows.db", "--journal", "journal.db")
        for name in ("rows.db-journal", "journal.db-journal"):
            self.write(name, "a transaction that only SQLite can undo\n")
        why = "the database has a rollback journal, or something else has its name: open it with sqlite3 first"
        self.tells(["show", "--store", "rows.db"], f"store fault Y1\n rows.db: {why}\n")
        self.tells(["show", "--journal", "journal.db"], f"journal fault J1\n journal.db: {why}\n")

    def test_another_process(self):
        for option, name in (("--store", "rows.db"), ("--journal", "journal.db")):
            self.lock(name, option)
            for words, fault in self.opening(name):
                if option in words:
                    self.tells(words, f"{fault}\n {name}: the database is in use\n")


class FullDiskTest(Case):
    """A disk with no room: /dev/full, and a limit on the size of files."""

    def test_standard_output(self):
        self.write("a.schedule", "user bob,1,,,,,active\n")
        self.run_program("loop", *SOURCES, "--store", "rows.db", "--journal", "journal.db")
        with socket.create_server(("127.0.0.1", 0)) as peer:
            peer.close()
        each = [["map", "users.csv"], ["simulate", "a.schedule"], ["loop", *SOURCES], ["show", "--store", "rows.db"],
                ["show", "--journal", "journal.db"], ["reset", "--journal", "journal.db"], ["serve", "--listen", "127.0.0.1:0", "--requests", "1"]]
        for words in each:
            with open("/dev/full", "wb") as full:
                self.tells(words, "file fault\n standard output: No space left on device\n", stdout=full)

    def test_databases(self):
        """No write finds room, from the first one on, or from a later one on."""
        shim = self.folder / "shim.so"
        subprocess.run(["cc", "-shared", "-fPIC", "-O1", "-o", shim, SHIM, "-ldl"], check=True)
        for number in (1, 12, 30):
            for option, name, fault in (("--store", "rows.db", "store fault Y1"), ("--journal", "journal.db", "journal fault J1")):
                self.write("counts", "\0" * 40)
                given = dict(os.environ, LD_PRELOAD=str(shim), FAULT_COUNTS=str(self.folder / "counts"),
                             FAULT_WRITE=str(number), FAULT_HOW="28+")
                words = [PROGRAM, "loop", *SOURCES, option, f"{number}-{name}"]
                ended = subprocess.run(words, cwd=self.folder, env=given, capture_output=True, text=True, timeout=60)
                told = f"{fault}\n {number}-{name}: No space left on device\n"
                self.assertEqual((ended.returncode, ended.stderr), (3, told), words)

    def test_lines_of_push(self):
        address = self.keep([PROGRAM, "serve", "--listen", "127.0.0.1:0", "--requests", "9"])
        with open("/dev/full", "wb") as full:
            self.tells(["push", *SOURCES, "--journal", "journal.db", "--to", address],
                       "file fault\n standard output: No space left on device\n", stdout=full)

    def limited(self, words, blocks):
        """A run whose files may have so many blocks of 512 bytes."""
        return ["sh", "-c", f"trap '' XFSZ; ulimit -f {blocks}; exec \"$@\"", "sh", PROGRAM, *words]

    def test_stores(self):
        for words, told in (
            (["loop", *SOURCES, "--store", "rows.db"], "store fault Y1\n rows.db: disk I/O error\n"),
            (["loop", *SOURCES, "--journal", "journal.db"], "journal fault J1\n journal.db: disk I/O error\n"),
        ):
            ended = subprocess.run(self.limited(words, 8), cwd=self.folder, capture_output=True, text=True, timeout=60)
            self.assertEqual((ended.returncode, ended.stderr), (3, told), words)


class AddressTest(Case):
    def test_a_taken_port(self):
        with socket.create_server(("127.0.0.1", 0)) as taken:
            address = f"127.0.0.1:{taken.getsockname()[1]}"
            self.tells(["serve", "--listen", address, "--requests", "1"],
                       f"connection fault\n {address}: Address already in use\n")

    def test_a_provider_that_is_not_there(self):
        with socket.create_server(("127.0.0.1", 0)) as peer:
            address = f"127.0.0.1:{peer.getsockname()[1]}"
        self.tells(["push", *SOURCES, "--journal", "journal.db", "--to", address],
                   f"connection fault\n {address}: Connection refused\n")

    def test_an_unknown_host(self):
        words = ["push", *SOURCES, "--journal", "journal.db", "--to", "nobody.invalid:80"]
        status, _, told = self.run_program(*words)
        self.assertEqual(status, 3)
        self.assertRegex(told, r"\Aconnection fault\n nobody\.invalid:80: .+\n\Z")

    def test_no_address(self):
        none = ["", ":8080", "localhost", "localhost:", "localhost:http", "localhost:65536", "localhost:-1",
                "[::1]", "127.0.0.1:8080:"]
        for text in none:
            self.tells(["serve", "--requests", "1", f"--listen={text}"],
                       "error: --listen is HOST:PORT, such as 127.0.0.1:8080\n", status=2)
        for text in [*none, "localhost:0"]:
            self.tells(["push", *SOURCES, "--journal", "journal.db", f"--to={text}"],
                       "error: --to is HOST:PORT, such as localhost:8080\n", status=2)
        self.assertFalse((self.folder / "journal.db").exists())

    def test_addresses(self):
        for text in ("127.0.0.1:0", "localhost:0", "[::1]:0"):
            holder = [PROGRAM, "serve", "--listen", text, "--requests", "1"]
            self.assertTrue(self.keep(holder).startswith(("127.0.0.1:", "[::1]:")), text)


SHIM = ROOT / "tests/shim.c"


@unittest.skipUnless(SHIM.exists(), "no shim that lets allocations fail")
class ArgumentsTest(Case):
    def test_without_memory(self):
        """Each of the first allocations, which are for the arguments, fails in turn."""
        shim = self.folder / "shim.so"
        subprocess.run(["cc", "-shared", "-fPIC", "-O1", "-o", shim, SHIM, "-ldl"], check=True)
        for number in range(1, 15):
            self.write("counts", "\0" * 40)
            given = dict(os.environ, LD_PRELOAD=str(shim), FAULT_COUNTS=str(self.folder / "counts"),
                         FAULT_ALLOCATION=str(number), FAULT_HOW="12+")
            ended = subprocess.run([PROGRAM, "map", "users.csv"], cwd=self.folder, env=given, capture_output=True, text=True, timeout=60)
            self.assertEqual((ended.returncode, ended.stdout, ended.stderr), (3, "", "memory fault\n"), number)

    def test_a_text_that_is_not_utf_8(self):
        self.tells(["map", b"\xff"], "error: the command line isn't UTF-8\n", status=2)


class MissingQuoteTest(Case):
    def test_a_quote_three_records_further_down(self):
        self.write("users.csv", USERS + 'bob,2,2,Bob,"Ray,,left\ncid,1,3,Cid,Poe,,active\ndee,1,4,Dee,"Fox,,active\n')
        told = "users record 1: a quoted field goes over 3 lines; is a quote missing?\n"
        self.tells(["map", "users.csv"], told, status=0)
        self.tells(["loop", *SOURCES], told, status=0)
        address = self.keep([PROGRAM, "serve", "--listen", "127.0.0.1:0", "--requests", "9"])
        self.tells(["push", *SOURCES, "--journal", "journal.db", "--to", address], told, status=0)

    def test_line_ends(self):
        self.write("users.csv", USERS + 'ann,1,1,Ann,"Lee",,active\n\nbob,1,2,"Bob\r","Ray\r\nRay\n\rRay",,active\n')
        self.tells(["map", "users.csv"],
                   "users record 2: a quoted field goes over 4 lines; is a quote missing?\n", status=0)

    def test_groups(self):
        self.write("groups.csv", GROUPS + 'crew,1,"bob\nteam,1,bob"\n')
        self.tells(["loop", *SOURCES], "groups record 1: S4\n"
                   "groups record 1: a quoted field goes over 2 lines; is a quote missing?\n", status=1)

    def test_a_file_with_another_header(self):
        self.write("users.csv", 'login\n"a\nb"\n')
        self.tells(["loop", *SOURCES], "users: S1\n", status=1)


if __name__ == "__main__":
    unittest.main()
