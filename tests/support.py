"""What the tests of the program share: its runs, the files that it reads and keeps, and what is asserted of both.

At the top of the repository, with -k for some of them:

    python3 -B -m unittest discover -s tests -k test_a_leaver

The program is crates/scimlink/out/scimlink, or the one that the environment variable SCIMLINK names.
"""
import contextlib
import dataclasses
import json
import os
import pathlib
import random
import re
import resource
import signal
import socket
import sqlite3
import subprocess
import sys
import tempfile
import threading
import time
import unittest

from spawning import PIPE_SIZE, spawn

ROOT = pathlib.Path(__file__).resolve().parent.parent
EXAMPLES = ROOT / "examples"
PROGRAM = pathlib.Path(os.environ.get("SCIMLINK") or ROOT / "crates/scimlink/out/scimlink").resolve()
if not os.access(PROGRAM, os.X_OK):
    raise FileNotFoundError(f"there is no program {PROGRAM}: run make build")

# Seconds that anything may take which doesn't wait by its nature. A run that takes longer is killed
PATIENCE = 120
# Seconds that the program gives a connection or an exchange
TIME_LIMIT = 30
# An address on which nothing listens
NOWHERE = "127.0.0.1:1"

SCIM_TYPE = "application/scim+json"
ENTERPRISE = "urn:ietf:params:scim:schemas:extension:enterprise:2.0:User"
SOURCE = "urn:example:params:scim:schemas:extension:source:1.0"
USER = "urn:ietf:params:scim:schemas:core:2.0:User"
GROUP = "urn:ietf:params:scim:schemas:core:2.0:Group"
USERS_HEADER = "login,revision,number,given,family,mail,status"
DEPARTMENTS_HEADER = f"{USERS_HEADER},department"
GROUPS_HEADER = "name,revision,members"

# A request that creates the user bob, its body, and the answer of a provider that holds nothing yet
CREATE_BOB = (EXAMPLES / "create-user.http").read_bytes()
BOB = CREATE_BOB.split(b"\r\n\r\n", 1)[1].decode()
BOB_CREATED = (ROOT / "crates/scimlink/stdout").read_bytes()
# The answer of a provider whose store failed, or that is out of memory
GIVEN_UP = (
    b"HTTP/1.1 500 Internal Server Error\r\nConnection: close\r\nContent-Length: 129\r\n"
    b"Content-Type: application/scim+json\r\n\r\n"
    b'{"detail":"the provider could not complete the request",'
    b'"schemas":["urn:ietf:params:scim:api:messages:2.0:Error"],"status":"500"}'
)


def text(*lines):
    """These lines, each with its end."""
    return "".join(f"{line}\n" for line in lines)


def resource_id(number):
    """The id that the provider gives to its resource with this number."""
    return f"5c1a0000-0000-8000-8000-{number:012x}"


def wait_until(condition, what):
    """Returns as soon as the condition holds."""
    end = time.monotonic() + PATIENCE
    while not condition():
        if time.monotonic() > end:
            raise AssertionError(f"{what} didn't come within {PATIENCE} seconds")
        time.sleep(0.002)


# ---- runs of the program


@dataclasses.dataclass
class Ended:
    """What became of a run."""

    status: int
    output: bytes
    errors: str

    @property
    def lines(self):
        return self.output.decode().splitlines()


def scimlink(*arguments, stdin=b"", stdout=subprocess.PIPE, program=PROGRAM, **options):
    """A whole run of the program. Its standard input is bytes, or the number of an open file."""
    command = [program, *map(str, arguments)]
    fits = isinstance(stdin, bytes) and len(stdin) <= PIPE_SIZE
    if fits and stdout == subprocess.PIPE and options.keys() <= {"env"}:
        status, output, errors = spawn(command, stdin, options.get("env", os.environ), PATIENCE)
        return Ended(status, output, errors.decode())
    source = {"input": stdin} if isinstance(stdin, bytes) else {"stdin": stdin}
    run = subprocess.run(
        command, stdout=stdout, stderr=subprocess.PIPE, timeout=PATIENCE, check=False, **source, **options
    )
    return Ended(run.returncode, run.stdout or b"", run.stderr.decode())


def writes_of(*arguments):
    """What a whole run writes to standard output, write by write."""
    ours, its = socket.socketpair(socket.AF_UNIX, socket.SOCK_SEQPACKET)
    ours.settimeout(PATIENCE)
    with ours, subprocess.Popen([PROGRAM, *map(str, arguments)], stdout=its, stderr=subprocess.DEVNULL):
        its.close()
        return list(iter(lambda: ours.recv(65536).decode(), ""))


def watchdog(process):
    """A timer that kills a process which goes on for too long, so that no test waits for ever for what it prints."""
    timer = threading.Timer(2 * PATIENCE, process.kill)
    timer.daemon = True
    timer.start()
    return timer


class Beside:
    """A thread beside the test, for as long as its context lasts. A subclass has `work`, which ends once `is_over` is
    set."""

    def __enter__(self):
        self.is_over = threading.Event()
        self.thread = threading.Thread(target=self.work, daemon=True)
        self.thread.start()
        return self

    def __exit__(self, *_):
        self.is_over.set()
        self.thread.join(PATIENCE)


class Running:
    """A run of the program beside the test. It is killed at the end of its context."""

    def __init__(self, *arguments, **options):
        command = [PROGRAM, *map(str, arguments)]
        self.process = subprocess.Popen(command, stdout=subprocess.PIPE, stderr=subprocess.PIPE, **options)
        self.watchdog = watchdog(self.process)

    def __enter__(self):
        return self

    def __exit__(self, *_):
        self.close()

    def close(self):
        with self.process:
            self.process.kill()
        self.watchdog.cancel()

    @property
    def pid(self):
        return self.process.pid

    def read_line(self):
        """The next line that it prints; an empty text at its end."""
        return self.process.stdout.readline().decode()

    def ends(self):
        """Waits for its end: what it printed that wasn't read before."""
        output, errors = self.process.stdout.read(), self.process.stderr.read().decode()
        return Ended(self.process.wait(), output, errors)

    def kill(self):
        self.process.kill()
        return self.ends()

    def freeze(self):
        """Stops it between two of its instructions. A run that has ended stays so."""
        self.process.send_signal(signal.SIGSTOP)
        wait_until(lambda: self.state() in "TZ", "the stop")

    def resume(self):
        self.process.send_signal(signal.SIGCONT)

    def state(self):
        """Its state in the system: T if it is stopped, Z if it has ended."""
        try:
            return pathlib.Path(f"/proc/{self.pid}/stat").read_text().rpartition(")")[2].split()[0]
        except (FileNotFoundError, ProcessLookupError):
            return "Z"


@dataclasses.dataclass
class Answer:
    """A provider's answer: its status, its field lines, and the JSON of its body."""

    status: int
    fields: "http.client.HTTPMessage"
    content: object


class Provider(Running):
    """A run of `serve` that listens."""

    def __init__(self, requests, *more, listen="127.0.0.1:0", **options):
        super().__init__("serve", "--listen", listen, "--requests", requests, *more, **options)
        line = self.read_line()
        if not line.startswith("listening 127.0.0.1:"):
            errors = self.kill().errors
            self.close()
            raise AssertionError(f"serve printed {line!r} and {errors!r}")
        self.address = line.removeprefix("listening ").removesuffix("\n")
        self.port = int(self.address.rpartition(":")[2])

    def connect(self):
        return socket.create_connection(("127.0.0.1", self.port), timeout=PATIENCE)

    def exchange(self, request):
        """The bytes with which a request in bytes is answered, to the end of the stream."""
        with self.connect() as stream:
            stream.sendall(request)
            return read_all(stream)

    def ask(self, method, path, body=None, **fields):
        """The answer to a request by http.client. Its import takes longer than that of all else here."""
        import http.client

        fields = {name.replace("_", "-"): value for name, value in fields.items()}
        if body is not None:
            fields.setdefault("Content-Type", SCIM_TYPE)
        client = http.client.HTTPConnection("127.0.0.1", self.port, timeout=PATIENCE)
        with contextlib.closing(client):
            client.request(method, path, body, fields)
            answer = client.getresponse()
            content = answer.read()
        return Answer(answer.status, answer.headers, json.loads(content) if content else None)


def read_all(stream):
    return b"".join(iter(lambda: stream.recv(65536), b""))


@contextlib.contextmanager
def silent_provider():
    """Something that takes connections and answers nothing, so that a push waits: its listener and address."""
    with socket.create_server(("127.0.0.1", 0)) as listener:
        listener.settimeout(PATIENCE)
        yield listener, f"127.0.0.1:{listener.getsockname()[1]}"


def free_port():
    """A port on which nothing listens, below those that the system gives to connections."""
    while True:
        port = random.randrange(20_000, 32_000)
        with contextlib.suppress(OSError), socket.create_server(("127.0.0.1", port)):
            return port


# ---- what a run finds too little of


def full_disk():
    """A standard output that takes nothing."""
    return open("/dev/full", "wb")


@contextlib.contextmanager
def broken_pipe():
    """A standard output that nobody reads any more."""
    reader, writer = os.pipe()
    os.close(reader)
    with open(writer, "wb") as output:
        yield output


def limited_memory(size):
    """An option of a run: it has this many bytes of memory."""
    return {"preexec_fn": lambda: resource.setrlimit(resource.RLIMIT_AS, (size, size))}


def limited_handles(count):
    """An option of a run: it has this many files and sockets open at once."""
    return {"preexec_fn": lambda: resource.setrlimit(resource.RLIMIT_NOFILE, (count, count))}


def limited_files(size):
    """An option of a run: its files grow to this many bytes, and every write beyond fails."""

    def limit():
        signal.signal(signal.SIGXFSZ, signal.SIG_IGN)
        resource.setrlimit(resource.RLIMIT_FSIZE, (size, size))

    return {"preexec_fn": limit}


# ---- files


class Site:
    """The files of a connector and a provider in one folder, and the runs over them."""

    def __init__(self, folder):
        self.users, self.groups = folder / "users.csv", folder / "groups.csv"
        self.journal, self.store = folder / "journal", folder / "store"

    def write_users(self, *records, header=USERS_HEADER):
        self.users.write_text(text(header, *records))

    def write_groups(self, *records):
        self.groups.write_text(text(GROUPS_HEADER, *records))

    def source_options(self):
        groups = ["--groups", self.groups] if self.groups.exists() else []
        return ["--users", self.users, *groups]

    def unreadable_sources(self):
        """Options for input files that aren't there or can't be read. (The users file is there.)"""
        absent = self.users.with_name("absent")
        return ["--users", absent], ["--users", absent.parent], ["--users", self.users, "--groups", absent]

    def files(self):
        """The bytes of each file of the folder, but for logs that have a head at most."""
        files = {path.name: path.read_bytes() for path in self.users.parent.iterdir()}
        return {name: held for name, held in files.items() if not name.endswith("-wal") or len(held) > 41}

    def push_command(self, to):
        return ["push", *self.source_options(), "--journal", self.journal, "--to", to]

    def push(self, to, *more, **options):
        return scimlink(*self.push_command(to), *more, **options)

    def loop(self, *more, **options):
        return scimlink("loop", *self.source_options(), *more, **options)

    def show_store(self):
        return scimlink("show", "--store", self.store)

    def reset(self, *names, **options):
        return scimlink("reset", "--journal", self.journal, *names, **options)

    def show_journal(self):
        return scimlink("show", "--journal", self.journal)


def store_commands(path):
    """The commands that open a store, which they do before they look for anything else."""
    rest = (["show"], ["answer"], ["serve", "--listen", NOWHERE, "--requests", "1"], ["loop", "--users", "nowhere"])
    return [[*arguments, "--store", path] for arguments in rest]


def journal_commands(path):
    rest = (["show"], ["reset"], ["push", "--users", "nowhere", "--to", NOWHERE], ["loop", "--users", "nowhere"])
    return [[*arguments, "--journal", path] for arguments in rest]


def is_locked(path):
    """Whether SQLite may not read a file. (Another process asks, so that no lock of this one is lost.)"""
    ask = "import sqlite3, sys; sqlite3.connect(sys.argv[1], timeout=0).execute('SELECT count(*) FROM sqlite_schema')"
    run = subprocess.run([sys.executable, "-c", ask, path], capture_output=True, timeout=PATIENCE, check=False)
    return b"database is locked" in run.stderr


def contents(path):
    """The bytes of a file, if it is one, and what SQLite reads in it."""
    rows = None
    with contextlib.suppress(sqlite3.Error), contextlib.closing(sqlite3.connect(path, timeout=0)) as database:
        rows = list(database.iterdump())
    return path.read_bytes() if path.is_file() else None, rows


# ---- assertions

# The line of one fault of a connection to a provider, and that of several
CONNECTION_FAULTS = re.compile(r"connection fault(?: \(([2-9]|[1-9][0-9]+)\))?")


def without_causes(errors):
    """Standard error without the second lines of faults, which test_faults_told.py asserts, and without what a push
    says of the faults of unconfirmed records, which test_explanations.py asserts."""
    errors = re.sub(r"(?m)^((?:connection|file|journal|store) fault.*\n) .*\n", r"\1", errors)
    return re.sub(r"(?m)^(?:user|group) .*: .*\n", "", errors)


class ProgramTest(unittest.TestCase):
    """A test of the program, in a folder of its own."""

    def setUp(self):
        folder = tempfile.TemporaryDirectory(prefix="scimlink-")
        self.addCleanup(folder.cleanup)
        self.folder = pathlib.Path(folder.name)
        self.site = Site(self.folder)

    def assert_reports(self, run, status, *errors):
        """The run ended with this status, and printed these lines on standard error."""
        self.assertEqual(without_causes(run.errors), text(*errors), run.errors)
        self.assertEqual(run.status, status)

    def assert_prints(self, run, *lines, status=0, errors=()):
        """The run ended with this status, and printed these lines, and those on standard error."""
        self.assert_reports(run, status, *errors)
        self.assertEqual(run.output.decode(), text(*lines))

    def assert_fault(self, run, fault):
        """The run ended by a fault, and printed nothing else."""
        self.assert_prints(run, status=3, errors=[fault])

    def assert_refused(self, path, commands, fault, **options):
        """Each of these commands ends by this fault, and leaves the file as it was."""
        before = contents(path)
        for command in commands:
            with self.subTest(command=command, fault=fault):
                self.assert_fault(scimlink(*command, stdin=CREATE_BOB, **options), fault)
                self.assertEqual(contents(path), before)

    def kill(self, running):
        """Kills a run that hasn't ended: what it printed that wasn't read before."""
        ended = running.kill()
        self.assertEqual(ended.status, -signal.SIGKILL, ended.errors)
        return ended

    @contextlib.contextmanager
    def serving(self, requests, *options, connection_faults=0):
        """A provider that has ended after this many connections, some of which had a fault."""
        with Provider(requests, *options) as provider:
            yield provider
            ended = provider.ends()
            self.assertEqual((ended.output, self.connection_faults(ended)), (b"", connection_faults))
            self.assertEqual(ended.status, 3 if connection_faults else 0)

    def connection_faults(self, run):
        """How many faults of connections a provider reported. It reported nothing else."""
        counts = [CONNECTION_FAULTS.fullmatch(line) for line in run.errors.splitlines()]
        self.assertTrue(all(counts), run.errors)
        return sum(int(count[1] or 1) for count in counts)
