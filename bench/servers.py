"""Servers over TCP, and what is asked of them, for serve.py and run.py.

A server is `serve` of scimlink, http.server of Python, the limit in C, or a program of peers/. The client is
a program in C too, `serve.c`: threads with a connection for each request.
"""
import contextlib
import os
import pathlib
import shutil
import socket
import statistics
import subprocess
import sys
import time

import stores
from built import program

HERE = pathlib.Path(__file__).resolve().parent
SCIM = "application/scim+json"
CORE = "urn:ietf:params:scim:schemas:core:2.0:User"
SOURCE = "urn:example:params:scim:schemas:extension:source:1.0"
BODY = (f'{{"active":true,"emails":[{{"primary":true,"type":"work","value":"@@@@@@@@@example.com"}}],'
        f'"schemas":["{CORE}","{SOURCE}"],"{SOURCE}":{{"revision":%d}},"userName":"@@@@@@@@"}}')
USER = "/v2/Users/5c1a0000-0000-8000-8000-$$$$$$$$$$$$"
# the most connections that `serve` takes in one run
MOST_REQUESTS = 1_000_000


def request(method, target, body="", more=""):
    head = f"{method} {target} HTTP/1.1\r\nHost: localhost:8080\r\nAccept: {SCIM}\r\n{more}"
    if body:
        head += f"Content-Type: {SCIM}\r\nContent-Length: {len(body)}\r\n"
    return f"{head}\r\n{body}".encode()


# Signs stand for the number of the asking: @ for its decimal digits, # for those of the number after it, and
# $ for hexadecimal digits of that
GET = request("GET", USER)
POST = request("POST", "/v2/Users", BODY % 1)
PUT = request("PUT", USER, BODY % 2, 'If-Match: "1"\r\n')
SEARCH = request("GET", "/v2/Users?filter=userName%20eq%20%22@@@@@@@@%22")
PAGE = request("GET", "/v2/Users?startIndex=########&count=200")
# each request with its expected status, whether its users exist before, and how the limit changes a row
WORKS = {"GET by id": (GET, 200, True, None), "search by name": (SEARCH, 200, True, None),
         "POST": (POST, 201, False, "insert"), "PUT": (PUT, 200, True, "update")}


def remove(path):
    """Removes a file of SQLite, with the files beside it."""
    for more in ("", "-wal", "-shm"):
        pathlib.Path(f"{path}{more}").unlink(missing_ok=True)


class Servers:
    """A folder for files, the client, and how each server is started. `peers` has those in Rust, by name."""

    def __init__(self, room, peers=None):
        self.room, self.peers, self.tool = room, peers or {}, room / "tool"
        build = ["cc", "-O2", "-pthread", "-o", self.tool, HERE / "serve.c"]
        tried = subprocess.run([*build, "-DSTORE", "-lsqlite3"], stderr=subprocess.DEVNULL, check=False)
        self.has_sqlite = not tried.returncode
        if not self.has_sqlite:
            subprocess.run(build, check=True)

    def make_store(self, users):
        """A store of so many users, whose names and numbers are those that clients ask for."""
        path = self.room / f"users-{users}"
        if path.exists():
            return path
        connection = stores.connect(path)
        connection.executescript(stores.Provider.tables)
        names = (f"{n:08}" for n in range(users))
        connection.execute("BEGIN")
        connection.executemany(stores.Provider.insert, (
            (n + 1, 1, name, 1, (BODY % 1).replace("@@@@@@@@", name)) for n, name in enumerate(names)))
        connection.execute("COMMIT")
        connection.close()
        return path

    def fresh(self, made):
        """A copy of a store, which is on the disk."""
        path = self.room / "store"
        remove(path)
        with open(made, "rb") as source, open(path, "wb") as copy:
            shutil.copyfileobj(source, copy)
            copy.flush()
            os.fsync(copy.fileno())
        return path

    def words(self, name, count, store=None, kind=None, users=None):
        """How a server is started that answers so many requests, or more."""
        files = [store] if store else []
        if name == "serve":
            return [program(), "serve", "--listen", "127.0.0.1:0", "--requests", count,
                    *(["--store", store] if store else [])]
        if name == "http.server":
            return [sys.executable, HERE / "http_server.py", count, *files]
        if name in self.peers:
            return [self.peers[name], *files]
        change = [store, kind, users] if store and kind else []
        return [self.tool, "limit", count, self.room / "answer", *change]

    def start(self, words, env=None):
        """Starts a server: its run, and its port."""
        run = subprocess.Popen([str(word) for word in words], stdout=subprocess.PIPE, text=True, env=env)
        return run, run.stdout.readline().rpartition(":")[2].strip()

    @contextlib.contextmanager
    def serving(self, words):
        """A server that is killed in the end."""
        run, port = self.start(words)
        try:
            yield run, port
        finally:
            run.kill()
            run.wait()
            run.stdout.close()

    @staticmethod
    def memory_of(run):
        """The most memory that a run had so far, in MB of 10^6 bytes."""
        lines = pathlib.Path(f"/proc/{run.pid}/status").read_text(encoding="utf-8").splitlines()
        return int(next(line for line in lines if line.startswith("VmHWM:")).split()[1]) * 1024 / 1e6

    def load(self, port, clients, count, text, status, step=1, among=None):
        """Asks so many times: the seconds."""
        (self.room / "request").write_bytes(text)
        words = [self.tool, "load", port, clients, count, step, among or count, status, self.room / "request"]
        ran = subprocess.run([str(word) for word in words], check=True, stdout=subprocess.PIPE, text=True)
        return float(ran.stdout)

    def ask(self, port, text):
        """Asks once, as the first of the clients does: the answer in bytes."""
        for sign, digits in ((b"@" * 8, b"%08d" % 0), (b"#" * 8, b"%08d" % 1), (b"$" * 12, b"%012x" % 1)):
            text = text.replace(sign, digits)
        with socket.create_connection(("127.0.0.1", int(port))) as peer:
            peer.sendall(text)
            return b"".join(iter(lambda: peer.recv(65536), b""))

    def answer(self, name, work):
        """What a server answers to a request for its only user."""
        text, _, is_filled, _ = WORKS[work]
        with self.serving(self.words(name, 2)) as (_, port):
            if is_filled:
                self.ask(port, POST)
            return self.ask(port, text)

    def save_answer(self, work):
        """Has the limit answer the bytes that `serve` answers."""
        (self.room / "answer").write_bytes(self.answer("serve", work))

    def cost(self, name, work, clients, count, made):
        """The seconds that a request takes one of the servers."""
        text, status, is_filled, kind = WORKS[work]
        store = self.fresh(made) if made else None
        fills = count if is_filled and not made and name != "limit" else 0
        run, port = self.start(self.words(name, count + fills, store, kind, count))
        if fills:
            self.load(port, 1, fills, POST, 201)
        taken = self.load(port, clients, count, text, status)
        if name in self.peers:
            run.kill()
        if run.wait(timeout=60) and name not in self.peers:
            sys.exit(f"{name} ended with status {run.returncode}")
        return taken / count

    def pushed(self, words, records, store=None):
        """The seconds of a run that carries all records to a new provider."""
        run, port = self.start(self.words("serve", 2 * records, store))
        journal = self.room / "journal"
        remove(journal)
        given = {"JOURNAL": journal, "PORT": port, "TO": f"127.0.0.1:{port}"}
        begun = time.perf_counter()
        with open(self.room / "out", "wb") as out:
            subprocess.run([str(given.get(word, word)) for word in words], check=True, stdout=out)
        taken = time.perf_counter() - begun
        if run.wait(timeout=60) or len((self.room / "out").read_bytes().splitlines()) != records:
            sys.exit(f"{words[0]} carried otherwise")
        return taken

    def limit_of_push(self, records):
        """The words of the limit's push."""
        for name, text in (("find", SEARCH), ("create", POST)):
            (self.room / name).write_bytes(text)
        return [self.tool, "push", "PORT", records, self.room / "find", self.room / "create", "JOURNAL"]


def push_words(users):
    """The words of a push by scimlink."""
    return [program(), "push", "--users", users, "--journal", "JOURNAL", "--to", "TO"]


def sync_cost(folder):
    """The seconds that a write with its sync takes in a folder."""
    path, taken = folder / "synced", []
    with open(path, "wb") as file:
        for _ in range(50):
            begun = time.perf_counter()
            file.write(b"x" * 4096)
            file.flush()
            os.fdatasync(file.fileno())
            taken.append(time.perf_counter() - begun)
    path.unlink()
    return statistics.median(taken)
