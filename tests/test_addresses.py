"""Which addresses of a host `push` tries. The system names them by tests/names.c."""
import contextlib
import os
import shutil
import socket
import subprocess
import time
import unittest

from peers import Peer, hits, user
from support import PATIENCE, ROOT, ProgramTest, free_port

# The most seconds that the connector waits for one address of a host
ADDRESS_LIMIT = 10
# Seconds by which it may go on to the next one late
LATE = 8
COMPILER = shutil.which("cc")


@contextlib.contextmanager
def silent_address(port):
    """An address at which a connection stays unanswered, because another one fills the queue of its listener."""
    with socket.create_server(("127.0.0.2", port), backlog=0):
        with socket.create_connection(("127.0.0.2", port), timeout=PATIENCE):
            yield "127.0.0.2"


@unittest.skipUnless(COMPILER, "no C compiler for tests/names.c")
class AddressesTest(ProgramTest):
    def setUp(self):
        super().setUp()
        self.site.write_users("bob,1,,,,,active")
        self.names, self.look_ups = self.folder / "names.so", self.folder / "look-ups"
        subprocess.run([COMPILER, "-shared", "-fPIC", "-o", self.names, ROOT / "tests/names.c"], check=True)

    def push(self, port, *addresses):
        """A push of a connector that knows nothing yet."""
        self.site.journal.unlink(missing_ok=True)
        self.look_ups.write_bytes(b"")
        words = {"HOST_ADDRESSES": ",".join(addresses), "LD_PRELOAD": str(self.names), "LOOK_UPS": str(self.look_ups)}
        return self.site.push(f"two.test:{port}", env=os.environ | words)

    def reaches(self, peer, *addresses):
        """A push reaches this peer by these addresses, and finds there the user as the file wants it."""
        self.assert_prints(self.push(peer.port, *addresses), "user bob confirmed 1")

    def test_the_first_that_answers(self):
        for addresses in (["127.0.0.1", "::1"], ["::1", "127.0.0.1"], ["127.0.0.3", "127.0.0.2", "127.0.0.1"]):
            with self.subTest(addresses=addresses), Peer([hits(user("bob", 1))]) as peer:
                self.reaches(peer, *addresses)

    def test_one_that_stays_silent(self):
        with Peer([hits(user("bob", 1))]) as peer, silent_address(peer.port) as silent:
            start = time.monotonic()
            self.reaches(peer, silent, "127.0.0.1")
            waited = time.monotonic() - start
        self.assertGreater(waited, ADDRESS_LIMIT - 1)
        self.assertLess(waited, ADDRESS_LIMIT + LATE)

    def test_none_that_answers(self):
        self.assert_fault(self.push(free_port(), "127.0.0.2", "::1", "127.0.0.1"), "connection fault")

    def test_one_look_up_for_a_run(self):
        self.site.write_users(*(f"{name},1,,,,,active" for name in ("ann", "bob", "cid")))
        with Peer([hits(user(name, 1)) for name in ("ann", "bob", "cid")]) as peer:
            ended = self.push(peer.port, "127.0.0.2", "127.0.0.1")
        self.assert_prints(ended, *(f"user {name} confirmed 1" for name in ("ann", "bob", "cid")))
        self.assertEqual(self.look_ups.read_bytes(), b".")

    def test_another_look_up_if_an_address_answers_no_more(self):
        self.site.write_users(*(f"{name},1,,,,,active" for name in ("ann", "bob", "cid")))
        with Peer([hits(user("ann", 1))]) as first:
            with Peer([hits(user("bob", 1)), hits(user("cid", 1))], "127.0.0.2", first.port):
                ended = self.push(first.port, "127.0.0.1", "127.0.0.2")
        self.assert_prints(ended, *(f"user {name} confirmed 1" for name in ("ann", "bob", "cid")))
        self.assertEqual(self.look_ups.read_bytes(), b"..")
