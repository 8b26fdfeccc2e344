"""`serve` while the system gives no further connection, and the descriptors that it leaves to its store."""
import contextlib
import os
import time

from faults import Fault, Number, Shim, build_shim
from support import CREATE_BOB, GIVEN_UP, ProgramTest, Provider, limited_handles, wait_until
from test_slow_clients import FIND_BOB

# Descriptors of a run, and how many it leaves free; silent clients, more than it has descriptors for
HANDLES, RESERVE, CLIENTS = 64, 8, 100
# The seconds that each connection has at least, and the seconds before the next call of accept if one failed
GRANTED, PAUSE = 0.1, 0.004


def descriptors_of(provider):
    """How many descriptors a run has open."""
    return len(os.listdir(f"/proc/{provider.pid}/fd"))


class ShortagesTest(ProgramTest):
    def setUp(self):
        super().setUp()
        self.shim = build_shim(self.folder)

    def test_it_goes_on_while_the_system_gives_no_connection(self):
        more = 10**6
        unaccepted = Number(self.shim, self.folder, "ACCEPTS")
        with Provider(3, **unaccepted.options) as provider:
            self.assertTrue(provider.exchange(CREATE_BOB).startswith(b"HTTP/1.1 201"))
            unaccepted.value = more
            with provider.connect() as stream:
                stream.sendall(FIND_BOB)
                stream.settimeout(100 * PAUSE)
                with self.assertRaises(TimeoutError):
                    stream.recv(1)
                # it has asked again, with pauses
                calls = more - unaccepted.value
                self.assertGreater(calls, 2)
                self.assertLess(calls, 400)
                unaccepted.value = 0
                stream.settimeout(10)
                self.assertTrue(stream.recv(65536).startswith(b"HTTP/1.1 200"))
            unaccepted.value = 10
            self.assertTrue(provider.exchange(FIND_BOB).startswith(b"HTTP/1.1 200"))
            self.assertEqual(unaccepted.value, 0)
            run = provider.ends()
            self.assertEqual(run.status, 3)
            self.assertRegex(run.errors, r"\A(connection fault( \([0-9]+\))?\n)+\Z")

    def test_a_store_is_opened_again_beside_many_connections(self):
        """A write of the store fails while silent clients have all descriptors but the reserve."""
        before = self.writes_before_a_creation()
        fault = Fault(self.shim, self.folder, "WRITE", before + 1, "5")
        options = limited_handles(HANDLES) | fault.options
        with contextlib.ExitStack() as stack:
            provider = stack.enter_context(Provider(1_000_000, "--store", self.folder / "store", **options))
            for _ in range(CLIENTS):
                stack.enter_context(provider.connect())
            wait_until(lambda: descriptors_of(provider) >= HANDLES - RESERVE, "all descriptors but the reserve")
            self.assertLessEqual(self.least_descriptors_of(provider), HANDLES - RESERVE)
            self.assertEqual(provider.exchange(CREATE_BOB), GIVEN_UP)
            self.assertTrue(fault.has_come)
            self.assertTrue(provider.exchange(CREATE_BOB).startswith(b"HTTP/1.1 201"))
            self.assertTrue(provider.exchange(FIND_BOB).startswith(b"HTTP/1.1 200"))

    def least_descriptors_of(self, provider):
        """The fewest that it has open within some time: now and then it opens some to see whether there are any."""
        end, counts = time.monotonic() + 3 * GRANTED, []
        while time.monotonic() < end:
            counts.append(descriptors_of(provider))
            time.sleep(PAUSE)
        return min(counts)

    def writes_before_a_creation(self):
        """How many writes a run makes if it opens a new store and gets no request."""
        shim = Shim(self.shim, self.folder, {})
        with Provider(1_000_000, "--store", self.folder / "other", **shim.options):
            return shim.count_of("WRITE")
