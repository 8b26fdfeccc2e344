"""What `serve` and `push` do after the 30 seconds that they give a connection or an exchange.

One test has all the waits at once, so that the suite waits once. `ClockTest` sets a clock ahead, and doesn't wait.
"""
import concurrent.futures
import contextlib
import itertools
import os
import time

from faults import Clock, build_shim
from parallel_peers import Directory, ParallelPeer
from peers import LATE, NO_HITS, TAKEN, Peer, answer, say_nothing, user
from support import (
    CREATE_BOB, TIME_LIMIT, ProgramTest, Provider, Running, Site, read_all, silent_provider, wait_until,
)
from test_slow_clients import FIND_BOB, LIST, is_closed, narrow_connection

# Seconds that a slow machine may take between two steps of a test
SLOWNESS = 5
# Clients whose requests come while a run is stopped
STOPPED = 50


def trickle(stream, content):
    """Sends a byte a second, for as long as the other side takes it."""
    with contextlib.suppress(OSError):
        for byte in itertools.islice(content, 2 * TIME_LIMIT):
            stream.sendall(bytes([byte]))
            time.sleep(1)


def trickle_an_answer(stream):
    trickle(stream, answer(200, b" " * 1000))


class TimeLimitTest(ProgramTest):
    def test_each_connection_and_exchange_ends_after_its_time(self):
        clients = [self.a_silent_client, self.a_trickling_client, self.a_client_that_takes_nothing]
        waits = [*clients, self.a_silent_provider, self.a_trickling_provider, self.a_silent_connection_of_four]
        with concurrent.futures.ThreadPoolExecutor(len(waits)) as pool:
            runs = {wait.__name__: pool.submit(wait) for wait in waits}
        for name, run in runs.items():
            with self.subTest(name):
                since_before, since_after = run.result()
                self.assertGreater(since_before, TIME_LIMIT - 1)
                self.assertLess(since_after, TIME_LIMIT + LATE)

    # Each gives the seconds that passed since before the connection, and since after it

    def a_silent_client(self):
        return self.connect_and(lambda stream: self.assertEqual(read_all(stream), b""))

    def a_trickling_client(self):
        return self.connect_and(lambda stream: trickle(stream, CREATE_BOB))

    def a_client_that_takes_nothing(self):
        with Provider(200 + 1) as provider:
            for number in range(200):
                provider.exchange(CREATE_BOB.replace(b'"bob"', b'"%03d"' % number))
            before = time.monotonic()
            with narrow_connection(provider.port) as stream:
                after = time.monotonic()
                stream.sendall(LIST)
                # it ends once it has given up on the answer
                self.assert_prints(provider.ends(), status=3, errors=["connection fault"])
                end = time.monotonic()
        return end - before, end - after

    def connect_and(self, wait):
        """A client that waits so for the end of its connection, and another that is served after it."""
        with self.serving(1, connection_faults=1) as provider:
            before = time.monotonic()
            with provider.connect() as stream:
                after = time.monotonic()
                wait(stream)
                end = time.monotonic()
            self.assertEqual(provider.ask("GET", "/v2/Users").status, 200)
        return end - before, end - after

    def a_silent_provider(self):
        # the third exchange is clean and says nothing, so the first one's fault is printed
        return self.push_bob("silent", say_nothing, [NO_HITS, TAKEN], "user bob unconfirmed H11", 1)

    def a_trickling_provider(self):
        created = answer(201, user("bob", 1))
        return self.push_bob("trickling", trickle_an_answer, [NO_HITS, created], "user bob confirmed 1", 0)

    def a_silent_connection_of_four(self):
        """The others are read after it, and may be late by then: whatever was lost is asked again."""
        names, times, directory = ["ann", "bob", "cid", "dan"], [time.monotonic()], Directory()

        def script(exchange):
            return silent if exchange is peer.exchanges[0] else directory(exchange)

        def silent(stream):
            times.append(time.monotonic())
            say_nothing(stream)
            times.append(time.monotonic())

        site = self.new_site("four")
        site.write_users(*(f"{name},1,,,,,active" for name in names))
        with ParallelPeer(script, 4) as peer:
            run = site.push(peer.address, "--streams", "4")
        self.assert_prints(run, *(f"user {name} confirmed 1" for name in names))
        self.assertEqual(peer.asked("ann"), ["GET", "GET", "POST"])
        before, after, end = times
        return end - before, end - after

    def new_site(self, name):
        folder = self.folder / name
        folder.mkdir()
        return Site(folder)

    def push_bob(self, name, wait, steps, line, status):
        """A push to a provider that waits so for the end of the first exchange, and then takes these steps."""
        times = [time.monotonic()]

        def timed(stream):
            times.append(time.monotonic())
            wait(stream)
            times.append(time.monotonic())

        site = self.new_site(name)
        site.write_users("bob,1,,,,,active")
        with Peer([timed, *steps]) as peer:
            self.assert_prints(site.push(peer.address), line, status=status)
        before, after, end = times
        return end - before, end - after


class ClockTest(ProgramTest):
    """The clock of a run is set ahead: first to shortly before the time is over, then to just after."""

    def setUp(self):
        super().setUp()
        self.clock = Clock(build_shim(self.folder), self.folder)

    def test_a_connection_has_no_longer_than_its_time(self):
        with Provider(1_000, **self.clock.options) as provider, provider.connect() as silent:
            for ahead, is_over in (0, False), (TIME_LIMIT - SLOWNESS, False), (TIME_LIMIT + 1, True):
                self.clock.set_ahead(ahead)
                # somebody who comes later is answered, so the provider has seen what time it is
                self.assertTrue(provider.exchange(FIND_BOB).startswith(b"HTTP/1.1 404"))
                if is_over:
                    silent.settimeout(SLOWNESS)
                    self.assertEqual(silent.recv(1), b"")
                else:
                    self.assertFalse(is_closed(silent))

    def test_requests_that_came_while_it_was_stopped(self):
        """Whoever was accepted before has had its time, so what it asks for isn't done. Who connects meanwhile waits in
        the system's queue, and is answered."""
        with Provider(STOPPED + 1, **self.clock.options) as provider, contextlib.ExitStack() as stack:
            handles = f"/proc/{provider.pid}/fd"
            before = len(os.listdir(handles))
            early = [stack.enter_context(provider.connect()) for _ in range(STOPPED)]
            wait_until(lambda: len(os.listdir(handles)) == before + STOPPED, "all connections")
            provider.freeze()
            for stream in early:
                stream.sendall(CREATE_BOB)
            late = [stack.enter_context(provider.connect()) for _ in range(STOPPED)]
            for stream in late:
                stream.sendall(FIND_BOB)
            self.clock.set_ahead(TIME_LIMIT + 1)
            provider.resume()
            for stream in late:
                self.assertTrue(read_all(stream).startswith(b"HTTP/1.1 404"))
            for stream in early:
                # it is closed though it sent something, which is a reset
                with self.assertRaises(ConnectionResetError):
                    stream.recv(1)
            self.assertTrue(provider.exchange(FIND_BOB).startswith(b"HTTP/1.1 404"))
            run = provider.ends()
            self.assertEqual((run.status, self.connection_faults(run)), (3, STOPPED))

    def test_an_exchange_has_no_longer_than_its_time(self):
        self.site.write_users("bob,1,,,,,active")
        with silent_provider() as (listener, address):
            with Running(*self.site.push_command(address), **self.clock.options):
                first = listener.accept()[0]
                self.clock.set_ahead(TIME_LIMIT + 1)
                # the next exchange begins
                listener.settimeout(SLOWNESS)
                with first, listener.accept()[0]:
                    pass
