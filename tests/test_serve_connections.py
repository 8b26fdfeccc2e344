"""`serve`: clients that leave, stay, or send too much or too little, and whom they hold up."""
import os
import resource
import socket
import struct
import time

from support import (
    BOB_CREATED, CREATE_BOB, PATIENCE, TIME_LIMIT, ProgramTest, Provider, read_all, resource_id, wait_until,
)

FIND_BOB = f"GET /v2/Users/{resource_id(1)} HTTP/1.1\r\nHost: h\r\n\r\n".encode()
# Seconds that the provider reads on after its answer, if nobody else waits
DRAIN = 2


def reset_on_close(stream):
    """Has the end of a stream be a reset."""
    stream.setsockopt(socket.SOL_SOCKET, socket.SO_LINGER, struct.pack("ii", 1, 0))


class ConnectionTest(ProgramTest):
    def assert_whole(self, answer, status):
        """An answer with this status, whose body came to its end."""
        self.assertTrue(answer.startswith(b"HTTP/1.1 " + status + b"\r\n") and answer.endswith(b"}"), answer)

    def assert_found(self, answer):
        self.assert_whole(answer, b"200 OK")

    def assert_not_found(self, answer):
        self.assert_whole(answer, b"404 Not Found")

    def test_connections_are_served_as_they_ask(self):
        with self.serving(2) as provider, provider.connect() as first, provider.connect() as second:
            # the second one asks first, for what the first one creates
            second.sendall(FIND_BOB)
            self.assert_not_found(read_all(second))
            first.sendall(CREATE_BOB)
            self.assertEqual(read_all(first), BOB_CREATED)

    def test_clients_that_leave(self):
        # the first and the last one leave before a request came, so only the others count
        with self.serving(2 + 2, connection_faults=4) as provider:
            provider.connect().close()
            with provider.connect() as stream:
                stream.sendall(CREATE_BOB[:100])
            with provider.connect() as stream:
                stream.sendall(CREATE_BOB[:-1])
                stream.shutdown(socket.SHUT_WR)
                self.assertEqual(read_all(stream), b"")
            with provider.connect() as stream:
                stream.sendall(CREATE_BOB[:-1])
                reset_on_close(stream)
            for _ in range(2):
                answer = provider.ask("GET", "/v2/Users")
                self.assertEqual((answer.status, answer.content["totalResults"]), (200, 0))

    def test_faults_are_reported_once_a_second(self):
        with Provider(2) as provider:
            began = time.monotonic()
            for _ in range(10):
                provider.connect().close()
            self.assert_not_found(provider.exchange(FIND_BOB))
            # those of the first second are reported once it is over
            time.sleep(1)
            self.assert_not_found(provider.exchange(FIND_BOB))
            seconds = time.monotonic() - began
            ended = provider.ends()
        self.assertEqual(self.connection_faults(ended), 10)
        self.assertTrue(ended.errors.startswith("connection fault"), ended.errors)
        self.assertLessEqual(len(ended.errors.splitlines()), 2 + int(seconds))

    def test_connections_that_cannot_be_accepted(self):
        with Provider(2) as provider:
            self.assertEqual(provider.exchange(CREATE_BOB), BOB_CREATED)
            # only the standard streams, the listener and what watches it may be open
            wait_until(lambda: len(os.listdir(f"/proc/{provider.pid}/fd")) == 5, "the end of the connection")
            before = resource.prlimit(provider.pid, resource.RLIMIT_NOFILE)
            resource.prlimit(provider.pid, resource.RLIMIT_NOFILE, (5, before[1]))
            with provider.connect() as stream:
                stream.sendall(FIND_BOB)
                time.sleep(1.5)
                resource.prlimit(provider.pid, resource.RLIMIT_NOFILE, before)
                self.assert_found(read_all(stream))
            # it was reported at once, and a second later
            self.assert_prints(provider.ends(), status=3, errors=["connection fault"] * 2)

    def test_a_client_that_closes_its_half(self):
        with self.serving(1) as provider, provider.connect() as stream:
            stream.sendall(CREATE_BOB)
            stream.shutdown(socket.SHUT_WR)
            self.assertEqual(read_all(stream), BOB_CREATED)

    def test_clients_that_send_more(self):
        more = b"x" * 1_000_000
        with self.serving(4) as provider:
            self.assertEqual(provider.exchange(CREATE_BOB + more), BOB_CREATED)
            with provider.connect() as stream:
                # what comes after the answer isn't answered by a reset either
                stream.sendall(FIND_BOB)
                beginning = stream.recv(15)
                stream.sendall(more)
                self.assert_found(beginning + read_all(stream))
            head = b"POST /v2/Users HTTP/1.1\r\nHost: h\r\nContent-Length: 1000000\r\n\r\n"
            self.assert_whole(provider.exchange(head + more), b"413 Content Too Large")
            self.assert_found(provider.exchange(FIND_BOB))

    def test_a_client_that_stays_after_its_answer(self):
        with self.serving(2) as provider, provider.connect() as stream:
            began = time.monotonic()
            stream.sendall(FIND_BOB)
            self.assert_not_found(read_all(stream))
            self.assert_not_found(provider.exchange(FIND_BOB))
            # it ends once the client has stayed for so long
            self.assertEqual(provider.process.wait(PATIENCE), 0)
            self.assertTrue(DRAIN <= time.monotonic() - began < TIME_LIMIT)

    def test_who_waits_is_served_before_the_drain(self):
        # the quickest of some tries, as a machine may be slow now and then
        self.assertLess(min(self.waits_behind_one_that_stays() for _ in range(3)), DRAIN / 2)

    def waits_behind_one_that_stays(self):
        """Seconds that a client waits behind another which has its answer and stays."""
        with self.serving(2) as provider, provider.connect() as first, provider.connect() as second:
            first.sendall(FIND_BOB)
            self.assert_not_found(read_all(first))
            began = time.monotonic()
            second.sendall(FIND_BOB)
            self.assert_not_found(read_all(second))
            return time.monotonic() - began
