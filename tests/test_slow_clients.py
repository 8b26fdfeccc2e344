"""`serve`: slow clients hold nobody up, and lose nothing."""
import contextlib
import os
import pathlib
import resource
import socket
import time

from support import (
    BOB, BOB_CREATED, CREATE_BOB, TIME_LIMIT, Beside, ProgramTest, Provider, limited_handles, read_all, resource_id,
    wait_until,
)

FIND_BOB = f"GET /v2/Users/{resource_id(1)} HTTP/1.1\r\nHost: h\r\n\r\n".encode()
LIST = b"GET /v2/Users HTTP/1.1\r\nHost: h\r\n\r\n"
# Seconds within which an answer comes if nobody holds it up, even on a slow machine. Whoever is held up waits until the
# other's time is over
PROMPTLY = TIME_LIMIT / 2
# The most connections that wait for their requests, and the seconds that each may wait even then
MOST_HELD, GRANTED = 4_096, 0.1
# The most bytes of memory that their requests take for longer
MOST_MEMORY = 16 * 1024 * 1024
# Seconds within which half of the requests are answered beside clients that are silent
MOST_OF_A_LOOK = 0.2
# How many connections are opened together, and how many more than have a place
PART, EXCESS = 100, 20


def narrow_connection(port):
    """A connection that takes few bytes ahead, so that a long answer isn't sent at once."""
    stream = socket.socket()
    stream.setsockopt(socket.SOL_SOCKET, socket.SO_RCVBUF, 1)
    stream.setsockopt(socket.IPPROTO_TCP, socket.TCP_MAXSEG, 88)
    stream.settimeout(60)
    stream.connect(("127.0.0.1", port))
    return stream


@contextlib.contextmanager
def many_handles(test, count):
    """Lets this process, and the programs that it starts, have so many files and sockets open."""
    soft, hard = resource.getrlimit(resource.RLIMIT_NOFILE)
    if hard != resource.RLIM_INFINITY and hard < count:
        test.skipTest(f"a process may have at most {hard} files and sockets open")
    resource.setrlimit(resource.RLIMIT_NOFILE, (max(soft, count), hard))
    try:
        yield
    finally:
        resource.setrlimit(resource.RLIMIT_NOFILE, (soft, hard))


def connect_all(provider, count):
    """So many connections. They are opened in parts, since whoever doesn't get into the system's queue waits for a
    second."""
    streams = []
    while len(streams) < count:
        streams += [provider.connect() for _ in range(min(PART, count - len(streams)))]
        held = len(streams) - EXCESS
        wait_until(lambda: len(os.listdir(f"/proc/{provider.pid}/fd")) >= held, "a place for the connections")
    return streams


def is_closed(stream):
    """Whether the other side has closed a connection on which it sent nothing."""
    stream.setblocking(False)
    try:
        return stream.recv(1) == b""
    except BlockingIOError:
        return False
    except ConnectionError:
        return True


def processor_seconds(pid):
    """How long a process has run on a processor."""
    times = pathlib.Path(f"/proc/{pid}/stat").read_text().rpartition(")")[2].split()[11:13]
    return sum(map(int, times)) / os.sysconf("SC_CLK_TCK")


class PromptTest(ProgramTest):
    def assert_prompt(self, provider, request, status):
        """A request is answered so, and nobody holds it up."""
        began = time.monotonic()
        answer = provider.exchange(request)
        self.assertLess(time.monotonic() - began, PROMPTLY)
        self.assertTrue(answer.startswith(b"HTTP/1.1 " + status), answer[:100])


class SlowClientTest(PromptTest):
    def fill(self, provider, count):
        """Creates so many users."""
        for number in range(count):
            user = BOB.replace('"bob"', f'"user-{number:04}"')
            self.assertEqual(provider.ask("POST", "/v2/Users", user).status, 201)

    def test_silent_clients_hold_nobody_up(self):
        with self.serving(2) as provider, contextlib.ExitStack() as silent:
            for _ in range(3):
                silent.enter_context(provider.connect())
            self.assert_prompt(provider, CREATE_BOB, b"201")
            self.assert_prompt(provider, FIND_BOB, b"200")

    def test_a_request_in_parts(self):
        with self.serving(1 + 3) as provider, provider.connect() as stream:
            for part in (CREATE_BOB[:1], CREATE_BOB[1:200], CREATE_BOB[200:-1]):
                stream.sendall(part)
                self.assert_prompt(provider, FIND_BOB, b"404")
            stream.sendall(CREATE_BOB[-1:])
            self.assertEqual(read_all(stream), BOB_CREATED)

    def test_a_body_that_comes_after_its_head(self):
        """Empty lines may come before a request, and a field's name may have any case."""
        head, body = CREATE_BOB.split(b"\r\n\r\n", 1)
        name = b"Content-Length"
        self.assertIn(name, head)
        with self.serving(6) as provider:
            for spelling, status in ((name, b"201"), (name.lower(), b"409"), (name.upper(), b"409")):
                with provider.connect() as stream:
                    stream.sendall(b"\r\n" * 4_000 + head.replace(name, spelling) + b"\r\n\r\n")
                    self.assert_prompt(provider, LIST, b"200")
                    stream.sendall(body)
                    self.assertTrue(read_all(stream).startswith(b"HTTP/1.1 " + status))

    def test_requests_are_served_as_they_are_whole(self):
        with self.serving(4, connection_faults=1) as provider, contextlib.ExitStack() as stack:
            silent, parts, whole, refused, left = [stack.enter_context(provider.connect()) for _ in range(5)]
            parts.sendall(b"GET /a HT")
            whole.sendall(b"GET /b HTTP/1.1\r\nHost: h\r\n\r\n")
            self.assertTrue(read_all(whole).startswith(b"HTTP/1.1 404"))
            # it is refused as soon as it comes, while the parts of another are still on their way
            refused.sendall(b"\0\r\n")
            self.assertTrue(read_all(refused).startswith(b"HTTP/1.1 400"))
            parts.sendall(b"TP/1.1\r\nHost: h\r\n")
            left.sendall(b"GET /c")
            left.shutdown(socket.SHUT_WR)
            self.assertEqual(read_all(left), b"")
            parts.sendall(b"\r\n")
            self.assertTrue(read_all(parts).startswith(b"HTTP/1.1 404"))

    def test_the_longest_request(self):
        head = b"POST /v2/Users HTTP/1.1\r\nHost: h\r\nContent-Length: 32768\r\nA: "
        head += b"a" * (16_384 - len(head) - 4) + b"\r\n\r\n"
        body = BOB.encode()
        request = head + body + b" " * (32_768 - len(body))
        with self.serving(2) as provider, provider.connect() as stream:
            for place in range(0, len(request), 20_000):
                stream.sendall(request[place:place + 20_000])
                time.sleep(0.02)
            self.assertTrue(read_all(stream).startswith(b"HTTP/1.1 201"))
            self.assert_prompt(provider, head + body.ljust(32_768, b"x"), b"400")

    def test_a_client_that_reads_its_answer_late(self):
        with self.serving(200 + 3) as provider:
            self.fill(provider, 200)
            whole = provider.exchange(LIST)
            with narrow_connection(provider.port) as stream:
                stream.sendall(LIST)
                self.assert_prompt(provider, FIND_BOB, b"200")
                self.assertEqual(read_all(stream), whole)
            self.assertGreater(len(whole), 50_000)

    def test_the_last_of_many_connections(self):
        """The run doesn't end before its answer is sent, however slowly it is read."""
        with self.serving(1_002) as provider:
            self.fill(provider, 200)
            whole = provider.exchange(LIST)
            for _ in range(800):
                provider.exchange(FIND_BOB)
            with narrow_connection(provider.port) as stream:
                stream.sendall(LIST)
                time.sleep(0.5)
                self.assertEqual(read_all(stream), whole)

    def test_a_client_that_does_not_read_its_answer(self):
        with self.serving(200 + 2, connection_faults=1) as provider:
            self.fill(provider, 200)
            with narrow_connection(provider.port) as stream:
                stream.sendall(LIST)
                self.assert_prompt(provider, FIND_BOB, b"200")

    def test_the_oldest_client_makes_room(self):
        with many_handles(self, MOST_HELD + 500), self.serving(1, connection_faults=2) as provider, \
                contextlib.ExitStack() as silent:
            streams = [silent.enter_context(stream) for stream in connect_all(provider, MOST_HELD)]
            time.sleep(10 * GRANTED)
            # as many as have a place, and then one more
            self.assertFalse(any(map(is_closed, streams)))
            silent.enter_context(provider.connect())
            streams[0].settimeout(PROMPTLY)
            self.assertEqual(streams[0].recv(1), b"")
            self.assertFalse(any(map(is_closed, streams[1:])))
            # one leaves, so that the next needs nobody's place, even if its request comes a while after it
            streams[1].close()
            time.sleep(10 * GRANTED)
            self.assert_prompt(provider, CREATE_BOB, b"201")

    def assert_served_before_it_makes_room(self, provider, oldest):
        """The oldest connection sends a whole request, and then another connection needs its place: both while the
        program is stopped, so that the request isn't read before."""
        time.sleep(2 * GRANTED)
        provider.freeze()
        oldest.sendall(FIND_BOB)
        with provider.connect():
            provider.resume()
            oldest.settimeout(PROMPTLY)
            self.assertTrue(read_all(oldest).startswith(b"HTTP/1.1 404"))

    def test_a_whole_request_is_served_before_it_makes_room(self):
        # (the one that needed its place leaves without a request, which is the fault)
        with many_handles(self, MOST_HELD + 500), self.serving(2, connection_faults=1) as provider, \
                contextlib.ExitStack() as silent:
            streams = [silent.enter_context(stream) for stream in connect_all(provider, MOST_HELD)]
            self.assert_served_before_it_makes_room(provider, streams[0])
            # nobody else had to
            self.assertFalse(any(map(is_closed, streams[1:])))
            self.assert_prompt(provider, CREATE_BOB, b"201")

    def test_a_whole_request_is_served_before_it_makes_room_for_want_of_descriptors(self):
        with Provider(1_000, **limited_handles(24)) as provider, contextlib.ExitStack() as silent:
            streams = [silent.enter_context(provider.connect()) for _ in range(40)]
            wait_until(lambda: is_closed(streams[0]), "the oldest made room")
            time.sleep(10 * GRANTED)
            held = [stream for stream in streams if not is_closed(stream)]
            held[0].setblocking(True)
            self.assert_served_before_it_makes_room(provider, held[0])

    def test_an_answer_is_sent_on_beside_others(self):
        """A client reads its answer slowly, while others ask again and again."""
        with Provider(1_000_000) as provider:
            self.fill(provider, 200)
            whole = provider.exchange(LIST)
            with narrow_connection(provider.port) as stream:
                stream.sendall(LIST)
                stream.settimeout(PROMPTLY)
                with Askers(provider, 4) as askers:
                    wait_until(lambda: askers.answers > 100, "their answers")
                    self.assertEqual(read_all(stream), whole)

    def test_nobody_waits_for_a_silent_client(self):
        """Beside clients of which nothing comes, others don't wait for a next look at these."""
        times = []
        with Provider(1_000_000) as provider, contextlib.ExitStack() as silent:
            for _ in range(3):
                silent.enter_context(provider.connect())
            for _ in range(21):
                time.sleep(0.01)
                began = time.monotonic()
                self.assertTrue(provider.exchange(FIND_BOB).startswith(b"HTTP/1.1 404"))
                times.append(time.monotonic() - began)
        self.assertLess(sorted(times)[len(times) // 2], MOST_OF_A_LOOK)

    def test_who_waits_takes_no_processor(self):
        """Neither do clients of which nothing comes, nor one that doesn't read its answer."""
        with Provider(1_000_000) as provider, provider.connect(), provider.connect() as parts:
            self.fill(provider, 200)
            parts.sendall(FIND_BOB[:-1])
            with narrow_connection(provider.port) as stream:
                stream.sendall(LIST)
                self.assert_prompt(provider, FIND_BOB, b"200")
                time.sleep(0.2)
                before = processor_seconds(provider.pid)
                time.sleep(1)
                self.assertLess(processor_seconds(provider.pid) - before, 0.3)

    def assert_lets_others_in(self, provider, count, pace):
        """So many clients each send a byte of a head at this pace, and come back when they are closed."""
        began = time.monotonic()
        with Tricklers(provider, count, pace) as tricklers:
            wait_until(lambda: tricklers.returns > 0, "a client that made room")
            self.assertLess(time.monotonic() - began, TIME_LIMIT)
            for _ in range(20):
                self.assert_prompt(provider, FIND_BOB, b"404")
                # a request that comes within the time that each connection is granted
                with provider.connect() as stream:
                    stream.sendall(FIND_BOB[:-1])
                    time.sleep(0.5 * GRANTED)
                    stream.sendall(FIND_BOB[-1:])
                    self.assertTrue(read_all(stream).startswith(b"HTTP/1.1 404"))

    def test_clients_that_trickle_lock_nobody_out(self):
        with many_handles(self, MOST_HELD + 500), Provider(1_000_000) as provider:
            self.assert_lets_others_in(provider, MOST_HELD + EXCESS, 6 * GRANTED)

    def test_clients_that_are_never_silent_lock_nobody_out(self):
        """None is silent for as long as it may wait. There are fewer places, so that the test keeps up this pace."""
        with Provider(1_000_000, **limited_handles(120)) as provider:
            self.assert_lets_others_in(provider, 120, 0.6 * GRANTED)

    def test_large_requests_that_wait(self):
        """What has come of them takes too much memory together, so the oldest are closed."""
        part = b"POST /v2/Users HTTP/1.1\r\nHost: h\r\nContent-Length: 32768\r\n\r\n" + b" " * 32_000
        most, began = MOST_MEMORY // len(part), time.monotonic()
        with Provider(1_000_000) as provider, contextlib.ExitStack() as stack:
            streams = [stack.enter_context(stream) for stream in connect_all(provider, most + 50)]
            for stream in streams:
                stream.sendall(part)
            wait_until(lambda: all(map(is_closed, streams[:50])), "the end of the oldest")
            self.assertLess(time.monotonic() - began, TIME_LIMIT)
            self.assertFalse(is_closed(streams[-1]))
            self.assert_prompt(provider, CREATE_BOB, b"201")
            self.assertGreater(self.connection_faults(self.kill(provider)), 0)

    def test_a_system_without_descriptors(self):
        """It gives no connection while others have all of them: the oldest make room."""
        silent_clients, began = 40, time.monotonic()
        with Provider(silent_clients + 10, **limited_handles(24)) as provider, contextlib.ExitStack() as silent:
            streams = [silent.enter_context(provider.connect()) for _ in range(silent_clients)]
            wait_until(lambda: is_closed(streams[0]), "the oldest made room")
            self.assertLess(time.monotonic() - began, TIME_LIMIT)
            self.assert_prompt(provider, CREATE_BOB, b"201")
            self.assertGreater(self.connection_faults(self.kill(provider)), 0)


class Askers(Beside):
    """Clients that ask again and again."""

    def __init__(self, provider, count):
        self.provider, self.count, self.answers = provider, count, 0

    def work(self):
        while not self.is_over.is_set():
            with contextlib.ExitStack() as stack:
                streams = [stack.enter_context(self.provider.connect()) for _ in range(self.count)]
                for stream in streams:
                    stream.sendall(FIND_BOB)
                for stream in streams:
                    self.answers += read_all(stream).startswith(b"HTTP/1.1 200")


class Tricklers(Beside):
    """Clients that each send a byte of a request's head at this pace, and come back when they are closed."""

    def __init__(self, provider, count, pace):
        self.provider, self.pace, self.returns = provider, pace, 0
        self.streams = connect_all(provider, count)

    def __exit__(self, *what):
        super().__exit__(*what)
        for stream in self.streams:
            stream.close()

    def work(self):
        while not self.is_over.wait(self.pace):
            for place, stream in enumerate(self.streams):
                try:
                    stream.sendall(b"G")
                except OSError:
                    stream.close()
                    with contextlib.suppress(OSError):
                        self.streams[place] = self.provider.connect()
                        self.returns += 1
