"""Standard input, standard output and sockets that pass few bytes at a time, are interrupted, fail or end: what
`answer`, `serve`, `push` and `map` then do."""
import concurrent.futures
import contextlib
import os
import pathlib
import tempfile
from errno import EAGAIN, EINTR, EIO, ENOMEM, EPIPE, ETIMEDOUT

from databases import user_text
from faults import Script, build_shim, scripted
from peers import NO_HITS, TAKEN, Peer
from support import BOB_CREATED, CREATE_BOB, USERS_HEADER, ProgramTest, Provider, Site, read_all, scimlink, text

FAULT = "connection fault"
# A call that passes no byte
NOTHING = 0

# How a request of 371 bytes passes, 157 of which are its head, and whether it comes. 100,000 reads are allowed
READINGS = [
    (Script(1), True),
    (Script(7), True),
    (Script(1_000), True),
    (Script(1, [(0, 1, EINTR)]), True),
    (Script(1_000, [(0, 2, EINTR), (1, 3, EINTR), (157, 1, EINTR), (370, 1, EINTR)]), True),
    (Script(1_000, [(0, 1, EPIPE)]), False),
    (Script(1_000, [(100, 1, EPIPE)]), False),
    (Script(1_000, [(157, 1, EPIPE)]), False),
    (Script(1_000, [(370, 1, EPIPE)]), False),
    (Script(1_000, [(200, 1, EAGAIN)]), False),
    (Script(1_000, [(200, 1, ETIMEDOUT)]), False),
    (Script(1_000, [(5, 2, EINTR), (5, 1, EPIPE)]), False),
    (Script(1_000, [(0, 1, NOTHING)]), False),
    (Script(1_000, [(100, 1, NOTHING)]), False),
    (Script(1_000, [(157, 1, NOTHING)]), False),
    (Script(1_000, [(370, 1, NOTHING)]), False),
    (Script(1, [(0, 99_629, EINTR)]), True),
    (Script(1, [(0, 99_630, EINTR)]), False),
    (Script(1_000, [(370, 1_000_000, EINTR)]), False),
]
# How an answer of 666 bytes passes, and how many of them are written. 100,000 writes and flushes are allowed, and
# a whole answer is flushed once; where it comes whole, and is lost all the same, the flush is one too many
WRITINGS = [
    (Script(1), 666, True),
    (Script(7), 666, True),
    (Script(1_000), 666, True),
    (Script(1, [(0, 1, EINTR)]), 666, True),
    (Script(1_000, [(0, 2, EINTR), (1, 3, EINTR), (665, 1, EINTR)]), 666, True),
    (Script(1_000, [(0, 1, EPIPE)]), 0, False),
    (Script(1_000, [(300, 1, EPIPE)]), 300, False),
    (Script(1_000, [(300, 1, EAGAIN)]), 300, False),
    (Script(1_000, [(0, 1, NOTHING)]), 0, False),
    (Script(1_000, [(300, 1, NOTHING)]), 300, False),
    (Script(1_000, [(665, 1, NOTHING)]), 665, False),
    (Script(1_000, [(0, 99_998, EINTR)]), 666, True),
    (Script(1_000, [(0, 99_999, EINTR)]), 666, False),
    (Script(1_000, [(0, 100_000, EINTR)]), 0, False),
]
# Two interruptions at the first byte, and three at the next: with the two parts of what passes, seven calls
INTERRUPTIONS = Script(1_000, [(0, 2, EINTR), (1, 3, EINTR)])

# How the answer to a creation passes, 278 bytes of which are its head, what is printed, and what is said of a fault
ANSWERS_READ = [
    (Script(1), "confirmed 1"),
    (Script(7), "confirmed 1"),
    (Script(1_000), "confirmed 1"),
    (Script(1, [(0, 1, EINTR)]), "confirmed 1"),
    (Script(1_000, [(0, 2, EINTR), (278, 3, EINTR), (665, 1, EINTR)]), "confirmed 1"),
    (Script(1_000, [(0, 1, EPIPE)]), "unconfirmed H11"),
    (Script(1_000, [(278, 1, EPIPE)]), "unconfirmed H11"),
    # what would have to wait is read again, until the time of the exchange is over
    (Script(1_000, [(300, 1, EAGAIN)]), "confirmed 1"),
    (Script(1_000, [(300, 1, ETIMEDOUT)]), "unconfirmed H11", "reading failed after 300 bytes: timed out"),
    (Script(1_000, [(0, 1, NOTHING)]), "unconfirmed H10"),
    (Script(1_000, [(278, 1, NOTHING)]), "unconfirmed H10"),
    (Script(1_000, [(665, 1, NOTHING)]), "unconfirmed H10"),
    (Script(1, [(0, 99_334, EINTR)]), "confirmed 1"),
    (Script(1, [(0, 99_335, EINTR)]), "unconfirmed H14", "665 bytes came by 100000 reads"),
    (Script(1_000, [(665, 1_000_000, EINTR)]), "unconfirmed H14"),
]
# How the request for a creation passes, what is printed, how many of its 371 bytes are sent, and what is said of a fault
REQUESTS_WRITTEN = [
    (Script(1), "confirmed 1", 371),
    (Script(7), "confirmed 1", 371),
    (Script(1_000), "confirmed 1", 371),
    (Script(1_000, [(0, 2, EINTR), (157, 3, EINTR), (370, 1, EINTR)]), "confirmed 1", 371),
    (Script(1_000, [(0, 1, EPIPE)]), "unconfirmed H12", 0),
    (Script(1_000, [(157, 1, EPIPE)]), "unconfirmed H12", 157, "sending failed after 157 bytes"),
    (Script(1_000, [(200, 1, EAGAIN)]), "unconfirmed H12", 200),
    (Script(1_000, [(370, 1, NOTHING)]), "unconfirmed H12", 370),
    (Script(1_000, [(0, 99_998, EINTR)]), "confirmed 1", 371),
    (Script(1_000, [(0, 99_999, EINTR)]), "unconfirmed H14", 371, "371 bytes sent by 100000 writes"),
    (Script(1_000, [(0, 100_000, EINTR)]), "unconfirmed H14", 0),
]

# How the images of two users pass, how many of their 565 bytes are written, 349 of which are the first line, and
# the fault that is printed. What a run couldn't write, it tries to write once more as it ends
IMAGES_WRITTEN = [
    (Script(1), 565, None),
    (Script(1_000, [(0, 1, EINTR)]), 565, None),
    (Script(7, [(348, 2, EINTR)]), 565, None),
    (Script(1_000, [(0, 9, EPIPE)]), 0, "file fault"),
    (Script(1_000, [(1, 9, EPIPE)]), 1, "file fault"),
    (Script(1_000, [(349, 9, EPIPE)]), 349, "file fault"),
    (Script(1_000, [(564, 9, EPIPE)]), 564, "file fault"),
    (Script(1_000, [(349, 9, NOTHING)]), 349, "file fault"),
    (Script(1_000, [(349, 9, ENOMEM)]), 349, "memory fault"),
]


class PartsPeer(Peer):
    """A provider that notes what comes of each request, and answers it if it is whole."""

    def take(self, step, stream):
        with stream:
            received = b""
            while not is_whole(received) and (part := stream.recv(65536)):
                received += part
            self.requests.append(received)
            if is_whole(received):
                stream.sendall(step)
        self.answered += 1


def is_whole(request):
    head, end, body = request.partition(b"\r\n\r\n")
    length = head.partition(b"Content-Length: ")[2].split(b"\r\n")[0]
    return bool(end) and len(body) >= int(length or 0)


class StreamTest(ProgramTest):
    def setUp(self):
        super().setUp()
        self.shim = build_shim(self.folder)

    def scripted(self, *socket, **scripts):
        return scripted(self.shim, self.folder, *socket, **scripts)

    def new_folder(self):
        return pathlib.Path(tempfile.mkdtemp(dir=self.folder))


class AnswerStreamTest(StreamTest):
    def answer(self, *options, stdin=CREATE_BOB, **scripts):
        """A run over streams that follow scripts, and how many reads and writes of them it made."""
        run = self.scripted(**scripts)
        ended = scimlink("answer", *options, stdin=stdin, **run.options)
        return ended, run.count_of("STREAM_READ"), run.count_of("STREAM_WRITE")

    def assert_comes(self, run, is_answered, printed):
        """A run ended well or by a fault, and printed this."""
        self.assert_reports(run, 0 if is_answered else 3, *([] if is_answered else [FAULT]))
        self.assertEqual(run.output, printed)

    def assert_kept(self, store, is_kept):
        self.assert_prints(scimlink("show", "--store", store), *["user bob held=1 version=1 active=true"] * is_kept)

    def at_each(self, places, answer, check):
        """Runs side by side, one for each place, and what is asserted of each."""
        with concurrent.futures.ThreadPoolExecutor(os.cpu_count()) as pool:
            for place, (run, *counts) in zip(places, pool.map(answer, places)):
                with self.subTest(place=place):
                    check(place, run, *counts)

    def test_requests_that_come_by_a_script(self):
        self.assertEqual(len(CREATE_BOB), 371)
        for script, is_read in READINGS:
            with self.subTest(script=str(script)):
                store = self.new_folder() / "store"
                run, *_ = self.answer("--store", store, reads=script)
                self.assert_comes(run, is_read, BOB_CREATED if is_read else b"")
                self.assert_kept(store, is_read)

    def test_answers_that_are_taken_by_a_script(self):
        self.assertEqual(len(BOB_CREATED), 666)
        for script, written, is_answered in WRITINGS:
            with self.subTest(script=str(script)):
                store = self.new_folder() / "store"
                run, *_ = self.answer("--store", store, writes=script)
                self.assert_comes(run, is_answered, BOB_CREATED[:written])
                self.assert_kept(store, True)

    def test_each_call_of_an_interrupted_stream(self):
        run, reads, writes = self.answer(reads=INTERRUPTIONS, writes=INTERRUPTIONS)
        self.assert_comes(run, True, BOB_CREATED)
        self.assertEqual((reads, writes), (7, 7))

    def test_what_follows_a_request_is_not_read(self):
        run, reads, writes = self.answer(stdin=CREATE_BOB + b"GET", reads=Script(1))
        self.assert_comes(run, True, BOB_CREATED)
        self.assertEqual((reads, writes), (371, 1))

    def test_a_read_that_fails_once_at_each_place(self):
        def check(place, run, reads, writes):
            self.assert_comes(run, False, b"")
            # it isn't made again
            self.assertEqual((reads, writes), (place + 1, 0))

        self.at_each(range(371), lambda place: self.answer(reads=Script(1, [(place, 1, EIO)])), check)

    def test_a_write_that_fails_once_at_each_place(self):
        def check(place, run, _, writes):
            self.assert_comes(run, False, BOB_CREATED[:place])
            self.assertEqual(writes, place + 1)

        self.at_each(range(666), lambda place: self.answer(writes=Script(1, [(place, 1, EIO)])), check)


class ServeStreamTest(StreamTest):
    def test_no_part_of_a_request_is_one(self):
        # a connection without a byte doesn't count as a request
        with self.serving(370 + 1, connection_faults=371) as provider:
            for length in range(371):
                with provider.connect() as stream:
                    stream.sendall(CREATE_BOB[:length])
                    stream.shutdown(1)
                    self.assertEqual(read_all(stream), b"")
            self.assertEqual(provider.ask("GET", "/v2/Users").content["totalResults"], 0)

    def test_sockets_that_pass_a_byte_at_a_time(self):
        for error in EINTR, EAGAIN:
            held_up = [(place, 2, error) for place in (0, 1, 156, 157, 369, 370)]
            for script in Script(1), Script(1, held_up), Script(1_000, held_up):
                options = self.scripted(1, reads=script, writes=script).options
                with self.subTest(script=str(script)), Provider(1, **options) as provider:
                    self.assertEqual(provider.exchange(CREATE_BOB), BOB_CREATED)
                    self.assert_prints(provider.ends())

    def test_an_answer_is_sent_as_its_client_takes_it(self):
        script = Script(3, [(place, 1, EAGAIN) for place in range(0, 24, 3)])
        with Provider(1, **self.scripted(1, writes=script).options) as provider:
            self.assertEqual(provider.exchange(CREATE_BOB), BOB_CREATED)
            self.assert_prints(provider.ends())

    def test_a_connection_whose_reads_fail(self):
        for place, error in (0, EIO), (100, EIO), (370, EIO), (370, ETIMEDOUT), (370, NOTHING):
            site = Site(self.new_folder())
            # one that ends in the midst of its request is read once more to be served
            requests = 2 if error == NOTHING else 1
            options = self.scripted(1, reads=Script(1_000, [(place, requests, error)])).options
            with self.subTest(place=place, error=error), \
                    Provider(requests, "--store", site.store, **options) as provider:
                # the system resets the connection if something wasn't read
                with contextlib.suppress(ConnectionResetError):
                    self.assertEqual(provider.exchange(CREATE_BOB), b"")
                self.assertEqual(provider.exchange(CREATE_BOB), BOB_CREATED)
                self.assert_prints(provider.ends(), status=3, errors=[FAULT])

    def test_a_connection_whose_write_fails(self):
        for place, error in (0, EIO), (300, EIO), (665, EIO), (665, NOTHING):
            site = Site(self.new_folder())
            options = self.scripted(1, writes=Script(1_000, [(place, 1, error)])).options
            with self.subTest(place=place, error=error), Provider(2, "--store", site.store, **options) as provider:
                self.assertEqual(provider.exchange(CREATE_BOB), BOB_CREATED[:place])
                self.assertTrue(provider.exchange(CREATE_BOB).startswith(b"HTTP/1.1 409 Conflict\r\n"))
                self.assert_prints(provider.ends(), status=3, errors=[FAULT])


class PushStreamTest(StreamTest):
    def creates(self, line, said=None, **scripts):
        """A push creates bob, and the streams of that exchange follow scripts: what came of its request. `said` is what
        it says on standard error about a fault, if that is to be asserted."""
        site = Site(self.new_folder())
        site.write_users("bob,1,,,,,active")
        is_confirmed = line.startswith("confirmed")
        # where the second exchange has a fault, a third one asks again, and has none
        steps = [NO_HITS, BOB_CREATED, *([] if is_confirmed else [TAKEN])]
        with PartsPeer(steps) as peer:
            run = site.push(peer.address, **self.scripted(2, **scripts).options)
            self.assert_prints(run, f"user bob {line}", status=0 if is_confirmed else 1)
        if said:
            self.assertEqual(run.errors, text(f"user bob: {said}"))
        return peer.requests[1]

    def test_answers_that_come_by_a_script(self):
        for script, line, *said in ANSWERS_READ:
            with self.subTest(script=str(script)):
                self.assertEqual(self.creates(line, *said, reads=script), CREATE_BOB)

    def test_requests_that_are_taken_by_a_script(self):
        for script, line, sent, *said in REQUESTS_WRITTEN:
            with self.subTest(script=str(script)):
                self.assertEqual(self.creates(line, *said, writes=script), CREATE_BOB[:sent])

    def test_a_write_that_fails_once_at_each_place(self):
        def sent(place):
            return self.creates("unconfirmed H12", writes=Script(1, [(place, 1, EPIPE)]))

        with concurrent.futures.ThreadPoolExecutor(os.cpu_count()) as pool:
            for place, part in enumerate(pool.map(sent, range(371))):
                with self.subTest(place=place):
                    self.assertEqual(part, CREATE_BOB[:place])


class MapStreamTest(StreamTest):
    def test_images_that_are_taken_by_a_script(self):
        ann = {"emails": [{"primary": True, "type": "work", "value": "ann@example.com"}], "externalId": "1001"}
        lines = text(
            user_text("ann", 7, **ann, name={"familyName": "Lee", "givenName": "Ann"}), user_text("bob", active=False)
        ).encode()
        self.assertEqual(len(lines), 565)
        path = self.folder / "users.csv"
        path.write_text(text(USERS_HEADER, "ann,7,1001,Ann,Lee,ann@example.com,active", "bob,1,,,,,left"))
        for script, written, fault in IMAGES_WRITTEN:
            with self.subTest(script=str(script)):
                run = scimlink("map", path, **self.scripted(writes=script).options)
                self.assert_reports(run, 3 if fault else 0, *([fault] if fault else []))
                self.assertEqual(run.output, lines[:written])
