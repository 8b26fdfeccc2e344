"""`push` reads responses of other providers byte by byte, up to their limits, and no part of one."""
import itertools

from peers import (
    CREATE, FIND_BOB, NO_HITS, Peer, PeerTest, as_far_as_it_is_read, asked, in_pieces, reset_after, stays_after,
)
from responses import ABSENT, AGAIN, ALL, CREATION, NOTHING, REPLACEMENT, SEARCH, ResponseTest, said
from support import BOB_CREATED, resource_id, scimlink, text

# Responses to a search as bytes, and what becomes of them
BYTES = [
    (b'HTTP/1.0 200 OK\nX: 1\ncontent-length:18\n\n{"totalResults":0}', ABSENT),
    (
        b"HTTP/1.1 200 \r\nCONTENT-LENGTH: \t000000000000000018 \r\nServer: a, b\r\n\r\n"
        b'{"totalResults":0}',
        ABSENT,
    ),
    (b'HTTP/1.1 200 OK\r\nContent-Length: 17\r\n\r\n{"totalResults":0}', "K2"),
    (b'HTTP/1.1 200 OK\r\nContent-Length: 19\r\n\r\n{"totalResults":0}', "H10"),
    (
        b'HTTP/1.1 200 OK\r\nContent-Length: 18\r\n\r\n{"totalResults":0}'
        b'HTTP/1.1 200 OK\r\nContent-Length: 18\r\n\r\n{"totalResults":0}',
        ABSENT,
    ),
    (b'HTTP/1.1 200 OK\r\nContent-Length: 18\r\n\r\n{"totalResults":0}HTTP/1.1 500 Oops\r\n', ABSENT),
    (b'HTTP/1.1 200 OK\r\n\r\n{"totalResults":0}', "K1"),
    (b'HTTP/1.1 200 OK\r\nContent-Length: 18\r\nContent-Length: 18\r\n\r\n{"totalResults":0}', "K1"),
    (b'HTTP/1.1 200 OK\r\nContent-Length: +18\r\n\r\n{"totalResults":0}', "K1"),
    (b'HTTP/1.1 200 OK\r\nContent-Length: 0000000000000000018\r\n\r\n{"totalResults":0}', "K1"),
    (b'HTTP/1.1 200 OK\r\nContent-Length: 18\r\nTransfer-Encoding: identity\r\n\r\n{"totalResults":0}', "K1"),
    (b"HTTP/1.1 099 Low\r\nContent-Length: 0\r\n\r\n", "K1"),
    (b"HTTP/2.0 200 OK\r\nContent-Length: 0\r\n\r\n", "K1"),
    (b"HTTP/1.1 20 OK\r\nContent-Length: 0\r\n\r\n", "K1"),
    (b"GET /v2/Users HTTP/1.1\r\nContent-Length: 0\r\n\r\n", "K1"),
    (b'HTTP/1.1 200 OK\r\nContent-Length: 3\r\n\r\n"\xff"', "K2"),
    (b"HTTP/1.1 502 Bad Gateway\r\nContent-Length: 6\r\n\r\n<html>", "C4"),
    (b"HTTP/1.1 100 Continue\r\n\r\nHTTP/1.1 200 OK\r\n", "H10"),
    (b"HTTP/1.1 204 No Content\r\n\r\n", "K2"),
    (b"HTTP/1.1 200 OK\r\nContent-Length: 8388609\r\n\r\n{}", "K1"),
    (b"HTTP/1.1 200 OK\r\nContent-Length: 2\r\nContent-Length: 2\r\n\r\n{}", "K1"),
    (b"HTTP/2.0", "K1"),
    (b"", "H10"),
]
# 304 is no answer to what push asks, and has no body
NOT_MODIFIED = b'HTTP/1.1 304 Not Modified\r\nETag: "7"\r\n\r\n'
# Bytes after which push doesn't wait for more: the request, the bytes, and what becomes of them
ENOUGH = [
    (SEARCH, b'HTTP/1.1 200 OK\r\nContent-Length: 18\r\n\r\n{"totalResults":0}', ABSENT),
    (SEARCH, b'HTTP/1.1 200 OK\r\nContent-Length: 17\r\n\r\n{"totalResults":0', "K2"),
    (SEARCH, b'HTTP/1.1 304 Not Modified\r\nETag: "7"\r\nContent-Length: 18\r\n\r\n', "K2"),
    (CREATION, b"HTTP/1.1 502 Bad Gateway\r\nContent-Length: 6\r\n\r\n<html>", "C4"),
    (CREATION, b"HTTP/1.1 201 Created\r\nContent-Length: 2\r\n\r\n{}", "K3"),
    (SEARCH, b"HTTP/1.1 101 Switching Protocols\r\n\r\n", "K1"),
    (SEARCH, b"HTTP/1.1 200 OK\r\nContent-Length: 8388609\r\n\r\n", "K1"),
    (SEARCH, b"HTTP/1.1 200 OK\r\nContent-Length: 2\r\nContent-Length: 2\r\n\r\n", "K1"),
    (REPLACEMENT, b"HTTP/1.1 412 Precondition Failed\r\nContent-Length: 2\r\n\r\n{}", AGAIN),
    (SEARCH, b"HTTP/2", "K1"),
    (SEARCH, b"HTTP/1.1 200 OK\r\nContent-Length: 2\r\nF: ".ljust(16_384, b"f"), "K1"),
]


def headed(lines, value_length):
    """A response with this many field lines beside its length, one of them with a value of this length. Its head has
    44 bytes besides the value if there is only that line, and its body has 18."""
    fields = f"F: {'f' * value_length}\r\n" + "A: b\r\n" * (lines - 1)
    return f"HTTP/1.1 200 OK\r\nContent-Length: 18\r\n{fields}\r\n{NOTHING}".encode()


class BytesTest(ResponseTest):
    def test_whole_bytes(self):
        for response, becomes in BYTES:
            self.assert_read(SEARCH, response, becomes)

    def test_304_is_no_answer(self):
        for ask in ALL:
            self.assert_read(ask, NOT_MODIFIED, "K2")

    def test_bytes_after_which_nothing_is_read(self):
        for ask, response, becomes in ENOUGH:
            self.assert_read(ask, response, becomes, step=stays_after)

    def test_a_body_at_its_limit(self):
        for length, becomes in ((8_388_608, ABSENT), (8_388_609, "K1")):
            self.assert_read(SEARCH, said("200 OK", NOTHING.ljust(length)), becomes, step=as_far_as_it_is_read)

    def test_heads_at_their_limits(self):
        heads = [(63, 1, 435, ABSENT), (64, 1, 441, "K1"), (1, 16_340, 16_402, ABSENT), (1, 16_341, 16_403, "K1")]
        for lines, value_length, length, becomes in heads:
            response = headed(lines, value_length)
            self.assertEqual(len(response), length)
            self.assert_read(SEARCH, response, becomes)


# The proper parts of an answer
PARTS = [BOB_CREATED[:length] for length in range(len(BOB_CREATED))]


class PartsTest(PeerTest):
    """Parts of the answer to the creation of a user, whose name has the length of the part."""

    def assert_same_lines(self, lines, wanted):
        """Many lines are these. (The difference of so many that are alike takes unittest minutes.)"""
        differ = [pair for pair in itertools.zip_longest(lines, wanted) if pair[0] != pair[1]]
        self.assertEqual(differ[:3], [])

    def assert_unread(self, step, code):
        """push reads no part of the answer, each sent in this way to two requests, and prints this code."""
        names = [f"u{len(part):03}" for part in PARTS]
        self.site.write_users(*(f"{name},1,,,,,active" for name in names))
        steps = [said for part in PARTS for said in (NO_HITS, step(part), step(part))]
        lines = [f"user {name} unconfirmed {code}" for name in names]
        with Peer(steps) as peer:
            run = self.site.push(peer.address, "--give-up-after", "0")
        self.assert_reports(run, 1)
        self.assert_same_lines(run.lines, lines)
        wanted = [[f"GET /v2/Users?filter=userName+eq+%22{name}%22 HTTP/1.1", CREATE, CREATE] for name in names]
        self.assert_same_lines(asked(peer.requests), [line for lines in wanted for line in lines])

    def test_a_stream_that_ends_at_each_place(self):
        self.assert_unread(bytes, "H10")

    def test_a_connection_that_is_reset_at_each_place(self):
        self.assert_unread(reset_after, "H11")

    def test_a_message_that_is_cut_at_each_place(self):
        """`simulate` reads no part either. Message 4 is the answer to the creation of bob."""
        cuts = [f"cut 4 {len(part)}" for part in PARTS]
        asks = ["user bob,1,,,,,active", "send user bob", "deliver 1", "deliver 2", "send user bob", "deliver 3"]
        reports = ["new", "find 1", "answer 2 200", "absent", "create 3", "answer 4 201"]
        ends = [f"cut 4 {len(BOB_CREATED)}", "deliver 4"]
        schedule = self.folder / "schedule"
        schedule.write_text(text(*asks, *cuts, *ends))
        reports = [*reports, *["cut"] * len(cuts), "none", "confirmed 1"]
        lines = [f"{place} {report}" for place, report in enumerate(reports, 1)]
        view = "user bob wanted=1 confirmed=1 held=1 version=1 active=true"
        run = scimlink("simulate", schedule)
        self.assert_reports(run, 0)
        self.assert_same_lines(run.lines, [*lines, view])

    def test_answers_in_pieces(self):
        self.site.write_users("bob,1,,,,,active")
        for size in (1, 7, 1_000):
            with self.subTest(size=size):
                steps = [in_pieces(size, NO_HITS), in_pieces(size, BOB_CREATED)]
                self.assertEqual(asked(self.meets(steps, "user bob confirmed 1")), [FIND_BOB, CREATE])
                self.assert_prints(self.site.show_journal(), f"user bob wanted=1 confirmed=1 id={resource_id(1)}")
                self.assert_prints(self.site.reset(), "reset 1 records")
