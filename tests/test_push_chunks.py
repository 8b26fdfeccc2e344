"""`push` reads answers whose bodies come in chunks (RFC 9112, section 7.1), and answers behind interim ones (RFC 9110,
section 15.2)."""
import itertools

from peers import CREATE, NO_HITS, Peer, PeerTest, as_far_as_it_is_read, asked, in_pieces, reset_after, stays_after
from responses import ABSENT, NOTHING, SEARCH, ResponseTest, said

HEAD = b"HTTP/1.1 200 OK\r\nTransfer-Encoding: chunked\r\n\r\n"
BODY = NOTHING.encode()
LIMIT = 8_388_608
# One chunk, and the end
WHOLE = b"12\r\n%b\r\n0\r\n\r\n" % BODY
CHUNK = b"1\r\n%c\r\n"

# Bodies in chunks, all of NOTHING
CHUNKED = {
    "one chunk": WHOLE,
    "a chunk for each byte": b"".join(CHUNK % byte for byte in BODY) + b"0\r\n\r\n",
    "leading zeros": b"0000000000000012\r\n%b\r\n000\r\n\r\n" % BODY,
    "an extension": b"12;a=b;c=\"d e\"\r\n%b\r\n0;e\r\n\r\n" % BODY,
    "an extension like content": b"12;{}\r\n%b\r\n0;x\r\n\r\n" % BODY,
    "trailers": b"12\r\n%b\r\n0\r\nDigest: a\r\nX:\r\n\r\n" % BODY,
    "trailers like chunks": b"12\r\n%b\r\n0\r\n2:{}\r\n\r\n" % BODY,
    "content like an end": b"16\r\n{\"totalResults\":0\r\n\r\n}\r\n0\r\n\r\n",
    "bytes behind": WHOLE + b"7\r\n",
}
# Bodies that no bytes complete
MALFORMED = {
    "no size": b"\r\n",
    "no hexadecimal": b"g\r\n",
    "a sign": b"+12\r\n",
    "a prefix": b"0x12\r\n",
    "a size above 64 bits": b"1" + b"0" * 16,
    "a size without CR": b"12\n",
    "a size without LF": b"12\r{",
    "an extension without CR": b"12;a\n",
    "content without CR": b"12\r\n%b\n" % BODY,
    "content without LF": b"12\r\n%b\r0" % BODY,
    "longer content": b"11\r\n%b" % BODY,
    "trailers without a colon": b"0\r\nDigest\r\n",
    "trailers without a name": b"0\r\n: a\r\n",
    "trailers without CR": b"0\r\n\n",
    "trailers without LF": b"0\r\n\r\r",
}
# Codings that push doesn't undo
CODINGS = [b"gzip, chunked", b"chunked, chunked", b"gzip", b"chunked;q=1", b"chunked\r\nTransfer-Encoding: chunked"]


def of_chunks(length, size):
    """NOTHING and spaces, of this length, in chunks of this size and a last one."""
    content = BODY.ljust(length)
    pieces = [content[place:place + size] for place in range(0, length, size)]
    return b"".join(b"%x\r\n%b\r\n" % (len(piece), piece) for piece in pieces) + b"0\r\n\r\n"


def framed(extra):
    """NOTHING with this many bytes beside it."""
    return b"12;%b\r\n%b\r\n0\r\n\r\n" % (b"x" * (extra - len(WHOLE) + len(BODY) - 1), BODY)


class ChunksTest(ResponseTest):
    def test_bodies_in_chunks(self):
        for name, body in CHUNKED.items():
            for step in (bytes, stays_after, lambda said: in_pieces(1, said)):
                with self.subTest(name):
                    self.assert_read(SEARCH, HEAD + body, ABSENT, step=step)

    def test_names_of_the_coding(self):
        for coding in (b"CHUNKED", b" Chunked "):
            self.assert_read(SEARCH, HEAD.replace(b" chunked", coding) + WHOLE, ABSENT)
        for coding in CODINGS:
            self.assert_read(SEARCH, HEAD.replace(b"chunked", coding) + WHOLE, "K1", step=stays_after)

    def test_malformed_chunks(self):
        for name, body in MALFORMED.items():
            with self.subTest(name):
                self.assert_read(SEARCH, HEAD + body, "K1", step=stays_after)

    def test_no_json_in_chunks(self):
        self.assert_read(SEARCH, HEAD + b"0\r\n\r\n", "K2")
        self.assert_read(SEARCH, HEAD + b"2\r\n{}\r\n0\r\n\r\n", "K3")

    def test_content_at_its_limit(self):
        for size in (65_536, LIMIT + 1):
            for length, becomes in ((LIMIT, ABSENT), (LIMIT + 1, "K1")):
                self.assert_read(SEARCH, HEAD + of_chunks(length, size), becomes, step=as_far_as_it_is_read)

    def test_framing_at_its_limit(self):
        for extra, becomes in ((LIMIT, ABSENT), (LIMIT + 1, "K1")):
            body = framed(extra)
            self.assertEqual(len(body) - len(BODY), extra)
            self.assert_read(SEARCH, HEAD + body, becomes, step=as_far_as_it_is_read)

    def test_no_body_in_chunks(self):
        for status in (204, 304):
            self.assert_read(SEARCH, HEAD.replace(b"200", b"%d" % status), "K2", step=stays_after)


class InterimTest(ResponseTest):
    def test_interim_answers(self):
        interim = b"HTTP/1.1 103 Early Hints\r\nLink: a\r\n\r\n"
        for answer in (said("200 OK", NOTHING), HEAD + WHOLE):
            for count, becomes in ((1, ABSENT), (8, ABSENT), (9, "K1")):
                self.assert_read(SEARCH, interim * count + answer, becomes)
        self.assert_read(SEARCH, interim, "H10")
        stated = b"HTTP/1.1 100 Continue\r\nContent-Length: 5\r\n\r\n"
        self.assert_read(SEARCH, stated + said("200 OK", NOTHING), ABSENT)


# An interim answer, and an answer to a creation in chunks, with an extension and a trailer
CREATED = (
    b"HTTP/1.1 103 Early Hints\r\n\r\nHTTP/1.1 201 Created\r\nTransfer-Encoding: chunked\r\n\r\n"
    b"1\r\n{\r\n1;a\r\n}\r\n0\r\nX: y\r\n\r\n"
)


class PartsTest(PeerTest):
    """Parts of an answer to the creation of a user, whose name has the length of the part."""

    def assert_unread(self, step, code):
        parts = [CREATED[:length] for length in range(len(CREATED))]
        names = [f"u{len(part):03}" for part in parts]
        self.site.write_users(*(f"{name},1,,,,,active" for name in names))
        with Peer([said for part in parts for said in (NO_HITS, step(part), step(part))]) as peer:
            run = self.site.push(peer.address, "--give-up-after", "0")
        self.assert_reports(run, 1)
        wanted = [f"user {name} unconfirmed {code}" for name in names]
        self.assertEqual([pair for pair in itertools.zip_longest(run.lines, wanted) if pair[0] != pair[1]][:3], [])
        self.assertEqual([line for line in asked(peer.requests) if line == CREATE], [CREATE] * 2 * len(names))

    def test_parts_that_end(self):
        self.assert_unread(bytes, "H10")

    def test_parts_that_are_reset(self):
        self.assert_unread(reset_after, "H11")
