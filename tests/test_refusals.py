"""`serve`: each refusal has its answer, and nothing is stored."""
from exchanges import (
    GROUPS, LONG_BODY, LONG_HEAD, MALFORMED, NO_METHOD, NO_PATH, SYNTAX, USERS, VALUE,
    ExchangeTest, create_user, refusal, request, user,
)
from support import SOURCE

NO_HOST = refusal("400 Bad Request", "the Host field is missing or repeated")
NO_LENGTH = refusal("411 Length Required", "the length of the body is missing")
NO_CODINGS = refusal("501 Not Implemented", "transfer codings are not supported")
NO_EXPECTATIONS = refusal("417 Expectation Failed", "expectations are not supported")
NO_MEDIA = refusal("415 Unsupported Media Type", "the media type is not supported")

# A refusal, and a request to which an empty provider answers with it
PATHS_AND_METHODS = [
    (NO_PATH, b"GET /v2/Things HTTP/1.1\r\nHost: h\r\n\r\n"),
    (NO_PATH, b"GET /v2/users HTTP/1.1\r\nHost: h\r\n\r\n"),
    (NO_PATH, b"GET /v2/Users/ HTTP/1.1\r\nHost: h\r\n\r\n"),
    (NO_PATH, b"GET /v2/Users/a/b HTTP/1.1\r\nHost: h\r\n\r\n"),
    (NO_PATH, b"GET /v2/Users/%FF HTTP/1.1\r\nHost: h\r\n\r\n"),
    (NO_PATH, b"GET /v2/Users/a%4 HTTP/1.1\r\nHost: h\r\n\r\n"),
    (NO_METHOD, b"PATCH /v2/Users HTTP/1.1\r\nHost: h\r\n\r\n"),
]

POST = b"POST /v2/Users HTTP/1.1\r\nHost: h\r\n"
# A body that is an empty object, with its length
EMPTY = b"Content-Length: 2\r\n\r\n{}"
JSON_TYPE = b"Content-Type: application/json\r\n"
MEDIA_TYPES = [
    (NO_MEDIA, POST + b"Content-Type: text/plain\r\n" + EMPTY),
    (NO_MEDIA, POST + JSON_TYPE + JSON_TYPE + EMPTY),
    # a valid type or none leads to the body
    (VALUE, POST + b"Content-Type: Application/SCIM+json ; charset=utf-8\r\n" + EMPTY),
    (VALUE, b"POST /v2/Users HTTP/1.0\r\n" + EMPTY),
]

HEADS = [
    (MALFORMED, b"\x00\r\n"),
    (MALFORMED, b"POST /v2/Users HTTP/1.1\r\nHost h\r\n\r\n"),
    (MALFORMED, POST + b"Content-Length: 1\r\nContent-Length: 1\r\n\r\n"),
    (NO_HOST, b"GET /v2/Users HTTP/1.1\r\n\r\n"),
    (NO_HOST, b"POST /v2/Users HTTP/1.1\r\nContent-Length: 32769\r\n\r\n"),
    (NO_HOST, b"GET /v2/Users HTTP/1.0\r\nHost: h\r\nhost: h\r\n\r\n"),
    (NO_HOST, b"GET /v2/Users HTTP/1.1\r\nHost: a b\r\n\r\n"),
    (NO_HOST, b"GET /v2/Users HTTP/1.0\r\nHost: a/v2\r\n\r\n"),
    (NO_LENGTH, POST + b"\r\n"),
    (NO_LENGTH, b"PUT /v2/Users HTTP/1.1\r\nHost: h\r\n\r\n"),
    (LONG_BODY, POST + b"Content-Length: 32769\r\n\r\n"),
    (NO_CODINGS, POST + b"Transfer-Encoding: chunked\r\n\r\n"),
    (NO_EXPECTATIONS, POST + b"Expect: 100-continue\r\nContent-Length: 1\r\n\r\n"),
    (NO_EXPECTATIONS, POST + b"Expect: 100-continue\r\nContent-Length: 2\r\n\r\n"),
    (LONG_HEAD, b"a" * 16_384),
    (LONG_HEAD, POST + b"A: " + b"a" * 20_000 + b"\r\n\r\n"),
    (LONG_HEAD, b"GET /v2/Users HTTP/1.1\r\nHost: h\r\n" + b"X: y\r\n" * 64 + b"\r\n"),
]

# Bytes that a host and its port have: those of RFC 3986's `unreserved`, `sub-delims` and `pct-encoded`, and `:[]`
LETTERS = "abcdefghijklmnopqrstuvwxyz"
HOST_BYTES = LETTERS + LETTERS.upper() + "0123456789" + "-._~" + "!$&'()*+,;=" + "%" + ":[]"
# Other hosts that are answered
HOSTS = ["", "localhost:8080", "[2001:db8::1]:80", "10.0.0.1", "a%20b", "a_b~c!$&'()*+,;=d.example:"]

BODIES = [
    (VALUE, create_user({"schemas": [], "userName": "x"})),
    (VALUE, create_user(user("x", **{SOURCE: {"revision": 1.0}}))),
    (SYNTAX, request(f"POST {USERS}", '{"user')),
    (SYNTAX, create_user(user("x", USERNAME="y"))),
]


class RefusalTest(ExchangeTest):
    def assert_refusals(self, rows):
        """An empty provider answers each request of the rows as they say, and stores nothing."""
        with self.serving(len(rows) + 2) as provider:
            for expected, asked in rows:
                self.assert_answers(provider, asked, expected)
            self.assert_holds(provider, users=0, groups=0)

    def test_paths_and_methods(self):
        self.assert_refusals(PATHS_AND_METHODS)

    def test_media_types(self):
        self.assert_refusals(MEDIA_TYPES)

    def test_heads(self):
        self.assert_refusals(HEADS)

    def test_bodies(self):
        self.assert_refusals(BODIES)

    def test_a_head_request_gets_the_head_alone(self):
        expected = (
            b"HTTP/1.1 501 Not Implemented\r\nConnection: close\r\n"
            b"Content-Length: 113\r\nContent-Type: application/scim+json\r\n\r\n"
        )
        paths = (USERS, f"{GROUPS}?count=1")
        self.assert_refusals([(expected, f"HEAD {path} HTTP/1.1\r\nHost: h\r\n\r\n".encode()) for path in paths])

    def test_a_refused_head_of_a_head_request_gets_the_head_alone(self):
        """Whatever refuses it, and with empty lines before it. What isn't HEAD, or not yet, is answered with a body."""
        start = b"HEAD /v2/Users HTTP/1.1\r\nHost: h\r\n"
        refused = [
            (MALFORMED, b"HEAD /\0"),
            (MALFORMED, start + b"Host h\r\n\r\n"),
            (MALFORMED, start + b"Content-Length: x\r\n\r\n"),
            (LONG_HEAD, start + b"A: " + b"a" * 20_000 + b"\r\n\r\n"),
            (LONG_HEAD, start + b"X: y\r\n" * 64 + b"\r\n"),
            (NO_HOST, start + b"Host: h\r\n\r\n"),
        ]
        refused += [(answer, b"\r\n\n" + asked) for answer, asked in refused]
        with_body = [b"HEAD\0", b"HEA\0", b"HEADS /\0", b"head /\0", b"GET /HEAD \0"]
        self.assert_refusals([(answer[:answer.index(b"\r\n\r\n") + 4], asked) for answer, asked in refused]
                             + [(MALFORMED, asked) for asked in with_body])

    def test_each_byte_of_a_host(self):
        """Those of a host and its port are answered, all other visible ones refused."""
        visible = [chr(byte) for byte in range(0x21, 0x7f)]
        hosts = HOSTS + ["a" + byte + "b" for byte in HOST_BYTES]
        others = ["a b", "a\tb", "a\u00e4b"] + ["a" + byte + "b" for byte in visible if byte not in HOST_BYTES]
        self.assertEqual(len(hosts) - len(HOSTS) + len(others) - 3, len(visible))
        self.assert_refusals([(answer, f"GET /v2/Things HTTP/1.1\r\nHost: {host}\r\n\r\n".encode("latin-1"))
                              for answer, texts in ((NO_PATH, hosts), (NO_HOST, others)) for host in texts])
