"""What `push` says on standard error about the faults of exchanges."""
import pathlib
import tempfile

from exchanges import ERROR
from peers import NO_HITS, TAKEN, PeerTest, answer, head, hits, reset, user
from support import Site

HTML = b"<html><body>Sign in</body></html>"


def refusal(status, detail, **fields):
    return answer(status, {"schemas": [ERROR], "detail": detail, "status": str(status)}, **fields)


def answer_with_head(size):
    """A response without content, whose head has so many bytes."""
    return answer(204, Link="x" * (size - len(answer(204, Link=""))))


# What three searches for bob are answered, the code that is printed, and what is said
SEARCHES = [
    # refusals
    (answer(401), "C4", "401"),
    (refusal(401, "token expired"), "C4", '401, "token expired"'),
    (answer(401, {"detail": "token expired"}), "C4", "401"),
    (refusal(429, "slow down", Retry_After="120"), "C4", '429, "slow down", Retry-After: 120'),
    (answer(503, Retry_After="Mon, 30 Nov 2026 07:00:00 GMT"), "C4", "503, Retry-After: Mon, 30 Nov 2026 07:00:00 GMT"),
    (refusal(403, "not you", Retry_After="120"), "C4", '403, "not you"'),
    (answer(503, HTML, Content_Type="text/html"), "C4", "503"),
    (answer(500, b"x" * 100_000), "C4", "500"),
    (refusal(400, ""), "C4", "400"),
    # texts of others
    (refusal(400, "\x1b[31m\n"), "C4", r'400, "\x1B[31m\x0A"'),
    (refusal(400, "a\\b \u00e9~\x7f"), "C4", r'400, "a\x5Cb \xC3\xA9~\x7F"'),
    (refusal(400, "ab" * 100), "C4", f'400, "{"ab" * 100}"'),
    (refusal(400, "ab" * 100 + "c"), "C4", f'400, "{"ab" * 100}"'),
    # resources that can't be bob's
    (hits(user("bob", 1), user("bob", 1, number="8")), "C1", "2 found, 2 listed"),
    (hits(user("bob", 1), total=2), "C1", "2 found, 1 listed"),
    (hits(total=7), "C1", "7 found, 0 listed"),
    (hits(user("bill", 1)), "C1", 'another name, "bill"'),
    (hits(user("bob", None)), "C1", "no revision of the source"),
    (hits(user("bob", 3)), "C1", "revision 3 is above the wanted 2"),
    (hits(user("bob", 1, None)), "C2", "no entity tag in meta.version"),
    (hits(user("bob", 1, "v1")), "C2", "no entity tag in meta.version"),
    # what isn't a response with a length
    (b"SSH-2.0-OpenSSH_9.2\r\n", "K1", r'not one HTTP response: "SSH-2.0-OpenSSH_9.2\x0D\x0A"'),
    (
        head(200, Transfer_Encoding="chunked") + b"2\r\n{}0\r\n",
        "K1",
        "200 with Transfer-Encoding: chunked, not alone, malformed, or above 8388608",
    ),
    (
        head(200, Transfer_Encoding="gzip, chunked") + b"2\r\n{}\r\n",
        "K1",
        "200 with Transfer-Encoding: gzip, chunked, not alone, malformed, or above 8388608",
    ),
    (head(103) + head(200) + b"{}", "K1", "200 without Content-Length"),
    (head(101), "K1", "101 without Content-Length"),
    (head(200) + b"{}", "K1", "200 without Content-Length"),
    (
        head(200, Content_Length=8_388_609) + b"{}",
        "K1",
        "200 with Content-Length: 8388609, repeated, no number, or above 8388608",
    ),
    (answer(302, Location="https://idp.example/"), "K2", "302, Location: https://idp.example/"),
    (answer_with_head(4_096), "K2", "204 without a JSON body"),
    (answer_with_head(4_097), "K2", "the head has more than 4096 bytes"),
    # bodies that aren't an answer
    (answer(204), "K2", "204 without a JSON body"),
    (answer(200, HTML, Content_Type="text/html"), "K2", f'200, text/html, not JSON: "{HTML.decode()}"'),
    (answer(200, b"no"), "K2", '200, not JSON: "no"'),
    (answer(200, {"items": []}), "K3", '200, JSON of another shape: "{"items": []}"'),
    # what the stream said
    (b"", "H10", "the connection ended before an answer"),
    (b"H", "H10", 'the answer ended after 1 byte: "H"'),
    (reset, "H11", "reading failed after 0 bytes: connection reset"),
]

FOUND = hits(user("bob", 1))
# Likewise by all steps, which end with two replacements
REPLACEMENTS = [
    (answer(200, user("bob", 2, number="8")), "C1", 'another id, "8" in place of "7"'),
    (answer(200, user("bill", 2)), "C1", 'another name, "bill"'),
    (answer(200, user("bob", None)), "C1", "no revision of the source"),
    (refusal(403, "not you"), "C4", '403, "not you"'),
]
# Likewise with two creations
CREATIONS = [
    (refusal(400, "no department"), "C4", '400, "no department"'),
    (answer(201, user("bob", 2, None)), "C2", "no entity tag in meta.version"),
    (answer(200, user("bob", 2, '"v2"')), "K3", "200 in place of 201"),
]


class ExplanationsTest(PeerTest):
    def setUp(self):
        super().setUp()
        self.site.write_users("bob,2,,,,,active")

    def assert_said(self, steps, code, said):
        """A push ends with this code, and says this about it."""
        site = Site(pathlib.Path(tempfile.mkdtemp(dir=self.folder)))
        site.write_users("bob,2,,,,,active")
        with self.subTest(said, code=code):
            self.meets(steps, f"user bob unconfirmed {code}", status=1, site=site, said=[f"user bob: {said}"])

    def test_searches(self):
        for response, code, said in SEARCHES:
            self.assert_said([response] * 3, code, said)

    def test_replacements(self):
        for response, code, said in REPLACEMENTS:
            self.assert_said([FOUND, response, response], code, said)

    def test_creations(self):
        for response, code, said in CREATIONS:
            self.assert_said([NO_HITS, response, response], code, said)

    def test_the_last_fault_is_said(self):
        refused = refusal(500, "oops")
        self.assert_said([refusal(401, "who"), NO_HITS, refused], "C4", '500, "oops"')
        self.assert_said([refused, refused, b""], "H10", "the connection ended before an answer")
        # the exchanges after it had no fault
        self.assert_said([refused, NO_HITS, TAKEN], "C4", '500, "oops"')
        self.assert_said([FOUND, refused, answer(412)], "C4", '500, "oops"')

    def test_records_without_a_code(self):
        shown = answer(200, user("bob", 2, '"v2"'))
        self.meets([answer(500), FOUND, shown], "user bob confirmed 2", said=[])
        self.site.write_users("ann,1,,,,,active")
        self.site.write_groups("crew,1,ann")
        lines = ["user ann unconfirmed -", "user bob confirmed 2", "group crew unconfirmed waits ann"]
        self.meets([NO_HITS, TAKEN, NO_HITS], *lines, status=1, said=[])

    def test_each_record_has_its_own(self):
        self.site.write_users("ann,1,,,,,active", "bob,2,,,,,active")
        self.site.write_groups("crew,1,ann", "none,1,")
        steps = [answer(404)] * 3 + [b""] * 3 + [refusal(403, "no groups")] * 3
        lines = ["user ann unconfirmed C4", "user bob unconfirmed H10", "group crew unconfirmed waits ann", "group none unconfirmed C4"]
        said = ["user ann: 404", "user bob: the connection ended before an answer", 'group none: 403, "no groups"']
        self.meets(steps, *lines, status=1, said=said)

    def test_another_id_than_the_known_one(self):
        self.meets([FOUND, answer(200, user("bob", 2, '"v2"'))], "user bob confirmed 2", said=[])
        self.site.write_users("bob,3,,,,,active")
        other = hits(user("bob", 2, number="8"))
        said = ['user bob: another id, "8" in place of "7"']
        self.meets([other] * 3, "user bob unconfirmed C1", status=1, said=said)
