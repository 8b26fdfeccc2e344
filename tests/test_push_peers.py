"""`push` to providers by script, which answer late, otherwise, in part or not at all."""
import json
import pathlib
import tempfile
import threading

from databases import make_journal, user_entry
from peers import (
    CREATE, FIND_BOB, LATE, NO_HITS, TAKEN, Peer, PeerTest, answer, asked, head, hits, late, reset, stays_after,
    take_no_request, user,
)
from support import SCIM_TYPE, Running, Site

REPLACE_BOB = "PUT /v2/Users/7 HTTP/1.1"
HTML = b"<html><body>Bad Gateway</body></html>"
SCIM_ERROR = {"schemas": ["urn:ietf:params:scim:api:messages:2.0:Error"], "status": "500"}

# By the code that is printed: what the search for bob is answered, each of three times
UNUSABLE = {
    "C1": {
        "two hits": hits(user("bob", 1), user("bob", 1, number="8")),
        "one of two hits": hits(user("bob", 1), total=2),
        "another name": hits(user("bill", 1)),
        "no revision": hits(user("bob", None)),
        "a higher revision": hits(user("bob", 2)),
    },
    "C2": {
        "no version": hits(user("bob", 1, None)),
        "a version that is no tag": hits(user("bob", 1, "v1")),
    },
    "C4": {
        "no token": answer(401, HTML),
        "no such service": answer(404),
        "too many requests": answer(429, Retry_After="120"),
        "an error message": answer(500, SCIM_ERROR),
        "a proxy that answers for it": answer(502, HTML, Content_Type="text/html"),
    },
    "H10": {
        "no answer": b"",
        "a part of a head": b"HTTP/1.1 200 OK\r\nContent-Le",
        "a part of a body": head(200, Content_Length=3) + b"{}",
    },
    "H11": {"a reset": reset},
    "K1": {
        "another protocol": b"SSH-2.0-OpenSSH_9.2\r\n",
        "no length": head(200, Connection="close") + b"{}",
        "chunks and a length": head(200, Transfer_Encoding="chunked", Content_Length=2) + b"2\r\n{}\r\n0\r\n\r\n",
        "malformed chunks": head(200, Transfer_Encoding="chunked") + b"2\r\n{}\n0\r\n\r\n",
        "nine interim answers": head(100) * 9 + NO_HITS,
        "another length": answer(200, b"{}", Content_Length=2) + b"more",
        "two lengths": head(200, Content_Length="2\r\nContent-Length: 3") + b"{}",
        "a body beyond the limit": head(200, Content_Length=8_388_609) + b"{}",
        "a head beyond the limit": answer(200, b"{}", X="a" * 20_000),
    },
    "K2": {
        "no JSON": answer(200, b"no"),
        "a page": answer(200, HTML),
        "a redirection": answer(301, HTML, Location="https://scim.example/v2"),
    },
    "K3": {
        "another status": answer(202, {}),
        "no list": answer(200, user("bob", 1)),
        "a valid list of an invalid user": hits({"userName": "bob"}),
    },
}

CUT = UNUSABLE["H10"]["a part of a body"]
PROXY = UNUSABLE["C4"]["a proxy that answers for it"]
TWO = UNUSABLE["C1"]["two hits"]
UNVERSIONED = answer(201, user("bob", 1, None))
# What is printed after exchanges with other answers each: the last fault, if there was one
LAST_FAULTS = [
    ("C1", [TWO, answer(200, b"no"), TWO], [FIND_BOB] * 3),
    ("K2", [TWO, TWO, answer(200, b"no")], [FIND_BOB] * 3),
    ("K3", [NO_HITS, UNVERSIONED, NO_HITS], [FIND_BOB, CREATE, CREATE]),
    ("H10", [PROXY, CUT, CUT], [FIND_BOB] * 3),
    ("H10", [CUT, NO_HITS, TAKEN], [FIND_BOB, FIND_BOB, CREATE]),
    ("-", [NO_HITS, TAKEN, NO_HITS], [FIND_BOB, CREATE, FIND_BOB]),
]


class PushPeersTest(PeerTest):
    def setUp(self):
        super().setUp()
        self.site.write_users("bob,1,,,,,active")

    def test_a_provider_that_drops_the_epoch(self):
        # it answers with the number of the revision alone, which is a lower revision than the wanted one
        self.site.write_users("bob,1:1,,,,,active")
        steps = [hits(user("bob", 1)), answer(200, user("bob", 1, '"v2"')), answer(200, user("bob", 1, '"v3"'))]
        requests = self.meets(steps, "user bob unconfirmed -", status=1)
        self.assertEqual(asked(requests), [FIND_BOB, REPLACE_BOB, REPLACE_BOB])
        self.assert_prints(self.site.show_journal(), "user bob wanted=1:1 confirmed=1 id=7")

    def confirm_bob(self):
        """A push after which revision 1 of bob is confirmed, and a file that has revision 2."""
        self.meets([hits(user("bob", 1))], "user bob confirmed 1")
        self.site.write_users("bob,2,,,,,left")

    def test_answers_that_are_late(self):
        steps = [late(1, NO_HITS), late(0.5, answer(201, user("bob", 1)))]
        requests = self.meets(steps, "user bob confirmed 1")
        self.assertEqual(asked(requests), [FIND_BOB, CREATE])
        lines, body = requests[1]
        self.assertEqual(lines[1:4], ["Host: localhost:8080", f"Accept: {SCIM_TYPE}", "Connection: close"])
        self.assertEqual(json.loads(body)["userName"], "bob")

    def test_a_replacement(self):
        self.confirm_bob()
        requests = self.meets([hits(user("bob", 1)), answer(200, user("bob", 2, '"v2"'))], "user bob confirmed 2")
        self.assertEqual(asked(requests), [FIND_BOB, REPLACE_BOB])
        lines, body = requests[1]
        self.assertIn('If-Match: "v1"', lines)
        self.assertEqual(json.loads(body)["active"], False)

    def test_a_provider_that_does_not_show_what_it_changed(self):
        """The push that changes it doesn't confirm it, and the next one does."""
        self.meets([NO_HITS, answer(200, user("bob", 1)), TAKEN], "user bob unconfirmed K3", status=1)
        self.confirm_bob()
        changed = hits(user("bob", 1)), answer(204), answer(412)
        self.assertEqual(asked(self.meets(changed, "user bob unconfirmed K2", status=1)), [FIND_BOB] + 2 * [REPLACE_BOB])
        self.meets([hits(user("bob", 2, '"v2"'))], "user bob confirmed 2")

    def test_a_line_is_printed_before_the_next_exchange_ends(self):
        self.site.write_users("ann,1,,,,,active", "bob,1,,,,,active")
        is_read = threading.Event()

        def answers_when_it_is_read(stream):
            is_read.wait(LATE)
            stream.sendall(hits(user("bob", 1)))

        with Peer([hits(user("ann", 1)), answers_when_it_is_read]) as peer:
            with Running(*self.site.push_command(peer.address)) as push:
                self.assertEqual(push.read_line(), "user ann confirmed 1\n")
                # bob's exchange goes on
                self.assertLess(peer.answered, 2)
                is_read.set()
                self.assert_prints(push.ends(), "user bob confirmed 1")

    def test_answers_after_which_the_connection_stays_open(self):
        self.meets([stays_after(NO_HITS), stays_after(answer(201, user("bob", 1)))], "user bob confirmed 1")

    def test_a_weak_tag(self):
        self.confirm_bob()
        # it is sent as it was given, and a provider that compares strongly refuses it
        found = hits(user("bob", 1, 'W/"a"'))
        requests = self.meets([found, answer(412), found], "user bob unconfirmed -", status=1)
        self.assertEqual(asked(requests), [FIND_BOB, REPLACE_BOB, FIND_BOB])
        self.assertIn('If-Match: W/"a"', requests[1][0])
        self.meets([found, answer(200, user("bob", 2, 'W/"b"'))], "user bob confirmed 2")

    def test_a_creation_that_is_answered_with_a_weak_tag(self):
        self.meets([NO_HITS, answer(201, user("bob", 1, 'W/"a"'))], "user bob confirmed 1")

    def test_a_name_that_was_just_taken(self):
        requests = self.meets([NO_HITS, TAKEN, hits(user("bob", 1))], "user bob confirmed 1")
        self.assertEqual(asked(requests), [FIND_BOB, CREATE, FIND_BOB])

    def test_a_provider_that_loses_an_account(self):
        self.confirm_bob()
        requests = self.meets([NO_HITS] * 3, "user bob unconfirmed -", status=1)
        self.assertEqual(asked(requests), [FIND_BOB] * 3)

    def test_answers_that_cannot_be_used(self):
        for code, answers in UNUSABLE.items():
            for name, said in answers.items():
                with self.subTest(name, code=code):
                    site = Site(pathlib.Path(tempfile.mkdtemp(dir=self.folder)))
                    site.write_users("bob,1,,,,,active")
                    requests = self.meets([said] * 3, f"user bob unconfirmed {code}", status=1, site=site)
                    self.assertEqual(asked(requests), [FIND_BOB] * 3)

    def test_the_last_fault_is_told(self):
        for code, steps, wanted in LAST_FAULTS:
            with self.subTest(code, steps=steps):
                site = Site(pathlib.Path(tempfile.mkdtemp(dir=self.folder)))
                site.write_users("bob,1,,,,,active")
                requests = self.meets(steps, f"user bob unconfirmed {code}", status=1, site=site)
                self.assertEqual(asked(requests), wanted)

    def test_a_creation_without_a_version(self):
        steps = [NO_HITS, UNVERSIONED, TAKEN]
        requests = self.meets(steps, "user bob unconfirmed C2", status=1)
        self.assertEqual(asked(requests), [FIND_BOB, CREATE, CREATE])

    def test_a_refused_replacement(self):
        self.confirm_bob()
        steps = [hits(user("bob", 1)), answer(403), answer(403)]
        requests = self.meets(steps, "user bob unconfirmed C4", status=1)
        self.assertEqual(asked(requests), [FIND_BOB, REPLACE_BOB, REPLACE_BOB])

    def test_a_group_that_waits(self):
        self.site.write_users("ann,1,,,,,active", "bob,1,,,,,active")
        self.site.write_groups("crew,1,ann bob")
        steps = [hits(user("ann", 1, number="6")), *[answer(502, HTML)] * 3]
        lines = ["user ann confirmed 1", "user bob unconfirmed C4", "group crew unconfirmed waits bob"]
        self.meets(steps, *lines, status=1)

    def test_a_request_that_is_not_taken(self):
        # a group whose members have the longest ids, so that its request is too long for a narrow connection
        members = [f"u{place:03}" for place in range(400)]
        entries = [user_entry(name, confirmed=1, id=name.ljust(256, "-")) for name in members]
        make_journal(self.site.journal, entries)
        self.site.write_users()
        self.site.write_groups(f"crew,1,{' '.join(members)}")
        lines = [f"user {name} confirmed 1" for name in members]
        steps = [NO_HITS, take_no_request, take_no_request]
        self.meets(steps, *lines, "group crew unconfirmed H12", status=1)

    def test_another_base(self):
        options = ["--base", "http://scim.example/v2"]
        requests = self.meets([NO_HITS, answer(201, user("bob", 1))], "user bob confirmed 1", options=options)
        self.assertEqual([lines[1] for lines, _ in requests], ["Host: scim.example"] * 2)

    def test_a_provider_that_goes_away(self):
        self.site.write_users("ann,1,,,,,active", "bob,1,,,,,active")
        self.meets([hits(user("ann", 1))], "user ann confirmed 1", status=3, errors=["connection fault"])
        # between the exchanges of one record
        self.meets([PROXY, NO_HITS], "user ann confirmed 1", status=3, errors=["connection fault"])
