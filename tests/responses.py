"""Responses of other providers to the searches, creations and replacements of `push`, and what it reads in them."""
import pathlib
import tempfile

from peers import CREATE, FIND_BOB, NO_HITS, PeerTest, answer, asked, hits, user
from support import Site

SEARCH, CREATION, REPLACEMENT = "a search", "a creation", "a replacement"
ALL = (SEARCH, CREATION, REPLACEMENT)
# What becomes of an answer, beside the codes: push creates bob next, or searches again
ABSENT, AGAIN = "absent", "again"
# The body of a search that found nothing
NOTHING = '{"totalResults":0}'


def said(status, body):
    """The bytes of a response with this status and body."""
    body = body.encode()
    return f"HTTP/1.1 {status}\r\nContent-Length: {len(body)}\r\n\r\n".encode() + body


def asking(ask, known):
    """How push comes to ask so: the answers before that, and the first lines of its requests. It has found the user
    that it replaces, who has the id `known`."""
    found = hits(user("bob", 1, '"v0"', number=known))
    return {
        SEARCH: ([], [FIND_BOB]),
        CREATION: ([NO_HITS], [FIND_BOB, CREATE]),
        REPLACEMENT: ([found], [FIND_BOB, f"PUT /v2/Users/{known} HTTP/1.1"]),
    }[ask]


class ResponseTest(PeerTest):
    """The files want revision 2 of bob, and a provider that shows bob shows revision 1. So if push can use what it
    reads, it next replaces the version that it saw."""

    def assert_read(self, ask, response, becomes, known="x", step=bytes):
        """push reads this response to such a request, and prints a code, creates bob, searches again, or replaces the
        version with the id and the tag that it read. `step` is how the response is sent."""
        site = Site(pathlib.Path(tempfile.mkdtemp(dir=self.folder)))
        site.write_users("bob,2,,,,,active")
        before, asks = asking(ask, known)
        steps = [*before, step(response)]
        with self.subTest(ask, response=response[:600], becomes=becomes):
            if becomes in (ABSENT, AGAIN) or isinstance(becomes, tuple):
                id, tag = becomes if isinstance(becomes, tuple) else (known, None)
                last = {ABSENT: CREATE, AGAIN: FIND_BOB}.get(becomes, f"PUT /v2/Users/{id} HTTP/1.1")
                shown = user("bob", 2, number=id)
                steps.append({ABSENT: answer(201, shown), AGAIN: hits(shown)}.get(becomes, answer(200, shown)))
                requests = self.meets(steps, "user bob confirmed 2", site=site)
                self.assertEqual(asked(requests), [*asks, last])
                if tag:
                    self.assertIn(f"If-Match: {tag}", requests[-1][0])
                confirmed = 2
            else:
                again = 3 - len(steps)
                steps += [step(response)] * again
                requests = self.meets(steps, f"user bob unconfirmed {becomes}", status=1, site=site)
                self.assertEqual(asked(requests), asks + [asks[-1]] * again)
                confirmed, id = (1, known) if ask == REPLACEMENT else (0, "-")
            self.assert_prints(site.show_journal(), f"user bob wanted=2 confirmed={confirmed} id={id}")
