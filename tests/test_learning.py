"""What the connector learns from each answer, in each state of a record: by `push` to providers by script, and from
answers that come late, by `simulate`.

`push` prints why an answer can't be used. What was learnt is seen in its next request, and in the journal.
"""
import pathlib
import tempfile

from databases import make_journal, user_entry
from peers import NO_HITS, TAKEN, Peer, answer, hits, user
from support import SOURCE, ProgramTest, Site, scimlink, text

FIND = "GET /v2/Users?filter=userName+eq+%22bob%22 HTTP/1.1"
CREATE = "POST /v2/Users HTTP/1.1"
ELSEWHERE = b"<html>"

# What may be known about bob, whom the source wants at revision 3: what was seen, the id and the confirmed revision.
# In each of these states the connector sends another request. A resource that is absent though its id is known, and
# one that was seen without an id, don't occur
STATES = ["unknown, - 0", "absent, - 0", "unknown, b 2", "at t 2, b 2"]
TO_CREATE, TO_REPLACE, TO_FIND = 1, 3, (0, 2)

# A resource that is shown, and what is learnt from it in each state: as a find, a created, a found, a replaced one. It
# has a name, an id, a revision (0: none) and a tag (-: none)
SHOWN = [
    ("bob b 3 u", ["confirmed 3: at u 3, b 3"] * 4),
    ("Bob b 3 u", ["confirmed 3: at u 3, b 3"] * 4),
    ("bob b 2 u", ["confirmed 2: at u 2, b 2"] * 2 + ["seen: at u 2, b 2"] * 2),
    ("bob b 2 t", ["confirmed 2: at t 2, b 2"] * 2 + ["seen: at t 2, b 2", "seen"]),
    ("bob b 1 u", ["confirmed 1: at u 1, b 1"] * 2 + ["seen: at u 1, b 2"] * 2),
    ("bob c 3 u", ["confirmed 3: at u 3, c 3"] * 2 + ["C1"] * 2),
    ("bob c 3 -", ["C2"] * 2 + ["C1"] * 2),
    ("bob b 3 -", ["C2"] * 4),
    ("bob b 4 u", ["C1"] * 4),
    ("bob b 1:1 u", ["C1"] * 4),
    ("bob b 4 -", ["C1"] * 4),
    ("bob b 0 u", ["C1"] * 4),
    ("ann b 3 u", ["C1"] * 4),
]
# An error in answer to the request that is sent in a state, and what is learnt from it
ERRORS = [
    (TO_CREATE, 409, "forgotten: unknown, - 0"),
    (TO_REPLACE, 412, "forgotten: unknown, b 2"),
    *((TO_CREATE, status, "C4") for status in (400, 412, 502)),
    *((TO_REPLACE, status, "C4") for status in (404, 409, 500)),
    *((state, status, "C4") for state in TO_FIND for status in (404, 409, 412)),
]


def shown(words):
    """The resource of four words, as a provider shows it."""
    name, number, revision, tag = words.split()
    epoch, _, revision = revision.rpartition(":")
    source = ({"epoch": int(epoch)} if epoch else {}) | {"revision": int(revision)}
    content = user(name, None, None if tag == "-" else f'"{tag}"', number)
    return content | ({SOURCE: source} if revision != "0" else {})


BOB, BOB_AT_T = shown("bob b 3 u"), shown("bob b 2 t")
# Lists that aren't of one resource, or not of all that were found
LISTS = {
    "list 1": hits(total=1),
    "list 2": hits(total=2),
    "list 0 bob b 3 u": hits(BOB, total=0),
    "list 2 bob b 3 u": hits(BOB, total=2),
    "list 1 bob b 3 u & bob b 3 u": hits(BOB, BOB, total=1),
    "list 2 bob b 3 u & bob b 3 u": hits(BOB, BOB),
}
CREATED, REPLACED, UNMODIFIED = answer(201, BOB), answer(200, BOB), answer(304, ETag='"t"')
# Answers to other kinds of requests, by the state in which they come
OTHERS = {
    TO_CREATE: {"K3": [REPLACED, NO_HITS, hits(BOB)], "K2": [UNMODIFIED]},
    TO_REPLACE: {"K3": [CREATED, NO_HITS, hits(BOB)], "K2": [UNMODIFIED]},
    **{state: {"K3": [CREATED, REPLACED], "K2": [UNMODIFIED]} for state in TO_FIND},
}


def replace(number, tag):
    return f'PUT /v2/Users/{number} HTTP/1.1 If-Match: "{tag}"'


def told(request):
    """The first line of a request, and its condition."""
    lines, _ = request
    return " ".join([lines[0], *(line for line in lines if line.startswith("If-"))])


def requests_in(state):
    """The next two requests when this is known, each with an answer from which nothing is learnt that lasts."""
    seen, kept = state.split(", ")
    number, _ = kept.split()
    find, create = (FIND, NO_HITS), (CREATE, TAKEN)
    if seen == "absent":
        return [create, find]
    if seen == "unknown":
        return [find, find if number != "-" else create]
    return [(replace(number, seen.split()[1]), answer(412)), find]


class LearningTest(ProgramTest):
    def learns(self, state, said, expected, wanted="3"):
        """A push learns this from an answer in this state, and what it then knows, if that changes."""
        learnt, _, known = expected.partition(": ")
        before, known = STATES[state], known or STATES[state]
        confirmed, number = (2, "b") if before.endswith("b 2") else (0, None)
        site = Site(pathlib.Path(tempfile.mkdtemp(dir=self.folder)))
        site.write_users()
        make_journal(site.journal, [user_entry("bob", revision=int(wanted), confirmed=confirmed, id=number)])
        first = {1: [(FIND, NO_HITS)], 3: [(FIND, hits(BOB_AT_T))]}.get(state, [])
        is_confirmed = learnt == f"confirmed {wanted}"
        exchanges = [*first, (requests_in(before)[0][0], said), *([] if is_confirmed else requests_in(known))][:3]
        line = learnt if is_confirmed else f"unconfirmed {learnt if learnt[0] in 'CK' else '-'}"
        with self.subTest(before, said=said, expected=expected):
            with Peer([step for _, step in exchanges]) as peer:
                self.assert_prints(site.push(peer.address), f"user bob {line}", status=int(not is_confirmed))
            self.assertEqual([told(request) for request in peer.requests], [asked for asked, _ in exchanges])
            number, confirmed = known.split(", ")[1].split()
            self.assert_prints(site.show_journal(), f"user bob wanted={wanted} confirmed={confirmed} id={number}")

    def test_a_shown_resource_confirms_its_own_revision(self):
        for words, expected in SHOWN:
            resource = shown(words)
            answers = [hits(resource), answer(201, resource), hits(resource), answer(200, resource)]
            for state, said in enumerate(answers):
                self.learns(state, said, expected[state])

    def test_a_resource_of_a_later_epoch_is_not_wanted(self):
        self.learns(0, hits(shown("bob b 1:1 t")), "C1", wanted="2000000000")

    def test_no_resource_is_found(self):
        self.learns(0, NO_HITS, "absent: absent, - 0")
        self.learns(2, NO_HITS, "nothing")

    def test_errors(self):
        for state, status, expected in ERRORS:
            self.learns(state, answer(status, ELSEWHERE), expected)

    def test_lists_of_more_or_less_than_one_resource(self):
        for state in TO_FIND:
            for said in LISTS.values():
                self.learns(state, said, "C1")

    def test_answers_to_other_kinds_of_requests(self):
        for state, by_code in OTHERS.items():
            for code, answers in by_code.items():
                for said in answers:
                    self.learns(state, said, code)


# Events, each with its report. Bob is looked for, and is absent
ABSENT = [
    ("user bob,1,,,,,active", "new"),
    ("send user bob", "find 1"),
    ("deliver 1", "answer 2 200"),
    ("deliver 2", "absent"),
]
# He is created, twice
CREATED_TWICE = [
    ("send user bob", "create 3"),
    ("deliver 3", "answer 4 201"),
    ("deliver 3", "answer 5 409"),
]
# Answers that come late, or again, in each state
LATE_ANSWERS = [
    *ABSENT,
    ("deliver 2", "absent"),
    *CREATED_TWICE,
    # absent, and then unknown
    ("deliver 5", "forgotten"),
    ("deliver 5", "nothing"),
    ("send user bob", "find 6"),
    ("deliver 2", "absent"),
    ("deliver 4", "confirmed 1"),
    # version 1 was seen
    ("deliver 2", "nothing"),
    ("deliver 5", "nothing"),
    ("deliver 4", "seen"),
    ("user bob,2,,,,,left", "new"),
    ("send user bob", "replace 7"),
    # unknown, with an id
    ("restart connector", "restarted"),
    ("deliver 2", "nothing"),
    ("deliver 5", "nothing"),
    ("send user bob", "find 8"),
    ("deliver 7", "answer 9 200"),
    ("deliver 7", "answer 10 412"),
    ("deliver 10", "nothing"),
    ("deliver 8", "answer 11 200"),
    # version 1 was seen, which that replacement names
    ("deliver 4", "seen"),
    ("send user bob", "replace 12"),
    ("deliver 10", "forgotten"),
    ("deliver 10", "nothing"),
    ("send user bob", "find 13"),
    ("deliver 11", "confirmed 2"),
    # version 2 was seen, which it doesn't name
    ("deliver 10", "nothing"),
    ("deliver 9", "seen"),
    ("send user bob", "nothing"),
    # version 1 was seen, though revision 2 is confirmed
    ("deliver 4", "seen"),
    ("user bob,3,,,,,active", "new"),
    ("send user bob", "replace 14"),
    ("deliver 14", "answer 15 412"),
    ("deliver 15", "forgotten"),
    ("send user bob", "find 16"),
]
# Resources that are shown late: created, found and replaced
SHOWN_LATE = [
    *ABSENT,
    *CREATED_TWICE,
    ("deliver 1", "answer 6 200"),
    # found while absent
    ("deliver 6", "confirmed 1"),
    ("restart connector", "restarted"),
    ("deliver 6", "seen"),
    ("user bob,2,,,,,left", "new"),
    ("send user bob", "replace 7"),
    ("deliver 7", "answer 8 200"),
    # replaced while unknown, and found again at a lower revision
    ("restart connector", "restarted"),
    ("deliver 8", "confirmed 2"),
    ("deliver 6", "seen"),
    ("restart connector", "restarted"),
    ("deliver 8", "seen"),
]
# Created, when nothing is known any more
CREATED_LATE = [*ABSENT, *CREATED_TWICE, ("restart connector", "restarted"), ("deliver 4", "confirmed 1")]


class LateAnswersTest(ProgramTest):
    def assert_simulates(self, events, view, status=0):
        """`simulate` reports each event so, and at the end prints this of bob."""
        schedule = self.folder / "schedule"
        schedule.write_text(text(*(event for event, _ in events)))
        reports = [f"{place} {report}" for place, (_, report) in enumerate(events, 1)]
        self.assert_prints(scimlink("simulate", schedule), *reports, f"user bob {view}", status=status)

    def test_answers_that_come_late(self):
        self.assert_simulates(LATE_ANSWERS, "wanted=3 confirmed=2 held=2 version=2 active=false", status=1)

    def test_resources_that_are_shown_late(self):
        self.assert_simulates(SHOWN_LATE, "wanted=2 confirmed=2 held=2 version=2 active=false")
        self.assert_simulates(CREATED_LATE, "wanted=1 confirmed=1 held=1 version=1 active=true")
