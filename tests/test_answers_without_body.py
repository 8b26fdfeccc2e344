"""`push` to providers whose answers to creations and replacements have no body, or no version in it, or only `ETag`."""
import contextlib
import itertools
import json

from peers import NO_HITS, PeerTest, answer, asked, head, hits, user
from responses import AGAIN, CREATION, REPLACEMENT, SEARCH, ResponseTest, said
from small_provider import DropsExtension, HasNoVersions, SmallProvider
from support import GROUP, SOURCE, text

KEEPS = {SmallProvider: "revisions", DropsExtension: "versions", HasNoVersions: "nothing"}
WITHOUT_REVISIONS = DropsExtension, HasNoVersions
BOB, BOB_LEFT, ZOE = "bob,1,,,,,active", "bob,2,,,,,left", "zoe,1,,,,,active"
BOB_CONFIRMED, BOB_IS_OUT, ZOE_CONFIRMED = "user bob confirmed 1", "user bob confirmed 2", "user zoe confirmed 1"
SEARCHES, CREATES, REPLACES = ("GET", "Users"), ("POST", "Users"), ("PUT", "Users/1")

# The conditions of the first two replacements of a user
CONDITIONS = {DropsExtension: [['If-Match: "v1"'], ['If-Match: "v2"']], HasNoVersions: [[], []]}


# ---- what is said in place of a resource, given its version

REPLACED = {
    "204 with ETag": lambda version: head(204, ETag=version),
    "204": lambda version: head(204),
    "200 without a body": lambda version: answer(200),
    "200 without a body, with ETag": lambda version: answer(200, ETag=version),
    "200 with no chunk": lambda version: head(200, Transfer_Encoding="chunked") + b"0\r\n\r\n",
}
CREATED = {
    "201 without a body": lambda version: answer(201),
    "201 without a body, with ETag": lambda version: answer(201, ETag=version),
    "201 with no chunk": lambda version: head(201, Transfer_Encoding="chunked") + b"0\r\n\r\n",
}


def says(kind, created=None, replaced=None):
    """A provider of this kind that says this in place of what it created or replaced. `came` has the requests."""

    class Says(kind):
        def __init__(self, *users):
            super().__init__(*users)
            self.came = []

        def respond(self, lines, body):
            self.came.append((lines, body.decode()))
            return super().respond(lines, body)

        def created(self, id):
            return created(self.version(id)) if created else super().created(id)

        def replaced(self, id):
            return replaced(self.version(id)) if replaced else super().replaced(id)

    return Says()


def without_version(shown):
    return {name: value for name, value in shown.items() if name != "meta"}


def states(kind, field):
    """A provider of this kind whose answers to creations and replacements have the version in this field, and not in
    their bodies. Its lists have it as others have."""

    class States(kind):
        def created(self, id):
            return answer(201, without_version(self.shown(id)), **{field: self.version(id)})

        def replaced(self, id):
            return answer(200, without_version(self.shown(id)), **{field: self.version(id)})

    return States()


class SilentProvidersTest(PeerTest):
    def pushes(self, provider, *lines, requests, errors=(), status=0):
        """A push prints exactly these lines, and these on standard error, and sends these requests."""
        keeps = next(KEEPS[kind] for kind in type(provider).__mro__ if kind in KEEPS)
        options = ["--settle-time", "0"] if keeps == "nothing" else []
        before = len(provider.requests)
        run = self.site.push(provider.address, "--provider-keeps", keeps, *options)
        self.assertEqual((run.output.decode(), run.errors, run.status), (text(*lines), text(*errors), status))
        self.assertEqual(provider.requests[before:], requests)

    @contextlib.contextmanager
    def provider(self, kind, created=None, replaced=None):
        """A provider of this kind that says these, with files of its own."""
        self.setUp()
        with self.subTest(KEEPS[kind], created=created, replaced=replaced):
            with says(kind, CREATED.get(created), REPLACED.get(replaced)) as provider:
                yield provider

    def assert_held(self, provider, **active):
        self.assertEqual({user["userName"]: user["active"] for user in provider.users.values()}, active)

    def sent(self, provider, method):
        """The conditions of the requests with this method, and whether each has the source extension."""
        came = [(lines, body) for lines, body in provider.came if lines[0].startswith(method)]
        conditions = [[line for line in lines if line.startswith("If-")] for lines, _ in came]
        return conditions, {SOURCE in body for _, body in came}

    # ---- replacements

    def test_a_replacement_without_a_body_confirms_if_no_revision_was_sent(self):
        for kind, replaced in itertools.product(WITHOUT_REVISIONS, REPLACED):
            with self.provider(kind, replaced=replaced) as provider:
                self.site.write_users(BOB, ZOE)
                self.pushes(provider, BOB_CONFIRMED, ZOE_CONFIRMED, requests=2 * [SEARCHES, CREATES])
                self.site.write_users(BOB_LEFT, ZOE)
                self.pushes(provider, BOB_IS_OUT, ZOE_CONFIRMED, requests=[SEARCHES, REPLACES])
                self.assert_held(provider, bob=False, zoe=True)
                self.pushes(provider, BOB_IS_OUT, ZOE_CONFIRMED, requests=[])
                self.assertEqual(self.sent(provider, "PUT"), (CONDITIONS[kind][:1], {False}))
                self.assertEqual(self.sent(provider, "POST"), ([[], []], {False}))

    def test_a_revision_that_was_sent_waits_to_be_seen(self):
        for replaced in REPLACED:
            with self.provider(SmallProvider, replaced=replaced) as provider:
                self.site.write_users(BOB)
                self.pushes(provider, BOB_CONFIRMED, requests=[SEARCHES, CREATES])
                self.site.write_users(BOB_LEFT)
                # the second one names the version before the first, and is refused
                chunk = r'200, not JSON: "0\x0D\x0A\x0D\x0A"'
                told = chunk if "chunk" in replaced else f"{replaced[:3]} without a JSON body"
                self.pushes(
                    provider, "user bob unconfirmed K2", status=1, errors=[f"user bob: {told}"],
                    requests=[SEARCHES, REPLACES, REPLACES],
                )
                self.assert_held(provider, bob=False)
                self.pushes(provider, BOB_IS_OUT, requests=[SEARCHES])
                self.assertEqual(self.sent(provider, "PUT"), (2 * [['If-Match: "v1"']], {True}))

    def test_a_replacement_of_a_group(self):
        crew = {"schemas": [GROUP], "id": "9", "displayName": "crew", "meta": {"version": '"g1"'}}
        self.site.write_users(BOB)
        self.site.write_groups("crew,1,bob")
        for keeps, condition in (("versions", ['If-Match: "g1"']), ("nothing", [])):
            for status in (200, 204):
                self.site.journal = self.folder / f"journal {keeps} {status}"
                steps = [hits(user("bob", None)), answer(status), hits(crew), answer(status)]
                with self.subTest(keeps, status=status):
                    lines = [BOB_CONFIRMED, "group crew confirmed 1"]
                    requests = self.meets(steps, *lines, options=["--provider-keeps", keeps], said=[])
                    last, body = requests[-1]
                    self.assertEqual(last[0], "PUT /v2/Groups/9 HTTP/1.1")
                    self.assertEqual([line for line in last if line.startswith("If-")], condition)
                    self.assertEqual(json.loads(body)["members"], [{"value": "7"}])

    # ---- creations

    def test_after_a_creation_without_a_body_the_account_is_sought_and_replaced(self):
        for kind, created, replaced in itertools.product(WITHOUT_REVISIONS, CREATED, (None, "204")):
            with self.provider(kind, created, replaced) as provider:
                self.site.write_users(BOB)
                self.pushes(provider, "user bob unconfirmed -", status=1, requests=[SEARCHES, CREATES, SEARCHES])
                self.assert_held(provider, bob=True)
                self.pushes(provider, BOB_CONFIRMED, requests=[SEARCHES, REPLACES])
                self.site.write_users(BOB_LEFT)
                self.pushes(provider, BOB_IS_OUT, requests=[SEARCHES, REPLACES])
                self.assert_held(provider, bob=False)
                self.assertEqual(self.sent(provider, "PUT"), (CONDITIONS[kind], {False}))
                self.assertEqual(self.sent(provider, "POST"), ([[]], {False}))

    def test_after_a_creation_without_a_body_a_search_shows_the_revision(self):
        for created in CREATED:
            with self.provider(SmallProvider, created) as provider:
                self.site.write_users(BOB)
                self.pushes(provider, BOB_CONFIRMED, requests=[SEARCHES, CREATES, SEARCHES])
                self.site.write_users(BOB_LEFT)
                self.pushes(provider, BOB_IS_OUT, requests=[SEARCHES, REPLACES])
                self.assert_held(provider, bob=False)
                self.assertEqual(self.sent(provider, "POST"), ([[]], {True}))

    # ---- other statuses, and other requests

    def test_other_answers_without_a_body(self):
        """201 answers a creation, 200 and 204 answer a replacement, and nothing answers a search. Where nothing is kept, no
        more is sent then."""
        self.site.write_users(BOB)
        steps_before = {"GET": [], "POST": [NO_HITS], "PUT": [hits(user("bob", None))]}
        statuses = {"GET": (200, 201, 204), "POST": (200, 202, 204, 205), "PUT": (201, 202, 205, 206)}
        for keeps, (method, before) in itertools.product(("versions", "nothing"), steps_before.items()):
            count = 3 - len(before) if keeps == "versions" else 1
            for status in statuses[method]:
                self.site.journal = self.folder / f"journal {keeps} {method} {status}"
                with self.subTest(keeps, method=method, status=status):
                    requests = self.meets(
                        [*before, *[answer(status)] * count], "user bob unconfirmed K2", status=1,
                        options=["--provider-keeps", keeps], said=[f"user bob: {status} without a JSON body"],
                    )
                    methods = [line.split()[0] for line in asked(requests)]
                    self.assertEqual(methods, ["GET"] * len(before) + [method] * count)


class VersionsTest(PeerTest):
    def test_an_answer_of_ours_without_a_version_confirms(self):
        shown = user("bob", None, None)
        for keeps in ("versions", "nothing"):
            for steps in ([NO_HITS, answer(201, shown)], [hits(user("bob", None)), answer(200, shown)]):
                self.site.journal = self.folder / f"journal {keeps} {steps[0] == NO_HITS}"
                self.site.write_users(BOB)
                with self.subTest(keeps, steps=steps):
                    self.meets(steps, BOB_CONFIRMED, options=["--provider-keeps", keeps], said=[])
                    self.assert_prints(self.site.show_journal(), "user bob wanted=1 confirmed=1 id=7")

    def test_another_activity_or_name_without_a_version_confirms_nothing(self):
        self.site.write_users(BOB_LEFT)
        for shown, told in (
            (user("bob", None, None) | {"active": True}, "active is true, and false was asked"),
            (user("bill", None, None) | {"active": False}, 'another name, "bill"'),
        ):
            with self.subTest(told):
                steps = [hits(user("bob", None)), *[answer(200, shown)] * 2]
                self.meets(
                    steps, "user bob unconfirmed C1", status=1, options=["--provider-keeps", "versions"],
                    said=[f"user bob: {told}"],
                )

    def test_a_search_without_a_version(self):
        """It can't be replaced where versions count, and it can where they don't."""
        self.site.write_users(BOB)
        found = hits(user("bob", None, None))
        self.meets(
            [found] * 3, "user bob unconfirmed C2", status=1, options=["--provider-keeps", "versions"],
            said=["user bob: no entity tag in meta.version"],
        )
        options = ["--provider-keeps", "nothing", "--settle-time", "0"]
        self.meets([found, answer(204)], BOB_CONFIRMED, options=options, said=[])

    def test_versions_that_only_the_field_has(self):
        for kind, keeps in KEEPS.items():
            for field in ("ETag", "etag"):
                with self.subTest(keeps, field=field), states(kind, field) as provider:
                    options = ["--provider-keeps", keeps]
                    self.setUp()
                    self.site.write_users(BOB)
                    self.assert_prints(self.site.push(provider.address, *options), BOB_CONFIRMED)
                    self.site.write_users(BOB_LEFT)
                    self.assert_prints(self.site.push(provider.address, *options), BOB_IS_OUT)
                    self.assertIs(provider.users["1"]["active"], False)
                    self.assertEqual(provider.requests, [SEARCHES, CREATES, SEARCHES, REPLACES])


# ---- the field `ETag` (RFC 7232 section 2.3), where the body has no version

LONGEST = b'"%b"' % (b"v" * 254)
# Field lines, and the version that they state
STATED = [
    (b'ETag: "1"', '"1"'),
    (b'eTAG:\t "1" ', '"1"'),
    (b'ETag: W/"1"', 'W/"1"'),
    (b'ETag: ""', '""'),
    (b'ETag: "a,b"', '"a,b"'),
    ('ETag: "é"'.encode(), '"é"'),
    (b"ETag: " + LONGEST, LONGEST.decode()),
    (b'ETag: W/"' + b"v" * 252 + b'"', f'W/"{"v" * 252}"'),
    (b'X-ETag: "2"\r\nETag: "1"', '"1"'),
]
# Field lines that state none
NOT_STATED = [
    b'X-ETag: "1"',
    b"ETag:",
    b"ETag: abc",
    b'ETag: "abc',
    b'ETag: "a b"',
    b'ETag: w/"1"',
    b'ETag: "1", "2"',
    b"ETag: *",
    b'ETag: "1"\r\nETag: "1"',
    b'ETag: "1"\r\nEtag: "2"',
    b'ETag: "1"\r\nETag: abc',
    b'ETag: "\xff"',
    b'ETag: "v' + LONGEST[1:],
    b'ETag: W/"' + b"v" * 253 + b'"',
]
# `meta.version` and the field, and what counts
BOTH = [
    ('"m"', b'ETag: "1"', '"m"'),
    ('W/"m"', b'ETag: "1"', 'W/"m"'),
    ("m", b'ETag: "1"', '"1"'),
    (f'"{"m" * 255}"', b'ETag: "1"', '"1"'),
    (f'"{"m" * 254}"', b'ETag: "1"', f'"{"m" * 254}"'),
    ('"m"', b"ETag: abc", '"m"'),
    ('"m"', b'ETag: "1"\r\nETag: "1"', '"m"'),
    (7, b'ETag: "1"', '"1"'),
]


def under(fields, response):
    """A response with these field lines besides."""
    return response.replace(b"\r\n", b"\r\n" + fields + b"\r\n", 1)


class FieldTest(ResponseTest):
    """A provider that keeps revisions shows revision 1, and 2 is wanted: what it showed is then replaced in the same
    run, under the version that it stated."""

    def assert_shown(self, version, fields, becomes):
        """Answers to a creation and to a replacement that show bob with this version and these fields."""
        shown = user("bob", 1, version, number="x")
        becomes = becomes if becomes == "C2" else ("x", becomes)
        self.assert_read(CREATION, under(fields, answer(201, shown)), becomes)
        self.assert_read(REPLACEMENT, under(fields, answer(200, shown)), becomes)

    def test_versions_that_are_stated(self):
        for fields, version in STATED:
            self.assert_shown(None, fields, version)

    def test_fields_that_state_none(self):
        for fields in NOT_STATED:
            self.assert_shown(None, fields, "C2")

    def test_the_longest_version(self):
        self.assertEqual((len(STATED[6][1]), len(STATED[7][1])), (256, 256))
        self.assertEqual((len(NOT_STATED[-2]), len(NOT_STATED[-1])), (len("ETag: ") + 257,) * 2)

    def test_meta_version_comes_first(self):
        for version, fields, becomes in BOTH:
            self.assert_shown(version, fields, becomes)

    def test_a_list_has_no_version_of_its_own(self):
        for version, becomes in ((None, "C2"), ('"m"', ("x", '"m"'))):
            found = hits(user("bob", 1, version, number="x"))
            self.assert_read(SEARCH, under(b'ETag: "1"', found), becomes)

    def test_a_creation_without_a_body(self):
        """The name is taken, whatever version is stated."""
        for fields in (b'ETag: "1"', b"ETag: abc"):
            self.assert_read(CREATION, under(fields, said("201 Created", "")), AGAIN)
