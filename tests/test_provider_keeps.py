"""`push --provider-keeps versions`: a provider that drops the source extension, and shows a new version at each write."""
import json
import random

from peers import NO_HITS, Peer, answer, asked, hits, user
from small_provider import DropsExtension, SmallProvider
from support import DEPARTMENTS_HEADER, ENTERPRISE, GROUP, NOWHERE, SOURCE, USER, ProgramTest, text

VERSIONS = ("--provider-keeps", "versions")
REVISIONS = ("--provider-keeps", "revisions")
NOTHING_AT_ONCE = ("--provider-keeps", "nothing", "--settle-time", "0")
ANN, BOB = "ann,1,,,,,active", "bob,1,,,,,active"
ANN_CONFIRMED, BOB_CONFIRMED = "user ann confirmed 1", "user bob confirmed 1"
BOB_LEFT, BOB_IS_OUT = "bob,2,,,,,left", "user bob confirmed 2"
OTHER_VALUES = "{}: the provider shows other values than asked: {}".format


class RefusesExtension(DropsExtension):
    """It refuses a user with a schema that it doesn't know."""

    def respond(self, lines, body):
        return answer(400) if SOURCE.encode() in body else super().respond(lines, body)


class LosesAnswers(DropsExtension):
    """It does what it is asked, and closes the connection in place of the first answer to each method."""

    def respond(self, lines, body):
        said = super().respond(lines, body)
        is_first = [method for method, _ in self.requests].count(lines[0].split()[0]) == 1
        return b"" if is_first else said


class LosesAndDelays(DropsExtension):
    """By chance it doesn't get a request, or gets it later, or its answer is lost, as long as it `is_troubled`."""

    def __init__(self, seed):
        super().__init__()
        self.draw, self.late, self.is_troubled = random.Random(seed).random, [], True

    def respond(self, lines, body):
        self.late, waited = [], self.late
        for request in waited:
            if self.is_troubled and self.draw() < 0.9:
                self.late.append(request)
            else:
                super().respond(*request)
        fate = self.draw() if self.is_troubled else 1
        if fate < 0.15:
            self.late.append((lines, body))
        said = super().respond(lines, body) if fate >= 0.25 else b""
        return said if fate >= 0.4 else b""

    def push_ended(self):
        pass


class DelaysAChange(DropsExtension):
    """It gets the first replacement late: when it `arrives`."""

    late = None

    def respond(self, lines, body):
        if self.late or not lines[0].startswith("PUT"):
            return super().respond(lines, body)
        self.late = lines, body
        return b""

    def arrives(self):
        super().respond(*self.late)


class HashesContents(DelaysAChange):
    """A version comes back when the content comes back."""

    def version(self, id):
        return f'"{self.users[id]["active"]}"'


class StaysActive(DropsExtension):
    """It leaves each account active."""

    def keep(self, content, id=None):
        return super().keep(content | {"active": True}, id)


class WeakVersions(DropsExtension):
    """Its entity tags are weak."""

    def version(self, id):
        return f"W/{super().version(id)}"


class AnswersInChunks(DropsExtension):
    """Its answers come in chunks of a byte, behind an interim response."""

    def respond(self, lines, body):
        head, _, content = super().respond(lines, body).partition(b"\r\n\r\n")
        fields = [line for line in head.split(b"\r\n") if not line.startswith(b"Content-Length")]
        chunks = b"".join(b"1\r\n%c\r\n" % byte for byte in content)
        framed = [*fields, b"Transfer-Encoding: chunked", b"", chunks + b"0\r\n\r\n"]
        return b"HTTP/1.1 103 Early Hints\r\n\r\n" + b"\r\n".join(framed)


class WritesInItsOwnWay(SmallProvider):
    """It has one department, and keeps no types of addresses."""

    def keep(self, content, id=None):
        emails = [{"value": email["value"]} for email in content.get("emails", [])]
        return super().keep(content | {ENTERPRISE: {"department": "Staff"}, "emails": emails}, id)


class KindTest(ProgramTest):
    """Pushes to providers of one kind, with the options that name it."""

    options = ()

    def pushes(self, provider, *lines, errors=(), status=0, options=None):
        """A push prints exactly these lines, and these on standard error."""
        run = self.site.push(provider.address, *(self.options if options is None else options))
        self.assertEqual((run.output.decode(), run.errors, run.status), (text(*lines), text(*errors), status))

    def join_and_leave(self, provider):
        """Two users join, and one of them leaves; each push after that sends nothing."""
        self.site.write_users(ANN, BOB)
        self.pushes(provider, ANN_CONFIRMED, BOB_CONFIRMED)
        self.site.write_users(ANN, BOB_LEFT)
        self.pushes(provider, ANN_CONFIRMED, BOB_IS_OUT)
        before = len(provider.requests)
        self.pushes(provider, ANN_CONFIRMED, BOB_IS_OUT)
        self.assertEqual(len(provider.requests), before)
        shown = {user["userName"]: user["active"] for user in provider.users.values()}
        self.assertEqual(shown, {"ann": True, "bob": False})

    def trouble(self, provider, seed, *options):
        """Pushes of random changes to a provider that loses and delays; then nothing is lost, and a push confirms all."""
        wanted, draw = {}, random.Random(seed)
        for revision in range(1, 13):
            wanted[draw.choice(("ann", "bob", "cid"))] = revision, draw.choice(("active", "left"))
            self.push_and_look(provider, wanted, *options)
        provider.is_troubled = False
        self.assertEqual(self.push_and_look(provider, wanted, *options), len(wanted))
        self.assertEqual(len(provider.users), len(wanted))

    def push_and_look(self, provider, wanted, *options):
        """A push of these revisions and states: how many are confirmed, which the provider has as they are wanted."""
        self.site.write_users(*(f"{name},{revision},,,,,{state}" for name, (revision, state) in wanted.items()))
        run = self.site.push(provider.address, *self.options, *options)
        provider.push_ended()
        held = {user["userName"]: user["active"] for user in provider.users.values()}
        confirmed = [line.split() for line in run.output.decode().splitlines() if " confirmed " in line]
        for _, name, _, revision in confirmed:
            self.assertEqual((int(revision), held[name]), (wanted[name][0], wanted[name][1] == "active"))
        return len(confirmed)


class ProviderKeepsTest(KindTest):
    options = VERSIONS

    def test_leavers_end_inactive(self):
        for kind in DropsExtension, RefusesExtension, WeakVersions, AnswersInChunks:
            with self.subTest(kind=kind.__name__), kind() as provider:
                self.join_and_leave(provider)
            self.setUp()

    def test_no_request_has_the_source_extension(self):
        self.site.write_users(ANN)
        with Peer([NO_HITS, answer(201, user("ann", None))]) as provider:
            self.pushes(provider, ANN_CONFIRMED)
        _, (_, created) = provider.requests
        self.assertEqual((json.loads(created)["userName"], SOURCE in created.decode()), ("ann", False))

    def test_an_account_that_was_there_is_taken_over(self):
        self.site.write_users(BOB_LEFT)
        with DropsExtension({"schemas": [USER], "userName": "Bob", "active": True}) as provider:
            self.pushes(provider, BOB_IS_OUT)
            self.assertEqual(provider.requests, [("GET", "Users"), ("PUT", "Users/1")])
            self.assertIs(provider.users["1"]["active"], False)

    def test_answers_that_are_lost(self):
        """What was done and not answered is found by the next push, and written once more: a search confirms nothing. The
        second PUT is stale."""
        self.site.write_users(ANN)
        with LosesAnswers() as provider:
            while self.site.push(provider.address, *VERSIONS).output.decode() != text(ANN_CONFIRMED):
                self.assertLess(len(provider.requests), 9)
            self.assertEqual(
                [method for method, _ in provider.requests],
                ["GET", "GET", "POST", "GET", "PUT", "PUT", "GET", "PUT"],
            )
            self.assertEqual(len(provider.users), 1)

    def test_requests_and_answers_that_are_lost_or_late(self):
        """Whatever is confirmed is held when a push ends; and once nothing is lost, a push confirms all."""
        for seed in range(30):
            with self.subTest(seed=seed), LosesAndDelays(seed) as provider:
                self.trouble(provider, seed)
            self.setUp()

    def test_a_late_change_and_versions_that_come_back(self):
        """A late change is refused, unless the version that it names has come back: then a leaver is active again. So such
        a provider isn't of this kind."""
        rows = "bob,1,,,,,left", "bob,2,,,,,active", "bob,3,,,,,left"
        for kind, is_active in ((DelaysAChange, False), (HashesContents, True)):
            with self.subTest(kind=kind.__name__), kind() as provider:
                for revision, row in enumerate(rows, 1):
                    self.site.write_users(row)
                    self.pushes(provider, f"user bob confirmed {revision}")
                self.assertFalse(provider.users["1"]["active"])
                provider.arrives()
                self.assertEqual(provider.users["1"]["active"], is_active)
            self.setUp()

    def test_an_answer_that_shows_another_activity_confirms_nothing(self):
        self.site.write_users(BOB_LEFT)
        with StaysActive() as provider:
            self.pushes(
                provider, "user bob unconfirmed C1", status=1,
                errors=["user bob: active is true, and false was asked"],
            )

    def test_values_that_are_written_in_another_way(self):
        """They are reported at each write of a record, which is confirmed. A quiet push doesn't report them."""
        rows = "ann,{0},,,,a@x,active,Sales", "bob,{0},,,,,active,Staff", "cid,{0},,,,,left,Sales"
        ann, cid = OTHER_VALUES("user ann", "department, emails"), OTHER_VALUES("user cid", "department")
        for options in VERSIONS, NOTHING_AT_ONCE, (*VERSIONS, "--streams", "3"):
            with self.subTest(options=options), WritesInItsOwnWay() as provider:
                for revision, words, errors in (1, (), [ann, cid]), (2, (), [ann, cid]), (3, ("--quiet",), ()):
                    self.site.write_users(*(row.format(revision) for row in rows), header=DEPARTMENTS_HEADER)
                    confirmed = [f"user {name} confirmed {revision}" for name in ("ann", "bob", "cid")]
                    lines = ["3 confirmed, 0 unconfirmed, 0 rejected"] if words else confirmed
                    self.pushes(provider, *lines, errors=errors, options=(*options, *words))
                    self.pushes(provider, *confirmed, options=options)
            self.setUp()

    def test_a_provider_that_keeps_revisions_may_write_in_another_way(self):
        self.site.write_users("ann,1,,,,a@x,active,Sales", header=DEPARTMENTS_HEADER)
        with WritesInItsOwnWay() as provider:
            self.pushes(provider, ANN_CONFIRMED, options=REVISIONS)

    def test_the_values_of_a_group(self):
        """The order of members doesn't count."""
        said = OTHER_VALUES("group crew", "{}").format
        for changes, errors in [
            ({}, ()),
            ({"members": [{"value": "2"}, {"value": "1"}]}, ()),
            ({"members": [{"value": "1"}]}, [said("members")]),
            ({"displayName": "Crew", "externalId": "9", "members": []}, [said("displayName, externalId, members")]),
        ]:
            members = [{"value": "1"}, {"value": "2"}]
            crew = {"schemas": [GROUP], "id": "3", "displayName": "crew", "members": members, "meta": {"version": '"v1"'}}
            shown = user("ann", None, number="1"), user("bob", None, number="2"), crew | changes
            steps = [step for resource in shown for step in (NO_HITS, answer(201, resource))]
            self.site.write_users(ANN, BOB)
            self.site.write_groups("crew,1,ann bob")
            with self.subTest(changes=changes), Peer(steps) as provider:
                self.pushes(provider, ANN_CONFIRMED, BOB_CONFIRMED, "group crew confirmed 1", errors=errors)
            self.setUp()

    def test_the_answer_that_confirms_counts(self):
        """Neither a fault before it nor what a search shows is said of the record."""
        self.site.write_users(ANN)
        other = user("ann", None) | {"externalId": "9"}
        for steps, errors in [
            ([answer(500), NO_HITS, answer(201, user("ann", None))], ()),
            ([answer(500), NO_HITS, answer(201, other)], [OTHER_VALUES("user ann", "externalId")]),
            ([hits(other), answer(500), answer(200, user("ann", None))], ()),
        ]:
            with self.subTest(errors=errors), Peer(steps) as provider:
                self.pushes(provider, ANN_CONFIRMED, errors=errors)
            self.site.journal.unlink()

    def test_a_stale_version_is_refused_and_read_again(self):
        self.site.write_users(BOB_LEFT)
        shown = user("bob", None, version='"v7"')
        with Peer([hits(shown), answer(412), hits(user("bob", None, version='"v8"'))]) as provider:
            self.pushes(provider, "user bob unconfirmed -", status=1)
        self.assertEqual([line.split()[0] for line in asked(provider.requests)], ["GET", "PUT", "GET"])
        self.assertIn('If-Match: "v7"', provider.requests[1][0])

    def test_a_check_leaves_the_revision_out(self):
        with DropsExtension() as provider:
            self.site.write_users(ANN, BOB_LEFT)
            self.pushes(provider, ANN_CONFIRMED, BOB_IS_OUT)
            self.pushes(provider, ANN_CONFIRMED, BOB_IS_OUT, options=(*VERSIONS, "--recheck"))
            provider.users["2"]["active"] = True
            found = ["user bob active: true, wanted false"]
            self.pushes(provider, ANN_CONFIRMED, BOB_IS_OUT, options=(*VERSIONS, "--recheck"), errors=found)
            self.assertIs(provider.users["2"]["active"], False)

    def test_refusals(self):
        self.site.write_users(ANN)
        for value in "none", "Versions", "":
            self.assert_reports(
                self.site.push(NOWHERE, "--provider-keeps", value), 2,
                "error: --provider-keeps is revisions, versions or nothing",
            )
