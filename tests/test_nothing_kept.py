"""`push --provider-keeps nothing`: a provider that shows no versions, or uses one twice, or obeys no condition."""
import time

from peers import answer
from small_provider import DropsExtension, HasNoVersions
from support import NOWHERE, USER
from test_provider_keeps import (
    AnswersInChunks, DelaysAChange, KindTest, LosesAndDelays, LosesAnswers, RefusesExtension, StaysActive,
)

NOTHING = ("--provider-keeps", "nothing")
AT_ONCE = (*NOTHING, "--settle-time", "0")
ANN, BOB, BOB_LEFT = "ann,1,,,,,active", "bob,1,,,,,active", "bob,2,,,,,left"
ANN_CONFIRMED, BOB_CONFIRMED, BOB_IS_OUT = "user ann confirmed 1", "user bob confirmed 1", "user bob confirmed 2"
UNANSWERED = "user ann unconfirmed H10"
WAITING = "waiting {} s: a record isn't confirmed, so a request of an earlier run may be under way".format


class HashesContents(DropsExtension):
    """A version comes back when the content comes back."""

    def version(self, id):
        return f'"{self.users[id]["active"]}"'


class ChunksWithoutVersion(HasNoVersions, AnswersInChunks):
    pass


class RefusesUnversioned(HasNoVersions, RefusesExtension):
    pass


class ActiveWithoutVersion(HasNoVersions, StaysActive):
    pass


class LosesUnversioned(HasNoVersions, LosesAnswers):
    pass


class DelaysUnversioned(HasNoVersions, DelaysAChange):
    pass


class LosesTheFirst(HasNoVersions):
    """It closes the connection in place of its first answer, and notes when each request came."""

    def __init__(self, *users):
        super().__init__(*users)
        self.came = []

    def respond(self, lines, body):
        self.came.append(time.monotonic())
        said = super().respond(lines, body)
        return said if len(self.requests) > 1 else b""


class DelaysWithinARun(HasNoVersions, LosesAndDelays):
    """What is late is carried out before the next push."""

    def push_ended(self):
        waited, self.late = self.late, []
        for lines, body in waited:
            DropsExtension.respond(self, lines, body)


class AnswersCreationsWith(HasNoVersions):
    """Each creation is carried out, and its first answer is this one."""

    def __init__(self, *said):
        super().__init__()
        self.said = list(said)

    def created(self, id):
        return self.said.pop(0) if self.said else super().created(id)


class NothingKeptTest(KindTest):
    options = NOTHING

    def test_leavers_end_inactive(self):
        for kind in HasNoVersions, HashesContents, RefusesUnversioned, ChunksWithoutVersion:
            with self.subTest(kind=kind.__name__), kind() as provider:
                self.join_and_leave(provider)
            self.setUp()

    def test_a_replacement_has_no_condition(self):
        self.site.write_users(BOB_LEFT)
        with HasNoVersions({"schemas": [USER], "userName": "Bob", "active": True}) as provider:
            self.pushes(provider, BOB_IS_OUT)
            self.assertEqual(provider.requests, [("GET", "Users"), ("PUT", "Users/1")])
            self.assertEqual((provider.conditions, provider.users["1"]["active"]), ([None], False))

    def test_nothing_is_sent_after_an_exchange_without_an_answer(self):
        """The first answer to each method is lost: a push asks nothing more about the record."""
        self.site.write_users(ANN)
        with LosesUnversioned() as provider:
            for sent in (["GET"], ["GET", "POST"], ["GET", "PUT"]):
                before = len(provider.requests)
                run = self.site.push(provider.address, *AT_ONCE)
                self.assertEqual((run.lines, run.status), ([UNANSWERED], 1))
                self.assertEqual([method for method, _ in provider.requests[before:]], sent)
            self.pushes(provider, ANN_CONFIRMED, options=AT_ONCE)
            self.assertEqual(len(provider.users), 1)

    def test_the_next_push_waits(self):
        self.site.write_users(ANN, BOB)
        with LosesTheFirst() as provider:
            run = self.site.push(provider.address, *NOTHING)
            self.assertEqual((run.lines, run.status), ([UNANSWERED, BOB_CONFIRMED], 1))
            begun, sent = time.monotonic(), len(provider.requests)
            self.pushes(
                provider, ANN_CONFIRMED, BOB_CONFIRMED, errors=[WAITING(1)], options=(*NOTHING, "--settle-time", "1")
            )
            self.assertGreaterEqual(provider.came[sent] - begun, 1)
            self.pushes(provider, ANN_CONFIRMED, BOB_CONFIRMED, options=(*NOTHING, "--settle-time", "3600"))

    def test_a_gateway_without_an_answer(self):
        """After 502 and 504 nothing more is sent; after another refusal the record is asked about again."""
        for status, sent in ((502, 2), (504, 2), (500, 3), (503, 3)):
            with self.subTest(status=status), AnswersCreationsWith(answer(status)) as provider:
                self.site.write_users(ANN)
                run = self.site.push(provider.address, *NOTHING)
                self.assertEqual(run.output.decode().split()[:2], ["user", "ann"])
                self.assertEqual((len(provider.requests), run.status), (sent, 1))
            self.setUp()

    def test_requests_and_answers_that_are_lost_or_late(self):
        """If what is late is carried out before the next push, whatever is confirmed stays; and in the end all is."""
        for seed in range(30):
            with self.subTest(seed=seed), DelaysWithinARun(seed) as provider:
                self.trouble(provider, seed, "--settle-time", "0")
            self.setUp()

    def test_a_change_that_is_carried_out_after_the_next_one(self):
        """Nothing refuses it: a leaver is active again. So push waits until nothing is under way."""
        for options, is_active in ((AT_ONCE, True), (NOTHING, False)):
            with self.subTest(options=options), DelaysUnversioned() as provider:
                self.site.write_users("bob,1,,,,,left")
                self.pushes(provider, BOB_CONFIRMED)
                self.site.write_users("bob,2,,,,,active")
                run = self.site.push(provider.address, *NOTHING)
                self.assertEqual((run.lines, run.status), (["user bob unconfirmed H10"], 1))
                self.site.write_users("bob,3,,,,,left")
                if not is_active:
                    provider.arrives()
                self.site.push(provider.address, *AT_ONCE)
                if is_active:
                    provider.arrives()
                self.assertEqual(provider.users["1"]["active"], is_active)
            self.setUp()

    def test_an_answer_that_shows_another_activity_confirms_nothing(self):
        self.site.write_users(BOB_LEFT)
        with ActiveWithoutVersion() as provider:
            self.pushes(
                provider, "user bob unconfirmed C1", status=1,
                errors=["user bob: active is true, and false was asked"],
            )

    def test_a_check(self):
        with HasNoVersions() as provider:
            self.site.write_users(ANN, BOB_LEFT)
            self.pushes(provider, ANN_CONFIRMED, BOB_IS_OUT)
            self.pushes(provider, ANN_CONFIRMED, BOB_IS_OUT, options=(*NOTHING, "--recheck"))
            provider.users["2"]["active"] = True
            found = ["user bob active: true, wanted false"]
            self.pushes(provider, ANN_CONFIRMED, BOB_IS_OUT, options=(*NOTHING, "--recheck"), errors=found)
            self.assertIs(provider.users["2"]["active"], False)

    def test_refusals(self):
        self.site.write_users(ANN)
        for value in "3601", "-1", "soon", "":
            run = self.site.push(NOWHERE, *NOTHING, "--settle-time", value)
            self.assertEqual((run.status, run.output), (2, b""))
            if value == "3601":
                self.assertEqual(run.errors, "error: --settle-time is 0 to 3600 seconds\n")
