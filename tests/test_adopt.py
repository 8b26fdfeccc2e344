"""examples/adopt.py: accounts that are there already, at `serve` and at others, and the push after that."""
import json
import unittest.mock

from databases import user_text
from example_tools import run_tool
from peers import answer
from small_provider import DropsExtension, SmallProvider
from support import (
    DEPARTMENTS_HEADER, NOWHERE, SOURCE, USER, USERS_HEADER, ProgramTest, Provider, scimlink, text,
)

NO_SHOWN = {"phoneNumbers": [{"value": "555"}], "title": "Mx"}
# Records of a users file, some of which aren't valid, or only just
RECORDS = [
    "ann,1",
    "b b,1,,,,,active",
    "bob,2000000001,,,,,active",
    "bob,1:2000000000,,,,,gone",
    "cid,0,,,,,active",
    'dee,2,"a ""b"", c",,,,left',
    "\xff,1,,,,,active",
    "eve,2,,,,\xff,active",
    f"eve,2,{'m' * 257},,,,active",
    f"eve,2,{'m' * 256},,,,active",
    "fay,000000000000000007,,,,,active",
    "fay,0000000000000000007,,,,,active",
    "fay,999999:1,,,,,active",
    "fay,1000000:1,,,,,active",
    'gus","1,,,,,active',
    "hal,\u00b2,,,,,active".encode().decode("latin-1"),
    '"ida",2,,,,,"left"',
    "jo\"e,2,,,,,left",
    "k\\t,2,,,,,left",
    "!#[]^`{}~,2,,,,,left",
    f"{'l' * 128},2,,,,,left",
    f"{'l' * 129},2,,,,,left",
    "",
    "mia,2,,,,,left",
]


class AdoptTest(ProgramTest):
    def adopt(self, address, *more):
        return run_tool("adopt.py", "--users", self.site.users, "--to", address, *more)

    def assert_adopts(self, address, *lines, status=0, errors="", plan=False):
        run = self.adopt(address, *(["--plan"] if plan else []))
        self.assertEqual((run.output.decode(), run.errors, run.status), (text(*lines), errors, status))


class AdoptAtScimlinkTest(AdoptTest):
    def create(self, provider, login, **more):
        body = {"schemas": [USER], "userName": login, "externalId": "old"} | more
        answer = provider.ask("POST", "/v2/Users", json.dumps(body))
        self.assertEqual(answer.status, 201)

    def images(self, provider):
        """The content of each account that the provider has, by its name."""
        listed = provider.ask("GET", "/v2/Users").content["Resources"]
        return {it["userName"]: {key: it[key] for key in it if key not in ("id", "meta")} for it in listed}

    def test_the_next_push_replaces_adopted_accounts(self):
        self.site.write_users(
            "ann,5,1001,Ann,Lee,,active", "bob,2,,,,,active", "Cid,3,,,,,active", "dee,1,,,,,left",
            "eve,20261126,,,,,left", "fay,1:1,,,,,active", "gus,1,,,,,active", "gus,2,,,,,left",
        )
        with Provider(200) as provider:
            for name in ("Ann", "dee", "eve", "fay", "gus", "zoe"):
                self.create(provider, name, name={"givenName": "Old"})
            self.create(provider, "cid", **{SOURCE: {"revision": 3}})
            before = self.images(provider)
            adopted = ["ann", "eve", "fay", "gus"]
            stays = "dee stays: its row has revision 1, and no revision is below. Give the row revision 2"
            known = "bob not there", "cid has revision 3 already", stays

            planned = sorted([*known, *(f"{name} would be adopted at revision 1" for name in adopted)])
            self.assert_adopts(provider.address, *planned, status=1, plan=True)
            self.assertEqual(self.images(provider), before)

            done = sorted([*known, *(f"{name} adopted at revision 1" for name in adopted)])
            self.assert_adopts(provider.address, *done, status=1)
            now = self.images(provider)
            for spelled in ("Ann", "eve", "fay", "gus"):
                extension = {SOURCE: {"revision": 1}, "schemas": [USER, SOURCE]}
                self.assertEqual(now[spelled], before[spelled] | extension)
            self.assertEqual([now[it] for it in ("cid", "dee", "zoe")], [before[it] for it in ("cid", "dee", "zoe")])

            again = sorted([*known, *(f"{name} has revision 1 already" for name in adopted)])
            self.assert_adopts(provider.address, *again, status=1)
            self.assertEqual(self.images(provider), now)

            self.assert_prints(
                self.site.push(provider.address), "user ann confirmed 5", "user bob confirmed 2",
                "user cid confirmed 3", "user dee unconfirmed C1", "user eve confirmed 20261126",
                "user fay confirmed 1:1", "user gus confirmed 2", status=1,
            )
            pushed = self.images(provider)
            self.assertEqual(pushed["ann"]["name"], {"familyName": "Lee", "givenName": "Ann"})
            self.assertEqual(json.dumps(pushed["eve"], separators=(",", ":")), user_text("eve", 20261126, active=False))
            self.assertEqual(pushed["gus"]["active"], False)
            self.assertEqual(pushed["zoe"], before["zoe"])

    def test_an_account_with_a_higher_revision(self):
        self.site.write_users("ann,1:2,,,,,active")
        with Provider(10) as provider:
            self.create(provider, "ann", **{SOURCE: {"epoch": 2, "revision": 1}})
            line = "ann has revision 2:1 already, which is above 1:2 of its row"
            self.assert_adopts(provider.address, line, status=1)
            self.assert_prints(self.site.push(provider.address), "user ann unconfirmed C1", status=1)

    def test_files_are_read_as_scimlink_reads_them(self):
        content = text(USERS_HEADER, *RECORDS)
        with Provider(200) as provider:
            for file in (
                content,
                "\xef\xbb\xbf" + content.replace("\n", "\r\n"),
                content.replace("\n", "\r"),
                text(DEPARTMENTS_HEADER, *(f"{record},Sales" for record in RECORDS[1:])),
                text(USERS_HEADER.replace("login", '"login"'), "ann,2,,,,,left"),
                text(USERS_HEADER),
                text(DEPARTMENTS_HEADER.upper(), "ann,2,,,,,left"),
                "",
            ):
                with self.subTest(file[:60]):
                    self.site.users.write_bytes(file.encode("latin-1"))
                    mapped = scimlink("map", self.site.users)
                    names = sorted({json.loads(line)["userName"].lower() for line in mapped.lines})
                    lines = [f"{name} not there" for name in names]
                    # push prints of line ends in fields itself
                    errors = "".join(it for it in mapped.errors.splitlines(True) if "is a quote missing?" not in it)
                    self.assert_adopts(provider.address, *lines, status=mapped.status, errors=errors)


class AdoptAtOthersTest(AdoptTest):
    def setUp(self):
        super().setUp()
        self.ann = {"schemas": [USER], "userName": "ann", "active": True} | NO_SHOWN
        self.site.write_users("ann,5,,,,,active")

    def test_all_that_an_account_has_stays(self):
        planned = "ann would be adopted at revision 1; the push after that may clear phoneNumbers, title"
        with SmallProvider(self.ann) as provider:
            self.assert_adopts(provider.address, planned, plan=True)
            self.assertEqual(provider.users["1"], self.ann | {"changes": 1})
            self.assert_adopts(provider.address, "ann adopted at revision 1")
            kept = provider.users["1"]
            self.assertEqual({name: kept[name] for name in NO_SHOWN}, NO_SHOWN)
            self.assertEqual((kept["schemas"], kept[SOURCE]), ([USER, SOURCE], {"revision": 1}))
            self.assert_adopts(provider.address, "ann has revision 1 already")
            self.assertEqual(kept, provider.users["1"])

    def test_a_provider_that_drops_the_extension(self):
        self.site.write_users("ann,5,,,,,active", "bob,5,,,,,active")
        line = (
            "ann stays: the provider doesn't keep the source extension: push can't be used with it. "
            "No further account was tried"
        )
        with DropsExtension(self.ann, self.ann | {"userName": "bob"}) as provider:
            self.assert_adopts(provider.address, line, status=1)
            self.assertEqual(provider.users["2"]["changes"], 1)

    def test_a_provider_that_clears_what_it_was_sent(self):
        class ClearsTitles(SmallProvider):
            def replace(self, id, content, if_match):
                return super().replace(id, {name: content[name] for name in content if name != "title"}, if_match)

        with ClearsTitles(self.ann) as provider:
            line = "ann adopted at revision 1, but the provider cleared title"
            self.assert_adopts(provider.address, line, status=1)

    def test_an_account_that_somebody_else_changes(self):
        class Busy(SmallProvider):
            def read(self, id):
                shown = super().read(id)
                if self.users[id]["changes"] < busy_until:
                    self.keep(self.users[id], id)
                return shown

        for busy_until, line in ((3, "adopted at revision 1"), (9, "stays: somebody changes the account all the time")):
            with self.subTest(busy_until), Busy(self.ann) as provider:
                self.assert_adopts(provider.address, f"ann {line}", status=0 if busy_until == 3 else 1)
                self.assertEqual(SOURCE in provider.users["1"], busy_until == 3)

    def test_accounts_that_stay(self):
        class Weak(SmallProvider):
            def version(self, id):
                return "W/" + super().version(id)

        class FindsAll(SmallProvider):
            def find(self, name):
                return list(self.users)

        class Refuses(SmallProvider):
            def replace(self, id, content, if_match):
                return answer(400, {"detail": "no"})

        class FindsNothing(SmallProvider):
            def search(self, kind, name):
                return answer(200, [])

        class WantsAToken(SmallProvider):
            def search(self, kind, name):
                return answer(401)

        bob = self.ann | {"userName": "bob"}
        for kind, users, line in (
            (Weak, [self.ann], "it is shown without a strong version, so it can't be replaced safely"),
            (FindsAll, [self.ann, bob], "there are 2 accounts of that name"),
            (FindsAll, [bob], "the search for it found another account"),
            (Refuses, [self.ann], 'the replacement of it is answered 400, "no"'),
            (FindsNothing, [self.ann], "the search for it is answered 200"),
            (WantsAToken, [self.ann], "the provider answers 401. No further account was tried"),
        ):
            with self.subTest(line), kind(*users) as provider:
                self.assert_adopts(provider.address, f"ann stays: {line}", status=1)
                self.assertEqual([user["changes"] for user in provider.users.values()], [1] * len(users))

    def test_a_provider_that_limits_the_rate(self):
        class Limits(SmallProvider):
            def respond(self, lines, body):
                self.requests.append(lines[0])
                if len(self.requests) % 2:
                    return answer(429, Retry_After="7") if len(self.requests) < 4 else answer(503)
                return super().respond(lines, body)

        with Limits(self.ann) as provider, unittest.mock.patch("time.sleep") as sleep:
            self.assert_adopts(provider.address, "ann adopted at revision 1")
        self.assertIn(7, [call.args[0] for call in sleep.call_args_list])

    def test_faults(self):
        run = self.adopt(NOWHERE)
        self.assertEqual((run.status, run.output, run.errors), (3, b"", "no connection: Connection refused\n"))
        self.site.users.unlink()
        run = self.adopt(NOWHERE)
        fault = f"file fault\n {self.site.users}: No such file or directory\n"
        self.assertEqual((run.status, run.output, run.errors), (3, b"", fault))
        self.assertEqual(run_tool("adopt.py", "--to", NOWHERE).status, 2)
