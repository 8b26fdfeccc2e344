"""examples/try-provider.py: against `serve`, and against providers by script that break one condition each."""
import json
import pathlib
import re
import subprocess
import sys
import tempfile

from example_tools import run_tool
from peers import answer, head
from small_provider import DropsExtension, SmallProvider
from support import (
    DEPARTMENTS_HEADER, ENTERPRISE, EXAMPLES, NOWHERE, PATIENCE, SOURCE, USER, USERS_HEADER, ProgramTest, Provider,
    Site,
)

NAMES = [
    "searches", "one user of a name", "source extension", "enterprise extension", "If-Match", "strong version",
    "new versions", "Content-Length", "201 and 200",
]
LATE_MESSAGE = "push can't notice it: a late message can switch a leaver on"
ANN = {"schemas": [USER], "userName": "ann", "active": True, SOURCE: {"revision": 1}}


def try_provider(*arguments):
    return run_tool("try-provider.py", *arguments)


def without(resource, *path):
    """A resource without the attribute at this path."""
    name, *rest = path
    if not rest:
        return {key: value for key, value in resource.items() if key != name}
    return resource | {name: without(resource[name], *rest)} if name in resource else resource


# ---- providers that break a condition


class IgnoresFilters(SmallProvider):
    def find(self, name):
        return list(self.users)

    def create(self, content):
        return self.created(self.keep(content))


class HasNoGroups(SmallProvider):
    def search(self, kind, name):
        return super().search(kind, name) if kind == "Users" else answer(404)


class WantsAToken(SmallProvider):
    def respond(self, lines, body):
        return answer(401, {"detail": "token expired"})


class IsNoProvider(SmallProvider):
    def respond(self, lines, body):
        return b"SSH-2.0-OpenSSH_9.2\r\n"


class HasTwoOfAName(SmallProvider):
    def find(self, name):
        return [id for id, user in self.users.items() if user["userName"] == name]


class ReplacesByCreating(SmallProvider):
    def create(self, content):
        found = self.find(content["userName"])
        return self.created(self.keep(content, found[0] if found else None))


class RefusesTakenNamesOtherwise(SmallProvider):
    def taken(self):
        return answer(400, {"detail": "name in use"})


class FindsExactNames(SmallProvider):
    def search(self, kind, name):
        return super().search(kind, name if name.islower() else "nobody")


class RefusesExtension(SmallProvider):
    def create(self, content):
        return answer(400) if SOURCE in content else super().create(content)


class ListsWithoutExtension(SmallProvider):
    def listed(self, id):
        return without(self.shown(id), SOURCE)


class KeepsTheFirstRevision(SmallProvider):
    def keep(self, content, id=None):
        first = {SOURCE: self.users[id][SOURCE]} if id else {}
        return super().keep(content | first, id)


class DropsEpochs(SmallProvider):
    def shown(self, id):
        return without(super().shown(id), SOURCE, "epoch")


class DropsDepartments(SmallProvider):
    def shown(self, id):
        return without(super().shown(id), ENTERPRISE)


class RefusesDepartments(SmallProvider):
    def create(self, content):
        return answer(400) if ENTERPRISE in content else super().create(content)


class IgnoresIfMatch(SmallProvider):
    def replace(self, id, content, if_match):
        return super().replace(id, content, None)


class RefusesVersionsOtherwise(SmallProvider):
    def stale(self):
        return answer(409, {"detail": "conflict"})


class ShowsNoVersion(SmallProvider):
    def shown(self, id):
        return without(super().shown(id), "meta")


class ShowsWeakVersions(SmallProvider):
    def version(self, id):
        return "W/" + super().version(id)


class ComparesStrongly(ShowsWeakVersions):
    def replace(self, id, content, if_match):
        return self.stale() if if_match else super().replace(id, content, None)


class ShowsOneVersion(SmallProvider):
    def version(self, id):
        return '"1"'


class ShowsNoTag(SmallProvider):
    def version(self, id):
        return "v" + super().version(id)[2:-1]


class KeepsVersionsOfEqualContents(DropsExtension):
    def keep(self, content, id=None):
        known = {name: value for name, value in content.items() if name != SOURCE}
        held = without(self.users[id], "changes") if id else None
        return id if known == held else super().keep(content, id)


class MakesVersionsFromContents(DropsExtension):
    def version(self, id):
        return f'"{hash(json.dumps(without(self.users[id], "changes")))}"'


class SendsChunks(SmallProvider):
    def replaced(self, id):
        body = json.dumps(self.shown(id)).encode()
        chunks = b"%x\r\n%b\r\n0\r\n\r\n" % (len(body), body)
        return head(200, Transfer_Encoding="chunked") + chunks


class SendsNoLength(SmallProvider):
    def stale(self):
        return head(412)


class CreatesWith200(SmallProvider):
    def created(self, id):
        return answer(200, self.shown(id))


class CreatesWithoutShowing(SmallProvider):
    def created(self, id):
        return answer(201)


class CreatesWithAnotherBody(SmallProvider):
    def created(self, id):
        return answer(201, {"id": id})


class ReplacesWith204(SmallProvider):
    def replaced(self, id):
        return head(204)


class ReplacesWith202(SmallProvider):
    def replaced(self, id):
        return answer(202)


class ReplacesWithoutShowing(SmallProvider):
    def replaced(self, id):
        return answer(200, ETag=self.version(id))


class ShowsNothing(CreatesWithoutShowing, ReplacesWith204):
    pass


class DropsAndShowsNothing(DropsExtension, ShowsNothing):
    pass


class AnswersWithoutVersion(SmallProvider):
    """It lists versions, and shows none in other answers."""

    def alone(self, id):
        return {}

    def created(self, id):
        return answer(201, without(self.shown(id), "meta"), **self.alone(id))

    def replaced(self, id):
        return answer(200, without(self.shown(id), "meta"), **self.alone(id))

    def read(self, id):
        return answer(200, without(self.shown(id), "meta"), **self.alone(id))


class StatesVersions(AnswersWithoutVersion):
    """It lists versions, and states them in the field `ETag` of other answers."""

    def alone(self, id):
        return {"ETag": self.version(id)}


class StatesVersionsAlone(StatesVersions):
    def listed(self, id):
        return without(self.shown(id), "meta")


class StatesVersionsAnd204(StatesVersionsAlone, ReplacesWith204):
    def replaced(self, id):
        return head(204)


class RefusesUsers(SmallProvider):
    def create(self, content):
        return answer(403, {"detail": "read only"})


NO_USER = "can't be tried: {}. There is no user to try it with".format
TWO_OF_A_NAME = (
    "not met: one user of a name. A second user of the name was created, in capitals. Then both stay unconfirmed: C1"
)
DROPPED = (
    "not met: source extension. The user is shown without its revision. Joiners get an account, and leavers keep it: C1"
)
UNVERSIONED = "can't be tried: new versions. The user wasn't replaced and shown with a version each time"
UNLISTED = "not met: strong version. A search shows the user without meta.version. Accounts can't be replaced: C2"
# What is printed in place of `met`, for each provider
BROKEN = {
    IgnoresFilters: [
        "not met: searches. A search for a name that nobody has finds users. Users stay unconfirmed: C1",
        TWO_OF_A_NAME,
    ],
    HasNoGroups: ["not met: searches. A search for a group is answered 404. Only users can be pushed"],
    HasTwoOfAName: [TWO_OF_A_NAME],
    ReplacesByCreating: [
        f"not met: one user of a name. The creation of a name that is taken replaced the user. {LATE_MESSAGE}",
    ],
    RefusesTakenNamesOtherwise: [
        'not met: one user of a name. The creation of a name that is taken is answered 400, "name in use", and not '
        "409. A record that somebody else just created is unconfirmed until the next push: C4",
    ],
    FindsExactNames: [
        "not met: one user of a name. A search in capitals doesn't find the user. A login that is spelled anew stays "
        "unconfirmed",
    ],
    DropsExtension: [DROPPED],
    RefusesExtension: [
        "not met: source extension. A user with it is refused. Nobody gets an account, and leavers keep theirs: C4",
    ],
    ListsWithoutExtension: [DROPPED],
    KeepsVersionsOfEqualContents: [
        DROPPED,
        "not met: new versions. A replacement that changes nothing keeps the version. With versions alone, "
        f"{LATE_MESSAGE}",
    ],
    MakesVersionsFromContents: [
        DROPPED,
        "not met: new versions. A replacement that changes nothing keeps the version. With versions alone, "
        f"{LATE_MESSAGE}",
    ],
    KeepsTheFirstRevision: [
        "not met: source extension. The user is shown with another revision than it was given. Leavers keep their "
        "accounts",
    ],
    DropsDepartments: [
        "not met: enterprise extension. The department is dropped. Rows with departments are confirmed: push can't "
        "notice it",
    ],
    RefusesDepartments: [
        "not met: enterprise extension. A user with a department is refused. Rows with departments stay unconfirmed: "
        "C4",
    ],
    IgnoresIfMatch: [f"not met: If-Match. An old version was replaced. {LATE_MESSAGE}"],
    RefusesVersionsOtherwise: [
        'not met: If-Match. An old version is answered 409, "conflict", and not 412. A record that somebody else just '
        "changed is unconfirmed until the next push: C4",
    ],
    ShowsNoVersion: [
        "can't be tried: If-Match. The user is shown without a version",
        UNLISTED,
        UNVERSIONED,
    ],
    ShowsWeakVersions: [
        'not met: strong version. The version W/"v1" is weak. New records are confirmed, and changed ones may stay '
        "unconfirmed",
    ],
    ComparesStrongly: [
        "not met: If-Match. The version that the user has is refused. Changed records stay unconfirmed",
        'not met: strong version. The version W/"v1" is weak. New records are confirmed, and changed ones may stay '
        "unconfirmed",
        UNVERSIONED,
        "not met: 201 and 200. A replacement is answered 412. Changed records stay unconfirmed",
    ],
    ShowsOneVersion: [
        f"not met: If-Match. An old version was replaced. {LATE_MESSAGE}",
        f"not met: strong version. The version stays when the user changes. {LATE_MESSAGE}",
        "not met: new versions. A replacement that changes nothing keeps the version. With versions alone, "
        f"{LATE_MESSAGE}",
    ],
    ShowsNoTag: [
        "not met: strong version. The version v1 isn't an entity tag, as \"1\" is. Accounts can't be replaced: C2",
    ],
    SendsChunks: [],
    SendsNoLength: [
        "not met: Content-Length. An answer with status 412 has no single length, and doesn't come in chunks. Records "
        "stay unconfirmed: K1",
    ],
    CreatesWith200: [
        "not met: 201 and 200. A creation is answered 200, and not 201 with the user or without a body. A new record "
        "is unconfirmed until the push after that: K1, K2 or K3",
    ],
    CreatesWithAnotherBody: [
        "not met: 201 and 200. A creation is answered 201, and not 201 with the user or without a body. A new record "
        "is unconfirmed until the push after that: K1, K2 or K3",
    ],
    ReplacesWith202: [
        "not met: 201 and 200. A replacement is answered 202, and not 200 with the user or without a body. A changed "
        "record is unconfirmed until the push after that: K1, K2 or K3",
    ],
    CreatesWithoutShowing: [],
    ReplacesWith204: [],
    ReplacesWithoutShowing: [],
    ShowsNothing: [],
    DropsAndShowsNothing: [DROPPED],
    AnswersWithoutVersion: [],
    StatesVersions: [],
    StatesVersionsAlone: [UNLISTED],
    StatesVersionsAnd204: [UNLISTED],
}

# Whom `push` can use by their versions
BY_VERSIONS = {
    DropsExtension, RefusesExtension, ListsWithoutExtension, KeepsTheFirstRevision, DropsAndShowsNothing,
}
BY_NOTHING = {
    KeepsVersionsOfEqualContents, MakesVersionsFromContents, IgnoresIfMatch, RefusesVersionsOtherwise, ShowsNoVersion,
    ShowsWeakVersions, ShowsOneVersion, ShowsNoTag, StatesVersionsAlone, StatesVersionsAnd204,
}
USELESS = "don't rely on push with this provider"

LATER = "That confirms with --provider-keeps versions or nothing. Else the next push confirms: {}".format
SOUGHT = (
    "A creation is answered 201 without a body. push then searches for the user. With --provider-keeps versions or "
    "nothing, the next push confirms the record"
)
SEES, NAMES_IT = "push sees in the answer what became of the user", "push can name the version that it replaces"
# What is said of the condition `201 and 200`, and of `strong version`, where both are met
MET = {
    SmallProvider: (SEES, NAMES_IT),
    CreatesWithoutShowing: (SOUGHT, NAMES_IT),
    ReplacesWith204: (f"A replacement is answered 204 without a body. {LATER('K2')}", NAMES_IT),
    ReplacesWithoutShowing: (f"A replacement is answered 200 without a body. {LATER('K2')}", NAMES_IT),
    ShowsNothing: (f"{SOUGHT}. A replacement is answered 204 without a body. {LATER('K2')}", NAMES_IT),
    AnswersWithoutVersion: (
        SEES, f"{NAMES_IT}. But a creation or a replacement is answered without one. {LATER('C2')}",
    ),
    StatesVersions: (SEES, NAMES_IT),
}

JOINS, LEAVES = "bob,1,,,,,active", "bob,2,,,,,left"
# What push prints of bob, who joins and then leaves, at a provider for which the tool says so
PUSHES = {
    SmallProvider: [(JOINS, "confirmed 1"), (LEAVES, "confirmed 2")],
    IgnoresFilters: [(JOINS, "unconfirmed C1")],
    WantsAToken: [(JOINS, "unconfirmed C4")],
    IsNoProvider: [(JOINS, "unconfirmed K1")],
    FindsExactNames: [(JOINS, "confirmed 1"), (LEAVES.upper().replace("LEFT", "left"), "unconfirmed -")],
    DropsExtension: [(JOINS, "unconfirmed C1"), (LEAVES, "unconfirmed C1")],
    RefusesExtension: [(JOINS, "unconfirmed C4")],
    DropsEpochs: [(JOINS, "confirmed 1"), (LEAVES, "confirmed 2"), ("bob,1:1,,,,,left", "unconfirmed -")],
    DropsDepartments: [(f"{JOINS},Sales", "confirmed 1")],
    RefusesDepartments: [(f"{JOINS},Sales", "unconfirmed C4")],
    ShowsNoVersion: [(JOINS, "unconfirmed C2")],
    ComparesStrongly: [(JOINS, "confirmed 1"), (LEAVES, "unconfirmed -")],
    ShowsNoTag: [(JOINS, "unconfirmed C2")],
    SendsChunks: [(JOINS, "confirmed 1"), (LEAVES, "confirmed 2")],
    CreatesWith200: [(JOINS, "unconfirmed K3"), (JOINS, "confirmed 1")],
    CreatesWithoutShowing: [(JOINS, "confirmed 1"), (LEAVES, "confirmed 2")],
    CreatesWithAnotherBody: [(JOINS, "unconfirmed K3"), (JOINS, "confirmed 1")],
    ReplacesWith202: [(JOINS, "confirmed 1"), (LEAVES, "unconfirmed K2"), (LEAVES, "confirmed 2")],
    ReplacesWith204: [(JOINS, "confirmed 1"), (LEAVES, "unconfirmed K2"), (LEAVES, "confirmed 2")],
    ReplacesWithoutShowing: [(JOINS, "confirmed 1"), (LEAVES, "unconfirmed K2"), (LEAVES, "confirmed 2")],
    AnswersWithoutVersion: [
        (JOINS, "unconfirmed C2"), (JOINS, "confirmed 1"), (LEAVES, "unconfirmed C2"), (LEAVES, "confirmed 2"),
    ],
    StatesVersions: [(JOINS, "confirmed 1"), (LEAVES, "confirmed 2")],
    StatesVersionsAlone: [(JOINS, "confirmed 1"), (LEAVES, "unconfirmed C2")],
    RefusesUsers: [(JOINS, "unconfirmed C4")],
}
# Likewise with the option that the tool prints
PUSHES_BY_OPTION = {
    DropsAndShowsNothing: [(JOINS, "unconfirmed -"), (JOINS, "confirmed 1"), (LEAVES, "confirmed 2")],
    StatesVersionsAlone: [(JOINS, "confirmed 1"), (LEAVES, "confirmed 2")],
    StatesVersionsAnd204: [(JOINS, "confirmed 1"), (LEAVES, "confirmed 2")],
}


class TryProviderTest(ProgramTest):
    def assert_tells(self, run, *other, use=USELESS):
        """The tool printed these lines, and `met` for each other condition, and how to push; the last is of the user."""
        *lines, by, last = run.lines
        names = [re.match(r"[^:]*: ([^.]*)\. ", line)[1] for line in lines]
        self.assertEqual((names, run.errors), (NAMES, ""))
        self.assertEqual([line for line in lines if not line.startswith("met: ")], list(other))
        self.assertEqual((by, run.status), (use, 1 if use is USELESS else 0))
        return last

    def use_of(self, address, *options):
        """How the tool says to push to this address."""
        return " ".join(["push by: scimlink push --users FILE --journal FILE --to", address, *options])

    def assert_left_inactive(self, provider, last):
        """The user that was made is inactive, and nobody else was touched."""
        self.assertRegex(last, "^the user scimlink-try-[0-9a-f]{8} is left inactive$")
        self.assertEqual([user["changes"] for user in provider.users.values() if user["userName"] == "ann"], [1])
        ours = [user for user in provider.users.values() if user["userName"] != "ann"]
        self.assertGreater(len(ours), 0)
        self.assertEqual({user["active"] for user in ours}, {False})

    def test_scimlink(self):
        with Provider(40) as provider:
            last = self.assert_tells(try_provider("--to", provider.address), use=self.use_of(provider.address))
            name = last.split()[2]
            found = provider.ask("GET", f"/v2/Users?filter=userName+eq+%22{name}%22").content["Resources"]
            self.assertEqual([user["active"] for user in found], [False])
            listed = provider.ask("GET", "/v2/Users").content
            self.assertEqual(listed["totalResults"], 1)

    def test_a_provider_that_meets_all(self):
        with SmallProvider(ANN) as provider:
            run = try_provider("--to", provider.address)
            self.assert_left_inactive(provider, self.assert_tells(run, use=self.use_of(provider.address)))

    def test_providers_that_break_a_condition(self):
        for kind, lines in BROKEN.items():
            with self.subTest(kind.__name__), kind(ANN) as provider:
                run = try_provider("--to", provider.address)
                keeps = "versions" if kind in BY_VERSIONS else "nothing" if kind in BY_NOTHING else None
                options = [f"--provider-keeps {keeps}"] if keeps else []
                use = USELESS if lines and not keeps else self.use_of(provider.address, *options)
                self.assert_left_inactive(provider, self.assert_tells(run, *lines, use=use))

    def test_what_is_said_of_other_answers(self):
        for kind, (said, said_of_versions) in MET.items():
            with self.subTest(kind.__name__), kind(ANN) as provider:
                lines = try_provider("--to", provider.address).lines
                self.assertEqual(lines[NAMES.index("201 and 200")], f"met: 201 and 200. {said}")
                self.assertEqual(lines[NAMES.index("strong version")], f"met: strong version. {said_of_versions}")

    def assert_pushes(self, kind, pushes, *options):
        """Pushes of these rows print this of bob."""
        with kind(ANN) as provider:
            self.site = Site(pathlib.Path(tempfile.mkdtemp(dir=self.folder)))
            for row, becomes in pushes:
                header = DEPARTMENTS_HEADER if row.count(",") == 7 else USERS_HEADER
                self.site.write_users(row, header=header)
                with self.subTest(kind.__name__, row=row):
                    status = 0 if becomes.startswith("confirmed") else 1
                    run = self.site.push(provider.address, *options)
                    self.assert_prints(run, f"user bob {becomes}", status=status)

    def test_push_prints_what_the_tool_says(self):
        for kind, pushes in PUSHES.items():
            self.assert_pushes(kind, pushes)
        for kind, pushes in PUSHES_BY_OPTION.items():
            self.assert_pushes(kind, pushes, "--provider-keeps", "versions" if kind in BY_VERSIONS else "nothing")

    def test_epochs(self):
        class RefusesEpochs(SmallProvider):
            def replace(self, id, content, if_match):
                has_epoch = "epoch" in content[SOURCE]
                return answer(400, {"detail": "no"}) if has_epoch else super().replace(id, content, if_match)

        for kind, said in (
            (DropsEpochs, ". But epochs aren't kept: use revisions without one"),
            (RefusesEpochs, '. But a revision with an epoch is answered 400, "no": use revisions without one'),
            (ReplacesWith204, ", also with an epoch"),
        ):
            with self.subTest(kind.__name__), kind(ANN) as provider:
                lines = try_provider("--to", provider.address).lines
                self.assertEqual(lines[2], f"met: source extension. push sees which revision an account has{said}")
                self.assert_left_inactive(provider, lines[-1])

    def test_providers_without_a_user(self):
        token = "The provider answers 401, \"token expired\": it wants a token, which a proxy adds"
        refused = "The creation of a user is answered {}. Nobody gets an account".format
        for kind, searches, length, creation in (
            (WantsAToken, f"not met: searches. {token}", "", '401, "token expired"'),
            (
                RefusesUsers,
                "can't be tried: searches. Nobody is found where nobody is, but the provider didn't create a user to "
                "find",
                "",
                '403, "read only"',
            ),
            (
                IsNoProvider,
                "not met: searches. A search for a user is answered no HTTP. Users stay unconfirmed: C4, K2 or K3",
                "not met: Content-Length. What came isn't one answer of HTTP/1.1. Records stay unconfirmed: K1 or H10",
                "no HTTP",
            ),
        ):
            with self.subTest(kind.__name__), kind() as provider:
                lines = [searches, *map(NO_USER, NAMES[1:7]), *filter(None, [length])]
                last = self.assert_tells(
                    try_provider("--to", provider.address), *lines, f"not met: 201 and 200. {refused(creation)}"
                )
                self.assertEqual((last, provider.users), ("no user was created", {}))

    def test_a_user_who_is_found_by_its_location_alone(self):
        class FindsNobody(SmallProvider):
            def search(self, kind, name):
                return answer(400, {"detail": "no filters"})

            def created(self, id):
                return answer(201, Location=f"http://localhost/v2/Users/{id}")

        with FindsNobody(ANN) as provider:
            run = try_provider("--to", provider.address)
            self.assertEqual(run.status, 1)
            self.assert_left_inactive(provider, run.lines[-1])

    def test_an_active_that_stays(self):
        class StaysActive(SmallProvider):
            def shown(self, id):
                return super().shown(id) | {"active": True}

        with StaysActive() as provider:
            run = try_provider("--to", provider.address)
            self.assertEqual(run.status, 1)
            self.assertIn("isn't shown as inactive: switch it off by hand", run.lines[-1])

    def test_a_connection_that_is_lost(self):
        class Ends(SmallProvider):
            def replace(self, id, content, if_match):
                return super().replace(id, content, if_match) if self.requests.count(("PUT", "Users/1")) > 1 else b""

        with Ends() as provider:
            run = try_provider("--to", provider.address)
            self.assertEqual((run.status, run.output), (3, b""))
            self.assertEqual(provider.users["1"]["active"], False)

        class EndsAfterCreating(SmallProvider):
            def created(self, id):
                return b""

        with EndsAfterCreating() as provider:
            run = try_provider("--to", provider.address)
            self.assertEqual((run.status, run.output), (3, b""))
            self.assertEqual(provider.users["1"]["active"], False)
        run = try_provider("--to", NOWHERE)
        self.assertEqual((run.status, run.output, run.errors), (3, b"", "no connection: Connection refused\n"))

    def test_another_path_and_base(self):
        class HasAPath(DropsExtension):
            def respond(self, lines, body):
                return super().respond([lines[0].replace(" /a'b/", " /v2/"), *lines[1:]], body)

        with HasAPath(ANN) as provider:
            run = try_provider("--to", provider.address, "--base", "http://a.example/v2", "--path", "/a'b")
            options = ["--base http://a.example/v2", "--path '/a'\"'\"'b'", "--provider-keeps versions"]
            self.assertEqual((run.lines[-2], run.status), (self.use_of(provider.address, *options), 0))

    def test_the_command_line(self):
        for arguments in ([], ["--to", "127.0.0.1"], ["--to", "[::1:1"], ["--to", "a b:80"], ["--to", "a:+80"],
                          ["--to", "a:0"], ["--to", NOWHERE, "--base", "https://a/v2"], ["--t", NOWHERE]):
            with self.subTest(arguments):
                run = try_provider(*arguments)
                self.assertEqual((run.status, run.output), (2, b""))

    def test_a_run_by_its_name(self):
        command = [sys.executable, "-B", EXAMPLES / "try-provider.py", "--to", NOWHERE]
        run = subprocess.run(command, cwd=self.folder, capture_output=True, timeout=PATIENCE, check=False)
        self.assertEqual((run.returncode, run.stderr), (3, b"no connection: Connection refused\n"))
