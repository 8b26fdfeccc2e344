"""What is written is read back the same: revisions, users and groups with every attribute, rows with every field."""
from databases import compact, group_entry, make_journal, make_store, sql, user_entry, user_resource, user_text
from exchanges import (
    GROUPS, SYNTAX, USERS, VALUE, ExchangeTest, create_user, created, found, get, listed, request, user,
)
from peers import NO_HITS, Peer, answer
from support import GROUP, NOWHERE, SOURCE, USER, ProgramTest, journal_commands, scimlink, text

# Texts of revisions, their epochs and numbers, and how they are written
REVISIONS = [
    ("1", 0, 1, "1"),
    ("000000000000000007", 0, 7, "7"),
    ("2000000000", 0, 2_000_000_000, "2000000000"),
    ("0:5", 0, 5, "5"),
    ("1:1", 1, 1, "1:1"),
    ("000000000000000001:000000000000000007", 1, 7, "1:7"),
    ("999999:2000000000", 999_999, 2_000_000_000, "999999:2000000000"),
]
# Texts of no revision
NO_REVISIONS = [
    "", "0", "+1", "2000000001", "0000000000000000001", ":5", "1:", ":", "1:0", "1000000:1", "1:2000000001",
    "1:1:1", "1: 1", "1;1", "0000000000000000001:1", "1:0000000000000000001",
]
# Epochs and numbers of no revision
NO_PARTS = [(0, 0), (1, 0), (0, 2_000_000_001), (1_000_000, 1)]

ID = "5c1a0000-0000-8000-8000-000000000007"
# A user and a group with every attribute, and how they are shown as the seventh resource, at version 3
ANN = {
    "active": False,
    "emails": [{"primary": True, "type": "work", "value": "ann@example.com"}, {"value": "ann@example.org"}],
    "externalId": "1001",
    "name": {"familyName": "Lee", "givenName": "Ann"},
    "schemas": [USER, SOURCE],
    SOURCE: {"revision": 7},
    "userName": "Ann",
}
CREW = {
    "displayName": "Crew two",
    "externalId": "x",
    "members": [{"value": "b"}, {"value": "a"}],
    "schemas": [GROUP, SOURCE],
    SOURCE: {"revision": 2},
}


def shown(content, kind, version=3):
    meta = {"location": f"http://localhost:8080/v2/{kind}s/{ID}", "resourceType": kind, "version": f'"{version}"'}
    return content | {"id": ID, "meta": meta}


ANN_SHOWN, CREW_SHOWN = shown(ANN, "User"), shown(CREW, "Group")
ANN_ROW = "Ann,7,1001,Ann,Lee,ann@example.com,left"
CREW_ROW = "Crew two,1,bob ann"


class RevisionsTest(ExchangeTest):
    def write_users(self, revisions):
        """A users file with a user for each of these revisions."""
        self.site.write_users(*(f"user{place},{revision},,,,,active" for place, revision in enumerate(revisions)))

    def test_they_have_their_epochs_and_numbers(self):
        self.write_users(spelled for spelled, _, _, _ in REVISIONS)
        images = [
            user_text(f"user{place}", number, **({SOURCE: {"epoch": epoch, "revision": number}} if epoch else {}))
            for place, (_, epoch, number, _) in enumerate(REVISIONS)
        ]
        self.assert_prints(scimlink("map", self.site.users), *images)

    def test_they_are_kept_and_printed(self):
        kept = "SELECT epoch, revision, confirmed_epoch, confirmed FROM user_entry_3 ORDER BY name_key"
        written = [printed for _, _, _, printed in REVISIONS]
        self.write_users(spelled for spelled, _, _, _ in REVISIONS)
        self.assert_prints(self.site.push(NOWHERE), status=3, errors=["connection fault"])
        rows = [(epoch, number, 0, 0) for _, epoch, number, _ in REVISIONS]
        self.assertEqual(sql(self.site.journal, kept), rows)
        lines = [f"user user{place} wanted={revision} confirmed=0 id=-" for place, revision in enumerate(written)]
        self.assert_prints(self.site.show_journal(), *lines)
        # what is printed is read as the same revision
        self.write_users(written)
        confirmed = [f"user user{place} confirmed {revision}" for place, revision in enumerate(written)]
        with self.serving(2 * len(written), "--store", self.site.store) as provider:
            self.assert_prints(self.site.push(provider.address), *confirmed)
        rows = [(epoch, number, epoch, number) for _, epoch, number, _ in REVISIONS]
        self.assertEqual(sql(self.site.journal, kept), rows)
        held = [f"user user{place} held={revision} version=1 active=true" for place, revision in enumerate(written)]
        self.assert_prints(self.site.show_store(), *held)

    def test_other_spellings_are_known(self):
        schedule = self.folder / "schedule"
        for spelled, _, _, written in REVISIONS:
            with self.subTest(spelled=spelled):
                rows = [f"user bob,{revision},,,,,active" for revision in (spelled, written)]
                schedule.write_text(text(*rows))
                bob = f"user bob wanted={written} confirmed=0 held=0 version=0 active=-"
                self.assert_prints(scimlink("simulate", schedule), "1 new", "2 known", bob, status=1)

    def test_texts_of_no_revision(self):
        self.write_users(NO_REVISIONS)
        errors = [f"users record {place}: S5" for place in range(1, len(NO_REVISIONS) + 1)]
        self.assert_prints(scimlink("map", self.site.users), status=1, errors=errors)

    def test_epochs_and_numbers_of_no_revision(self):
        for epoch, number in NO_PARTS:
            source = {"epoch": epoch, "revision": number}
            self.assert_answer_alone(create_user(user("bob", **{SOURCE: source})), VALUE)
            with self.subTest(epoch=epoch, number=number):
                path = self.folder / f"journal {epoch} {number}"
                make_journal(path, [user_entry("bob", epoch=epoch, revision=number)])
                self.assert_refused(path, journal_commands(path), "journal fault J2")

    def test_confirmed_revisions(self):
        for (epoch, number), line in {(0, 0): "confirmed=0 id=b", (1, 7): "confirmed=1:7 id=b", (1, 0): None}.items():
            with self.subTest(epoch=epoch, number=number):
                path = self.folder / f"journal {epoch} {number}"
                entry = user_entry("bob", epoch=1, revision=7, confirmed_epoch=epoch, confirmed=number, id="b")
                make_journal(path, [entry])
                run = scimlink("show", "--journal", path)
                if line:
                    self.assert_prints(run, f"user bob wanted=1:7 {line}")
                else:
                    self.assert_fault(run, "journal fault J2")


class ResourcesTest(ExchangeTest):
    def assert_kept(self, path, content, content_shown, *options):
        """The seventh resource of a provider is shown as it was sent, from its creation to its second replacement."""
        kind = content_shown["meta"]["resourceType"]
        with self.serving(6 + 4, *options) as provider:
            for place in range(6):
                provider.exchange(create_user(user(f"user{place}")))
            sent = [request(line, content) for line in (f"POST {path}", f"PUT {path}/{ID}", f"PUT {path}/{ID}")]
            self.assert_answers(provider, sent[0], created(shown(content, kind, 1)))
            self.assert_answers(provider, sent[1], found(shown(content, kind, 2)))
            self.assert_answers(provider, sent[2], found(content_shown))
            self.assert_answers(provider, get(f"{path}/{ID}"), found(content_shown))

    def assert_reopened(self, path, content, content_shown, kind, key):
        """So is the one of a store, which keeps its text and its name, and is opened again."""
        store = self.folder / f"store of {key}"
        self.assert_kept(path, content, content_shown, "--store", store)
        kept = sql(store, "SELECT kind, name_key, version, content FROM resource WHERE number = 7")
        self.assertEqual(kept, [(kind, key, 3, compact(content))])
        run = scimlink("answer", "--store", store, stdin=get(f"{path}/{ID}"))
        self.assert_reports(run, 0)
        self.assertEqual(run.output, found(content_shown))

    def test_a_user_with_every_attribute(self):
        self.assert_kept(USERS, ANN, ANN_SHOWN)
        self.assert_reopened(USERS, ANN, ANN_SHOWN, 1, "ann")

    def test_a_group_with_every_attribute(self):
        self.assert_kept(GROUPS, CREW, CREW_SHOWN)
        self.assert_reopened(GROUPS, CREW, CREW_SHOWN, 2, "crew two")

    def test_an_id_with_many_digits(self):
        rows = [user_resource(number, f"user{number}") for number in range(1, 0x1F2E + 1)]
        store = make_store(self.folder / "store", rows)
        last = "5c1a0000-0000-8000-8000-000000001f2e"
        run = scimlink("answer", "--store", store, stdin=get(f"{USERS}/{last}"))
        self.assert_reports(run, 0)
        meta = {"location": f"http://localhost:8080/v2/Users/{last}", "resourceType": "User", "version": '"1"'}
        bob = user("user7982", active=True) | {"schemas": [USER, SOURCE], SOURCE: {"revision": 1}}
        self.assertEqual(run.output, found(bob | {"id": last, "meta": meta}))

    def test_a_broken_text(self):
        self.assert_answer_alone(create_user("{"), SYNTAX)
        self.assert_answer_alone(request(f"POST {GROUPS}", "{"), SYNTAX)


class AnswersTest(ProgramTest):
    """What a provider answers is read with every attribute: the id, the revision and the tag are what count."""

    def setUp(self):
        super().setUp()
        self.site.write_users(ANN_ROW)

    def pushes(self, steps, *lines, status=0):
        with Peer(steps) as peer:
            self.assert_prints(self.site.push(peer.address), *lines, status=status)
        return peer.requests

    def test_a_search(self):
        self.pushes([listed([ANN_SHOWN], 1, 1)], "user ann confirmed 7")
        self.assert_prints(self.site.show_journal(), f"user ann wanted=7 confirmed=7 id={ID}")
        # the tag that was read is the condition of a replacement
        self.site.write_users("Ann,8,,,,,left")
        later = ANN_SHOWN | {SOURCE: {"revision": 8}}
        requests = self.pushes([listed([ANN_SHOWN], 1, 1), found(later)], "user ann confirmed 8")
        self.assertEqual(requests[1][0][0], f"PUT /v2/Users/{ID} HTTP/1.1")
        self.assertIn('If-Match: "3"', requests[1][0])

    def test_a_creation(self):
        said = answer(201, compact(ANN_SHOWN).encode(), ETag='"3"')
        requests = self.pushes([NO_HITS, said], "user ann confirmed 7")
        self.assertEqual(requests[1][0][0], "POST /v2/Users HTTP/1.1")
        self.assert_prints(self.site.show_journal(), f"user ann wanted=7 confirmed=7 id={ID}")

    def test_a_broken_text(self):
        self.pushes([answer(200, b"{")] * 3, "user ann unconfirmed K2", status=1)


class RowsTest(ProgramTest):
    """Rows with every field are kept, and known when they come again."""

    def test_by_push(self):
        person = {"number": "1001", "given": "Ann", "family": "Lee", "mail": "ann@example.com", "active": 0}
        users = [user_entry("ann", login="Ann", revision=7, **person), user_entry("bob")]
        self.site.write_users(ANN_ROW, "bob,1,,,,,active")
        self.site.write_groups(CREW_ROW)
        for _ in range(2):
            self.assert_prints(self.site.push(NOWHERE), status=3, errors=["connection fault"])
            self.assertEqual(sql(self.site.journal, "SELECT * FROM user_entry_3 ORDER BY name_key"), users)
            groups = sql(self.site.journal, "SELECT * FROM group_entry_3")
            self.assertEqual(groups, [group_entry("crew two", "ann bob", name="Crew two")])

    def test_by_simulate(self):
        ann, crew = f"user {ANN_ROW}", f"group {CREW_ROW}"
        events = [ann, "user bob,1,,,,,active", crew, ann, crew]
        schedule = self.folder / "schedule"
        schedule.write_text(text(*events))
        views = [
            "user ann wanted=7 confirmed=0 held=0 version=0 active=-",
            "user bob wanted=1 confirmed=0 held=0 version=0 active=-",
            "group crew two wanted=1 confirmed=0 held=0 version=0 members=0",
        ]
        reports = ["1 new", "2 new", "3 new", "4 known", "5 known"]
        self.assert_prints(scimlink("simulate", schedule), *reports, *views, status=1)
