"""`check`: what a provider has, beside what the journal wants. It changes nothing."""
import concurrent.futures
import json
import socket

from databases import OLDER_FORMS, group_entry, make_journal, make_store, user_entry
from exchanges import ERROR
from peers import NO_HITS, Peer, answer, asked, hits, read_request, user
from support import NOWHERE, PATIENCE, contents, full_disk, resource_id, scimlink, text
from test_push import PushTest

OLDER = "journal fault: it is of an older format, and this command changes nothing"
FIND_ANN, FIND_BOB = (f"GET /v2/Users?filter=userName+eq+%22{name}%22 HTTP/1.1" for name in ("ann", "bob"))
FIND_CREW = "GET /v2/Groups?filter=displayName+eq+%22crew%22 HTTP/1.1"
ANN_THERE = user_entry("ann", confirmed=1, id=resource_id(1))


def counts(checked, differing=0, unchecked=0):
    return f"checked {checked}, differing {differing}, unchecked {unchecked}"


class CheckTest(PushTest):
    def gather(self):
        """Ann and Bob have joined, and are members of a group."""
        self.join()
        self.site.write_groups("crew,1,ann bob")
        self.pushes(2, "user ann confirmed 1", "user bob confirmed 1", "group crew confirmed 1")

    def check(self, to, *options, **more):
        return scimlink("check", "--journal", self.site.journal, "--to", to, *options, **more)

    def assert_checks(self, to, *lines, status=1, errors=(), options=()):
        """A check that prints these lines, and leaves the journal as it is."""
        before = self.site.journal.read_bytes()
        run = self.check(to, *options)
        self.assert_prints(run, *lines, status=status, errors=errors)
        self.assertEqual(self.site.journal.read_bytes(), before)
        return run

    def checks(self, searches, *lines, status=1, options=(), changed=()):
        """A check of what a provider over the store has, after somebody replaced parts of these resources by hand. The
        store keeps what it has."""
        if changed:
            with self.serving(2 * len(changed), "--store", self.site.store) as provider:
                for path, parts in changed:
                    self.change(provider, path, parts)
        before = contents(self.site.store)[1]
        with self.serving(searches, "--store", self.site.store) as provider:
            self.assert_checks(provider.address, *lines, status=status, options=options)
        self.assertEqual(contents(self.site.store)[1], before)

    def change(self, provider, path, parts):
        """Somebody reads a resource, and replaces the version that was read."""
        shown = provider.ask("GET", path).content
        body = json.dumps({name: value for name, value in shown.items() if name != "id"} | parts)
        self.assertEqual(provider.ask("PUT", path, body, If_Match=shown["meta"]["version"]).status, 200)

    def meets(self, steps, *lines, status=1, said=(), options=()):
        """A check of what a provider by script answers: the first lines of the requests that it gets. `said` is why records
        are unchecked."""
        with Peer(steps) as peer:
            run = self.assert_checks(peer.address, *lines, status=status, options=options)
        self.assertEqual(run.errors, text(*said))
        return asked(peer.requests)


ANN, BOB, CREW = f"/v2/Users/{resource_id(1)}", f"/v2/Users/{resource_id(2)}", f"/v2/Groups/{resource_id(3)}"


class StoreTest(CheckTest):
    def test_in_step(self):
        self.gather()
        self.checks(3, counts(3), status=0)

    def test_a_leaver_who_is_switched_on(self):
        self.leave()
        self.checks(2, "user bob active: true, wanted false", counts(2, 1), changed=[(BOB, {"active": True})])

    def test_a_change_that_a_higher_revision_undoes(self):
        self.leave()
        self.checks(2, "user bob active: true, wanted false", counts(2, 1), changed=[(BOB, {"active": True})])
        self.site.write_users("bob,3,,,,,left")
        self.pushes(2, "user ann confirmed 1", "user bob confirmed 3")
        self.checks(2, counts(2), status=0)

    def test_somebody_who_is_switched_off(self):
        self.join()
        self.checks(2, "user ann active: false, wanted true", counts(2, 1), changed=[(ANN, {"active": False})])

    def test_texts(self):
        header = "login,revision,number,given,family,mail,status,department"
        self.site.write_users("ann,1,1001,Ann,Ray,ann@x,active,Sales", header=header)
        self.pushes(2, "user ann confirmed 1")
        self.checks(1, counts(1), status=0)
        enterprise = "urn:ietf:params:scim:schemas:extension:enterprise:2.0:User"
        parts = {"userName": "Ann", "name": {"familyName": "Räy"}, "externalId": "1002", enterprise: {"department": "IT"}}
        parts |= {"emails": [{"value": "ann@y", "type": "home"}, {"value": "ann@x", "primary": True}]}
        line = ['user ann userName: "Ann", wanted "ann"', 'givenName: none, wanted "Ann"']
        line += ['familyName: "R\\xC3\\xA4y", wanted "Ray"', 'externalId: "1002", wanted "1001"']
        line += ['department: "IT", wanted "Sales"']
        line += ['emails: "ann@y" home and "ann@x" primary, wanted "ann@x" work primary']
        self.checks(1, "; ".join(line), counts(1, 1), changed=[(ANN, parts)])

    def test_members(self):
        self.gather()
        members = [{"value": value} for value in (resource_id(2), "8", "9")]
        line = "group crew members: 1 missing, 2 more"
        self.checks(3, line, counts(3, 1), changed=[(CREW, {"members": members})])

    def test_the_order_of_members(self):
        self.gather()
        members = [{"value": resource_id(number)} for number in (2, 1)]
        self.checks(3, counts(3), status=0, changed=[(CREW, {"members": members})])

    def test_the_name_of_a_group(self):
        self.gather()
        parts = {"displayName": "Crew", "externalId": "7"}
        line = 'group crew displayName: "Crew", wanted "crew"; externalId: "7", wanted none'
        self.checks(3, line, counts(3, 1), changed=[(CREW, parts)])

    def test_a_fresh_store(self):
        self.join()
        for path in self.folder.glob("store*"):
            path.unlink()
        make_store(self.site.store)
        self.checks(2, "user ann: gone", "user bob: gone", counts(2, 2))

    def test_revisions(self):
        self.leave()
        known = {"confirmed": 1, "id": resource_id(2)}
        for revision, said in ((1, "bob: revision 2, above the wanted 1"), (3, "bob revision: 2, wanted 3")):
            self.site.journal.unlink()
            make_journal(self.site.journal, [ANN_THERE, user_entry("bob", revision=revision, active=int(revision == 1), **known)])
            self.checks(2, f"user {said}", counts(2, 1))

    def test_a_resource_without_a_revision(self):
        self.join()
        source = "urn:example:params:scim:schemas:extension:source:1.0"
        self.checks(2, "user ann revision: none, wanted 1", counts(2, 1), changed=[(ANN, {source: None})])

    def test_quiet(self):
        self.leave()
        changed = [(ANN, {"userName": "Ann"}), (BOB, {"active": True, "userName": "Bob"})]
        line = 'user bob active: true, wanted false; userName: "Bob", wanted "bob"'
        self.checks(2, line, counts(2, 2), changed=changed, options=["--quiet"])


class FilesTest(CheckTest):
    """What a push of files would want is compared, and the journal stays as it is."""

    def files(self):
        return [str(word) for word in self.site.source_options()]

    def test_rows_that_were_not_pushed(self):
        self.join()
        self.site.write_users("bob,2,,,,,left", "ann,1,,,,,active", "cid,1,,,,,active")
        bob = "user bob active: true, wanted false; revision: 1, wanted 2"
        self.checks(3, bob, "user cid: gone", counts(3, 2), options=self.files())
        self.checks(2, counts(2), status=0)

    def test_a_group_that_was_not_pushed(self):
        self.join()
        self.site.write_groups("crew,1,ann bob")
        self.checks(3, "group crew: gone", counts(3, 1), options=self.files())

    def test_rows_that_were_pushed(self):
        self.gather()
        self.checks(3, counts(3), status=0, options=self.files())

    def test_a_rejected_row(self):
        self.join()
        self.site.write_users("bob,1,,,,,left", "ann,1,,,,,active")
        with self.serving(2, "--store", self.site.store) as provider:
            run = self.check(provider.address, *self.files())
        self.assert_prints(run, counts(2), status=1, errors=["users record 1: S7"])

    def test_files(self):
        make_journal(self.site.journal, [ANN_THERE])
        for options in self.site.unreadable_sources():
            self.assert_fault(self.check(NOWHERE, *options), "file fault")
        self.site.write_groups("crew,1,ann")
        self.assertEqual(self.check(NOWHERE, "--groups", self.site.groups).status, 2)


class SlowPeer:
    """A provider that answers its first requests when this many have come, and each later one as it comes."""

    def __init__(self, together, said, requests):
        self.together, self.said, self.requests, self.most = together, said, requests, 0
        self.listener = socket.create_server(("127.0.0.1", 0))
        self.listener.settimeout(PATIENCE)
        self.address = f"127.0.0.1:{self.listener.getsockname()[1]}"
        self.pool = concurrent.futures.ThreadPoolExecutor(1)

    def __enter__(self):
        self.conversation = self.pool.submit(self.converse)
        return self

    def __exit__(self, *_):
        with self.pool, self.listener:
            self.conversation.result(PATIENCE)

    def converse(self):
        waiting = []
        for _ in range(self.requests):
            stream, _ = self.listener.accept()
            read_request(stream)
            waiting.append(stream)
            self.most = max(self.most, len(waiting))
            if self.most == self.together:
                self.answer(waiting)
        self.answer(waiting)

    def answer(self, waiting):
        while waiting:
            with waiting.pop(0) as stream:
                stream.sendall(self.said)


class PeerTest(CheckTest):
    def test_only_searches(self):
        users = [user_entry("ann", revision=2), user_entry("bob", active=0, revision=3, confirmed=1, id="7")]
        make_journal(self.site.journal, users, [group_entry("crew", "bob", confirmed=1, id="3")])
        lines = ["user ann: gone", "user bob active: true, wanted false; revision: 1, wanted 3", "group crew: gone"]
        requests = self.meets([NO_HITS, hits(user("bob", 1) | {"active": True}), NO_HITS], *lines, counts(3, 3))
        self.assertEqual(requests, [FIND_ANN, FIND_BOB, FIND_CREW])

    def test_ids(self):
        make_journal(self.site.journal, [user_entry("ann", confirmed=1, id="4"), user_entry("bob")])
        shown = [hits(user(name, 1, number="9") | {"active": True}) for name in ("ann", "bob")]
        self.meets(shown, "user ann id: 9, known 4", "user bob id: 9, known none", counts(2, 2))

    def test_unchecked(self):
        make_journal(self.site.journal, [ANN_THERE, user_entry("bob")])
        said = [
            (answer(503, {"schemas": [ERROR], "status": "503", "detail": "too much"}), "C4", '503, "too much"'),
            (b"", "H10", "the connection ended before an answer"),
            (b"no response\r\n\r\n", "K1", r'not one HTTP response: "no response\x0D\x0A\x0D\x0A"'),
            (hits(user("bob", 1), user("bob", 1)), "C1", "2 found, 2 listed"),
            (hits(user("zoe", 1)), "C1", 'another name, "zoe"'),
        ]
        for answered, code, words in said:
            with self.subTest(code=code, words=words):
                lines = [f"user {name}: unchecked {code}" for name in ("ann", "bob")]
                why = [f"user {name}: {words}" for name in ("ann", "bob")]
                asked_for = self.meets([answered] * 2, *lines, counts(0, 0, 2), said=why)
                self.assertEqual(asked_for, [FIND_ANN, FIND_BOB])
                self.meets([answered] * 2, *lines, counts(0, 0, 2), said=why, options=["--quiet"])

    def test_a_group_that_waits(self):
        make_journal(self.site.journal, [user_entry("ann")], [group_entry("crew", "ann")])
        lines = ["user ann: gone", "group crew: unchecked waits ann", counts(1, 1, 1)]
        self.assertEqual(self.meets([NO_HITS], *lines), [FIND_ANN])

    def test_streams(self):
        """Searches are sent before the first answer comes, as many as the option says, and lines keep their order."""
        names = ["ann", "bob", "cid", "dee"]
        make_journal(self.site.journal, [user_entry(name) for name in names])
        lines = [*(f"user {name}: gone" for name in names), counts(4, 4)]
        with SlowPeer(3, NO_HITS, len(names)) as peer:
            self.assert_checks(peer.address, *lines, options=["--streams", "3"])
        self.assertEqual(peer.most, 3)

    def test_no_record(self):
        make_journal(self.site.journal)
        self.assert_checks(NOWHERE, counts(0), status=0)


class FaultTest(CheckTest):
    def test_no_provider(self):
        make_journal(self.site.journal, [ANN_THERE])
        self.assert_checks(NOWHERE, status=3, errors=["connection fault"])

    def test_a_journal_that_is_not_there(self):
        self.assert_fault(self.check(NOWHERE), "file fault")
        self.assertFalse(self.site.journal.exists())

    def test_an_older_format(self):
        for form in OLDER_FORMS:
            make_journal(self.site.journal, [user_entry("bob")], form=form)
            self.assert_checks(NOWHERE, status=3, errors=[OLDER])
            self.site.journal.unlink()

    def test_a_file_that_is_no_journal(self):
        self.site.journal.write_bytes(b"no database" * 100)
        self.assert_checks(NOWHERE, status=3, errors=["journal fault J1"])

    def test_an_output_that_is_full(self):
        make_journal(self.site.journal, [])
        with full_disk() as full:
            self.assert_reports(self.check(NOWHERE, stdout=full), 3, "file fault")

    def test_arguments(self):
        for to in ("x", "localhost:0", ""):
            run = self.check(to)
            self.assert_prints(run, status=2, errors=["error: --to is HOST:PORT, such as localhost:8080"])
        for count in ("0", "65"):
            self.assert_prints(self.check(NOWHERE, "--streams", count), status=2, errors=["error: --streams is 1 to 64"])
        for words in (["--journal", "j"], ["--to", NOWHERE], ["--journal", "j", "--to", NOWHERE, "--plan"]):
            self.assertEqual(scimlink("check", *words).status, 2)
