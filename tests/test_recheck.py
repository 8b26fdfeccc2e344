"""`push --recheck`: what the provider has of confirmed records is compared first, and what differs is put right."""
import json

from databases import compact, department_text, group_entry, make_journal, make_store, sql, user_entry, user_resource
from peers import NO_HITS, Peer, answer, asked, hits, user
from support import DEPARTMENTS_HEADER, ENTERPRISE, GROUP, NOWHERE, SOURCE, USER, contents, resource_id, scimlink, text
from test_check import ANN, ANN_THERE, BOB, CREW, FIND_ANN, FIND_BOB, CheckTest, counts
from test_push import ANN_CONFIRMED, ANN_HELD, BOB_CONFIRMED, BOB_LEFT
from test_threshold import excess

BOB_CONFIRMED_2, CREW_CONFIRMED = "user bob confirmed 2", "group crew confirmed 1"
BOB_ON = "user bob active: true, wanted false"
PUT_BOB = "PUT /v2/Users/7 HTTP/1.1"


class RecheckTest(CheckTest):
    def assert_said(self, run, *lines, status=0, errors=()):
        """The run ended with this status, and printed exactly these lines, and these on standard error."""
        self.assertEqual((run.output.decode(), run.errors, run.status), (text(*lines), text(*errors), status))

    def rechecks(self, exchanges, *lines, errors=(), status=0, options=()):
        """A push with a recheck has this many exchanges with a provider over the store."""
        with self.serving(exchanges, "--store", self.site.store) as provider:
            run = self.site.push(provider.address, "--recheck", *options)
        self.assert_said(run, *lines, status=status, errors=errors)

    def changes(self, *changed):
        """Somebody replaces parts of these resources by hand."""
        with self.serving(2 * len(changed), "--store", self.site.store) as provider:
            for path, parts in changed:
                self.change(provider, path, parts)

    def heals(self, records, more, *lines, found):
        """A check finds that these records differ. A recheck puts them right by so many more exchanges than one for each
        record, and the next changes nothing."""
        self.checks(records, *found, counts(records, len(found)))
        self.rechecks(records + more, *lines, errors=found)
        self.is_quiet(records, *lines)

    def is_quiet(self, records, *lines):
        """A recheck asks once about each record, and changes nothing."""
        store, journal = contents(self.site.store)[1], contents(self.site.journal)[1]
        self.rechecks(records, *lines)
        self.assertEqual((contents(self.site.store)[1], contents(self.site.journal)[1]), (store, journal))
        self.checks(records, counts(records), status=0)

    def replace_store(self, *resources):
        """The provider's store is another, with these resources."""
        for path in self.folder.glob("store*"):
            path.unlink()
        make_store(self.site.store, resources)

    def meets_recheck(self, steps, *lines, errors=(), status=0, options=()):
        """A push with a recheck to a provider by script: the first lines of the requests that it gets."""
        with Peer(steps) as peer:
            self.assert_said(self.site.push(peer.address, "--recheck", *options), *lines, errors=errors, status=status)
        return asked(peer.requests)


class HealingTest(RecheckTest):
    def test_in_step(self):
        self.gather()
        self.is_quiet(3, ANN_CONFIRMED, BOB_CONFIRMED, CREW_CONFIRMED)

    def test_a_leaver_who_is_switched_on(self):
        self.leave()
        self.changes((BOB, {"active": True}))
        self.pushes(0, ANN_CONFIRMED, BOB_CONFIRMED_2)
        self.heals(2, 2, ANN_CONFIRMED, BOB_CONFIRMED_2, found=[BOB_ON])
        self.assert_prints(self.site.show_store(), ANN_HELD, "user bob held=2 version=4 active=false")

    def test_a_department(self):
        self.site.write_users("ann,1,,,,,active,Sales", header=DEPARTMENTS_HEADER)
        self.pushes(2, ANN_CONFIRMED)
        self.changes((ANN, {ENTERPRISE: {"department": "IT"}}))
        self.heals(1, 2, ANN_CONFIRMED, found=['user ann department: "IT", wanted "Sales"'])
        shown = json.loads(department_text("ann", 1, "Sales"))
        with self.serving(1, "--store", self.site.store) as provider:
            found = provider.ask("GET", ANN).content
        self.assertEqual({name: found[name] for name in shown}, shown)

    def test_a_member(self):
        self.gather()
        self.changes((CREW, {"members": [{"value": resource_id(2)}]}))
        lines = [ANN_CONFIRMED, BOB_CONFIRMED, CREW_CONFIRMED]
        self.heals(3, 2, *lines, found=["group crew members: 1 missing, 0 more"])

    def test_a_deleted_account(self):
        """It is created again under another id, which the group has afterwards. Somebody else has its row in the store."""
        self.gather()
        _, *others = sql(self.site.store, "SELECT * FROM resource")
        self.replace_store(user_resource(1, "zed"), *others)
        lines = [ANN_CONFIRMED, BOB_CONFIRMED, CREW_CONFIRMED]
        self.heals(3, 4, *lines, found=["user ann: gone"])
        with self.serving(1, "--store", self.site.store) as provider:
            members = provider.ask("GET", CREW).content["members"]
        self.assertEqual({member["value"] for member in members}, {resource_id(2), resource_id(4)})

    def test_a_fresh_store(self):
        self.gather()
        self.replace_store()
        found = ["user ann: gone", "user bob: gone", "group crew: gone"]
        self.heals(3, 6, ANN_CONFIRMED, BOB_CONFIRMED, CREW_CONFIRMED, found=found)

    def test_a_restored_store(self):
        self.join()
        saved = {path: path.read_bytes() for path in self.folder.glob("store*")}
        self.site.write_users("bob,2,,,,,left", "ann,1,,,,,active")
        self.pushes(2, ANN_CONFIRMED, BOB_CONFIRMED_2)
        for path in self.folder.glob("store*"):
            path.unlink()
        for path, held in saved.items():
            path.write_bytes(held)
        self.heals(2, 2, ANN_CONFIRMED, BOB_CONFIRMED_2, found=[f"{BOB_ON}; revision: 1, wanted 2"])
        self.assert_prints(self.site.show_store(), ANN_HELD, BOB_LEFT)

    def test_a_lost_journal(self):
        """The push after the loss confirms records by their revisions alone. A recheck compares them."""
        self.leave()
        self.changes((BOB, {"active": True}))
        self.site.journal.unlink()
        self.rechecks(2, ANN_CONFIRMED, BOB_CONFIRMED_2)
        self.heals(2, 2, ANN_CONFIRMED, BOB_CONFIRMED_2, found=[BOB_ON])

    def test_accounts_of_its_own(self):
        """A provider had 50 accounts before, which others wrote without revisions. The first push names them, and puts
        them into the journal. The next takes them over."""
        names = [f"u{number:02}" for number in range(50)]
        accounts = enumerate(names, 1)
        self.replace_store(*(user_resource(number, name, content=self.own_text(name)) for number, name in accounts))
        self.site.write_users(*(f"{name},1,,,,,active" for name in names))
        self.pushes(150, *(f"user {name} unconfirmed C1" for name in names), status=1)
        confirmed = [f"user {name} confirmed 1" for name in names]
        differs = "active: false, wanted true; revision: none, wanted 1; id:"
        found = [f"user {name} {differs} {resource_id(number)}, known none" for number, name in enumerate(names, 1)]
        self.checks(50, *found, counts(50, 50))
        self.rechecks(100, *confirmed)
        self.is_quiet(50, *confirmed)

    def own_text(self, name):
        """The text of a user whom somebody else made, and switched off."""
        return compact({"schemas": [USER], "userName": name, "active": False})

    def test_streams(self):
        names = [f"u{number}" for number in range(8)]
        self.site.write_users(*(f"{name},1,,,,,active" for name in names))
        confirmed = [f"user {name} confirmed 1" for name in names]
        self.pushes(16, *confirmed)
        changed = [(f"/v2/Users/{resource_id(number)}", {"active": False}) for number in (2, 3, 7)]
        self.changes(*changed)
        found = [f"user {names[number - 1]} active: false, wanted true" for number in (2, 3, 7)]
        self.rechecks(14, *confirmed, errors=found, options=["--streams", "4"])
        self.is_quiet(8, *confirmed)


class PeerTest(RecheckTest):
    def keep_bob(self, **more):
        """Bob has left, and that is confirmed."""
        make_journal(self.site.journal, [user_entry("bob", revision=2, active=0, confirmed=2, id="7", **more)])
        self.site.write_users("bob,2,,,,,left")

    def bob(self, **parts):
        return hits(user("bob", 2) | {"active": False} | parts)

    def test_one_exchange_and_no_change(self):
        self.keep_bob()
        self.assertEqual(self.meets_recheck([self.bob()], BOB_CONFIRMED_2), [FIND_BOB])

    def test_what_differs_is_replaced_under_its_tag(self):
        self.keep_bob()
        on = self.bob(active=True)
        put = answer(200, user("bob", 2, version='"v2"') | {"active": False})
        requests = self.meets_recheck([on, on, put], BOB_CONFIRMED_2, errors=[BOB_ON])
        self.assertEqual(requests, [FIND_BOB, FIND_BOB, PUT_BOB])

    def test_a_replacement_that_is_refused(self):
        """The record isn't confirmed, though its revision was."""
        self.keep_bob()
        on = self.bob(active=True)
        steps, lines = [on, on, answer(500), answer(500)], ["user bob unconfirmed C4"]
        requests = self.meets_recheck(steps, *lines, errors=[BOB_ON, "user bob: 500"], status=1)
        self.assertEqual(requests, [FIND_BOB, FIND_BOB, PUT_BOB, PUT_BOB])

    def test_another_id(self):
        self.keep_bob()
        shown = self.bob(id="9")
        requests = self.meets_recheck([shown, shown], BOB_CONFIRMED_2, errors=["user bob id: 9, known 7"])
        self.assertEqual(requests, [FIND_BOB, FIND_BOB])
        self.assertEqual(self.meets_recheck([shown], BOB_CONFIRMED_2), [FIND_BOB])

    def test_a_revision_above_the_wanted_one(self):
        self.keep_bob()
        above = hits(user("bob", 7))
        found = ["user bob: revision 7, above the wanted 2", "user bob: revision 7 is above the wanted 2"]
        requests = self.meets_recheck([above] * 4, "user bob unconfirmed C1", errors=found, status=1)
        self.assertEqual(requests, [FIND_BOB] * 4)

    def test_an_answer_that_says_nothing(self):
        """The record is doubted, and push asks again."""
        self.keep_bob()
        requests = self.meets_recheck([answer(500), self.bob()], BOB_CONFIRMED_2, errors=["user bob: unchecked C4", "user bob: 500"])
        self.assertEqual(requests, [FIND_BOB] * 2)

    def test_a_record_that_is_not_confirmed(self):
        """It isn't confirmed by its revision alone, but compared."""
        make_journal(self.site.journal, [user_entry("bob", revision=2, active=0)])
        self.site.write_users("bob,2,,,,,left")
        put = answer(200, user("bob", 2, version='"v2"') | {"active": False})
        self.assertEqual(self.meets_recheck([self.bob(active=True), put], BOB_CONFIRMED_2), [FIND_BOB, PUT_BOB])

    def test_a_group_whose_member_is_gone(self):
        """The member gets another id, so the group is read again, though it is as it was."""
        entries = [user_entry("ann", confirmed=1, id="4")], [group_entry("crew", "ann", confirmed=1, id="3")]
        make_journal(self.site.journal, *entries)
        self.site.write_users()
        crew = {"schemas": [GROUP], "id": "3", "displayName": "crew", "meta": {"version": '"g1"'}, SOURCE: {"revision": 1}}
        before, after = (crew | {"members": [{"value": member}]} for member in ("4", "5"))
        ann = user("ann", 1, number="5") | {"active": True}
        steps = [NO_HITS, hits(before), NO_HITS, answer(201, ann), hits(before), answer(200, after)]
        requests = self.meets_recheck(steps, ANN_CONFIRMED, CREW_CONFIRMED, errors=["user ann: gone"])
        self.assertEqual([line.split(" ")[0] for line in requests], ["GET", "GET", "GET", "POST", "GET", "PUT"])


class LimitTest(RecheckTest):
    def test_the_leavers_of_a_recheck(self):
        self.leave()
        self.changes((BOB, {"active": True}))
        self.rechecks(2, errors=[BOB_ON, excess(1, 0)], status=1, options=["--most-leavers", "0"])
        options = ["--most-leavers", "1"]
        self.rechecks(4, ANN_CONFIRMED, BOB_CONFIRMED_2, errors=[BOB_ON], options=options)
        self.rechecks(2, ANN_CONFIRMED, BOB_CONFIRMED_2, options=["--most-leavers", "0"])

    def test_the_leavers_of_both(self):
        self.leave()
        self.changes((BOB, {"active": True}))
        self.site.write_users("bob,2,,,,,left", "ann,2,,,,,left")
        self.rechecks(2, errors=[BOB_ON, excess(2, 1)], status=1, options=["--most-leavers", "1"])
        options = ["--most-leavers", "2"]
        self.rechecks(6, "user ann confirmed 2", BOB_CONFIRMED_2, errors=[BOB_ON], options=options)

    def test_other_differences_switch_nobody_off(self):
        self.join()
        self.changes((ANN, {"active": False}), (BOB, {"userName": "Bob"}))
        found = ["user ann active: false, wanted true", 'user bob userName: "Bob", wanted "bob"']
        self.rechecks(6, ANN_CONFIRMED, BOB_CONFIRMED, errors=found, options=["--most-leavers", "0"])


class ManyWaysTest(RecheckTest):
    def test_quiet(self):
        self.leave()
        self.changes((ANN, {"userName": "Ann"}), (BOB, {"active": True}))
        self.rechecks(6, "2 confirmed, 0 unconfirmed, 0 rejected", errors=[BOB_ON], options=["--quiet"])
        self.checks(2, counts(2), status=0)

    def test_a_snapshot(self):
        self.site.users.write_text("login,number,given,family,mail,status\nann,,,,,active\nbob,,,,,active\n")
        options = ["--snapshot", "--most-leavers", "0"]
        self.pushes(4, ANN_CONFIRMED, BOB_CONFIRMED, options=options)
        self.changes((ANN, {"active": False}))
        found = ["user ann active: false, wanted true"]
        self.rechecks(4, ANN_CONFIRMED, BOB_CONFIRMED, errors=found, options=options)

    def test_a_new_row(self):
        """A row that comes with the recheck is carried as ever: what differs is compared with it."""
        self.join()
        self.changes((BOB, {"userName": "Bob"}))
        self.site.write_users("bob,2,,,,,left", "ann,1,,,,,active")
        found = ['user bob userName: "Bob", wanted "bob"']
        self.rechecks(4, ANN_CONFIRMED, BOB_CONFIRMED_2, errors=found)
        self.is_quiet(2, ANN_CONFIRMED, BOB_CONFIRMED_2)

    def test_no_provider(self):
        make_journal(self.site.journal, [ANN_THERE])
        self.site.write_users("ann,1,,,,,active")
        before = contents(self.site.journal)[1]
        self.assert_reports(self.site.push(NOWHERE, "--recheck"), 3, "connection fault")
        self.assertEqual(contents(self.site.journal)[1], before)

    def test_a_plan_has_no_recheck(self):
        words = [*self.site.source_options(), "--journal", self.site.journal]
        run = scimlink("push", *words, "--plan", "--recheck")
        self.assertEqual((run.status, run.output), (2, b""))
