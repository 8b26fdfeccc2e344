"""`push --snapshot` with another journal, and beside other accounts: what it can't see (REFERENCE.md), and what then
helps (GUIDE.md)."""
import json

from example_tools import run_tool
from snapshots import SnapshotTest
from support import SOURCE, USER, Provider


class JournalTest(SnapshotTest):
    def setUp(self):
        """Two days: bob's address changes on the second. The journal of the first day is in `monday`."""
        super().setUp()
        self.users_say("login,mail", "ann,ann@x", "bob,bob@x")
        self.groups_say("name,members", "crew,ann bob")
        self.carries(6, "ann 1", "bob 1", "group crew 1")
        self.monday = self.site.journal.read_bytes()
        self.users_say("login,mail", "ann,ann@x", "bob,bob@y")
        self.groups_say("name,members", "crew,bob")
        self.carries(4, "ann 1", "bob 2", "group crew 2")
        # bob has left on the third day
        self.users_say("login,mail", "ann,ann@x")
        self.groups_say("name,members", "crew,ann")

    def holds(self, bob, crew, ann="held=1 version=1 active=true"):
        self.assert_prints(self.site.show_store(), f"user ann {ann}", f"user bob {bob}", f"group crew {crew}")

    def begins_an_epoch(self):
        """Pushes files with revisions of a higher epoch, which have the leaver, and snapshots after them."""
        snapshots = self.site.users.read_text(), self.site.groups.read_text()
        self.site.write_users("ann,1:1,,,,ann@x,active", "bob,1:1,,,,,left")
        self.site.write_groups("crew,1:1,ann")
        lines = [f"{name} confirmed 1:1" for name in ("user ann", "user bob", "group crew")]
        self.pushes(6, *lines)
        ann = "held=1:1 version=2 active=true"
        self.holds("held=1:1 version=3 active=false", "held=1:1 version=3 members=1", ann)
        self.users_say(*snapshots[0].splitlines())
        self.groups_say(*snapshots[1].splitlines())
        self.carries(0, "ann 1:1", "bob 1:1", "group crew 1:1")
        self.users_say("login,mail", "ann,ann@x", "bob,")
        self.carries(2, "ann 1:1", "bob 1:2", "group crew 1:1")

    def test_an_older_journal(self):
        for file in self.folder.glob("journal*"):
            file.unlink()
        self.site.journal.write_bytes(self.monday)
        # the connector gives these revisions a second time, so the provider shows them already
        held = "held=2 version=2 active=true", "held=2 version=2 members=1"
        self.carries(2, "ann 1", "bob 2", "group crew 2")
        self.holds(*held)
        self.assert_prints(self.site.reset(), "reset 3 records")
        self.carries(3, "ann 1", "bob 2", "group crew 2")
        self.holds(*held)
        self.begins_an_epoch()

    def test_a_lost_journal(self):
        for file in self.folder.glob("journal*"):
            file.unlink()
        with self.serving(4, "--store", self.site.store) as provider:
            run = self.site.push(provider.address, "--snapshot", "--most-leavers", "0")
            self.assert_prints(run, "user ann confirmed 1", "group crew unconfirmed C1", status=1)
        self.holds("held=2 version=2 active=true", "held=2 version=2 members=1")
        self.begins_an_epoch()

    def test_the_right_journal(self):
        self.carries(4, "ann 1", "bob 3", "group crew 3")
        self.holds("held=3 version=3 active=false", "held=3 version=3 members=1")


class AdoptedTest(SnapshotTest):
    def setUp(self):
        """A provider that has an account of bob already."""
        super().setUp()
        self.provider = Provider(100)
        self.addCleanup(self.provider.close)
        body = {"schemas": [USER], "userName": "bob", "externalId": "old"}
        self.assertEqual(self.provider.ask("POST", "/v2/Users", json.dumps(body)).status, 201)
        self.site.write_users("bob,2,1002,,,,active")

    def adopts(self, status, line):
        run = run_tool("adopt.py", "--users", self.site.users, "--to", self.provider.address)
        self.assertEqual((run.status, run.output.decode()), (status, f"{line}\n" if line else ""))

    def pushes_to_it(self, line, *options, status=0):
        self.assert_prints(self.site.push(self.provider.address, *options), line, status=status)

    def account(self):
        """Bob's number, whether his account is on, and its revision."""
        shown, = self.provider.ask("GET", "/v2/Users").content["Resources"]
        return shown.get("externalId"), shown.get("active", True), shown.get(SOURCE, {}).get("revision")

    def snapshot(self, line, *lines, status=0):
        self.users_say("login,number", *lines)
        self.pushes_to_it(line, "--snapshot", "--most-leavers", "1", status=status)

    def test_an_account_that_was_not_adopted(self):
        self.snapshot("user bob unconfirmed C1", "bob,1002", status=1)
        self.assertEqual(self.account(), ("old", True, None))
        self.adopts(1, "")

    def test_a_snapshot_after_the_adoption(self):
        """The provider already shows the first revision of the snapshot."""
        self.adopts(0, "bob adopted at revision 1")
        self.snapshot("user bob confirmed 1", "bob,1002")
        self.assertEqual(self.account(), ("old", True, 1))
        self.snapshot("user bob confirmed 2", "bob,1003")
        self.assertEqual(self.account(), ("1003", True, 2))

    def test_a_file_with_revisions_after_the_adoption(self):
        self.adopts(0, "bob adopted at revision 1")
        self.pushes_to_it("user bob confirmed 2")
        self.assertEqual(self.account(), ("1002", True, 2))
        self.snapshot("user bob confirmed 2", "bob,1002")
        self.users_say("login,number", "ann,1001")
        run = self.site.push(self.provider.address, "--snapshot", "--most-leavers", "1")
        self.assert_prints(run, "user ann confirmed 1", "user bob confirmed 3")
        listed = self.provider.ask("GET", "/v2/Users").content["Resources"]
        self.assertEqual({it["userName"]: it["active"] for it in listed}, {"ann": True, "bob": False})
