"""`push --quiet`: the records that aren't confirmed, and the counts."""
from databases import make_journal, user_entry
from peers import NO_HITS, TAKEN, PeerTest, hits, user
from support import NOWHERE, full_disk, resource_id, writes_of
from test_push import PushTest

QUIET = ["--quiet"]


class QuietTest(PushTest):
    def test_all_are_confirmed(self):
        self.site.write_users("bob,1,,,,,active", "ann,1,,,,,active")
        self.pushes(4, "2 confirmed, 0 unconfirmed, 0 rejected", options=QUIET)
        self.pushes(0, "2 confirmed, 0 unconfirmed, 0 rejected", options=QUIET)

    def test_no_record(self):
        self.site.write_users()
        self.pushes(0, "0 confirmed, 0 unconfirmed, 0 rejected", options=QUIET)

    def test_epochs(self):
        make_journal(self.site.journal, [user_entry("bob", epoch=1, confirmed_epoch=1, confirmed=1, id=resource_id(1))])
        self.site.write_users("bob,1:1,,,,,active")
        self.pushes(0, "user bob confirmed 1:1")
        self.pushes(0, "1 confirmed, 0 unconfirmed, 0 rejected", options=QUIET)

    def test_rejected_rows(self):
        self.join()
        # records that are no rows; a row that the connector refuses; an older row, which isn't rejected
        self.site.write_users("bob,x,,,,,active", "ann,1,,,,,left", "cid,1", "bob,1,,,,,active")
        self.site.write_groups("crew,1,zoe")
        errors = ["users record 1: S5", "users record 3: S2", "users record 2: S7", "groups record 1: S8 zoe"]
        self.pushes(0, "2 confirmed, 0 unconfirmed, 4 rejected", status=1, errors=errors, options=QUIET)

    def test_a_run_that_a_fault_ends_has_no_counts(self):
        self.site.write_users("bob,1,,,,,active")
        self.assert_prints(self.site.push(NOWHERE, *QUIET), status=3, errors=["connection fault"])

    def test_counts_that_cannot_be_written(self):
        self.join()
        with full_disk() as output:
            self.assert_reports(self.site.push(NOWHERE, *QUIET, stdout=output), 3, "file fault")


class UnconfirmedTest(PeerTest):
    def test_unconfirmed_records(self):
        self.site.write_users("ann,1,,,,,active", "bob,1,,,,,active")
        self.site.write_groups("crew,1,bob")
        steps = [hits(user("ann", 1)), NO_HITS, TAKEN, NO_HITS]
        lines = ["user bob unconfirmed -", "group crew unconfirmed waits bob", "1 confirmed, 2 unconfirmed, 0 rejected"]
        self.meets(steps, *lines, status=1, options=QUIET)
        # the same run without the word
        self.site.journal.unlink()
        self.meets(steps, "user ann confirmed 1", *lines[:2], status=1)


class PlainTest(PushTest):
    def test_each_line_is_one_write(self):
        self.join()
        self.assertEqual(
            writes_of(*self.site.push_command(NOWHERE), *QUIET), ["2 confirmed, 0 unconfirmed, 0 rejected\n"],
        )
