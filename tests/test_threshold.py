"""`push --most-leavers`: a push that would switch off too many users does nothing."""
from databases import make_journal, user_entry
from support import NOWHERE, resource_id
from test_push import PushTest


def excess(count, most):
    return f"{count} user{'s' if count != 1 else ''} would be switched off, more than {most}: nothing was done"


class ThresholdTest(PushTest):
    def keep(self, *entries):
        """A journal with these users, each with an id of its own."""
        make_journal(self.site.journal, [
            user_entry(name, id=resource_id(number), **more) for number, (name, more) in enumerate(entries, 1)
        ])

    def keep_active(self, *names):
        """A journal in which revision 1 of these users is confirmed, and says that they are active."""
        self.keep(*((name, {"confirmed": 1}) for name in names))

    def is_stopped(self, count, most):
        """A push reports this excess, asks nothing, and leaves all files as they are."""
        before = self.site.files()
        self.pushes(0, status=1, errors=[excess(count, most)], options=["--most-leavers", str(most)])
        self.assertEqual(self.site.files(), before)

    def goes_on(self, most):
        """A push within the limit tries to reach the provider."""
        self.assert_reports(self.site.push(NOWHERE, "--most-leavers", str(most)), 3, "connection fault")


class LimitTest(ThresholdTest):
    def test_one_more_than_the_limit(self):
        self.keep_active("ann", "bob", "cid")
        self.site.write_users("ann,2,,,,,left", "bob,2,,,,,left", "cid,1,,,,,active")
        self.is_stopped(2, 1)
        self.goes_on(2)

    def test_no_leaver_at_all(self):
        self.keep_active("ann", "bob")
        self.site.write_users("ann,2,,,,,left", "bob,1,,,,,active")
        self.is_stopped(1, 0)
        self.site.write_users("ann,2,,,,,active", "bob,1,,,,,active")
        self.goes_on(0)

    def test_a_whole_run(self):
        self.join()
        self.site.write_users("bob,2,,,,,left", "ann,1,,,,,active")
        self.is_stopped(1, 0)
        self.pushes(2, "user ann confirmed 1", "user bob confirmed 2", options=["--most-leavers", "1"])
        self.assert_prints(self.site.show_store(), "user ann held=1 version=1 active=true", "user bob held=2 version=2 active=false")
        # who is off already isn't switched off again
        self.pushes(0, "user ann confirmed 1", "user bob confirmed 2", options=["--most-leavers", "0"])

    def test_the_last_row_of_a_long_file(self):
        """The file has more than 16 MiB, and its last row says that Bob left."""
        self.keep_active("bob")
        more = ",".join(["x" * 256] * 3)
        rows = (f"{number:0128},1,{more},,active" for number in range(2**24 // 900))
        self.site.write_users(*rows, "bob,2,,,,,left")
        self.assertGreater(self.site.users.stat().st_size, 2**24)
        self.is_stopped(1, 0)

    def test_a_journal_that_is_not_there(self):
        self.site.write_users("bob,1,,,,,left")
        self.goes_on(0)


class CountTest(ThresholdTest):
    def test_users_who_are_off_already(self):
        self.keep(("ann", {"revision": 2, "confirmed": 2, "active": 0}), ("bob", {"confirmed": 1}))
        self.site.write_users("ann,3,,,,,left", "bob,2,,,,,left")
        self.is_stopped(1, 0)
        self.goes_on(1)

    def test_a_leaver_who_was_taken_and_is_not_confirmed(self):
        self.keep(("ann", {"revision": 2, "confirmed": 1, "active": 0}), ("bob", {"confirmed": 1}))
        self.site.write_users("ann,2,,,,,left", "bob,1,,,,,active")
        self.is_stopped(1, 0)
        self.goes_on(1)

    def test_a_leaver_who_came_back(self):
        self.keep(("ann", {"revision": 2, "confirmed": 1, "active": 0}))
        self.site.write_users("ann,3,,,,,active")
        self.goes_on(0)

    def test_a_new_user_who_has_left(self):
        self.keep_active("ann")
        self.site.write_users("ann,1,,,,,active", "zoe,1,,,,,left")
        self.goes_on(0)

    def test_rows_that_count_for_nothing(self):
        self.keep(("ann", {"revision": 3, "confirmed": 3}), ("bob", {"revision": 3, "confirmed": 3}))
        # an older row; a row of the same revision with another field; a record that is no row
        self.site.write_users("ann,2,,,,,left", "bob,3,,,,,left", "cid,x,,,,,left")
        run = self.site.push(NOWHERE, "--most-leavers", "0")
        errors = ["users record 3: S5", "users record 1: older, 2 is below 3; it says left", "users record 2: S7"]
        self.assert_prints(run, "user ann confirmed 3", "user bob confirmed 3", status=1, errors=errors)

    def test_groups_are_not_counted(self):
        self.keep_active("ann")
        self.site.write_users("ann,1,,,,,active")
        self.site.write_groups("crew,1,ann")
        self.goes_on(0)


class ValueTest(ThresholdTest):
    def test_the_limits_of_the_number(self):
        self.site.write_users("bob,1,,,,,active")
        self.goes_on(1_000_000)
        run = self.site.push(NOWHERE, "--most-leavers", "1000001")
        self.assert_prints(run, status=2, errors=["error: --most-leavers is 0 to 1000000"])

    def test_no_number(self):
        self.site.write_users("bob,1,,,,,active")
        for value in ("-1", "x", "", "4294967296"):
            with self.subTest(value=value):
                run = self.site.push(NOWHERE, f"--most-leavers={value}")
                self.assertEqual((run.status, run.output), (2, b""))
                self.assertFalse(self.site.journal.exists())
