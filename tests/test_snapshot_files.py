"""`push --snapshot`: how its files are read, the options beside it, and the arguments that it takes."""
from databases import group_entry, sql, user_text
from snapshots import ABSENT, NOBODY, SNAPSHOT, SnapshotTest, wrong_header
from support import NOWHERE, USERS_HEADER, scimlink, text
from test_threshold import excess

CONTENT = "SELECT content FROM resource ORDER BY number"
ANN = {
    "externalId": "1001", "name": {"givenName": "Ann", "familyName": "Lee"},
    "emails": [{"type": "work", "primary": True, "value": "ann@x"}],
}
COLUMN = "error: --column is OURS=THEIRS, with each column of ours at most once"
SEPARATOR = "error: --separator is comma, semicolon or tab"


class ColumnTest(SnapshotTest):
    def gives_ann(self, content, *errors, options=()):
        """A file says of ann what `ANN` has, and nothing else."""
        self.site.journal.unlink(missing_ok=True)
        self.site.store.unlink(missing_ok=True)
        self.site.users.write_bytes(content)
        self.carries(2, "ann 1", errors=errors, options=options)
        self.assertEqual(sql(self.site.store, CONTENT), [(user_text("ann", **ANN),)])

    def test_columns_in_any_order_and_case(self):
        self.gives_ann(b"Mail,STATUS,family,Given,nuMber,LOGIN\nann@x,active,Lee,Ann,1001,ann\n")

    def test_columns_that_are_ignored(self):
        header = b"Title,login,mail,Site,number,given,family,revision\n"
        self.gives_ann(
            header + b'"Dr, Dr",ann,ann@x,,1001,Ann,Lee,no\n', "users: ignored columns: Title, Site, revision",
        )

    def test_ignored_columns_are_named_once(self):
        self.keep(("ann", {}), ("bob", {}), groups=[group_entry("crew", "ann", confirmed=1, id="crew")])
        self.users_say("login,Site", "ann,A", "bob,B", "cid,C")
        self.groups_say("Owner,name,members,login", "bob,crew,ann,x")
        errors = ["users: ignored columns: Site", "groups: ignored columns: Owner, login"]
        self.plans("user cid new 1 active", errors=errors)

    def test_ignored_columns_with_names_that_are_not_ascii(self):
        self.users_say("login,Größe,a\\b", "bob,,")
        self.plans("user bob new 1 active", errors=["users: ignored columns: Größe, a\\x5Cb"])

    def test_the_login_alone(self):
        self.users_say("login", "bob")
        self.carries(2, "bob 1")
        self.assertEqual(sql(self.site.store, CONTENT), [(user_text("bob"),)])

    def test_a_group_without_members(self):
        self.users_say("login", "ann")
        self.groups_say("NAME", "crew")
        self.plans("user ann new 1 active", "group crew new 1 members=0")

    def test_a_column_that_is_gone(self):
        """Its fields are empty, like the departments of a file without that column."""
        self.keep(("ann", {"mail": "ann@x"}), ("bob", {"department": "Sales"}), ("cid", {}))
        self.users_say("login", "ann", "bob", "cid")
        self.plans("user ann 1 to 2: mail", "user bob 1 to 2: department")

    def test_aliases(self):
        options = ["--column", "mail=E-Mail", "--column", "login=User ID", "--column", "number=personnel no."]
        self.gives_ann(
            b"User ID,E-MAIL,Personnel No.,given,family\nann,ann@x,1001,Ann,Lee\n", options=options,
        )

    def test_an_alias_in_place_of_our_name(self):
        header = b"login,mail,EMail,number,given,family\n"
        ignored, options = "users: ignored columns: mail", ["--column", "mail=email"]
        self.gives_ann(header + b"ann,other,ann@x,1001,Ann,Lee\n", ignored, options=options)

    def test_aliases_of_groups(self):
        self.users_say("login,name", "ann,x")
        self.groups_say("Gruppe,Mitglieder", "crew,ann")
        options = ["--column", "name=gruppe", "--column", "members=Mitglieder"]
        errors = ["users: ignored columns: name"]
        self.plans("user ann new 1 active", "group crew new 1 members=1", errors=errors, options=options)

    def test_separators(self):
        header = ["department", "Mail", "login", "number", "given", "family"]
        row = header, ["", "ann@x", '"ann"', "1001", "Ann", "Lee"]
        for name, sign in ("comma", ","), ("semicolon", ";"), ("tab", "\t"):
            with self.subTest(name):
                content = text(*(sign.join(fields) for fields in row)).encode()
                self.gives_ann(content, options=["--separator", name])

    def test_a_separator_is_of_both_files(self):
        self.users_say("login;mail", "ann;a,b", '"bob";"a;b"')
        self.groups_say("members;name", "ann bob;crew, or not")
        lines = [f"user {name} new 1 active" for name in ("ann", "bob")]
        self.plans(*lines, "group crew, or not new 1 members=2", options=["--separator", "semicolon"])

    def test_headers_that_are_not_those_of_a_snapshot(self):
        self.keep(("ann", {}))
        for header, *options in (
            ("mail",),
            ("login;mail",),
            ("login,mail,MAIL",),
            ("login,Login",),
            ("login,mail", "--column", "mail=E-Mail"),
            ("login,E-Mail,e-mail", "--column", "mail=E-Mail"),
            ("login,mail", "--column", "login=User"),
            ("login", "--separator", "tab", "--column", "mail=mail"),
        ):
            with self.subTest(header, options=options):
                self.users_say(header, "ann")
                self.plans(status=1, errors=wrong_header("users", header, NOBODY), options=options)

    def test_a_file_of_revisions_keeps_its_header(self):
        for header in ("login", USERS_HEADER.upper(), f"{USERS_HEADER},Site"):
            self.users_say(header)
            self.pushes(0, status=1, errors=["users: S1"])


class ByteTest(SnapshotTest):
    def test_a_byte_order_mark_and_line_ends(self):
        for end in ("\n", "\r\n", "\r"):
            with self.subTest(end=end):
                content = end.join(["\ufefflogin,mail", "ann,ann@x", "", "bob,\"b\"\"\"", ""])
                self.site.users.write_bytes(content.encode())
                self.plans("user ann new 1 active", "user bob new 1 active")

    def test_no_line_end_after_the_last_record(self):
        self.keep(("ann", {}), ("bob", {}))
        self.site.users.write_bytes(b"login,mail\r\nann,\r\nbob,\"\"")
        self.plans()

    def test_a_field_over_several_lines(self):
        """It may be records that a field has swallowed, for want of a quote."""
        self.keep(*((name, {}) for name in ("ann", "bob", "cid", "dee")))
        # after the second quote the field goes on to the next comma
        swallowing = ['ann,"Lee,active', "bob,Ray,active", "cid,Poe,active", 'dee,"Fox,active']
        for lines, *records in (2, 'ann,"L', 'ee",active'), (4, *swallowing):
            self.users_say("login,family,status", *records)
            long = f"users record 1: a quoted field goes over {lines} lines; is a quote missing?"
            errors = [long, f"users: a quote may be missing: {NOBODY}"]
            self.plans("user ann 1 to 2: family", status=1, errors=errors, most=0)


class ThresholdTest(SnapshotTest):
    def is_stopped(self, count, most):
        before = self.site.files()
        self.carries(0, status=1, errors=[excess(count, most)], most=most)
        self.assertEqual(self.site.files(), before)

    def test_it_is_met_exactly_and_passed_by_one(self):
        self.users_say("login", "ann", "bob", "cid")
        self.carries(6, "ann 1", "bob 1", "cid 1")
        self.users_say("login", "ann")
        self.is_stopped(2, 1)
        self.carries(4, "ann 1", "bob 2", "cid 2", most=2)
        self.carries(0, "ann 1", "bob 2", "cid 2", most=0)

    def test_absent_users_and_users_who_say_left(self):
        self.keep(("ann", {}), ("bob", {}))
        self.users_say("login,status", "ann,left", "zoe,active")
        self.is_stopped(2, 1)
        self.users_say("login,status", "ann,active", "zoe,active")
        self.is_stopped(1, 0)

    def test_whoever_is_off_or_never_was_confirmed_does_not_count(self):
        left, new = {"revision": 2, "active": 0}, {"confirmed": 0, "id": None}
        self.keep(("ann", {}), ("bob", left), ("cid", new))
        self.users_say("login", "ann")
        self.plans(f"user cid new 2 left {ABSENT}", most=0)

    def test_an_empty_file_passes_no_threshold(self):
        self.keep(("ann", {}))
        self.users_say("login")
        self.carries(0, "ann 1", status=1, errors=[f"users: there is no record: {NOBODY}"], most=0)

    def test_emptied_groups_do_not_count(self):
        self.keep(("ann", {}), groups=[group_entry("crew", "ann", confirmed=1, id="crew")])
        self.users_say("login", "ann")
        self.groups_say("name", "duo")
        self.plans(f"group crew 1 to 2 members=0 {ABSENT}", "group duo new 1 members=0", most=0)


class OptionTest(SnapshotTest):
    def test_a_plan(self):
        self.keep(("ann", {}), ("bob", {"revision": 4}), ("cid", {"revision": 2}))
        self.users_say("login,mail", "eve,", "ann,", "bob,bob@x")
        lines = ["user bob 4 to 5: mail", f"user cid 2 to 3 left {ABSENT}", "user eve new 1 active"]
        self.plans(*lines, most=1)
        self.plans(*lines, most=0, status=1, errors=[excess(1, 0)])

    def test_a_plan_without_a_journal(self):
        self.users_say("login", "bob")
        self.plans("user bob new 1 active")
        self.assertFalse(self.site.journal.exists())

    def test_quiet(self):
        self.users_say("login,mail", "ann,", "bob,", "zoe,", "Zoe,", "eve")
        self.groups_say("name,members", "crew,ann", "duo,gus")
        errors = ["users record 3: S13", "users record 4: S13", "users record 5: S2"]
        errors += [f"users record 5 can't be read: {NOBODY}", "groups record 2: S8 gus"]
        options = [*SNAPSHOT, "0", "--quiet"]
        self.pushes(6, "3 confirmed, 0 unconfirmed, 4 rejected", status=1, errors=errors, options=options)

    def test_streams(self):
        names = [f"u{number:02}" for number in range(40)]
        self.users_say("login", *names)
        self.groups_say("name,members", "crew,u00 u39")
        records = [*(f"{name} 1" for name in names), "group crew 1"]
        self.carries(82, *records, options=["--streams", "8"])
        self.users_say("login", *names[1:])
        self.carries(2, "u00 2", *records[1:], options=["--streams", "8"])

    def test_leavers_first(self):
        self.users_say("login,mail", "ann,", "bob,", "cid,")
        self.carries(6, "ann 1", "bob 1", "cid 1")
        self.users_say("login,mail", "ann,ann@x", "bob,")
        self.carries(4, "cid 2", "ann 2", "bob 1", options=["--leavers-first"])

    def test_a_base(self):
        self.users_say("login", "ann")
        self.carries(2, "ann 1", options=["--base", "http://scim.example/v2"])

    def test_files_that_cannot_be_read(self):
        for sources in self.site.unreadable_sources():
            self.users_say("login", "ann")
            run = scimlink("push", *SNAPSHOT, "9", *sources, "--journal", self.site.journal, "--to", NOWHERE)
            self.assert_fault(run, "file fault")


class ArgumentTest(SnapshotTest):
    def setUp(self):
        super().setUp()
        self.users_say("login,EMail", "ann,ann@x")

    def is_rejected(self, *options):
        """A push with these options says that the command line is invalid, and does nothing."""
        before = self.site.files()
        run = self.site.push(NOWHERE, *options)
        self.assertEqual((run.status, run.output, self.site.files()), (2, b"", before))
        return run.errors

    def test_a_threshold_is_a_must(self):
        self.assertIn("--most-leavers", self.is_rejected("--snapshot"))
        self.assertIn("--most-leavers", self.is_rejected("--snapshot", "--plan"))

    def test_options_of_a_snapshot_alone(self):
        for options in (["--column", "mail=EMail"], ["--separator", "comma"], ["--separator", "tab", "--plan"]):
            with self.subTest(options=options):
                self.assertIn("--snapshot", self.is_rejected(*options, "--most-leavers", "9"))

    def test_columns(self):
        for columns in (["mail"], ["=EMail"], ["mail="], ["title=EMail"], ["revision=EMail"], ["mail=EMail", "mail=Other"], [""]):
            with self.subTest(columns=columns):
                options = [f"--column={it}" for it in columns]
                self.assertEqual(self.is_rejected(*SNAPSHOT, "9", *options), text(COLUMN))

    def test_separators(self):
        for separator in ("", ",", ";", "\t", "pipe"):
            with self.subTest(separator=separator):
                self.assertEqual(self.is_rejected(*SNAPSHOT, "9", f"--separator={separator}"), text(SEPARATOR))

    def test_the_limits_of_the_threshold(self):
        run = self.site.push(NOWHERE, *SNAPSHOT, "1000000")
        self.assert_reports(run, 3, "users: ignored columns: EMail", "connection fault")
        self.assertEqual(self.is_rejected(*SNAPSHOT, "1000001"), "error: --most-leavers is 0 to 1000000\n")

    def test_no_other_command_takes_snapshots(self):
        for command in (["loop", "--users", self.site.users], ["map", self.site.users]):
            run = scimlink(*command, "--snapshot")
            self.assertEqual((run.status, run.output), (2, b""))
