"""What the tests of snapshots share: complete files of today, and pushes of them."""
from databases import make_journal, user_entry
from support import resource_id, scimlink, text
from test_push import PushTest

SNAPSHOT = ["--snapshot", "--most-leavers"]
# What a push says if it isn't certain who is absent
NOBODY = "nobody who is absent was switched off"
NO_GROUP = "no group that is absent was emptied"
# What a plan adds for a record that is absent
ABSENT = "(not in the file)"


def wrong_header(label, line, kept):
    """What a push says of a file with this first line, which isn't the header of a snapshot."""
    first = f"is: {line}" if line else "is empty"
    return [
        f"{label}: S1", f"{label}: the first line {first}", f"{label}: the header isn't that of a snapshot: {kept}",
    ]


def confirmed(*records):
    """The lines of a push: `bob 2` is a user, and `group crew 1` a group, at a confirmed revision."""
    spelled = [record if record.startswith("group ") else f"user {record}" for record in records]
    return [f"{record} confirmed {revision}" for record, _, revision in (it.rpartition(" ") for it in spelled)]


class SnapshotTest(PushTest):
    def users_say(self, *lines):
        self.site.users.write_text(text(*lines))

    def groups_say(self, *lines):
        self.site.groups.write_text(text(*lines))

    def carries(self, exchanges, *records, status=0, errors=(), most=9, options=()):
        """A push of snapshots has this many exchanges, and ends with these records confirmed."""
        options = [*SNAPSHOT, str(most), *options]
        self.pushes(exchanges, *confirmed(*records), status=status, errors=errors, options=options)

    def plans(self, *lines, status=0, errors=(), most=9, options=()):
        """The plan of a push of snapshots prints these lines, and changes no file."""
        before = self.site.files()
        command = ["push", "--plan", *SNAPSHOT, most, *self.site.source_options(), "--journal", self.site.journal]
        self.assert_prints(scimlink(*command, *options), *lines, status=status, errors=errors)
        self.assertEqual(self.site.files(), before)

    def keep(self, *users, groups=()):
        """A journal with these users. Each is confirmed at revision 1, unless its columns say otherwise."""
        entries = [
            user_entry(name, **({"confirmed": more.get("revision", 1), "id": resource_id(number)} | more))
            for number, (name, more) in enumerate(users, 1)
        ]
        make_journal(self.site.journal, entries, groups)
