"""Rows that the source offers to the connector: its verdicts on them, and what it then wants."""
from support import NOWHERE, ProgramTest, scimlink, text

# A record of a users file, and the connector's verdict on its row
USERS = [
    ("ann,2000000000,,,,,active", "new"),
    ("ann,2000000000,,,,,active", "known"),
    ("ann,1,,,,,active", "older"),
    ("ann,2000000000,,,,ann@example.com,active", "S7"),
    ("ANN,2000000000,,,,,active", "S7"),
    ("bob,1,,,,,active", "new"),
    ("Bob,2,,,,,left", "new"),
    ("eve,2000000000,,,,,active", "new"),
    ("eve,1:1,,,,,left", "new"),
    ("eve,1:1,,,,,left", "known"),
    ("eve,1:1,,,,,active", "S7"),
    ("eve,1,,,,,active", "older"),
    ("eve,0:2000000000,,,,,active", "older"),
]
# Likewise of a groups file
GROUPS = [
    ("crew,1,zoe", "S8 zoe"),
    ("crew,1,zoe ann bob yve", "S8 yve"),
    ("crew,1,Bob ann", "new"),
    ("crew,1,ann bob", "known"),
    ("crew,1,", "S7"),
    ("Crew,2,crew", "S8 crew"),
    ("Crew,2,", "new"),
    ("crew,1,zoe", "older"),
]
# What is printed on standard error about the rows of USERS and GROUPS that are older
OLDER = {
    ("users", 3): "older, 1 is below 2000000000",
    ("users", 12): "older, 1 is below 1:1",
    ("users", 13): "older, 2000000000 is below 1:1",
    ("groups", 8): "older, 1 is below 2",
}
# All records in their order, each with the revision that the connector wants after USERS and GROUPS
WANTED = [("user ann", "2000000000"), ("user bob", "2"), ("user eve", "1:1"), ("group crew", "2")]
# What the provider holds of them at the end
HELD = ["active=true", "active=false", "active=false", "members=0"]
# Likewise if it holds nothing
NOTHING_HELD = {"user": "active=-", "group": "members=0"}

RESTART = ("restart connector", "restarted")


def offered(users=(), groups=()):
    """Records as events of a schedule, each with its report."""
    rows = [("user", *row) for row in users] + [("group", *row) for row in groups]
    return [(f"{kind} {record}", verdict) for kind, record, verdict in rows]


def reports_of(events):
    return [f"{place} {report}" for place, (_, report) in enumerate(events, 1)]


def older(label):
    """What is printed on standard error about the older rows of a file."""
    return {n: f"{label} record {n}: {line}" for (file, n), line in OLDER.items() if file == label}


def reported(label, rows):
    """What `push` prints of the rows that the connector rejects, and of older rows."""
    rejected = {n: f"{label} record {n}: {verdict}" for n, (_, verdict) in enumerate(rows, 1) if verdict.startswith("S")}
    return [line for _, line in sorted((rejected | older(label)).items())]


class RowsTest(ProgramTest):
    def assert_simulates(self, events, wanted):
        """`simulate` reports each event so. At the end the connector wants this of its records, and confirmed none."""
        schedule = self.folder / "schedule"
        schedule.write_text(text(*(event for event, _ in events)))
        views = [
            f"{record} wanted={revision} confirmed=0 held=0 version=0 {NOTHING_HELD[record.split()[0]]}"
            for record, revision in wanted
        ]
        self.assert_prints(scimlink("simulate", schedule), *reports_of(events), *views, status=1)

    def test_each_row_has_its_verdict(self):
        self.assert_simulates(offered(USERS, GROUPS), WANTED)

    def test_records_are_shown_in_their_order(self):
        first = offered([("Zoe,1,,,,,active", "new")], [("Crew,1,zoe", "new"), ("band,1,ann", "S8 ann")])
        events = [*first, *offered([("ann,1,,,,,active", "new")])]
        self.assert_simulates(events, [("user ann", "1"), ("user zoe", "1"), ("group crew", "1")])

    def test_rows_stand_over_a_restart(self):
        events = [*offered([("ann,2,,,,,active", "new")], [("crew,1,ann", "new")]), RESTART]
        wanted = [("user ann", "2"), ("group crew", "1")]
        self.assert_simulates(events, wanted)
        later = offered([("ann,1,,,,,active", "older")], [("crew,2,ann bob", "S8 bob")])
        self.assert_simulates([*events, *later], wanted)

    def test_users_have_their_limit(self):
        names = [f"user{number}" for number in range(100_000)]
        full = offered([(f"{name},1,,,,,active", "new") for name in names])
        rows = [
            ("ann,1,,,,,active", "S12"),
            ("user7,2,,,,,active", "new"),
            ("user7,2,,,,,active", "known"),
            ("user7,1,,,,,active", "older"),
            ("user7,2,,,,,left", "S7"),
        ]
        later = offered([("ann,1,,,,,active", "S12"), ("user8,2,,,,,active", "new")])
        wanted = [(f"user {name}", "2" if name in ("user7", "user8") else "1") for name in sorted(names)]
        events = [*full, *offered(rows, [("crew,1,user0 user99999", "new")]), RESTART, *later]
        self.assert_simulates(events, [*wanted, ("group crew", "1")])

    def test_groups_have_their_limit(self):
        names = [f"group{number}" for number in range(10_000)]
        rows = [("crew,1,", "S12"), ("crew,1,ann", "S8 ann"), ("group7,2,", "new"), ("group7,2,", "known")]
        full = offered(groups=[*((f"{name},1,", "new") for name in names), *rows])
        wanted = [(f"group {name}", "2" if name == "group7" else "1") for name in sorted(names)]
        self.assert_simulates([*full, *offered([("ann,1,,,,,active", "new")])], [("user ann", "1"), *wanted])


class RowsOfFilesTest(ProgramTest):
    """The rows of a file are offered together, and have the same verdicts."""

    def setUp(self):
        super().setUp()
        self.site.write_users(*(record for record, _ in USERS))
        self.site.write_groups(*(record for record, _ in GROUPS))

    def test_by_loop(self):
        views = [
            f"{record} wanted={revision} confirmed={revision} held={revision} version=1 {held}"
            for (record, revision), held in zip(WANTED, HELD)
        ]
        lines = [*reports_of(offered(USERS, GROUPS)), "settled in 8 exchanges", *views]
        self.assert_prints(self.site.loop(), *lines, status=1, errors=[*older("users").values(), *older("groups").values()])

    def test_by_push(self):
        """Nothing is confirmed yet, and the journal is opened again."""
        errors = [*reported("users", USERS), *reported("groups", GROUPS), "connection fault"]
        self.assert_prints(self.site.push(NOWHERE), status=3, errors=errors)
        entries = [f"{record} wanted={revision} confirmed=0 id=-" for record, revision in WANTED]
        self.assert_prints(self.site.show_journal(), *entries)
