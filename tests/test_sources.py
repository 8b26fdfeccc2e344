"""Files of users and groups: which records are rows, which rows count, and what the rows ask for.

`map` prints what a user's row asks for, `simulate` the verdicts on rows. `loop` shows keys, and groups with their
members.
"""
from databases import department_text, sql, user_text
from support import DEPARTMENTS_HEADER, GROUPS_HEADER, SOURCE, USERS_HEADER, ProgramTest, scimlink, text

# A row with every field, and its image
ANN = "ann,7,1001,Ann,Lee,ann@example.com,active"
ANN_IMAGE = user_text(
    "ann", 7,
    externalId="1001",
    name={"givenName": "Ann", "familyName": "Lee"},
    emails=[{"type": "work", "primary": True, "value": "ann@example.com"}],
)
# The image of a user who left and about whom nothing else is known
BOB_LEFT = user_text("bob", active=False)


def at(epoch, revision):
    """What an image says of a revision with an epoch."""
    return {SOURCE: {"epoch": epoch, "revision": revision}}


# Records of a users file, and of each its image, or the code with which it is rejected
REVISIONS = [
    ("ann,0,,,,,active", "S5"),
    ("ann,2000000001,,,,,active", "S5"),
    ("ann,07x,,,,,active", "S5"),
    ("ann,2000000000,,,,,active", user_text("ann", 2_000_000_000)),
    ("ann,000000000000000007,,,,,active", user_text("ann", 7)),
    ("ann,0000000000000000007,,,,,active", "S5"),
    ("ann,,,,,,active", "S5"),
]
EPOCHS = [
    ("ann,1000000:1,,,,,active", "S5"),
    ("ann,:5,,,,,active", "S5"),
    ("ann,1:,,,,,active", "S5"),
    ("ann,1:0,,,,,active", "S5"),
    ("ann,999999:2000000000,,,,,active", user_text("ann", **at(999_999, 2_000_000_000))),
    ("ann,0:5,,,,,active", user_text("ann", 5)),
    ("ann,1:2000000001,,,,,active", "S5"),
    ("ann,1:1:1,,,,,active", "S5"),
    ("ann,1: 1,,,,,active", "S5"),
    ("ann,0:0,,,,,active", "S5"),
]
# The first code that applies is printed
FIRST_CODES = [
    ("a b,0,,,,,active,", "S2"),
    ("a b,0,,,,\xff,active", "S3"),
    ("a b,0,,,,,gone", "S4"),
    ("bob,0,,,,,gone", "S5"),
    ("bob,1,,,,,gone", "S6"),
    ("bob,1,,,,,left", BOB_LEFT),
    ("bob,1", "S2"),
    ("\xff,1,,,,,active", "S3"),
    ("bob,1,,,,,active,Sales", "S2"),
]
LONG_VALUES = [
    (f"ann,1,{'m' * 256},,,,active", user_text("ann", externalId="m" * 256)),
    (f"ann,1,,,,{'m' * 257},active", "S6"),
]
IMAGES = [
    (ANN, ANN_IMAGE),
    ("cid,0,,,,,active", "S5"),
    ("bob,1,,,,,left", BOB_LEFT),
]
# The same of a file with departments
DEPARTMENTS = [
    ("bob,2,,,,,active,Sales", department_text("bob", 2, "Sales")),
    ("ann,1,,,,,active,", user_text("ann")),
    (f"bob,1,,,,,active,{'d' * 256}", department_text("bob", 1, "d" * 256)),
    (f"bob,1,,,,,active,{'d' * 257}", "S6"),
    ("bob,1,,,,,active", "S2"),
    ("bob,1,,,,,active,Sales,", "S2"),
    ("bob,1,,,,,active,\xff", "S3"),
    ("bob,1,,,,,Sales,active", "S6"),
]

# Users files without records
HEADERS_ALONE = [
    text(USERS_HEADER),
    text(DEPARTMENTS_HEADER),
    '"login",revision,number,given,family,mail,"status"',
]
# Users files with another header
OTHER_HEADERS = [
    "",
    "\n",
    "\n\n",
    text(ANN),
    text(GROUPS_HEADER),
    "Login,revision,number,given,family,mail,status\n",
    text(USERS_HEADER.upper()),
    text(f"{USERS_HEADER},more"),
    text(f"{USERS_HEADER},Department", "bob,1,,,,,active,Sales"),
    text(f"{USERS_HEADER},unit", "bob,1,,,,,active,Sales"),
    text(f"{USERS_HEADER},", "bob,1,,,,,active,Sales"),
    text("login,revision,number,given,family,mail,department,status", "bob,1,,,,,Sales,active"),
    text(f"{DEPARTMENTS_HEADER},", "bob,1,,,,,active,Sales,"),
    text(f"{DEPARTMENTS_HEADER},more"),
]

# An accepted row, a row of the same record after it, and the verdict on the second
VERDICTS = [
    ("ann,2000000000,,,,,active", "ann,2000000000,,,,,active", "known"),
    ("ann,2000000000,,,,,active", "ann,1,,,,,active", "older"),
    ("ann,2000000000,,,,,active", "ann,2000000000,,,,ann@example.com,active", "S7"),
    ("ann,2000000000,,,,,active", "ANN,2000000000,,,,,active", "S7"),
    ("ann,1,,,,,active", "ann,1,,,,,active", "known"),
    ("ann,1,,,,,active", "ann,2,,,,,active", "new"),
    ("ann,1:5,,,,,active", "ann,1:5,,,,,active", "known"),
    ("ann,1:5,,,,,active", "ann,2:1,,,,,active", "new"),
    ("ann,1:5,,,,,active", "ann,9,,,,,active", "older"),
    # with a department, with none in a file that could give one, and in a file without departments
    ("bob,2,,,,,active,Sales", "bob,2,,,,,active,Sales", "known"),
    ("bob,2,,,,,active,Sales", "bob,2,,,,,active", "S7"),
    ("bob,2,,,,,active,Sales", "bob,2,,,,,active,", "S7"),
    ("bob,2,,,,,active", "bob,2,,,,,active,Sales", "S7"),
    ("bob,2,,,,,active", "bob,2,,,,,active,", "known"),
    ("bob,2,,,,,active,", "bob,2,,,,,active", "known"),
]


def settled(*records, revision=1):
    """What `loop` prints of active users whom it created at this revision."""
    held = "wanted={0} confirmed={0} held={0} version=1 active=true".format(revision)
    return [f"{record} {held}" for record in records]


class SourceTest(ProgramTest):
    def write(self, content):
        """A users file of this text, a byte for each character."""
        self.site.users.write_bytes(content.encode("latin-1"))
        return self.site.users

    def assert_maps(self, rows, header=USERS_HEADER):
        """`map` prints the images of these records, and rejects each other one with its code."""
        images = [image for _, image in rows if image.startswith("{")]
        rejected = [(place, code) for place, (_, code) in enumerate(rows, 1) if not code.startswith("{")]
        path = self.write(text(header, *(record for record, _ in rows)))
        errors = [f"users record {place}: {code}" for place, code in rejected]
        self.assert_prints(scimlink("map", path), *images, status=1 if errors else 0, errors=errors)


class UsersTest(SourceTest):
    def test_revisions_have_their_range(self):
        self.assert_maps(REVISIONS)

    def test_epochs_have_their_range(self):
        self.assert_maps(EPOCHS)

    def test_records_are_rejected_by_the_first_code(self):
        self.assert_maps(FIRST_CODES)

    def test_values_have_at_most_256_bytes(self):
        self.assert_maps(LONG_VALUES)

    def test_rows_have_their_images(self):
        self.assert_maps(IMAGES)

    def test_departments(self):
        self.assert_maps(DEPARTMENTS, header=DEPARTMENTS_HEADER)

    def test_the_longest_line(self):
        login, field = "a" * 128, "\x01" * 256
        image = department_text(
            login, 1, field,
            externalId=field,
            name={"givenName": field, "familyName": field},
            emails=[{"type": "work", "primary": True, "value": field}],
            **at(999_999, 2_000_000_000),
        )
        row = f"{login},999999:2000000000,{field},{field},{field},{field},active,{field}"
        self.assert_maps([(row, image)], header=DEPARTMENTS_HEADER)

    def test_a_header_alone(self):
        for content in HEADERS_ALONE:
            with self.subTest(content=content):
                self.assert_prints(scimlink("map", self.write(content)))

    def test_other_headers(self):
        for content in OTHER_HEADERS:
            with self.subTest(content=content):
                self.assert_prints(scimlink("map", self.write(content)), status=1, errors=["users: S1"])

    def test_records_are_those_of_csv(self):
        """A byte order mark, quoted fields, empty lines, and each kind of line end."""
        ann = 'ann,1,,"Ann, ""A""","Lee\nfield",,active\r'
        self.write(f"\xef\xbb\xbf{USERS_HEADER}\r\n\r\n{ann}bob,2,,,,,left\n\n\r\ncid,3,,,,,active")
        images = [
            user_text("ann", name={"givenName": 'Ann, "A"', "familyName": "Lee\nfield"}),
            user_text("bob", 2, active=False),
            user_text("cid", 3),
        ]
        errors = ["users record 1: a quoted field goes over 2 lines; is a quote missing?"]
        self.assert_prints(scimlink("map", self.site.users), *images, errors=errors)
        views = [
            *settled("user ann"),
            "user bob wanted=2 confirmed=2 held=2 version=1 active=false",
            *settled("user cid", revision=3),
        ]
        reports = ["1 new", "2 new", "3 new", "settled in 6 exchanges"]
        self.assert_prints(self.site.loop(), *reports, *views, errors=errors)

    def test_an_image_has_the_name_of_its_row(self):
        self.site.write_users(ANN)
        self.assert_prints(self.site.loop(), "1 new", "settled in 2 exchanges", *settled("user ann", revision=7))

    def test_rows_count_by_the_last_of_their_record(self):
        schedule = self.folder / "schedule"
        for accepted, offered, verdict in VERDICTS:
            with self.subTest(accepted=accepted, offered=offered):
                schedule.write_text(text(f"user {accepted}", f"user {offered}"))
                run = scimlink("simulate", schedule)
                self.assert_reports(run, 1)
                self.assertEqual(run.lines[:2], ["1 new", f"2 {verdict}"])
                self.assertEqual(len(run.lines), 3)


class GroupsTest(SourceTest):
    def test_a_file_of_users_has_no_groups(self):
        self.site.write_users()
        self.site.groups.write_text(text(USERS_HEADER))
        self.assert_prints(self.site.loop(), "settled in 0 exchanges", status=1, errors=["groups: S1"])

    def test_epochs_of_groups(self):
        self.site.write_users("ann,1,,,,,active")
        self.site.write_groups("crew,1:7,ann", "crew,1:0,ann")
        crew = "group crew wanted=1:7 confirmed=1:7 held=1:7 version=1 members=1"
        lines = ["1 new", "2 new", "settled in 4 exchanges", *settled("user ann"), crew]
        self.assert_prints(self.site.loop(), *lines, status=1, errors=["groups record 2: S5"])

    def test_members_are_keys_in_byte_order(self):
        self.site.write_users("ann,1,,,,,active", "bob,1,,,,,active")
        crew = ["crew,1,ann Ann", "crew,1,ann  bob", "crew,1,zoe", "crew,1,bob ANN", " crew,1,ann", "crew,0,ann ann"]
        rejected = [(1, "S9"), (2, "S4"), (5, "S4"), (6, "S5")]
        journal = self.folder / "journal"
        self.assert_settles(crew, rejected, ["3 S8 zoe", "4 new"], 1, 2, "--journal", journal)
        self.assertEqual(sql(journal, "SELECT members FROM group_entry_3"), [("ann bob",)])
        self.assert_settles([*crew, "crew,2,"], rejected, ["3 S8 zoe", "4 new", "5 new"], 2, 0)

    def assert_settles(self, records, rejected, reports, revision, members, *more):
        """`loop` rejects and reports these records of crew, which ends at this revision with this many members."""
        self.site.write_groups(*records)
        errors = [f"groups record {place}: {code}" for place, code in rejected]
        crew = "group crew wanted={0} confirmed={0} held={0} version=1 members={1}".format(revision, members)
        lines = ["1 new", "2 new", *reports, "settled in 6 exchanges", *settled("user ann", "user bob"), crew]
        self.assert_prints(self.site.loop(*more), *lines, status=1, errors=errors)

    def test_groups_have_at_most_400_members(self):
        """The first group is a row. (In test_loop.py a group with 400 members is created.)"""
        names = [f"m{number}" for number in range(1, 402)]
        self.site.write_users()
        self.site.write_groups(f"crew,1,{' '.join(names[:400])}", f"crew,1,{' '.join(names)}")
        lines = ["1 S8 m1", "settled in 0 exchanges"]
        self.assert_prints(self.site.loop(), *lines, status=1, errors=["groups record 2: S10"])
