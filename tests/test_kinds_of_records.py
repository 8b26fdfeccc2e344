"""Every kind of record is carried: users with each field and without it, who stay or have left, and groups of any
size; at first, and whenever their rows change."""
import itertools

from support import DEPARTMENTS_HEADER, ENTERPRISE, GROUP, SOURCE, USER, ProgramTest, resource_id, scimlink, text

FIELDS = ("number", "given", "family", "mail", "department")
# Which of these fields a user has, and whether the account is on
KINDS = [*itertools.product((True, False), repeat=len(FIELDS) + 1)]
NAMES = [f"u{place:02}" for place in range(len(KINDS))]
# How many members each group has
SIZES = (0, 1, 2, len(NAMES))
# The revisions of one file after another, with their epochs and numbers
REVISIONS = [("1", 0, 1), ("3", 0, 3), ("2:1", 2, 1)]


def kind_of(place, turn):
    """The kind of a user in a file. That in the second one is the opposite of that in the first one."""
    return KINDS[(place, -1 - place, (place + 1) % len(KINDS))[turn]]


def row_of(place, turn):
    *has, is_active = kind_of(place, turn)
    values = [f"{field}-{place}" if it else "" for field, it in zip(FIELDS, has)]
    status = "active" if is_active else "left"
    return ",".join([NAMES[place], REVISIONS[turn][0], *values[:4], status, values[4]])


def source_of(turn):
    """The source extension of what the rows of a file ask for."""
    _, epoch, revision = REVISIONS[turn]
    return {**({"epoch": epoch} if epoch else {}), "revision": revision}


def content_of(place, turn):
    """What the row of a user asks for."""
    *has, is_active = kind_of(place, turn)
    number, given, family, mail, department = (f"{field}-{place}" if it else None for field, it in zip(FIELDS, has))
    parts = {
        "externalId": number,
        "name": {part: value for part, value in (("givenName", given), ("familyName", family)) if value},
        "emails": mail and [{"primary": True, "type": "work", "value": mail}],
        ENTERPRISE: department and {"department": department},
        SOURCE: source_of(turn),
    }
    schemas = [USER, *([ENTERPRISE] if department else []), SOURCE]
    kept = {name: value for name, value in parts.items() if value}
    return {"schemas": schemas, "userName": NAMES[place], "active": is_active, **kept}


def members_of(size, turn):
    """The members of a group: with each file others, if not all are in it."""
    return sorted((NAMES[turn:] + NAMES[:turn])[:size])


def group_content_of(size, turn):
    """What the row of a group asks for, if the users were created in the order of their names."""
    members = [{"value": resource_id(1 + NAMES.index(name))} for name in members_of(size, turn)]
    kept = {"members": members} if members else {}
    return {"schemas": [GROUP, SOURCE], "displayName": f"g{size}", SOURCE: source_of(turn), **kept}


class KindsTest(ProgramTest):
    def write(self, turn):
        self.site.write_users(*(row_of(place, turn) for place in range(len(NAMES))), header=DEPARTMENTS_HEADER)
        self.site.write_groups(*(f"g{size},{REVISIONS[turn][0]},{' '.join(members_of(size, turn))}" for size in SIZES))

    def shown(self, provider, path):
        """The resources of a provider, without what the provider adds."""
        resources = provider.ask("GET", f"{path}?count=200").content["Resources"]
        return [{name: value for name, value in it.items() if name not in ("id", "meta")} for it in resources]

    def test_each_kind_is_pushed(self):
        # a new record takes a search and a creation, and a changed one a search and a replacement
        requests = len(REVISIONS) * (2 * (len(NAMES) + len(SIZES)) + 2)
        with self.serving(requests) as provider:
            for turn, (revision, *_) in enumerate(REVISIONS):
                self.write(turn)
                users = [f"user {name} confirmed {revision}" for name in NAMES]
                groups = [f"group g{size} confirmed {revision}" for size in sorted(SIZES, key=str)]
                self.assert_prints(self.site.push(provider.address), *users, *groups)
                wanted = [content_of(place, turn) for place in range(len(NAMES))]
                self.assertEqual(self.shown(provider, "/v2/Users"), wanted)
                wanted = [group_content_of(size, turn) for size in sorted(SIZES, key=str)]
                self.assertEqual(self.shown(provider, "/v2/Groups"), wanted)

    def test_each_kind_settles(self):
        rows = [f"user {row_of(place, turn)}" for turn in range(len(REVISIONS)) for place in range(len(NAMES))]
        rows += [f"group g{size},1,{' '.join(members_of(size, 0))}" for size in SIZES]
        schedule = self.folder / "schedule"
        schedule.write_text(text(*rows))
        last = len(REVISIONS) - 1
        are_on = [str(kind_of(place, last)[-1]).lower() for place in range(len(NAMES))]
        users = [f"user {name} wanted=2:1 confirmed=2:1 held=2:1 version=1 active={is_on}"
                 for name, is_on in zip(NAMES, are_on)]
        groups = [f"group g{size} wanted=1 confirmed=1 held=1 version=1 members={size}"
                  for size in sorted(SIZES, key=str)]
        reports = [f"{number} new" for number in range(1, len(rows) + 1)]
        settled = f"settled in {2 * (len(users) + len(groups))} exchanges"
        self.assert_prints(scimlink("simulate", schedule, "--settle"), *reports, settled, *users, *groups)
