#!/usr/bin/env python3
"""Hands the accounts that a SCIM provider has already over to `scimlink push`.

An account that scimlink didn't create has no revision, so `push` leaves it alone, as `unconfirmed C1`. This tool gives
each account that the users file names revision 1, and changes nothing else in it. The next push then replaces it.
If an account has a revision, it stays as it is, so the tool can be run again.

Status: 0 if push can go on with every record, 1 if it can't or a record was rejected, 2 if the arguments are invalid,
3 if the file can't be read or the provider can't be reached.
"""
import csv
import dataclasses
import re
import sys

from provider_calls import (
    ENTERPRISE, SOURCE, USER, Provider, arguments, attribute, found_in, is_strong, name_of, printed, revision_of,
    small, version_of,
)

HEADER = ["login", "revision", "number", "given", "family", "mail", "status"]
HEADERS = HEADER, [*HEADER, "department"]
LOGIN = re.compile(r"[!#-\[\]-~]{1,128}")
REVISION = re.compile(r"(?:(\d{1,18}):)?(\d{1,18})", re.ASCII)
# The revision that an account gets: the lowest
ADOPTED = 1
# How often an account is read anew if somebody changes it meanwhile
TRIES = 3
# What push sends of a user, and what nobody can set
SENT = {"schemas", "username", "externalid", "name", "emails", "active", ENTERPRISE.lower(), SOURCE.lower()}
FIXED = {"id", "meta", "groups"}


# ---- the users file, read as scimlink reads it


@dataclasses.dataclass
class Row:
    login: str
    revision: tuple


def read_revision(text):
    """The epoch and the number of a revision; None if it is invalid."""
    form = REVISION.fullmatch(text)
    epoch, number = (int(form[1] or 0), int(form[2])) if form else (0, 0)
    return (epoch, number) if epoch <= 999_999 and 1 <= number <= 2_000_000_000 else None


def is_utf8(field):
    return not any("\ud800" <= character <= "\udfff" for character in field)


def code_of(fields, columns):
    """The code of the first fault of a record; None if it is valid."""
    if len(fields) != columns:
        return "S2"
    login, revision, *texts = fields
    status = texts.pop(4)
    if not all(map(is_utf8, fields)):
        return "S3"
    if not LOGIN.fullmatch(login):
        return "S4"
    if not read_revision(revision):
        return "S5"
    is_short = all(len(text.encode()) <= 256 for text in texts)
    return None if is_short and status in ("active", "left") else "S6"


def read_rows(path):
    """The row with the highest revision of each user, by the name in small letters; and whether all records count."""
    csv.field_size_limit(sys.maxsize)
    rows, is_whole = {}, True
    with open(path, encoding="utf-8-sig", errors="surrogateescape", newline="") as file:
        records = filter(None, csv.reader(file))
        header = next(records, None)
        if header not in HEADERS:
            print("users: S1", file=sys.stderr)
            return rows, False
        for place, fields in enumerate(records, 1):
            code = code_of(fields, len(header))
            if code:
                print(f"users record {place}: {code}", file=sys.stderr)
                is_whole = False
                continue
            row = Row(fields[0], read_revision(fields[1]))
            last = rows.get(small(row.login))
            rows[small(row.login)] = row if last is None or row.revision > last.revision else last
    return rows, is_whole


# ---- accounts


class Stop(Exception):
    """Why no further account is tried."""


def spelled(revision):
    epoch, number = revision
    return f"{epoch}:{number}" if epoch else str(number)


def with_revision(account):
    """All that an account has, and the revision."""
    content = {name: value for name, value in account.items() if small(name) not in ("schemas", SOURCE.lower())}
    schemas = attribute(account, "schemas")
    schemas = [it for it in schemas if small(str(it)) != SOURCE.lower()] if isinstance(schemas, list) else [USER]
    return content | {"schemas": [*schemas, SOURCE], SOURCE: {"revision": ADOPTED}}


def lost(account, shown):
    """The names of the attributes that an account had and doesn't have any more."""
    return [printed(name) for name, value in account.items() if value is not None and attribute(shown, name) is None]


def cleared_by_push(account):
    return sorted(printed(name) for name in account if small(name) not in SENT | FIXED)


class Adoption:
    """Adopts the accounts of one provider, one after another. Each line says what became of one: whether push can go on
    with it, and in words."""

    def __init__(self, provider, is_plan):
        self.provider, self.is_plan = provider, is_plan

    def adopt(self, name, row):
        answer = self.provider.search(row.login)
        found = found_in(answer)
        if answer.status in (401, 403):
            raise Stop(f"the provider answers {answer.detail}")
        if found is None:
            return False, f"stays: the search for it is answered {answer.detail}"
        if not found:
            return True, "not there"
        id = attribute(found[0], "id")
        if len(found) > 1:
            return False, f"stays: there are {len(found)} accounts of that name"
        if name_of(found[0]) != name or not isinstance(id, str):
            return False, "stays: the search for it found another account"
        for _ in range(TRIES):
            done = self.adopt_account(name, row, id)
            if done:
                return done
        return False, "stays: somebody changes the account all the time"

    def adopt_account(self, name, row, id):
        """Reads an account and replaces it; None if somebody changed it meanwhile."""
        answer = self.provider.read(id)
        account = answer.content
        if answer.status != 200 or name_of(account) != name:
            return False, f"stays: the reading of it is answered {answer.detail}"
        if attribute(attribute(account, SOURCE), "revision") is not None:
            return self.has_revision(revision_of(account), row)
        if row.revision <= (0, ADOPTED):
            return False, "stays: its row has revision 1, and no revision is below. Give the row revision 2"
        if not is_strong(version_of(account)):
            return False, "stays: it is shown without a strong version, so it can't be replaced safely"
        if self.is_plan:
            cleared = cleared_by_push(account)
            after = f"; the push after that may clear {', '.join(cleared)}" if cleared else ""
            return True, f"would be adopted at revision {ADOPTED}{after}"
        return self.replace(id, account)

    def has_revision(self, revision, row):
        if revision is None:
            return False, "has a source extension that can't be read"
        if revision > row.revision:
            return False, f"has revision {spelled(revision)} already, which is above {spelled(row.revision)} of its row"
        return True, f"has revision {spelled(revision)} already"

    def replace(self, id, account):
        answer = self.provider.replace(id, with_revision(account), version_of(account))
        if answer.status == 412:
            return None
        if answer.status not in range(200, 300):
            return False, f"stays: the replacement of it is answered {answer.detail}"
        shown = self.provider.read(id).content
        if revision_of(shown) is None:
            raise Stop("the provider doesn't keep the source extension: push can't be used with it")
        cleared = lost(account, shown)
        if cleared:
            return False, f"adopted at revision {ADOPTED}, but the provider cleared {', '.join(cleared)}"
        return True, f"adopted at revision {ADOPTED}"


# ---- the run


def adopt_all(rows, adoption):
    """Prints a line for each record: whether push can go on with every one."""
    is_done = True
    for name in sorted(rows):
        try:
            can_go_on, what = adoption.adopt(name, rows[name])
        except Stop as stop:
            print(f"{name} stays: {stop}. No further account was tried", flush=True)
            return False
        print(f"{name} {what}", flush=True)
        is_done = is_done and can_go_on
    return is_done


def main():
    parser = arguments(__doc__)
    parser.add_argument("--users", required=True, metavar="FILE", help="the users file that push will read")
    parser.add_argument("--plan", action="store_true", help="change nothing, and print what would be done")
    options = parser.parse_args()
    try:
        rows, is_whole = read_rows(options.users)
    except OSError as fault:
        print(f"file fault\n {options.users}: {fault.strerror}", file=sys.stderr)
        return 3
    try:
        return 0 if adopt_all(rows, Adoption(Provider(options), options.plan)) and is_whole else 1
    except OSError as fault:
        print(f"no connection: {fault.strerror or fault}", file=sys.stderr)
        return 3


if __name__ == "__main__":
    sys.exit(main())
