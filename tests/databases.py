"""Files of SQLite as the program keeps them: stores and journals that the tests make, and what they read in them."""
import contextlib
import json
import sqlite3
import typing

from support import ENTERPRISE, GROUP, SOURCE, USER


@contextlib.contextmanager
def sqlite(path):
    """SQLite over a file, for one transaction."""
    with contextlib.closing(sqlite3.connect(path, isolation_level=None)) as database:
        database.execute("PRAGMA synchronous = OFF")
        database.execute("BEGIN")
        yield database
        database.execute("COMMIT")


def sql(path, *statements):
    """Has SQLite carry out statements over a file: the rows that the last one gives."""
    with sqlite(path) as database:
        return [database.execute(statement).fetchall() for statement in statements][-1]


def make_file(path, statements, tables):
    """A file that SQLite made by these statements, with these rows of each table."""
    with sqlite(path) as database:
        for statement in statements:
            database.execute(statement)
        for table, rows in tables.items():
            for row in rows:
                database.execute(f"INSERT INTO {table} VALUES ({', '.join('?' * len(row))})", row)
    return path


# The statements of the store's format
STORE_FORMAT = """CREATE TABLE IF NOT EXISTS provider_format (
  one INTEGER PRIMARY KEY CHECK (one = 1), number INTEGER NOT NULL)"""
RESOURCE = """CREATE TABLE resource (
  number INTEGER PRIMARY KEY CHECK (number >= 1),
  kind INTEGER NOT NULL CHECK (kind = 1 OR kind = 2),
  name_key TEXT NOT NULL,
  version INTEGER NOT NULL CHECK (version >= 1),
  content TEXT NOT NULL,
  UNIQUE (kind, name_key))"""
# The tables of a journal, by their names
TABLES = {
    "journal_format": """CREATE TABLE IF NOT EXISTS journal_format (
  one INTEGER PRIMARY KEY CHECK (one = 1), number INTEGER NOT NULL)""",
    "user_entry": """CREATE TABLE user_entry (
  name_key TEXT PRIMARY KEY NOT NULL, login TEXT NOT NULL,
  revision INTEGER NOT NULL, number TEXT NOT NULL, given TEXT NOT NULL,
  family TEXT NOT NULL, mail TEXT NOT NULL, active INTEGER NOT NULL,
  confirmed INTEGER NOT NULL, id TEXT)""",
    "group_entry": """CREATE TABLE group_entry (
  name_key TEXT PRIMARY KEY NOT NULL, name TEXT NOT NULL,
  revision INTEGER NOT NULL, members TEXT NOT NULL,
  confirmed INTEGER NOT NULL, id TEXT)""",
    "user_entry_2": """CREATE TABLE user_entry_2 (
  name_key TEXT PRIMARY KEY NOT NULL, login TEXT NOT NULL,
  revision INTEGER NOT NULL, number TEXT NOT NULL, given TEXT NOT NULL,
  family TEXT NOT NULL, mail TEXT NOT NULL, department TEXT NOT NULL,
  active INTEGER NOT NULL, confirmed INTEGER NOT NULL, id TEXT)""",
    "user_entry_3": """CREATE TABLE user_entry_3 (
  name_key TEXT PRIMARY KEY NOT NULL, login TEXT NOT NULL,
  revision INTEGER NOT NULL, number TEXT NOT NULL, given TEXT NOT NULL,
  family TEXT NOT NULL, mail TEXT NOT NULL, department TEXT NOT NULL,
  active INTEGER NOT NULL, confirmed INTEGER NOT NULL, id TEXT,
  epoch INTEGER NOT NULL, confirmed_epoch INTEGER NOT NULL)""",
    "group_entry_3": """CREATE TABLE group_entry_3 (
  name_key TEXT PRIMARY KEY NOT NULL, name TEXT NOT NULL,
  revision INTEGER NOT NULL, members TEXT NOT NULL,
  confirmed INTEGER NOT NULL, id TEXT,
  epoch INTEGER NOT NULL, confirmed_epoch INTEGER NOT NULL)""",
}


def without_epochs(entry):
    """The row of an entry in a journal of format 2, and that of a group in one of format 1."""
    return entry[:-2]


def without_department(entry):
    """The row of a user in a journal of format 1."""
    return without_epochs(entry[:7] + entry[8:])


class Form(typing.NamedTuple):
    """A format of the journal: its number, its tables in their order, those with entries, and an entry as a row."""

    number: int
    tables: tuple
    users: str
    groups: str
    user_row: typing.Callable = tuple
    group_row: typing.Callable = tuple

    def statements(self, **other):
        """The statements that make the tables, but for other ones."""
        return [(TABLES | other)[name] for name in self.tables]

    def has(self, damage):
        """Whether an entry of this format can be damaged so: a word of what only later formats have isn't in it."""
        return not (self.number < 3 and "epoch" in damage or self.number < 2 and "department" in damage)


FIRST = ("journal_format", "user_entry", "group_entry")
SECOND = (*FIRST, "user_entry_2")
FORMS = (
    Form(1, FIRST, "user_entry", "group_entry", without_department, without_epochs),
    Form(2, SECOND, "user_entry_2", "group_entry", without_epochs, without_epochs),
    Form(3, (*SECOND, "user_entry_3", "group_entry_3"), "user_entry_3", "group_entry_3"),
)
*OLDER_FORMS, CURRENT = FORMS


def make_store(path, resources=(), number=1, statements=(STORE_FORMAT, RESOURCE)):
    """A store that SQLite made, in the format with this number."""
    numbers = [(1, number)] if number is not None else []
    return make_file(path, statements, {"provider_format": numbers, "resource": resources})


def make_journal(path, users=(), groups=(), form=CURRENT, numbers=None, statements=None):
    """A journal that SQLite made in this format; of an older one, its entries lack what that format hasn't."""
    numbers = [form.number] if numbers is None else numbers
    rows = {form.users: map(form.user_row, users), form.groups: map(form.group_row, groups)}
    return make_file(path, statements or form.statements(), {"journal_format": enumerate(numbers, 1), **rows})


def compact(content):
    """The JSON text of a resource in a store: without spaces, the members by name."""
    return json.dumps(content, separators=(",", ":"), sort_keys=True)


def user_text(name, revision=1, /, **more):
    schemas = {"schemas": [USER, SOURCE], SOURCE: {"revision": revision}}
    return compact(schemas | {"userName": name, "active": True} | more)


def department_text(name, revision, department, /, **more):
    """The text of a user in this department."""
    schemas = {"schemas": [USER, ENTERPRISE, SOURCE], ENTERPRISE: {"department": department}}
    return user_text(name, revision, **schemas, **more)


def group_text(name, members):
    return compact({"schemas": [GROUP], "displayName": name, "members": [{"value": member} for member in members]})


def user_resource(number, key, **other):
    """The row of a user in a store, but for other columns."""
    row = {"number": number, "kind": 1, "name_key": key, "version": 1, "content": user_text(key)}
    return tuple((row | other).values())


def user_entry(key, **other):
    """The row of a user in a journal: at revision 1, nothing confirmed, but for other columns."""
    row = {"name_key": key, "login": key, "revision": 1, "number": "", "given": "", "family": "", "mail": ""}
    last = {"department": "", "active": 1, "confirmed": 0, "id": None, "epoch": 0, "confirmed_epoch": 0}
    return tuple((row | last | other).values())


def group_entry(key, members="", **other):
    row = {"name_key": key, "name": key, "revision": 1, "members": members, "confirmed": 0, "id": None}
    return tuple((row | {"epoch": 0, "confirmed_epoch": 0} | other).values())
