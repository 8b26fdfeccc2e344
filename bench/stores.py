#!/usr/bin/env python3
"""Measures both stores in files, beside the same statements by Python's sqlite3.

    python3 bench/stores.py [FOLDER]

It builds `stores.rattle`, a program over the provider and its store, and `journals.rattle`, one over
the connector and its journal, in a copy of the crates that they stand on; what isn't proved there yet
is proved first, which takes minutes (PROGRAMS, both paths, spares it). For 1,000, 10,000 and about
100,000 users it makes a file in FOLDER (else in a folder of its own), and on copies of it runs the
program and then the same statements by sqlite3, both with a log and with every commit on the disk: the
opening, and 300 calls of each kind, where a user is found, created or replaced at the provider, and a
new row or a later one is offered to the connector. It prints the best of three times of each and their
ratio. The same runs under valgrind count instructions, so that neither other work on the machine nor
its caches are in the figures. The opening reads every row; it ends with status 1 where another call
costs over twice as much among the most users as among the fewest.
"""
import os
import shutil
import sqlite3
import subprocess
import sys
import tempfile
import time

import parts

TIMES = 300
PAGE = 200  # rows that an opening of a store reads by one query


def connect(path):
    """A connection that writes as the programs do."""
    connection = sqlite3.connect(path, isolation_level=None)
    connection.execute("PRAGMA journal_mode = WAL")
    connection.execute("PRAGMA synchronous = FULL")
    return connection


class Provider:
    """The provider over its store."""
    name = "stores"
    libraries = ("scim_key scim_version scim_resource scim_filter scim_message provider_core "
                 "provider_store sqlite anyhow").split()
    calls = ("find", "insert", "update")
    sizes = (1_000, 10_000, 100_000)
    tables = """
CREATE TABLE IF NOT EXISTS provider_format (one INTEGER PRIMARY KEY CHECK (one = 1), number INTEGER NOT NULL);
INSERT INTO provider_format (one, number) VALUES (1, 1);
CREATE TABLE resource (number INTEGER PRIMARY KEY CHECK (number >= 1), kind INTEGER NOT NULL CHECK (kind = 1 OR kind = 2), name_key TEXT NOT NULL, version INTEGER NOT NULL CHECK (version >= 1), content TEXT NOT NULL, UNIQUE (kind, name_key));
"""
    by_number = "SELECT number, kind, name_key, version, content FROM resource WHERE number = ?1"
    by_name = "SELECT number, kind, name_key, version, content FROM resource WHERE kind = ?1 AND name_key = ?2"
    page = "SELECT number, kind, name_key, version, content FROM resource WHERE number >= ?1 AND number <= ?2 ORDER BY number"
    outside = "SELECT number FROM resource WHERE number < 1 OR number > ?1"
    unnumbered = "SELECT number FROM resource WHERE number IS NULL"
    insert = "INSERT INTO resource (number, kind, name_key, version, content) VALUES (?1, ?2, ?3, ?4, ?5)"
    update = "UPDATE resource SET version = ?2, content = ?3 WHERE number = ?1"

    def content(self, name):
        """The text of a user's content."""
        return (f'{{"active":true,"emails":[{{"primary":true,"type":"work","value":"{name}@example.com"}}],'
                f'"schemas":["urn:ietf:params:scim:schemas:core:2.0:User"],"userName":"{name}"}}')

    def row(self, number, name):
        return (number, 1, name, 1, self.content(name))

    def open(self, connection, users):
        """The statements of an opening."""
        connection.execute("SELECT number FROM provider_format").fetchall()
        connection.execute(self.unnumbered).fetchall()
        for first in range(1, users + 1, PAGE):
            connection.execute(self.page, (first, first + PAGE - 1)).fetchall()
        connection.execute(self.by_number, (users + 1,)).fetchall()
        connection.execute(self.outside, (users,)).fetchall()

    def run(self, connection, call, users, place, number):
        """The statements of one request."""
        name = f"new{number}" if call == "insert" else f"user{number}"
        if call == "update":
            row = connection.execute(self.by_number, (number,)).fetchall()[0]
            connection.execute(self.update, (number, row[3] + 1, self.content(name)))
            return
        connection.execute(self.by_name, (1, name)).fetchall()
        if call == "insert":
            connection.execute(self.by_number, (1,)).fetchall()
            connection.execute(self.insert, self.row(users + place + 1, name))


class Journal:
    """The connector over its journal."""
    name = "journals"
    libraries = "scim_key source_csv journal_core journal_store connector_core sqlite anyhow".split()
    calls = ("add", "change")
    # with the users that are added, the greatest stays within the limit of a journal
    sizes = (1_000, 10_000, 99_000)
    tables = """
CREATE TABLE IF NOT EXISTS journal_format (one INTEGER PRIMARY KEY CHECK (one = 1), number INTEGER NOT NULL);
INSERT INTO journal_format (one, number) VALUES (1, 3);
CREATE TABLE user_entry (name_key TEXT PRIMARY KEY NOT NULL, login TEXT NOT NULL, revision INTEGER NOT NULL, number TEXT NOT NULL, given TEXT NOT NULL, family TEXT NOT NULL, mail TEXT NOT NULL, active INTEGER NOT NULL, confirmed INTEGER NOT NULL, id TEXT);
CREATE TABLE group_entry (name_key TEXT PRIMARY KEY NOT NULL, name TEXT NOT NULL, revision INTEGER NOT NULL, members TEXT NOT NULL, confirmed INTEGER NOT NULL, id TEXT);
CREATE TABLE user_entry_2 (name_key TEXT PRIMARY KEY NOT NULL, login TEXT NOT NULL, revision INTEGER NOT NULL, number TEXT NOT NULL, given TEXT NOT NULL, family TEXT NOT NULL, mail TEXT NOT NULL, department TEXT NOT NULL, active INTEGER NOT NULL, confirmed INTEGER NOT NULL, id TEXT);
CREATE TABLE user_entry_3 (name_key TEXT PRIMARY KEY NOT NULL, login TEXT NOT NULL, revision INTEGER NOT NULL, number TEXT NOT NULL, given TEXT NOT NULL, family TEXT NOT NULL, mail TEXT NOT NULL, department TEXT NOT NULL, active INTEGER NOT NULL, confirmed INTEGER NOT NULL, id TEXT, epoch INTEGER NOT NULL, confirmed_epoch INTEGER NOT NULL);
CREATE TABLE group_entry_3 (name_key TEXT PRIMARY KEY NOT NULL, name TEXT NOT NULL, revision INTEGER NOT NULL, members TEXT NOT NULL, confirmed INTEGER NOT NULL, id TEXT, epoch INTEGER NOT NULL, confirmed_epoch INTEGER NOT NULL);
"""
    columns = "name_key, login, revision, number, given, family, mail, department, active, confirmed, id, epoch, confirmed_epoch"
    users = f"SELECT {columns} FROM user_entry_3"
    groups = "SELECT name_key, name, revision, members, confirmed, id, epoch, confirmed_epoch FROM group_entry_3"
    insert = f"INSERT INTO user_entry_3 ({columns}) VALUES (?1, ?2, ?3, ?4, ?5, ?6, ?7, ?8, ?9, ?10, ?11, ?12, ?13)"
    update = ("UPDATE user_entry_3 SET login = ?2, revision = ?3, number = ?4, given = ?5, family = ?6, "
              "mail = ?7, department = ?8, active = ?9, confirmed = ?10, id = ?11, epoch = ?12, confirmed_epoch = ?13 WHERE name_key = ?1")

    def row(self, number, name, revision=1):
        return (name, name, revision, str(number), "", "", f"{name}@example.com", "", 1, 0, None, 0, 0)

    def open(self, connection, _users):
        """The statements of an opening, and of a load."""
        connection.execute("SELECT number FROM journal_format").fetchall()
        connection.execute("SELECT rowid FROM user_entry_3 ORDER BY rowid").fetchall()
        connection.execute("SELECT rowid FROM group_entry_3 ORDER BY rowid").fetchall()
        for _ in range(2):
            connection.execute(f"{self.users} ORDER BY name_key").fetchall()
            connection.execute(f"{self.groups} ORDER BY name_key").fetchall()

    def run(self, connection, call, _users, _place, number):
        """The statements of one row."""
        name = f"new{number}" if call == "add" else f"user{number}"
        connection.execute(f"{self.users} WHERE name_key = ?1", (name,)).fetchall()
        if call == "add":
            connection.execute(self.insert, self.row(number, name))
        else:
            connection.execute(self.update, self.row(number, name, revision=2))


def make_file(store, path, users):
    """Makes a file of so many users."""
    connection = connect(path)
    connection.executescript(store.tables)
    connection.execute("BEGIN")
    connection.executemany(store.insert, (store.row(n, f"user{n}") for n in range(1, users + 1)))
    connection.execute("COMMIT")
    connection.close()


def ours(program, call, path, users, times=TIMES):
    """How long the program takes to open a store, and for its calls, in microseconds."""
    words = [program, call, path, str(users), str(times)]
    text = subprocess.run(words, stdout=subprocess.PIPE, check=True).stdout
    opened, taken = text.split()
    return int(opened), int(taken)


def theirs(store, call, path, users):
    """How long sqlite3 takes for the same statements, in microseconds."""
    start = time.perf_counter()
    connection = connect(path)
    store.open(connection, users)
    opened = time.perf_counter()
    for place in range(TIMES):
        store.run(connection, call, users, place, place * (users // TIMES) + 1)
    taken = time.perf_counter()
    connection.close()
    return (opened - start) * 1e6, (taken - opened) * 1e6


def best(room, source, run):
    """The best of three times, each over a copy of a file."""
    found = [over_a_copy(room, source, run) for _ in range(3)]
    return [min(times) for times in zip(*found)]


def over_a_copy(room, source, run):
    """What a run over a copy of a file gives."""
    with tempfile.TemporaryDirectory(dir=room) as folder:
        path = os.path.join(folder, "store")
        shutil.copy(source, path)
        return run(path)


def tell(what, users, costs, times):
    """Prints instructions, and both times."""
    ours_took, theirs_took = times
    print(f"{what:7} among {users:7,} users: {costs:15,.0f} instructions, {ours_took:11,.0f} us, "
          f"sqlite3 {theirs_took:11,.0f} us, ratio {ours_took / theirs_took:5.2f}", flush=True)


def measure(store, program, room, users):
    """What each call costs among so many users, in instructions."""
    source = os.path.join(room, f"{store.name}-{users}")
    make_file(store, source, users)
    start = over_a_copy(room, source,
                        lambda path: parts.instructions([program, store.calls[0], path, users, 0])[0])
    costs = {}
    for call in store.calls:
        many = over_a_copy(room, source,
                           lambda path: parts.instructions([program, call, path, users, TIMES])[0])
        costs[call] = (many - start) / TIMES
        we = best(room, source, lambda path: ours(program, call, path, users))
        they = best(room, source, lambda path: theirs(store, call, path, users))
        if call == store.calls[0]:
            tell("open", users, start, (we[0], they[0]))
        tell(call, users, costs[call], (we[1] / TIMES, they[1] / TIMES))
    return costs


def main():
    stores = (Provider(), Journal())
    good = True
    with tempfile.TemporaryDirectory(prefix="stores-", dir=(sys.argv + [None])[1]) as room:
        programs = os.environ.get("PROGRAMS", "").split()
        if not programs:
            parts.lay_out(room, {store.name: store.libraries for store in stores})
            programs = [parts.build(room, store.name, [store.calls[0], os.path.join(room, store.name), "0", "0"])
                        for store in stores]
        for store, program in zip(stores, programs):
            costs = [measure(store, program, room, users) for users in store.sizes]
            good = good and all(costs[-1][call] <= 2 * costs[0][call] for call in store.calls)
    if not good:
        sys.exit("a call costs over twice as much among the most users as among the fewest")


if __name__ == "__main__":
    main()
