"""The work of `push` by Python's own modules, for serve.py and streams.py:

    python_push.py USERS JOURNAL HOST:PORT [WORKERS]

All rows are entries of the journal, by one commit, before anything is sent. Then each record is looked
for, created where it isn't there, and confirmed in the journal by a commit of its own. Each record is
reported as soon as it and all before it are done. WORKERS, 1 by default, are threads that look and create.
"""
import concurrent.futures
import csv
import functools
import http.client
import json
import sys
import urllib.parse

import stores

SCIM = "application/scim+json"
CORE = "urn:ietf:params:scim:schemas:core:2.0:User"
SOURCE = "urn:example:params:scim:schemas:extension:source:1.0"
PUT = "INSERT OR REPLACE INTO entry (name, row, confirmed, id) VALUES (?1, ?2, ?3, ?4)"


def content(row):
    user = {"active": row["status"] == "active", "schemas": [CORE, SOURCE], "userName": row["login"],
            SOURCE: {"revision": int(row["revision"])}}
    name = {"givenName": row["given"], "familyName": row["family"]}
    if any(name.values()):
        user["name"] = {key: value for key, value in name.items() if value}
    if row["number"]:
        user["externalId"] = row["number"]
    if row["mail"]:
        user["emails"] = [{"primary": True, "type": "work", "value": row["mail"]}]
    return json.dumps(user, separators=(",", ":"), sort_keys=True)


def exchange(to, method, path, body=None):
    connection = http.client.HTTPConnection(to, timeout=30)
    fields = {"Accept": SCIM, "Connection": "close"} | ({"Content-Type": SCIM} if body else {})
    connection.request(method, path, body, fields)
    response = connection.getresponse()
    answer = json.loads(response.read())
    connection.close()
    return response.status, answer


def carry(to, row):
    """Looks for a user and creates it: its id."""
    sought = urllib.parse.quote(f'userName eq "{row["login"]}"')
    status, found = exchange(to, "GET", f"/v2/Users?filter={sought}")
    assert (status, found["totalResults"]) == (200, 0), found
    status, made = exchange(to, "POST", "/v2/Users", content(row))
    assert (status, made["userName"]) == (201, row["login"]), made
    return made["id"]


def main():
    users, path, to, workers = [*sys.argv[1:], "1"][:4]
    journal = stores.connect(path)
    journal.execute("CREATE TABLE entry (name TEXT PRIMARY KEY, row TEXT NOT NULL, confirmed INTEGER NOT NULL, id TEXT)")
    with open(users, encoding="utf-8", newline="") as file:
        rows = sorted(csv.DictReader(file), key=lambda row: row["login"])
    journal.execute("BEGIN")
    journal.executemany(PUT, ((row["login"], json.dumps(row), 0, None) for row in rows))
    journal.execute("COMMIT")
    with concurrent.futures.ThreadPoolExecutor(int(workers)) as pool:
        carried = pool.map(functools.partial(carry, to), rows) if workers != "1" else (carry(to, row) for row in rows)
        for row, id in zip(rows, carried):
            journal.execute(PUT, (row["login"], json.dumps(row), int(row["revision"]), id))
            print(f"user {row['login']} confirmed {row['revision']}", flush=True)


main()
