"""What the connector asks for next for each record: the requests of `push`, and their order by `simulate`."""
import json
import urllib.parse

from databases import department_text
from exchanges import created, shown_user
from peers import NO_HITS, Peer, answer, hits, user
from support import (
    BOB_CREATED, CREATE_BOB, DEPARTMENTS_HEADER, ENTERPRISE, GROUP, SOURCE, USER, ProgramTest, resource_id, scimlink,
    text,
)

PROXY = answer(502, b"<html>")
USERS, GROUPS = ["Bob,1,,,,,active", "ann,1,,,,,left"], ["Night Crew,1,", "crew,1,Bob ann"]
FIND_BOB, FIND_ANN = 'User userName eq "bob"', 'User userName eq "ann"'
BOB, ANN, CREW = 1, 2, 3


def told(request):
    """A request as a short text: the filter of a search; else the name, revision and members that it sends."""
    lines, body = request
    method, target, _ = lines[0].split(" ")
    url = urllib.parse.urlsplit(target)
    kind = {"Users": "User", "Groups": "Group"}[url.path.split("/")[2]]
    if method == "GET":
        [(_, sought)] = urllib.parse.parse_qsl(url.query)
        return f"{kind} {sought}"
    content = json.loads(body)
    name = content["userName" if kind == "User" else "displayName"]
    members = [member["value"] for member in content.get("members", [])]
    words = " ".join([name, str(content[SOURCE]["revision"]), *members])
    if method == "POST":
        return f"create {words}"
    number = int(url.path.rpartition("-")[2], 16)
    [tag] = [line.removeprefix("If-Match: ") for line in lines if line.startswith("If-")]
    return f"replace {number} under {tag}: {words}"


def bytes_of(request):
    lines, body = request
    return "\r\n".join([*lines, "", ""]).encode() + body


def shown(name, number, revision, version):
    """A user as the provider of scimlink would show it."""
    return user(name, revision, f'"{version}"', resource_id(number))


def crew(revision, version, *members):
    content = {"schemas": [GROUP, SOURCE], "displayName": "crew", SOURCE: {"revision": revision}}
    values = [{"value": resource_id(member)} for member in members]
    return content | {"id": resource_id(CREW), "meta": {"version": f'"{version}"'}, "members": values}


def carried(record, number, request, status, learnt):
    """The events of an exchange whose request is this message, each with its report."""
    sent = (f"send {record}", f"{request} {number}")
    return [sent, (f"deliver {number}", f"answer {number + 1} {status}"), (f"deliver {number + 1}", learnt)]


# What is known of each record, and so what is asked for it
ROUNDS = [
    ("user bob,1,,,,,active", "new"),
    ("user ann,1,,,,,active", "new"),
    ("group crew,1,bob ann", "new"),
    ("send group crew", "waits ann"),
    *carried("user bob", 1, "find", 200, "absent"),
    *carried("user bob", 3, "create", 201, "confirmed 1"),
    ("send user bob", "nothing"),
    ("send group crew", "waits ann"),
    *carried("user ann", 5, "find", 200, "absent"),
    ("send group crew", "waits ann"),
    *carried("user ann", 7, "create", 201, "confirmed 1"),
    *carried("group crew", 9, "find", 200, "absent"),
    *carried("group crew", 11, "create", 201, "confirmed 1"),
    ("send group crew", "nothing"),
    ("user bob,2,,,,,active", "new"),
    ("group crew,2,", "new"),
    *carried("user bob", 13, "replace", 200, "confirmed 2"),
    ("send user bob", "nothing"),
    *carried("group crew", 15, "replace", 200, "confirmed 2"),
    ("send group crew", "nothing"),
    ("user bob,3,,,,,left", "new"),
    ("restart connector", "restarted"),
    ("send user ann", "nothing"),
    *carried("user bob", 17, "find", 200, "seen"),
    *carried("user bob", 19, "replace", 200, "confirmed 3"),
    ("send user bob", "nothing"),
]
VIEWS = [
    "user ann wanted=1 confirmed=1 held=1 version=1 active=true",
    "user bob wanted=3 confirmed=3 held=3 version=3 active=false",
    "group crew wanted=2 confirmed=2 held=2 version=2 members=0",
]


class AskingTest(ProgramTest):
    def asks(self, exchanges, *lines, status=0):
        """A push prints these lines when its requests, as short texts, are these and have these answers."""
        with Peer([step for _, step in exchanges]) as peer:
            self.assert_prints(self.site.push(peer.address), *lines, status=status)
        self.assertEqual([told(request) for request in peer.requests], [asked for asked, _ in exchanges])
        return peer.requests

    def assert_simulates(self, events, *views, status=0):
        schedule = self.folder / "schedule"
        schedule.write_text(text(*(event for event, _ in events)))
        reports = [f"{place} {report}" for place, (_, report) in enumerate(events, 1)]
        self.assert_prints(scimlink("simulate", schedule), *reports, *views, status=status)

    def test_a_record_is_searched_for_by_its_name_as_it_is_spelled(self):
        self.site.write_users(*USERS)
        self.site.write_groups(*GROUPS)
        searches = [FIND_ANN, 'User userName eq "Bob"', 'Group displayName eq "Night Crew"']
        lines = ["user ann unconfirmed C4", "user bob unconfirmed C4"]
        lines += ["group crew unconfirmed waits ann", "group night crew unconfirmed C4"]
        self.asks([(search, PROXY) for search in searches for _ in range(3)], *lines, status=1)

    def test_records_by_their_names(self):
        sends = [("user bob", "find 1"), ("user ann", "find 2"), ("group night crew", "find 3")]
        sends += [("group crew", "waits ann"), ("group bob", "C7"), ("user zoe", "C7")]
        events = [(f"user {record}", "new") for record in USERS] + [(f"group {record}", "new") for record in GROUPS]
        views = [f"user {name} wanted=1 confirmed=0 held=0 version=0 active=-" for name in ("ann", "bob")]
        views += [f"group {name} wanted=1 confirmed=0 held=0 version=0 members=0" for name in ("crew", "night crew")]
        self.assert_simulates([*events, *((f"send {name}", report) for name, report in sends)], *views, status=1)

    def test_requests_in_their_order(self):
        self.assert_simulates(ROUNDS, *VIEWS)

    def test_what_is_sent_to_create_and_replace(self):
        self.site.write_users("bob,1,,,,,active", "ann,1,,,,,active")
        self.site.write_groups("crew,1,bob ann")
        joining = [
            (FIND_ANN, NO_HITS),
            ("create ann 1", answer(201, shown("ann", ANN, 1, 1))),
            (FIND_BOB, NO_HITS),
            ("create bob 1", answer(201, shown("bob", BOB, 1, 1))),
            ('Group displayName eq "crew"', NO_HITS),
            (f"create crew 1 {resource_id(ANN)} {resource_id(BOB)}", answer(201, crew(1, 1, ANN, BOB))),
        ]
        self.asks(joining, "user ann confirmed 1", "user bob confirmed 1", "group crew confirmed 1")
        self.site.write_users("bob,2,,,,,active")
        self.site.write_groups("crew,2,")
        changing = [
            (FIND_BOB, hits(shown("bob", BOB, 1, 1))),
            ('replace 1 under "1": bob 2', answer(200, shown("bob", BOB, 2, 2))),
            ('Group displayName eq "crew"', hits(crew(1, 1, ANN, BOB))),
            ('replace 3 under "1": crew 2', answer(200, crew(2, 2))),
        ]
        self.asks(changing, "user ann confirmed 1", "user bob confirmed 2", "group crew confirmed 2")
        self.site.write_users("bob,3,,,,,left")
        leaving = [
            (FIND_BOB, hits(shown("bob", BOB, 2, 2))),
            ('replace 1 under "2": bob 3', answer(200, shown("bob", BOB, 3, 3))),
        ]
        self.asks(leaving, "user ann confirmed 1", "user bob confirmed 3", "group crew confirmed 2")

    def assert_creates(self, revision, request, response):
        """A push sends exactly this request, to which the provider gives this answer, and learns from it."""
        with Peer([NO_HITS, response]) as peer:
            self.assert_prints(self.site.push(peer.address), f"user bob confirmed {revision}")
        self.assertEqual(bytes_of(peer.requests[1]), request)
        self.assertEqual(scimlink("answer", stdin=request).output, response)

    def test_a_creation_byte_for_byte(self):
        self.site.write_users("bob,1,,,,,active")
        self.assert_creates(1, CREATE_BOB, BOB_CREATED)

    def test_a_creation_in_a_department_byte_for_byte(self):
        self.site.write_users("bob,2,,,,,active,Sales", header=DEPARTMENTS_HEADER)
        head = CREATE_BOB.partition(b"\r\n\r\n")[0].replace(b"Content-Length: 214", b"Content-Length: 359")
        sales = {"schemas": [USER, ENTERPRISE, SOURCE], ENTERPRISE: {"department": "Sales"}, SOURCE: {"revision": 2}}
        response = created(shown_user("bob") | sales)
        self.assertIn(b"\r\nContent-Length: 533\r\n", response)
        self.assert_creates(2, head + b"\r\n\r\n" + department_text("bob", 2, "Sales").encode(), response)
