"""`push`: how a group is sought and what is sent of it, for whom it waits, and in which order records are carried."""
import json

from peers import NO_HITS, Peer, answer, hits
from peers import user as seen_user
from support import GROUP, SOURCE, ProgramTest, resource_id

FIRST, SECOND = resource_id(1), resource_id(2)


def seen_group(name, revision=1):
    """A group as a provider shows it."""
    shown = {"schemas": [GROUP, SOURCE], "id": "9", "displayName": name, "meta": {"version": '"1"'}}
    return shown | {SOURCE: {"revision": revision}}


def search_for(path, attribute, name):
    return f"GET /v2/{path}?filter={attribute}+eq+%22{name}%22 HTTP/1.1"


class GroupsTest(ProgramTest):
    def pushes(self, steps, *lines, status=0):
        """A push prints these lines when its exchanges have these answers: the requests that it sent."""
        with Peer(steps) as peer:
            self.assert_prints(self.site.push(peer.address), *lines, status=status)
        return peer.requests

    def carries_crew(self, ann, bob):
        """A push carries ann, bob, and the crew of both, if the two have these ids: what it creates of the crew."""
        self.site.write_users("ann,1,,,,,active", "bob,1,,,,,active")
        self.site.write_groups("crew,1,ann bob")
        found = [hits(seen_user("ann", 1, number=ann)), hits(seen_user("bob", 1, number=bob))]
        steps = [*found, NO_HITS, answer(201, seen_group("crew"))]
        lines = ["user ann confirmed 1", "user bob confirmed 1", "group crew confirmed 1"]
        head, body = self.pushes(steps, *lines)[-1]
        self.assertEqual(head[0], "POST /v2/Groups HTTP/1.1")
        return json.loads(body)

    def crew_of(self, *ids):
        source = {"schemas": [GROUP, SOURCE], SOURCE: {"revision": 1}}
        return source | {"displayName": "crew", "members": [{"value": number} for number in ids]}

    def test_a_group_has_the_ids_of_its_members(self):
        self.assertEqual(self.carries_crew(ann=SECOND, bob=FIRST), self.crew_of(SECOND, FIRST))

    def test_a_repeated_id_is_kept_once(self):
        self.assertEqual(self.carries_crew(ann=FIRST, bob=FIRST), self.crew_of(FIRST))

    def test_a_group_waits_for_its_first_member(self):
        self.site.write_users("ann,1,,,,,active", "bob,1,,,,,active")
        self.site.write_groups("crew,1,ann bob")
        steps = [*[answer(502)] * 3, hits(seen_user("bob", 1, number=FIRST))]
        lines = ["user ann unconfirmed C4", "user bob confirmed 1", "group crew unconfirmed waits ann"]
        self.pushes(steps, *lines, status=1)
        # it also does if nobody else is there
        lines = ["user ann unconfirmed C4", "user zoe unconfirmed C4", "group crew unconfirmed waits ann"]
        self.site.journal = self.folder / "another journal"
        self.site.write_users("ann,1,,,,,active", "zoe,1,,,,,active")
        self.site.write_groups("crew,1,zoe ann")
        self.pushes([answer(502)] * 6, *lines, status=1)

    def test_users_are_carried_before_groups_and_each_by_name(self):
        self.site.write_users("bob,1,,,,,active", "ann,1,,,,,active")
        self.site.write_groups("crew,1,", "b,1,")
        names = [("user", "ann"), ("user", "bob"), ("group", "b"), ("group", "crew")]
        steps = [hits(seen_user(name, 1) if kind == "user" else seen_group(name)) for kind, name in names]
        requests = self.pushes(steps, *(f"{kind} {name} confirmed 1" for kind, name in names))
        wanted = [search_for("Users", "userName", "ann"), search_for("Users", "userName", "bob")]
        wanted += [search_for("Groups", "displayName", "b"), search_for("Groups", "displayName", "crew")]
        self.assertEqual([lines[0] for lines, _ in requests], wanted)

    def test_a_record_is_sought_by_its_name_as_it_is_spelled(self):
        self.site.write_users("bob,1,,,,,active")
        self.site.write_groups("TOUR Guides,1,")
        steps = [hits(seen_user("bob", 1)), hits(seen_group("Tour Guides"))]
        requests = self.pushes(steps, "user bob confirmed 1", "group tour guides confirmed 1")
        wanted = [search_for("Users", "userName", "bob"), search_for("Groups", "displayName", "TOUR+Guides")]
        self.assertEqual([lines[0] for lines, _ in requests], wanted)
