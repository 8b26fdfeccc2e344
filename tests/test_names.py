"""Names, ids and bases: what is one, and what it stands for.

Too long ones are refused in test_limits.py and test_command_line.py, an empty id in test_refusals.py.
"""
from databases import make_store, user_resource
from exchanges import (
    GROUPS, NO_RESOURCE, TAKEN, USERS, VALUE,
    ExchangeTest, create_user, created, found, get, group, listed, request, search, shown_group, shown_user, user,
)
from peers import Peer, hits
from peers import user as seen_user
from support import BOB_CREATED, CREATE_BOB, ProgramTest, resource_id, scimlink

# A name, and its key: the name is taken for whoever has the same key
USER_NAMES = [
    ("a" * 128, "a" * 128),
    ("Bob", "bob"),
]
GROUP_NAMES = [
    ("Crew two", "crew two"),
    ("a" * 128, "a" * 128),
]
NO_USER_NAMES = ["", "a b", 'a"']
NO_GROUP_NAMES = [" crew", "crew "]

# The id of the resource with the number 255, and the same in capitals
LAST_BYTE = "5c1a0000-0000-8000-8000-0000000000ff"
CAPITALS = "5C1A0000-0000-8000-8000-0000000000FF"

# A base, and its authority
BASES = [
    ("http://[::1]:8080/v2", "[::1]:8080"),
    (f"http://{'a' * 100}/v2", "a" * 100),
]


def create_group(content):
    return request(f"POST {GROUPS}", content)


class NamesTest(ExchangeTest):
    def assert_named(self, shown, name, creation, again, asked):
        """A provider shows a new resource with its name. Its key is taken, and found."""
        with self.subTest(name=name), self.serving(3) as provider:
            self.assert_answers(provider, creation, created(shown))
            self.assert_answers(provider, again, TAKEN)
            self.assert_answers(provider, asked, listed([shown], 1, 1))

    def test_names_of_users(self):
        for name, key in USER_NAMES:
            asked = search(USERS, f'userName eq "{key}"')
            self.assert_named(shown_user(name), name, create_user(user(name)), create_user(user(key)), asked)

    def test_names_of_groups(self):
        for name, key in GROUP_NAMES:
            asked = search(GROUPS, f'displayName eq "{key}"')
            self.assert_named(shown_group(name, 1), name, create_group(group(name)), create_group(group(key)), asked)

    def test_texts_that_are_no_names(self):
        for name in NO_USER_NAMES:
            self.assert_answer_alone(create_user(user(name)), VALUE)
        for name in NO_GROUP_NAMES:
            self.assert_answer_alone(create_group(group(name)), VALUE)


class IdsTest(ExchangeTest):
    def test_the_id_of_a_number(self):
        """Ids are compared byte for byte."""
        store = make_store(self.folder / "store", [user_resource(number, f"u{number}") for number in range(1, 255)])
        bob = shown_user("bob", 255)
        self.assertEqual(resource_id(255), LAST_BYTE)
        with self.serving(3, "--store", store) as provider:
            self.assert_answers(provider, create_user(user("bob")), created(bob))
            self.assert_answers(provider, get(f"{USERS}/{LAST_BYTE}"), found(bob))
            self.assert_answers(provider, get(f"{USERS}/{CAPITALS}"), NO_RESOURCE)


class BasesTest(ProgramTest):
    def test_locations_begin_with_the_base(self):
        for base, _ in BASES:
            with self.subTest(base=base):
                moved = BOB_CREATED.replace(b"http://localhost:8080/v2", base.encode())
                length = 388 + len(base) - len("http://localhost:8080/v2")
                moved = moved.replace(b"Content-Length: 388", b"Content-Length: %d" % length)
                run = scimlink("answer", "--base", base, stdin=CREATE_BOB)
                self.assert_reports(run, 0)
                self.assertEqual(run.output, moved)

    def test_the_host_of_a_request_is_the_authority(self):
        self.site.write_users("bob,1,,,,,active")
        for number, (base, authority) in enumerate(BASES):
            self.site.journal = self.folder / f"journal-{number}"
            with self.subTest(base=base), Peer([hits(seen_user("bob", 1))]) as peer:
                self.assert_prints(self.site.push(peer.address, "--base", base), "user bob confirmed 1")
                self.assertEqual(peer.requests[0][0][1], f"Host: {authority}")
