"""`serve`: a search finds by its name the one record that its filter names, and anything else by looking at all."""
import json

from exchanges import GROUPS, USERS, ExchangeTest, create_user, group, request, search, user

LONGEST, LONGER = 128 * "a", 129 * "a"
USERS_HELD = [
    user("bob", active=False),
    user("bobby", externalId="bob", emails=[{"value": "bob"}]),
    user("ann"),
    user(LONGEST, active=False),
]
GROUPS_HELD = [group(name) for name in ("Tour Guides", "crew", "bob", "Team Bob")]
EVERY_GROUP = ["Tour Guides", "crew", "bob", "Team Bob"]

# A filter that names a record, and the names of what it finds among the users and among the groups
NAMING = [
    ('userName eq "bob"', ["bob"], []),
    ('( USERNAME EQ "BOB" )', ["bob"], []),
    ('displayName eq "Tour Guides"', [], ["Tour Guides"]),
    ('displayName eq "TOUR Guides"', [], ["Tour Guides"]),
    (f'userName eq "{LONGEST}"', [LONGEST], []),
]
# Likewise one that names none, since its text is no name
NO_NAMES = [
    ('userName eq "Tour Guides"', [], []),
    ('displayName eq " crew"', [], []),
    ('userName eq ""', [], []),
    (r'displayName eq "a\"b"', [], []),
    (f'displayName eq "{LONGER}"', [], []),
]
# or since it is more than one test whether a name is equal
OTHER_TESTS = [
    ('userName ne "bob"', ["bobby", "ann", LONGEST], EVERY_GROUP),
    ('userName co "bob"', ["bob", "bobby"], []),
    ('userName sw "bob"', ["bob", "bobby"], []),
    ('displayName ew "bob"', [], ["bob", "Team Bob"]),
    ("userName pr", ["bob", "bobby", "ann", LONGEST], []),
    ('userName eq "bob" and active eq true', [], []),
    ('active eq true and userName eq "bob"', [], []),
    ('userName eq "bob" or userName eq "bob"', ["bob"], []),
    ('not (userName eq "bob")', ["bobby", "ann", LONGEST], EVERY_GROUP),
    ('externalId eq "bob"', ["bobby"], []),
    ('id eq "bob" or emails eq "bob"', ["bobby"], []),
    ('emails eq "bob"', ["bobby"], []),
    ("active eq true", ["bobby", "ann"], []),
]


class SearchesByNameTest(ExchangeTest):
    def names_found(self, provider, path, text):
        answer = provider.exchange(search(path, text))
        self.assertTrue(answer.startswith(b"HTTP/1.1 200 OK\r\n"), answer)
        resources = json.loads(answer.partition(b"\r\n\r\n")[2])["Resources"]
        return [shown.get("userName") or shown["displayName"] for shown in resources]

    def assert_found(self, rows):
        """A provider finds by each filter the resources with the names beside it."""
        creations = [*map(create_user, USERS_HELD), *(request(f"POST {GROUPS}", held) for held in GROUPS_HELD)]
        with self.serving(len(creations) + 2 * len(rows)) as provider:
            for creation in creations:
                self.assertTrue(provider.exchange(creation).startswith(b"HTTP/1.1 201 Created\r\n"))
            for text, users, groups in rows:
                with self.subTest(filter=text):
                    self.assertEqual(self.names_found(provider, USERS, text), users)
                    self.assertEqual(self.names_found(provider, GROUPS, text), groups)

    def test_a_name_alone(self):
        self.assert_found(NAMING)

    def test_texts_that_are_no_names(self):
        self.assert_found(NO_NAMES)

    def test_other_tests(self):
        self.assert_found(OTHER_TESTS)
