"""`serve`: what filters find, and how long and deep they may be (RFC 7644 section 3.4.2.2).

The texts that are no filters are in test_filter_texts.py.
"""
import json

from databases import compact, make_store, user_resource
from exchanges import GROUPS, USERS, ExchangeTest, search
from support import GROUP, USER, resource_id

# Resources by their words: their numbers, their versions, and what is stored of them
ANN = 1, 1, {
    "schemas": [USER],
    "userName": "ann",
    "name": {"givenName": "Ann", "familyName": "Lee"},
    "emails": [
        {"value": "ann@example.com", "type": "work", "primary": True},
        {"value": "Ann.Lee@Home.example", "type": "home"},
    ],
}
BOB = 2, 12, {
    "schemas": [USER],
    "userName": "bob",
    "emails": [{"value": "bob@example.org"}],
}
# The full user of RFC 7643 section 8.2, with the attributes that are kept
BABS = 3, 2, {
    "schemas": [USER],
    "externalId": "701984",
    "userName": "bjensen@example.com",
    "name": {"familyName": "Jensen", "givenName": "Barbara"},
    "emails": [
        {"value": "bjensen@example.com", "type": "work", "primary": True},
        {"value": "babs@jensen.org", "type": "home"},
    ],
    "active": True,
}
ZOE = 10, 3, {
    "schemas": [USER],
    "externalId": "Z-7",
    "userName": "Zoe",
    "name": {"familyName": "O'Malley", "givenName": "Zoë"},
    "active": False,
}
# The group of RFC 7643 section 8.4, with an `externalId`
GUIDES = 11, 1, {
    "schemas": [GROUP],
    "externalId": 'a"b\\c/d',
    "displayName": "Tour Guides",
    "members": [
        {"value": "2819c223-7f76-453a-919d-413861904646", "display": "Babs Jensen"},
        {"value": "902c246b-6245-4190-8e05-00816be7344a", "display": "Mandy Pepperidge"},
    ],
}
RESOURCES = {"ann": ANN, "bob": BOB, "babs": BABS, "zoe": ZOE, "guides": GUIDES}
WORDS = {resource_id(number): word for word, (number, _, _) in RESOURCES.items()}
EVERY_USER, EVERYBODY = "ann bob babs zoe", "ann bob babs zoe guides"

# A filter, and the words of what it finds
FIGURES = [
    ('userName eq "bjensen"', ""),
    ("name.familyName co \"O'Malley\"", "zoe"),
    ('userName sw "J"', ""),
    ('emails co "example.com" or emails.value co "example.org"', "ann bob babs"),
    ('userName ne "bob" and (emails co "example.com" or emails.value co "example.org")', "ann babs"),
    ('userName ne "zoe" and not (emails co "example.com" or emails.value co "example.org")', "guides"),
    ('userName ne "zoe" and not (emails co "example.com" or emails co "example.org")', "guides"),
    ('userName eq "ann" and (emails.type eq "work")', "ann"),
    ('username Eq "john"', ""),
    ('Username eq "ann"', "ann"),
]
OPERATORS = [
    ('userName eq "bob"', "bob"),
    ('userName eq "bo"', ""),
    ('userName ne "bob"', "ann babs zoe guides"),
    ('userName co "o"', "bob babs zoe"),
    ('userName co "nsen@ex"', "babs"),
    ('userName co "bobb"', ""),
    ('userName sw "b"', "bob babs"),
    ('userName sw "bob"', "bob"),
    ('userName sw "ob"', ""),
    ('userName ew "b"', "bob"),
    ('userName ew "bo"', ""),
    ('userName ew "xbob"', ""),
    ("userName pr", EVERY_USER),
]
EMPTY_TEXTS = [
    ('userName eq ""', ""),
    ('userName ne ""', EVERYBODY),
    ('userName co ""', EVERY_USER),
    ('userName sw ""', EVERY_USER),
    ('name.familyName ew ""', "ann babs zoe"),
    ('members co ""', "guides"),
]

# Names, addresses and operators have no case
LETTERS = [
    ('USERNAME EQ "BOB"', "bob"),
    ('userName eq "zoe"', "zoe"),
    ('Name.FamilyName Sw "LEE"', "ann"),
    ("NAME.GIVENNAME PR", "ann babs zoe"),
    ('displayname eQ "TOUR GUIDES"', "guides"),
    ('displayName eq "TOUR Guides"', "guides"),
    ('DisplayName cO "r g"', "guides"),
    ('userName Ew "EXAMPLE.COM"', "babs"),
    ('userName co "JENSEN@"', "babs"),
    ('EMAILS.TYPE eq "WORK"', "ann babs"),
    ('eMails.Value eq "ann.lee@home.EXAMPLE"', "ann"),
    ('Members.VALUE Eq "2819C223-7F76-453A-919D-413861904646"', "guides"),
    ('EXTERNALID nE "z-7"', EVERYBODY),
    ("ACTIVE EQ True", "ann bob babs"),
    ("Emails.Primary eq TRUE", "ann babs"),
    ('NOT (userName pr) OR userName eq "ANN" AND Active Eq true', "ann guides"),
    ('not (userName pr) or userName eq "ANN" and active eq true', "ann guides"),
    ('name.givenName eq "zoë"', "zoe"),
    ('name.givenName eq "ZOË"', ""),
]
# The case of ids, numbers and versions counts
BYTES = [
    ('id eq "5c1a0000-0000-8000-8000-00000000000a"', "zoe"),
    ('id eq "5C1A0000-0000-8000-8000-00000000000A"', ""),
    ('id ne "5C1A0000-0000-8000-8000-00000000000A"', EVERYBODY),
    ('id ew "00b"', "guides"),
    ('id ew "00B"', ""),
    ('id sw "5c1a"', EVERYBODY),
    ('id sw "5C1A"', ""),
    ('id co "-8000-8000-"', EVERYBODY),
    ("id pr", EVERYBODY),
    ('externalId eq "Z-7"', "zoe"),
    ('externalId eq "z-7"', ""),
    ('externalId co "Z"', "zoe"),
    ('externalId co "z"', ""),
    ('externalId sw "7019"', "babs"),
    ('externalId ew "84"', "babs"),
    (r'meta.version eq "\"1\""', "ann guides"),
    (r'meta.version ne "\"1\""', "bob babs zoe"),
    (r'meta.version sw "\"1"', "ann bob guides"),
    (r'meta.version ew "2\""', "bob babs"),
    ('meta.version eq "1"', ""),
    (r'meta.version eq "W/\"1\""', ""),
    ("meta.version pr", EVERYBODY),
]

MANY_VALUES = [
    ('emails eq "ann.lee@home.example"', "ann"),
    ('emails ne "ann.lee@home.example"', "bob babs zoe guides"),
    ('emails.value ew ".org"', "bob babs"),
    ("emails pr", "ann bob babs"),
    ("emails.value pr", "ann bob babs"),
    ("emails.type pr", "ann babs"),
    ('emails.type eq "home"', "ann babs"),
    ('emails.type ne "work"', "bob zoe guides"),
    ('emails.type eq "work" and emails ew "@home.example"', "ann"),
    ('members eq "902c246b-6245-4190-8e05-00816be7344a"', "guides"),
    ('members.value sw "2819"', "guides"),
    ('members co "4646902c"', ""),
    ('members ne "2819c223-7f76-453a-919d-413861904646"', EVERY_USER),
    ("members pr", "guides"),
]
BOOLEANS = [
    ("active eq true", "ann bob babs"),
    ("active eq false", "zoe"),
    ("active ne true", "zoe guides"),
    ("active ne false", "ann bob babs guides"),
    ("active pr", EVERY_USER),
    ("emails.primary eq true", "ann babs"),
    ("emails.primary eq false", "ann bob babs"),
    ("emails.primary ne true", "bob zoe guides"),
    ("emails.primary ne false", "zoe guides"),
    ("emails.primary pr", "ann bob babs"),
]
ABSENT = [
    ('externalId ne "5"', EVERYBODY),
    ('not (externalId eq "5")', EVERYBODY),
    ("externalId pr", "babs zoe guides"),
    ("not (externalId pr)", "ann bob"),
    ("displayName pr", "guides"),
    ('displayName ne "Tour Guides"', EVERY_USER),
    ('displayName eq "ann"', ""),
    ('userName ne "ann"', "bob babs zoe guides"),
    ('name.familyName ne "Lee"', "bob babs zoe guides"),
    ('name.familyName eq ""', ""),
    ('members ne "x"', EVERYBODY),
    ("not (active eq true)", "zoe guides"),
    ("not (active pr)", "guides"),
]

CONNECTIVES = [
    ('userName eq "ann" or userName eq "bob" and active eq false', "ann"),
    ('(userName eq "ann" or userName eq "bob") and active eq false', ""),
    ('active eq false and userName eq "bob" or userName eq "ann"', "ann"),
    ('active eq false and (userName eq "bob" or userName eq "ann")', ""),
    ('not (userName eq "ann") and active eq true', "bob babs"),
    ('not (userName eq "ann" and active eq true)', "bob babs zoe guides"),
    ('not (userName eq "ann") or userName eq "ann"', EVERYBODY),
    ("userName pr and emails pr and externalId pr", "babs"),
    ('displayName pr or active eq false or userName eq "bob"', "bob zoe guides"),
    ('not (not (userName eq "ann"))', "ann"),
]
SPACES = [
    ('  userName   eq   "bob"  ', "bob"),
    ('(userName eq "bob")', "bob"),
    ('( userName eq "bob" )', "bob"),
    ('  ((userName eq "bob"))', "bob"),
    ('not(username EQ "ANN")', "bob babs zoe guides"),
    ("not  (  userName pr  )  ", "guides"),
    ('not((userName pr)) or (userName eq "ann")', "ann guides"),
]
# Texts in a filter are spelled as in JSON
SPELLED_TEXTS = [
    (r'userName eq "\u0062ob"', "bob"),
    (r'userName eq "\u0042\u004FB"', "bob"),
    (r'name.givenName eq "Zo\u00eb"', "zoe"),
    (r'name.givenName eq "\ud83d\ude00"', ""),
    (r'displayName eq "Tour\u0020Guides"', "guides"),
    (r'externalId eq "a\"b\\c\/d"', "guides"),
    (r'externalId eq "a\"b\\c/d"', "guides"),
    (r'externalId ew "\\c/d"', "guides"),
    (r'externalId co "\\\\"', ""),
    (r'userName eq "bob\" or userName pr or userName eq \""', ""),
    ('userName eq "true" or userName eq ") and ("', ""),
]

# Filters of 2,048 bytes
LONGEST = [
    ("userName pr" + 2037 * " ", EVERY_USER),
    ('userName sw "' + 2034 * "a" + '"', ""),
    ('userName ne "' + 1017 * "é" + '"', EVERYBODY),
]


def within(count, before, after=")"):
    """A test for a name, with this many texts before and after it."""
    return count * before + "userName pr" + count * after


# Filters that are as deep as they may be, and filters that are deeper
DEEPEST = [within(32, "("), within(32, "not ("), within(16, "( not(", ") )"), within(40, "(active pr) and ", "")]
DEEPER = [within(33, "("), within(33, "not ("), within(33, "(active pr or ")]


def stored(number, version, content):
    """The row of a user or group in a store."""
    name = content.get("userName") or content["displayName"]
    kind = 1 if "userName" in content else 2
    return user_resource(number, name.lower(), kind=kind, version=version, content=compact(content))


class FilterTest(ExchangeTest):
    def serving_resources(self, requests):
        """A provider with the resources. Other users have the numbers between, for a store has no gaps."""
        rows = [stored(*resource) for resource in RESOURCES.values()]
        rows += [user_resource(number, f"user{number}") for number in range(4, 10)]
        return self.serving(requests, "--store", make_store(self.folder / "store", rows))

    def words_found(self, provider, text):
        """The words of what a filter finds in both collections."""
        answers = [provider.exchange(search(path, text)) for path in (USERS, GROUPS)]
        found = []
        for answer in answers:
            self.assertTrue(answer.startswith(b"HTTP/1.1 200 OK\r\n"), answer)
            found += json.loads(answer.partition(b"\r\n\r\n")[2])["Resources"]
        return " ".join(WORDS[it["id"]] for it in found if it["id"] in WORDS)

    def assert_found(self, *tables):
        """Each filter finds the resources with the words beside it."""
        rows = [row for table in tables for row in table]
        with self.serving_resources(2 * len(rows)) as provider:
            for text, words in rows:
                with self.subTest(filter=text):
                    self.assertEqual(self.words_found(provider, text), words)

    def test_the_figures_and_operators_of_the_standard(self):
        self.assert_found(FIGURES, OPERATORS, EMPTY_TEXTS)

    def test_letters_and_bytes(self):
        self.assert_found(LETTERS, BYTES)

    def test_values_that_are_many_or_absent(self):
        self.assert_found(MANY_VALUES, BOOLEANS, ABSENT)

    def test_connectives_spaces_and_spelled_texts(self):
        self.assert_found(CONNECTIVES, SPACES, SPELLED_TEXTS)

    def test_parentheses_are_at_most_32_deep(self):
        self.assert_found([(text, EVERY_USER) for text in DEEPEST])
        self.assert_no_filters(DEEPER)

    def test_a_filter_has_at_most_2048_bytes(self):
        for text, _ in LONGEST:
            self.assertEqual(len(text.encode()), 2048)
        self.assert_found(LONGEST)
        self.assert_no_filters([f" {text}" for text, _ in LONGEST])
