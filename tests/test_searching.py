"""`serve`: collections are searched, and their resources listed by pages (RFC 7644 section 3.4.2)."""
import contextlib

from exchanges import (
    FILTER, GROUPS, USERS, VALUE,
    ExchangeTest, as_json, at_revision, create_user, get, group, listed, request, shown_group, shown_user, user,
)
from support import CREATE_BOB, resource_id

BOB = shown_user("bob") | at_revision(1)
CREW = as_json(group("crew two")).encode()
CREATE_CREW = b"POST /v2/Groups HTTP/1.1\r\nHost: h\r\nContent-Length: 84\r\n\r\n" + CREW

# A query, and what it finds: the users of a page, where the page starts, and how many there are in all
PAGES = [
    ("", ["ann", "bob", "cid"], 1, 3),
    ("?", ["ann", "bob", "cid"], 1, 3),
    ("?startIndex=0&count=-5", [], 1, 3),
    ("?startIndex=-7&count=2", ["ann", "bob"], 1, 3),
    ("?startIndex=2&count=1", ["bob"], 2, 3),
    ("?startIndex=9", [], 9, 3),
    ("?count=500", ["ann", "bob", "cid"], 1, 3),
]
PARAMETERS = [
    ("?count=1&count=x", ["ann"], 1, 3),
    ("?Count=x&sortBy=id&&=&c%6Funt=1", ["ann"], 1, 3),
    ("?filter=userName+sw+%22b%22&filter=%28", ["bob"], 1, 1),
    ("?filter=not%20%28userName+eq+%22bob%22%29&startIndex=2&count=1", ["cid"], 2, 2),
    ("?filter=userName+eq+%22%FF%22+or+userName+ew+%22D%22", ["cid"], 1, 1),
]
FILTERS = [
    ("?filter=userName+eq+%22ann%22+or+userName+eq+%22bob%22+and+active+eq+false", ["ann"], 1, 1),
    ("?filter=not(username+EQ+%22ANN%22)", ["bob"], 1, 1),
    ("?filter=externalId+ne+%225%22", ["ann", "bob"], 1, 2),
    ("?filter=displayName+pr", [], 1, 0),
]
INVALID_VALUES = [
    "?count=x",
    "?count=",
    "?startIndex=%2B1",
    "?startIndex=1000000000000000000",
    "?startIndex=x&filter=(",
    "?filter=(&count=1.0",
]
INVALID_FILTERS = [
    "?startIndex=1&filter=(&count=0",
    "?filter",
    "?filter=",
    "?filter=userName+gt+%22a%22",
    "?filter=emails%5Btype+eq+%22work%22%5D",
    "?filter=active+co+%22t%22",
    "?filter=department+eq+%22x%22",
    "?filter=urn%3Aietf%3Aparams%3Ascim%3Aschemas%3Aextension%3Aenterprise%3A2.0%3AUser%3Adepartment+eq+%22x%22",
]

# Pages at the edges of what there is, and of what may be asked for
EDGES = [
    "",
    "startIndex=0",
    "startIndex=-7&count=2",
    "count=0",
    "count=1",
    "count=-1",
    "count=200",
    "count=201",
    "startIndex=2&count=1",
    "startIndex=2&count=2",
    "startIndex=3&count=2",
    "startIndex=4",
    "startIndex=5",
    "startIndex=6",
    "startIndex=999999999999999999",
]
# The same of a list with two full pages and a user more
LONG_EDGES = [
    "",
    "count=200",
    "count=201",
    "startIndex=201",
    "startIndex=202&count=199",
    "startIndex=401",
    "startIndex=402",
]


class SearchingTest(ExchangeTest):
    @contextlib.contextmanager
    def serving_users(self, requests, names):
        """A provider with these users, who have only names. It ends after this many further requests."""
        with self.serving(len(names) + requests) as provider:
            for name in names:
                provider.exchange(create_user(user(name)))
            yield provider

    def assert_found(self, names, rows):
        """A provider with these users answers each query of the rows."""
        shown = {name: shown_user(name, number) for number, name in enumerate(names, 1)}
        with self.serving_users(len(rows), names) as provider:
            for query, page, start, total in rows:
                expected = listed([shown[name] for name in page], start, total)
                self.assert_answers(provider, get(USERS + query), expected)

    def assert_refusals(self, queries, expected):
        """An empty provider refuses each of these queries so."""
        with self.serving(len(queries)) as provider:
            for query in queries:
                self.assert_answers(provider, get(USERS + query), expected)

    def test_a_name_is_found_in_any_case(self):
        with self.serving(3) as provider:
            provider.exchange(CREATE_BOB)
            for space in ("+", "%20"):
                named = get(f"{USERS}?filter=userName{space}eq{space}%22BOB%22")
                self.assert_answers(provider, named, listed([BOB], 1, 1))

    def test_no_other_name_is_found(self):
        with self.serving(2) as provider:
            provider.exchange(CREATE_BOB)
            self.assert_answers(provider, get(f"{USERS}?filter=userName+eq+%22zed%22"), listed([], 1, 0))

    def test_lists_have_their_lengths(self):
        for resources, length in (([BOB], 518), ([], 130)):
            head, _, body = listed(resources, 1, len(resources)).partition(b"\r\n\r\n")
            self.assertIn(b"Content-Length: %d\r\n" % length, head)
            self.assertEqual(len(body), length)

    def test_pages_of_a_list(self):
        self.assert_found(["ann", "bob", "cid"], PAGES)

    def test_pages_that_are_none(self):
        self.assert_refusals(INVALID_VALUES, VALUE)

    def test_parameters_of_a_query(self):
        self.assert_found(["ann", "bob", "cid"], PARAMETERS)

    def test_filters_of_a_search(self):
        self.assert_found(["ann", "bob"], FILTERS)

    def test_filters_that_are_none(self):
        self.assert_refusals(INVALID_FILTERS, FILTER)

    def test_each_type_has_its_collection(self):
        with self.serving_users(3, ["ann"]) as provider:
            provider.exchange(CREATE_CREW)
            self.assert_answers(provider, get(USERS), listed([shown_user("ann")], 1, 1))
            named = get(f"{GROUPS}?filter=displayName+eq+%22CREW%20two%22")
            self.assert_answers(provider, named, listed([shown_group("crew two", 2)], 1, 1))

    def test_a_page_has_200_resources_at_most(self):
        with self.serving_users(2, [f"u{number}" for number in range(1, 202)]) as provider:
            for query in ("", "?count=500"):
                with self.subTest(query=query):
                    answer = provider.exchange(get(USERS + query)).decode()
                    self.assertEqual(answer.partition("\r\n")[0], "HTTP/1.1 200 OK")
                    self.assertIn('"userName":"u200"}],"itemsPerPage":200,', answer)
                    self.assertTrue(answer.endswith('"startIndex":1,"totalResults":201}'))


class WalkTest(ExchangeTest):
    """A list is the page of a search for all names but one that nobody has. Such a search walks through all rows."""

    def creates(self, provider, users=(), groups=()):
        for content in [*map(user, users), *map(group, groups)]:
            path = GROUPS if "displayName" in content else USERS
            self.assertTrue(provider.exchange(request(f"POST {path}", content)).startswith(b"HTTP/1.1 201 Created"))

    def creates_both(self, provider):
        """Two users, a group, two users, two groups, a user."""
        self.creates(provider, users=["a", "b"])
        self.creates(provider, groups=["c"])
        self.creates(provider, users=["d", "e"])
        self.creates(provider, groups=["f", "g"])
        self.creates(provider, users=["h"])

    def assert_as_by_walk(self, provider, path, name, pages):
        """Each page of the list is answered as the search for this name."""
        for page in pages:
            line = f"GET {path}?{page}"
            answer = provider.exchange(request(line))
            walked = provider.exchange(request(f"{line}&filter={name}+ne+%22nobody%22"))
            with self.subTest(line=line):
                self.assertTrue(answer.startswith(b"HTTP/1.1 200 OK\r\n"), answer)
                self.assertEqual(answer, walked)

    def assert_edges_as_by_walk(self, provider):
        """Each page of both types is answered as by a walk. To see that takes 60 requests."""
        self.assert_as_by_walk(provider, USERS, "userName", EDGES)
        self.assert_as_by_walk(provider, GROUPS, "displayName", EDGES)

    def test_pages_are_those_of_a_walk(self):
        with self.serving(8 + 60) as provider:
            self.creates_both(provider)
            self.assert_edges_as_by_walk(provider)

    def test_creations_and_replacements_are_listed(self):
        with self.serving(8 + 1 + 3 * (1 + 60)) as provider:
            self.creates_both(provider)
            provider.exchange(request(f"GET {USERS}"))
            self.creates(provider, users=["i"])
            self.assert_edges_as_by_walk(provider)
            self.creates(provider, groups=["j"])
            self.assert_edges_as_by_walk(provider)
            replaced = provider.exchange(request(f"PUT {USERS}/{resource_id(2)}", user("B", active=False)))
            self.assertTrue(replaced.startswith(b"HTTP/1.1 200 OK"), replaced)
            self.assert_edges_as_by_walk(provider)

    def test_pages_of_a_long_list_are_those_of_a_walk(self):
        with self.serving(401 + 2 * len(LONG_EDGES)) as provider:
            self.creates(provider, users=[str(number) for number in range(401)])
            self.assert_as_by_walk(provider, USERS, "userName", LONG_EDGES)
