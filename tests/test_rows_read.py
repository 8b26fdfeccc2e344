"""How many rows `serve` reads for an answer. The allocations tell: each row that is read takes some."""
from databases import compact, make_store, user_resource
from exchanges import GROUPS, USERS, ExchangeTest, create_user, get, listed, shown_user, user
from faults import Fault, build_shim
from support import GIVEN_UP, GROUP, Provider

# Rows of a store. A walk through them takes more allocations than this, and what reads a few of them takes fewer
COUNT = 1_000

# A search for bob, who is alone among groups: its target, what it finds, where its page starts, how many there are in
# all, and whether it walks through the rows
FOUND = [
    (f"{USERS}?filter=userName+eq+%22BOB%22", ["bob"], 1, 1, False),
    (f"{GROUPS}?filter=userName+eq+%22BOB%22", [], 1, 0, False),
    (f"{USERS}?filter=userName+eq+%22BOB%22&count=0", [], 1, 1, False),
    (f"{USERS}?filter=userName+eq+%22BOB%22&startIndex=2", [], 2, 1, False),
    (f"{USERS}?filter=not+(userName+eq+%22bob%22)", [], 1, 0, True),
]
# Lists of a provider, one after another, of which the first walks
LISTS = [
    ["Users?count=1"],
    ["Users?count=0"],
    [f"Users?startIndex={COUNT + 1}"],
    ["Groups"],
    ["Users?count=1", "Users?startIndex=201&count=1"],
    ["Users?count=0", "Users?startIndex=500&count=1", f"Users?startIndex={COUNT}", "Users?startIndex=1001", "Groups"],
]


def name_of(number):
    return f"u{number:04}"


def user_row(number):
    return user_resource(number, name_of(number), content=compact(user(name_of(number), active=True)))


def group_row(number):
    name = name_of(number)
    return user_resource(number, name, kind=2, content=compact({"schemas": [GROUP], "displayName": name}))


class RowsReadTest(ExchangeTest):
    def setUp(self):
        super().setUp()
        self.shim = build_shim(self.folder)

    def provider(self, rows, requests, refused=0):
        """A provider over these rows, and what counts its allocations, of which one is refused."""
        self.site.store.unlink(missing_ok=True)
        store = make_store(self.site.store, rows)
        fault = Fault(self.shim, self.folder, "ALLOCATION", refused)
        return Provider(requests, "--store", store, **fault.options), fault

    def answer(self, provider, fault, asked):
        """The answer to a request, and how many allocations it took."""
        before = fault.count()
        return provider.exchange(asked), fault.count() - before

    def answer_if_any(self, provider, asked):
        """The answer to a request. A provider that gives up before it has read the request resets the connection."""
        try:
            return provider.exchange(asked)
        except ConnectionResetError:
            return b""

    def test_a_name_is_found_by_the_index(self):
        bob = user_resource(1, "bob", content=compact(user("bob", active=True)))
        rows = [bob, *map(group_row, range(2, COUNT + 1))]
        provider, fault = self.provider(rows, len(FOUND))
        with provider:
            for target, names, start, total, walks in FOUND:
                with self.subTest(target=target):
                    answer, count = self.answer(provider, fault, get(target))
                    self.assertEqual(answer, listed([shown_user(name) for name in names], start, total))
                    self.assertEqual(count > COUNT, walks, count)

    def test_rows_are_walked_once(self):
        for targets in LISTS:
            with self.subTest(targets=targets):
                provider, fault = self.provider(map(user_row, range(1, COUNT + 1)), len(targets))
                with provider:
                    counts = [self.answer(provider, fault, get(f"/v2/{target}"))[1] for target in targets]
                self.assertEqual([count > COUNT for count in counts], [True] + [False] * (len(targets) - 1), counts)

    def test_a_created_user_needs_no_walk(self):
        provider, fault = self.provider(map(user_row, range(1, COUNT + 1)), 3)
        with provider:
            provider.exchange(get(f"{USERS}?count=0"))
            provider.exchange(create_user(user("zoe")))
            answer, count = self.answer(provider, fault, get(f"{USERS}?startIndex={COUNT + 1}"))
        self.assertEqual(answer, listed([shown_user("zoe", COUNT + 1)], COUNT + 1, COUNT + 1))
        self.assertLess(count, COUNT)

    def test_rows_that_follow_each_other_are_read_at_once(self):
        counts = []
        # a page of 100 users who follow each other, and one with a group after each user
        for step in 1, 2:
            rows = [(group_row if number % step else user_row)(number) for number in range(1, 401)]
            provider, fault = self.provider(rows, 2)
            with provider:
                provider.exchange(get(f"{USERS}?count=0"))
                answer, count = self.answer(provider, fault, get(f"{USERS}?count=100"))
            self.assertIn(b'"itemsPerPage":100,', answer)
            counts.append(count)
        # each scan of the second page takes some allocations more
        self.assertGreater(counts[1], counts[0] + 100)

    def test_rows_are_walked_anew_after_memory_was_out(self):
        rows = [group_row(number) if number in (3, 6, 7) else user_row(number) for number in range(1, 9)]
        shown = [shown_user(name_of(number), number) for number in (1, 2, 4, 5, 8)]
        expected = listed(shown, 1, 5)
        provider, fault = self.provider(rows, 1)
        with provider:
            first = fault.count()
            self.assertEqual(provider.exchange(get(USERS)), expected)
            last = fault.count()
        answers = []
        for place in range(first + 1, last + 1):
            provider, fault = self.provider(rows, 3, place)
            with self.subTest(place=place), provider:
                answers.append(self.answer_if_any(provider, get(USERS)))
                self.assertIn(answers[-1], (GIVEN_UP, expected, b""))
                # a request that comes in parts takes some allocations more, so the fault may not have come yet
                if not fault.has_come:
                    continue
                self.assertEqual(provider.exchange(get(f"{USERS}?startIndex=3&count=2")), listed(shown[2:4], 3, 5))
                self.assertEqual(provider.exchange(get(USERS)), expected)
        self.assertIn(GIVEN_UP, answers)
