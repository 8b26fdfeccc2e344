"""`serve` over a store of which one read or write of the disk fails: the request is answered by the fixed 500, the rows
are as before, and the same request is then answered as by a provider whose disk never fails. (If the disk failed as it
synced a change, the change may be there.)"""
import concurrent.futures
import contextlib
import dataclasses
import os
import shutil
import tempfile

from databases import compact, make_store, user_resource
from exchanges import GROUPS, USERS, ExchangeTest, create_user, get, group, request, user
from faults import Fault, build_shim
from support import GIVEN_UP, Provider, resource_id

# Users of the store, which are more than a connection keeps in memory
COUNT = 3_000
BOB = f"{USERS}/{resource_id(COUNT + 1)}"
LAST = f"{USERS}?startIndex={COUNT - 2}"
ASKED = [
    create_user(user("bob")),
    request(f"POST {GROUPS}", group("staff")),
    request(f"PUT {BOB}", user("Bob", active=False)),
    get(BOB),
    get(f"{USERS}?filter=userName+eq+%22bob%22"),
    get(LAST),
]
# What shows the rows: the last users, and all groups
SHOWN = [get(LAST), get(GROUPS)]
# A look at all rows takes many reads, of which one in so many fails
STEP = 100


def user_row(number):
    name = f"u{number:04}"
    emails = [{"value": f"{place}@" + "m" * 200} for place in range(6)]
    return user_resource(number, name, content=compact(user(name, active=True, emails=emails)))


class StoreFaultsTest(ExchangeTest):
    def setUp(self):
        super().setUp()
        self.shim = build_shim(self.folder)
        self.store = make_store(self.site.store, map(user_row, range(1, COUNT + 1)))
        # what is answered if no call fails, and what shows the rows before each request and after the last one
        with self.serving_copy() as (provider, _):
            self.shown = [self.show(provider)]
            self.answers = []
            for asked in ASKED:
                self.answers.append(provider.exchange(asked))
                self.shown.append(self.show(provider))

    @contextlib.contextmanager
    def serving_copy(self, kind="READ", place=0):
        """A provider over a copy of the store, and its call of this kind that fails."""
        with tempfile.TemporaryDirectory(dir=self.folder) as name:
            fault = Fault(self.shim, name, kind, place, "5")
            with Provider(1_000, "--store", shutil.copy(self.store, name), **fault.options) as provider:
                yield provider, fault

    def show(self, provider):
        return [provider.exchange(asked) for asked in SHOWN]

    def calls(self, kind):
        """How many calls of a kind there were when the store was opened, and when the requests were answered."""
        with self.serving_copy(kind) as (provider, fault):
            first = fault.count()
            self.assertEqual([provider.exchange(asked) for asked in ASKED], self.answers)
            return first, fault.count()

    def gives_up(self, kind, place):
        """How many requests are answered by the fixed 500; all others are answered as if no call failed."""
        count = 0
        with self.serving_copy(kind, place) as (provider, fault):
            for asked, expected, before, after in zip(ASKED, self.answers, self.shown, self.shown[1:]):
                answer = provider.exchange(asked)
                if answer == GIVEN_UP:
                    count += 1
                    left = self.show(provider)
                    if kind == "WRITE" and left == after:
                        continue
                    self.assertEqual(left, before)
                    answer = provider.exchange(asked)
                self.assertEqual(answer, expected)
            self.assertTrue(fault.has_come)
        return count

    def assert_gives_up_once(self, kind, places):
        with concurrent.futures.ThreadPoolExecutor(os.cpu_count()) as pool:
            counts = list(pool.map(lambda place: self.gives_up(kind, place), places))
        self.assertEqual(dict(zip(places, counts)), dict.fromkeys(places, 1))

    def test_each_write_that_fails(self):
        first, last = self.calls("WRITE")
        self.assert_gives_up_once("WRITE", range(first + 1, last + 1))

    def test_reads_that_fail(self):
        first, last = self.calls("READ")
        self.assert_gives_up_once("READ", [*range(first + 1, first + 31), *range(first + 31, last + 1, STEP)])

    def test_a_store_that_cannot_be_opened_again(self):
        """The end says so, and the faults of connections that weren't reported yet come before it."""
        first, _ = self.calls("READ")
        with tempfile.TemporaryDirectory(dir=self.folder) as folder:
            store = shutil.copy(self.store, folder)
            fault = Fault(self.shim, folder, "READ", first + 1, "5")
            with Provider(1_000, "--store", store, **fault.options) as provider:
                for _ in range(3):
                    provider.connect().close()
                # what is opened again is no file any more
                os.rename(store, f"{store}.moved")
                os.mkdir(store)
                self.assertEqual(provider.exchange(get(LAST)), GIVEN_UP)
                ended = provider.ends()
        *faults, last, why = ended.errors.splitlines()
        self.assertEqual((ended.status, last, why), (3, "store fault Y1", f" {store}: Is a directory"))
        self.assertEqual(self.connection_faults(dataclasses.replace(ended, errors="\n".join(faults))), 3)
