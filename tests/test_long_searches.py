"""`serve` during a search of many rows: others connect, send, and get the rest of their answers. It stops the search
after its time."""
import contextlib
import os
import select
import time

from databases import group_text, make_store, user_resource, user_text
from faults import Clock, Shim, build_shim
from support import GIVEN_UP, ProgramTest, Provider, read_all, resource_id, wait_until
from test_slow_clients import LIST, narrow_connection, processor_seconds

# So many rows, and so many parts of a filter, that a search takes a quarter of a second and more
ROWS, PARTS = 100_000, 60
# Clients that connect during a search, more than one turn accepts; the seconds between two of them
CLIENTS, PACE = 200, 0.0002
# So many pages of the store are read once a search is under way
PAGES = 100
FIND_FIRST = f"GET /v2/Users/{resource_id(1)} HTTP/1.1\r\nHost: h\r\n\r\n".encode()
FILTER = "%20or%20".join(f"userName%20co%20%22nobody-{part}%22" for part in range(PARTS))
SEARCH = f"GET /v2/Users?filter={FILTER} HTTP/1.1\r\nHost: h\r\n\r\n".encode()
# As many groups as are read at once, each with as many members as a body has room for. A long filter takes about a second
# for them; it takes this long until others are to be accepted
MEMBERS, BEGUN = [f"{'x' * 55}-{member:04}" for member in range(400)], 0.1
MEMBER_FILTER = "%20or%20".join(f"members%20co%20%22nobody-{part}%22" for part in range(52))
MEMBER_SEARCH = f"GET /v2/Groups?filter={MEMBER_FILTER} HTTP/1.1\r\nHost: h\r\n\r\n".encode()
# All groups, of which there are none, are a search too, and a quick one
GROUPS = b"GET /v2/Groups HTTP/1.1\r\nHost: h\r\n\r\n"
# The most bytes of memory that the requests of searches take that wait, and the most bytes of a head
MOST_SEARCH_MEMORY, HEAD_LIMIT = 6_291_456, 16_384
# The first users have long texts, so that a list of them is longer than what the system keeps for a client
LONG, LISTED = "x" * 250, 200
EMAILS = [{"value": LONG, "type": LONG}] * 10


def rows():
    """Rows of users, the first of them with long texts."""
    for number in range(1, ROWS + 1):
        login = f"user-{number:06}"
        yield user_resource(number, login, content=user_text(login, emails=EMAILS if number <= LISTED else EMAILS[:1]))


def padded(request, length):
    """A request with a field that makes it so long."""
    return request[:-2] + b"A: " + b"x" * (length - len(request) - len("A: \r\n")) + b"\r\n\r\n"


class LongSearchTest(ProgramTest):
    @contextlib.contextmanager
    def searching(self, connections, *more, **options):
        """A provider of many rows, and the stream of a client that has begun to search them."""
        store = self.folder / "rows.db"
        if not store.exists():
            make_store(store, rows())
        with Provider(connections + 1, "--store", store, *more, **options) as provider:
            with provider.connect() as stream:
                yield provider, stream

    def assert_found_nothing(self, stream):
        answer = read_all(stream)
        self.assertTrue(answer.startswith(b"HTTP/1.1 200"), answer[:100])
        self.assertTrue(answer.endswith(b'"totalResults":0}'), answer[-100:])

    def assert_unanswered(self, stream):
        self.assertEqual(select.select([stream], [], [], 0)[0], [])

    def test_others_connect_and_are_answered_after_it(self):
        with self.searching(CLIENTS) as (provider, search), contextlib.ExitStack() as stack:
            search.sendall(SEARCH)
            streams = []
            for _ in range(CLIENTS):
                streams.append(stack.enter_context(provider.connect()))
                streams[-1].sendall(FIND_FIRST)
                time.sleep(PACE)
            wait_until(lambda: len(os.listdir(f"/proc/{provider.pid}/fd")) > CLIENTS, "a place for the clients")
            self.assert_unanswered(search)
            self.assert_found_nothing(search)
            for stream in streams:
                self.assertTrue(read_all(stream).startswith(b"HTTP/1.1 200"))
            self.assert_reports(provider.ends(), 0)

    def test_others_connect_while_a_page_of_large_groups_is_searched(self):
        groups = [(number, 2, f"group-{number}", 1, group_text(f"group-{number}", MEMBERS))
                  for number in range(1, LISTED + 1)]
        store = make_store(self.folder / "groups.db", groups)
        with Provider(2, "--store", store) as provider, provider.connect() as search:
            before = processor_seconds(provider.pid)
            search.sendall(MEMBER_SEARCH)
            wait_until(lambda: processor_seconds(provider.pid) > before + BEGUN, "the search")
            handles = len(os.listdir(f"/proc/{provider.pid}/fd"))
            with provider.connect() as other:
                other.sendall(FIND_FIRST)
                wait_until(lambda: len(os.listdir(f"/proc/{provider.pid}/fd")) > handles, "a place for another")
                self.assert_unanswered(search)
                self.assert_found_nothing(search)
                self.assertTrue(read_all(other).startswith(b"HTTP/1.1 404"))
            self.assert_reports(provider.ends(), 0)

    def test_an_answer_that_is_read_late_is_sent_meanwhile(self):
        with self.searching(1) as (provider, search), narrow_connection(provider.port) as late:
            late.sendall(LIST)
            late.recv(1)
            search.sendall(SEARCH)
            read_all(late)
            self.assert_unanswered(search)
            self.assert_found_nothing(search)
            self.assert_reports(provider.ends(), 0)

    def test_the_most_memory_of_searches_that_wait(self):
        """Their requests take it exactly, or a byte more: then one of them is closed."""
        whole, least = MOST_SEARCH_MEMORY // HEAD_LIMIT - 1, 100
        for last, lost in ((least, 0), (least + 1, 1)):
            lengths = [HEAD_LIMIT] * whole + [HEAD_LIMIT - least, last]
            with self.subTest(last=last), self.begun(len(lengths) - lost) as (provider, search):
                with contextlib.ExitStack() as stack:
                    # they come while it searches, and are read one after another when it has searched
                    provider.freeze()
                    streams = [stack.enter_context(provider.connect()) for _ in lengths]
                    for stream, length in zip(streams, lengths):
                        stream.sendall(padded(GROUPS, length))
                    provider.resume()
                    self.assert_found_nothing(search)
                    answers = [read_all(stream) for stream in streams]
                    self.assertEqual(answers.count(b""), lost)
                    self.assertEqual(sum(it.startswith(b"HTTP/1.1 200") for it in answers), len(answers) - lost)
                    self.assert_reports(provider.ends(), 3 if lost else 0, *["connection fault"] * lost)

    @contextlib.contextmanager
    def begun(self, connections, *more, **options):
        """A provider, and the stream of a client whose search is under way."""
        calls = Shim(build_shim(self.folder), self.folder, {})
        options["env"] = options.get("env", {}) | calls.options["env"]
        with self.searching(connections, *more, **options) as (provider, search):
            before = calls.count_of("READ")
            search.sendall(SEARCH)
            wait_until(lambda: calls.count_of("READ") > before + PAGES, "the search")
            self.assert_unanswered(search)
            yield provider, search

    def test_a_search_is_stopped_after_its_time(self):
        """The test sets the clock ahead during the search, so it needs no store that is slow enough."""
        for seconds, ahead, is_stopped in ((None, 5, False), (None, 10, True), (1, 1, True), (20, 15, False)):
            with self.subTest(seconds=seconds, ahead=ahead):
                self.assert_ends(["--longest-search", seconds] if seconds else [], ahead, is_stopped)

    def assert_ends(self, options, ahead, is_stopped):
        """The answer to a search that finds nothing, or that is stopped, if the clock is set ahead meanwhile."""
        clock = Clock(build_shim(self.folder), self.folder)
        with self.begun(1, *options, **clock.options) as (provider, search):
            clock.set_ahead(ahead)
            if is_stopped:
                self.assertEqual(read_all(search), GIVEN_UP)
            else:
                self.assert_found_nothing(search)
            self.assertTrue(provider.exchange(FIND_FIRST).startswith(b"HTTP/1.1 200"))
            self.assert_reports(provider.ends(), 0)

    def test_the_least_and_the_most_time_for_a_search(self):
        for seconds in (1, 3600):
            with self.subTest(seconds=seconds), Provider(1, "--longest-search", seconds) as provider:
                self.assertTrue(provider.exchange(FIND_FIRST).startswith(b"HTTP/1.1 404"))
                self.assert_reports(provider.ends(), 0)
