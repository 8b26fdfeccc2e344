"""`serve`: many clients at once. Each is answered with what it asked for, and none is forgotten."""
import contextlib
import json
import random
import selectors
import time

from exchanges import create_user, group, user
from support import BOB_CREATED, CREATE_BOB, PATIENCE, TIME_LIMIT, Provider, read_all, resource_id
from test_slow_clients import LIST, PROMPTLY, PromptTest, narrow_connection

# More clients than any part of the program looks at by accident
MANY = 100
# Many times as many as it looks at before it accepts another
MANY_IN_PARTS = 256
FIND_BOB = f"GET /v2/Users/{resource_id(1)} HTTP/1.1\r\nHost: h\r\n\r\n".encode()
GROUPS = LIST.replace(b"Users", b"Groups")
# The most bytes of memory that are kept for answers which aren't read
MOST_KEPT = 16 * 1024 * 1024


def body_of(answer):
    head, _, body = answer.partition(b"\r\n\r\n")
    return head.split(b" ")[1], json.loads(body)


def most_memory(pid):
    """The most bytes of memory that a process has had."""
    with open(f"/proc/{pid}/status", encoding="ascii") as status:
        return next(int(line.split()[1]) * 1024 for line in status if line.startswith("VmHWM:"))


def read_side_by_side(streams):
    """What each of these streams has to its end, read as it comes."""
    parts = {stream: [] for stream in streams}
    end = time.monotonic() + PATIENCE
    with selectors.DefaultSelector() as selector:
        for stream in streams:
            selector.register(stream, selectors.EVENT_READ)
        while selector.get_map():
            if time.monotonic() > end:
                raise AssertionError(f"{len(selector.get_map())} of {len(streams)} answers didn't come")
            for key, _ in selector.select(1):
                parts[key.fileobj].append(key.fileobj.recv(65536))
                if not parts[key.fileobj][-1]:
                    selector.unregister(key.fileobj)
    return [b"".join(parts[stream]) for stream in streams]


class ManyClientsTest(PromptTest):
    def test_each_is_answered_with_its_own(self):
        names = [f"user-{number:03}" for number in range(MANY_IN_PARTS)]
        order = random.Random(1).sample(range(MANY_IN_PARTS), MANY_IN_PARTS)
        with self.serving(2 * MANY_IN_PARTS + 1) as provider, contextlib.ExitStack() as stack:
            streams = [stack.enter_context(provider.connect()) for _ in names]
            requests = [create_user(user(name)) for name in names]
            # each has sent its request up to the end of its name, and waits
            cut = requests[0].index(b"user-") + len(names[0])
            for part in slice(0, 20), slice(20, cut):
                for stream, request in zip(streams, requests):
                    stream.sendall(request[part])
            self.assert_prompt(provider, FIND_BOB, b"404")
            for place in order:
                streams[place].sendall(requests[place][cut:])
            for name, answer in zip(names, read_side_by_side(streams)):
                status, shown = body_of(answer)
                self.assertEqual((status, shown["userName"]), (b"201", name))
            # and so was each that reads
            for name in names:
                answer = provider.ask("GET", f"/v2/Users?filter=userName%20eq%20%22{name}%22")
                self.assertEqual([user["userName"] for user in answer.content["Resources"]], [name])

    def test_one_that_waits_behind_many(self):
        with self.serving(2) as provider, contextlib.ExitStack() as stack:
            for _ in range(MANY):
                stack.enter_context(provider.connect())
            with provider.connect() as last:
                last.sendall(CREATE_BOB[:100])
                self.assert_prompt(provider, FIND_BOB, b"404")
                last.settimeout(PROMPTLY)
                last.sendall(CREATE_BOB[100:])
                self.assertEqual(read_all(last), BOB_CREATED)

    def test_answers_that_many_read_late(self):
        with self.serving(200 + 1 + MANY) as provider:
            for number in range(200):
                self.assertTrue(provider.exchange(create_user(user(f"user-{number:03}"))).startswith(b"HTTP/1.1 201"))
            whole = provider.exchange(LIST)
            with contextlib.ExitStack() as stack:
                streams = [stack.enter_context(narrow_connection(provider.port)) for _ in range(MANY)]
                for stream in streams:
                    stream.sendall(LIST)
                # the last ones read, while the others don't yet
                for some in streams[-MANY // 5:], streams[:-MANY // 5]:
                    self.assertTrue(all(answer == whole for answer in read_side_by_side(some)))

    def test_answers_that_nobody_reads(self):
        """Each has almost 5 MB. All of them together take no more memory than is said, and a few that are being formed."""
        members = [{"value": f"{number:03}".rjust(50, "m")} for number in range(400)]
        with Provider(1_000_000) as provider:
            for number in range(200):
                content = json.dumps(group(f"group-{number:03}", members=members))
                self.assertEqual(provider.ask("POST", "/v2/Groups", content).status, 201)
            answer = provider.exchange(GROUPS)
            before, began = most_memory(provider.pid), time.monotonic()
            with contextlib.ExitStack() as stack:
                for _ in range(200):
                    stack.enter_context(narrow_connection(provider.port)).sendall(GROUPS)
                # a list waits until no other request is whole, which the pause allows: so all of these have been answered
                # by then, and none of them has held the others up until its time was over
                for _ in range(210):
                    self.assertTrue(provider.exchange(FIND_BOB).startswith(b"HTTP/1.1 404"))
                    time.sleep(0.001)
                self.assertLess(time.monotonic() - began, TIME_LIMIT)
                self.assertLess(most_memory(provider.pid) - before, MOST_KEPT + 4 * len(answer))
            self.assertGreater(self.connection_faults(self.kill(provider)), 0)
