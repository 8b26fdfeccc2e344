"""`push` and `check` at a provider whose service has another path than `/v2`."""
from peers import NO_HITS, Peer, answer, asked, hits, read_request, user
from support import GROUP, SOURCE, Provider, ProgramTest, scimlink

PATH = "/scim/v2"
# Paths with each sort of byte that a segment may have, and one of 200 bytes
PATHS = [PATH, "/v2", "/a", "/api/scim/v2.0", "/-._~!$&'()*+,;=:@", "/%2F%c3%A9/x", f"/{'a' * 199}"]
FIND_BOB, FIND_CREW = "Users?filter=userName+eq+%22bob%22", "Groups?filter=displayName+eq+%22crew%22"
# An id that isn't plain in a path
ID = "x y"
CREW = {"schemas": [GROUP, SOURCE], "id": "c", "displayName": "crew", SOURCE: {"revision": 1}}
CREW |= {"meta": {"version": '"1"'}, "members": [{"value": ID}]}


class Front(Peer):
    """A proxy before a provider: it takes requests to `/scim/v2`, and passes them on to `/v2`."""

    def __init__(self, provider, count):
        super().__init__([None] * count)
        self.provider = provider

    def take(self, step, stream):
        with stream:
            lines, body = read_request(stream)
            self.requests.append((lines, body))
            first = lines[0].replace(f" {PATH}/", " /v2/", 1)
            stream.sendall(self.provider.exchange("\r\n".join([first, *lines[1:], "", ""]).encode() + body))


class ProviderPathsTest(ProgramTest):
    def assert_asks(self, steps, targets, *lines, options=()):
        """A push prints these lines when the provider answers so, and its requests have these methods and targets."""
        with Peer(steps) as peer:
            self.assert_prints(self.site.push(peer.address, *options), *lines)
        self.assertEqual(asked(peer.requests), [f"{target} HTTP/1.1" for target in targets])
        return peer.requests

    def test_targets_of_a_push(self):
        for number, path in enumerate(PATHS):
            with self.subTest(path):
                self.site.journal = self.folder / f"journal-{number}"
                self.site.write_users("bob,1,,,,,active")
                steps = [NO_HITS, answer(201, user("bob", 1, number=ID)), NO_HITS, answer(201, CREW)]
                targets = [f"GET {path}/{FIND_BOB}", f"POST {path}/Users"]
                targets += [f"GET {path}/{FIND_CREW}", f"POST {path}/Groups"]
                self.site.write_groups("crew,1,bob")
                lines = ["user bob confirmed 1", "group crew confirmed 1"]
                self.assert_asks(steps, targets, *lines, options=["--path", path])
                self.site.write_users("bob,2,,,,,left")
                steps = [hits(user("bob", 1, number=ID)), answer(200, user("bob", 2, number=ID))]
                targets = [f"GET {path}/{FIND_BOB}", f"PUT {path}/Users/x%20y"]
                lines[0] = "user bob confirmed 2"
                self.assert_asks(steps, targets, *lines, options=["--path", path])

    def test_all_but_the_target_is_the_same(self):
        self.site.write_users("bob,1,,,,,active")
        requests = []
        for place, options in (("/v2", []), (PATH, ["--path", PATH])):
            self.site.journal = self.folder / f"journal of {len(requests)}"
            targets = [f"GET {place}/{FIND_BOB}", f"POST {place}/Users"]
            steps = [NO_HITS, answer(201, user("bob", 1))]
            made = self.assert_asks(steps, targets, "user bob confirmed 1", options=options)
            requests.append([(lines[1:], body) for lines, body in made])
        self.assertEqual(*requests)

    def test_checks_and_rechecks(self):
        self.site.write_users("bob,1,,,,,active")
        found = hits(user("bob", 1))
        search = f"GET {PATH}/{FIND_BOB}"
        self.assert_asks([found], [search], "user bob confirmed 1", options=["--path", PATH])
        check = ["check", "--journal", self.site.journal]
        for command in (["push", *self.site.source_options(), *check[1:], "--recheck"], check):
            with Peer([found]) as peer:
                run = scimlink(*command, "--to", peer.address, "--path", PATH)
            self.assertEqual((run.status, asked(peer.requests)), (0, [f"{search} HTTP/1.1"]))

    def test_a_whole_push_through_a_proxy(self):
        self.site.write_users("ann,1,,,,,active", "bob,1,,,,,left")
        self.site.write_groups("crew,1,ann")
        with Provider(6) as provider, Front(provider, 6) as front:
            lines = ["user ann confirmed 1", "user bob confirmed 1", "group crew confirmed 1"]
            self.assert_prints(self.site.push(front.address, "--path", PATH), *lines)
