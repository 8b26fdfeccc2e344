"""`serve`: what its clients ask and are answered."""
import json
import pathlib
import resource
import subprocess

from exchanges import BOB_PATH, GROUPS, USERS
from support import (
    BOB, BOB_CREATED, CREATE_BOB, GIVEN_UP, GROUP, PATIENCE, SCIM_TYPE, SOURCE,
    ProgramTest, full_disk, resource_id, scimlink,
)

OTHER_VERSION = "the resource has another version"
# the body of the one answer to all that the provider couldn't complete
UNDONE = GIVEN_UP.split(b"\r\n\r\n", 1)[1]

# By code: the status and the detail of a refusal, and a request for it to a provider that holds bob
READABLE, ALLOWED = "the body is not a readable resource", "a value is missing or not allowed"
METHOD = "the method is not supported"
REFUSED = [
    ("P1", 400, READABLE, ("POST", USERS, "{")),
    ("P2", 400, ALLOWED, ("POST", USERS, "{}")),
    ("P2", 400, ALLOWED, ("GET", f"{USERS}?startIndex=x")),
    ("P3", 400, "the filter is not supported", ("GET", f"{USERS}?filter=x")),
    ("P4", 400, "the name of a resource is fixed", ("PUT", BOB_PATH, BOB.replace('"bob"', '"bill"'))),
    ("P5", 404, "no such resource", ("GET", f"{USERS}/x")),
    ("P6", 409, "the name is taken", ("POST", USERS, BOB)),
    ("P8", 501, METHOD, ("DELETE", BOB_PATH)),
    ("P8", 501, METHOD, ("PATCH", BOB_PATH, "{}")),
    ("P8", 501, METHOD, ("POST", f"{USERS}/.search", "{}")),
    ("H8", 415, "the media type is not supported", ("POST", USERS, "{}", "text/plain")),
    ("H9", 404, "no such path", ("GET", "/v1/Users")),
    ("H9", 404, "no such path", ("GET", "/v2/ServiceProviderConfig")),
]
# The scimType of those refusals that have one
SCIM_TYPES = {
    "P1": "invalidSyntax",
    "P2": "invalidValue",
    "P3": "invalidFilter",
    "P4": "mutability",
    "P6": "uniqueness",
}


def user(revision, **more):
    """The body of bob at a revision, but for other members."""
    return json.dumps(json.loads(BOB) | more | {SOURCE: {"revision": revision}})


class ServeTest(ProgramTest):
    def assert_answer(self, answer, status, **fields):
        """An answer with this status, and these field lines."""
        found = {name: answer.fields[name.replace("_", "-")] for name in fields}
        self.assertEqual((answer.status, found), (status, fields))
        return answer.content

    def test_addresses_that_cannot_be_listened_on(self):
        with self.serving(1) as provider:
            for address in ("192.0.2.1:0", provider.address):
                with self.subTest(address=address):
                    self.assert_fault(scimlink("serve", "--listen", address, "--requests", "1"), "connection fault")
            self.assert_answer(provider.ask("GET", USERS), 200)

    def test_an_output_that_takes_nothing(self):
        with full_disk() as stdout:
            run = scimlink("serve", "--listen", "127.0.0.1:0", "--requests", "1", stdout=stdout)
            self.assert_fault(run, "file fault")

    def test_the_life_of_a_user(self):
        with self.serving(11) as provider:
            ask = provider.ask
            location = f"http://localhost:8080{BOB_PATH}"
            fields = {"ETag": '"1"', "Location": location, "Connection": "close"}
            shown = self.assert_answer(ask("POST", USERS, BOB), 201, **fields)
            self.assertEqual(shown["userName"], "bob")
            found = self.assert_answer(ask("GET", BOB_PATH), 200, ETag='"1"', Content_Type=SCIM_TYPE)
            self.assertEqual(found, shown)
            self.assertIsNone(self.assert_answer(ask("HEAD", BOB_PATH), 501, Content_Type=SCIM_TYPE))
            self.assertIsNone(self.assert_answer(ask("GET", BOB_PATH, If_None_Match='"1"'), 304))
            changed = self.assert_answer(ask("PUT", BOB_PATH, user(2, active=False), If_Match='"1"'), 200, ETag='"2"')
            self.assertEqual(changed["active"], False)
            error = self.assert_answer(ask("PUT", BOB_PATH, user(3), If_Match='"1"'), 412)
            self.assertEqual(error["detail"], OTHER_VERSION)
            self.assert_answer(ask("GET", BOB_PATH, If_None_Match='"1"'), 200, ETag='"2"')
            listed = self.assert_answer(ask("GET", f"{USERS}?filter=userName%20eq%20%22BOB%22"), 200)
            self.assertEqual((listed["totalResults"], listed["Resources"]), (1, [changed]))
            error = self.assert_answer(ask("POST", USERS, BOB), 409)
            self.assertEqual(error["scimType"], "uniqueness")
            self.assertEqual(self.assert_answer(ask("GET", GROUPS), 200)["totalResults"], 0)
            self.assertEqual(self.assert_answer(ask("GET", f"{USERS}?count=0"), 200)["totalResults"], 1)

    def test_the_life_of_a_group(self):
        path = f"{GROUPS}/{resource_id(1)}"
        group = {"schemas": [GROUP], "displayName": "crew two"}
        with self.serving(4) as provider:
            ask = provider.ask
            twice = json.dumps(group | {"members": [{"value": "x"}, {"value": "x"}]})
            shown = self.assert_answer(ask("POST", GROUPS, twice), 201, ETag='"1"')
            self.assertEqual(shown["members"], [{"value": "x"}])
            shown = self.assert_answer(ask("PUT", path, json.dumps(group), If_Match='"1"'), 200, ETag='"2"')
            self.assertNotIn("members", shown)
            listed = self.assert_answer(ask("GET", f"{GROUPS}?filter=displayName%20eq%20%22CREW%20TWO%22"), 200)
            self.assertEqual((listed["totalResults"], listed["Resources"]), (1, [shown]))
            self.assert_answer(ask("GET", path.replace("Groups", "Users")), 404)

    def test_bytes_are_those_of_answer(self):
        with self.serving(1) as provider:
            self.assertEqual(provider.exchange(CREATE_BOB), BOB_CREATED)
        with self.serving(1, "--base", "http://scim.example/v2") as provider:
            moved = scimlink("answer", "--base", "http://scim.example/v2", stdin=CREATE_BOB)
            self.assertEqual(provider.exchange(CREATE_BOB), moved.output)

    def test_versions_of_http(self):
        with self.serving(3) as provider:
            for version, status in ((b"1.1", b"200 OK"), (b"1.0", b"200 OK"), (b"2.0", b"400 Bad Request")):
                with self.subTest(version=version):
                    answer = provider.exchange(b"GET /v2/Users HTTP/" + version + b"\r\nHost: h\r\n\r\n")
                    self.assertTrue(answer.startswith(b"HTTP/1.1 " + status + b"\r\n"), answer)

    def test_refusals(self):
        with self.serving(1 + len(REFUSED)) as provider:
            provider.exchange(CREATE_BOB)
            for code, status, detail, (method, path, *more) in REFUSED:
                with self.subTest(code=code, method=method, path=path):
                    body = more[0] if more else None
                    fields = {"Content_Type": more[1]} if len(more) > 1 else {}
                    answer = provider.ask(method, path, body, **fields)
                    error = self.assert_answer(answer, status, Content_Type=SCIM_TYPE)
                    self.assertEqual((error["status"], error["detail"]), (str(status), detail))
                    self.assertEqual(error.get("scimType"), SCIM_TYPES.get(code))

    def test_the_longest_body(self):
        with self.serving(3) as provider:
            longest = BOB.ljust(32_768)
            self.assert_answer(provider.ask("POST", USERS, longest + " "), 413)
            self.assert_answer(provider.ask("POST", USERS, longest), 201, ETag='"1"')
            self.assert_answer(provider.ask("GET", USERS), 200)

    def test_a_server_without_memory(self):
        # long users, so that a page of them takes far more memory than the run has left
        texts = {"givenName": "g" * 256, "familyName": "f" * 256}
        emails = [{"value": f"{place}" * 25, "type": "t" * 256} for place in range(100, 110)]
        with self.serving(201) as provider:
            for place in range(198):
                body = user(1, userName=f"u{place}", name=texts, emails=emails)
                self.assert_answer(provider.ask("POST", USERS, body), 201)
            held = int(pathlib.Path(f"/proc/{provider.pid}/statm").read_text().split()[0]) * resource.getpagesize()
            resource.prlimit(provider.pid, resource.RLIMIT_AS, (held + 65_536, resource.RLIM_INFINITY))
            head, _, body = provider.exchange(b"GET /v2/Users HTTP/1.1\r\nHost: h\r\n\r\n").partition(b"\r\n\r\n")
            self.assertEqual((head.split(b"\r\n")[0], body), (b"HTTP/1.1 500 Internal Server Error", UNDONE))
            shown = self.assert_answer(provider.ask("GET", BOB_PATH), 200)
            self.assertEqual(shown["userName"], "u0")
            resource.prlimit(provider.pid, resource.RLIMIT_AS, (resource.RLIM_INFINITY,) * 2)
            listed = self.assert_answer(provider.ask("GET", USERS), 200)
            self.assertEqual(len(listed["Resources"]), 198)


class CurlTest(ProgramTest):
    """A client that isn't Python's."""

    def curl(self, provider, *arguments):
        """What curl prints of an exchange. An argument that begins with a path is at the provider."""
        address = f"http://{provider.address}"
        arguments = [address + argument if argument.startswith("/v2/") else argument for argument in arguments]
        command = ["curl", "-sS", "--max-time", str(PATIENCE), *arguments]
        return subprocess.run(command, capture_output=True, timeout=2 * PATIENCE, check=True).stdout

    def status(self, provider, *arguments):
        return int(self.curl(provider, "-o", "/dev/null", "-w", "%{http_code}", *arguments))

    def test_the_life_of_a_user(self):
        body = self.folder / "body"
        send = ["-H", f"Content-Type: {SCIM_TYPE}", "--data-binary", f"@{body}"]
        with self.serving(7) as provider:
            body.write_text(BOB)
            self.assertEqual(self.curl(provider, "-i", *send, USERS), BOB_CREATED)
            self.assertEqual(self.curl(provider, BOB_PATH), BOB_CREATED.split(b"\r\n\r\n", 1)[1])
            head = self.curl(provider, "-I", BOB_PATH)
            self.assertRegex(head, rb"(?s)\AHTTP/1.1 501 Not Implemented\r\n.*\r\n\r\n\Z")
            self.assertEqual(self.status(provider, "-H", 'If-None-Match: "1"', BOB_PATH), 304)
            body.write_text(user(2, active=False))
            put = ["-X", "PUT", "-H", 'If-Match: "1"', *send, BOB_PATH]
            self.assertRegex(self.curl(provider, "-i", *put), rb'(?s)\AHTTP/1.1 200 OK\r\n.*ETag: "2"\r\n')
            self.assertEqual(self.status(provider, *put), 412)
            found = self.curl(provider, "-G", "--data-urlencode", 'filter=userName eq "BOB"', USERS)
            self.assertEqual([shown["active"] for shown in json.loads(found)["Resources"]], [False])

    def test_what_curl_adds_by_itself(self):
        body = self.folder / "body"
        body.write_text(BOB.ljust(32_768))
        send = ["-H", f"Content-Type: {SCIM_TYPE}", "--data-binary", f"@{body}", USERS]
        with self.serving(4) as provider:
            self.assertEqual(self.status(provider, "-H", "Transfer-Encoding: chunked", "-d", "{}", USERS), 501)
            self.assertEqual(self.status(provider, "-H", "Expect: 100-continue", *send), 417)
            self.assertEqual(self.status(provider, "-d", "{}", USERS), 415)
            self.assertEqual(self.status(provider, *send), 201)
