"""Whole exchanges with a provider: requests from their parts, answers byte for byte, and what is asserted of both."""
import json
import urllib.parse

from databases import compact
from peers import LIST
from support import GROUP, SCIM_TYPE, SOURCE, USER, ProgramTest, resource_id

USERS, GROUPS = "/v2/Users", "/v2/Groups"
BOB_PATH = f"{USERS}/{resource_id(1)}"
ERROR = "urn:ietf:params:scim:api:messages:2.0:Error"


# ---- requests


def as_json(content):
    """The JSON text of a content, without spaces. Its members keep their order."""
    return json.dumps(content, separators=(",", ":"))


def user(name, /, **more):
    """What a client sends to create or replace a user."""
    return {"schemas": [USER], "userName": name} | more


def group(name, /, **more):
    return {"schemas": [GROUP], "displayName": name} | more


def at_revision(revision, **epoch):
    """The members of a user that say its revision."""
    return {"schemas": [USER, SOURCE], SOURCE: epoch | {"revision": revision}}


def request(line, content="", *fields):
    """The bytes of a request: its method and target, its content or body, and further field lines."""
    body = content if isinstance(content, str) else as_json(content)
    head = [f"{line} HTTP/1.1", "Host: localhost:8080", f"Content-Type: {SCIM_TYPE}", *fields]
    return "\r\n".join([*head, f"Content-Length: {len(body)}", "", body]).encode()


def create_user(content):
    return request(f"POST {USERS}", content)


def get(target):
    return f"GET {target} HTTP/1.1\r\nHost: localhost:8080\r\n\r\n".encode()


def search(path, text):
    """A search of a collection by this filter."""
    return get(f"{path}?filter={urllib.parse.quote(text, safe='')}")


# ---- answers


def response(status, body, fields=None):
    """The bytes of an answer with this status and body, and further fields."""
    fields = {"Connection": "close", "Content-Length": len(body), "Content-Type": SCIM_TYPE} | (fields or {})
    lines = [f"{name}: {value}" for name, value in sorted(fields.items())]
    return "\r\n".join([f"HTTP/1.1 {status}", *lines, "", body]).encode()


def refusal(status, detail, scim_type=None):
    """The answer that refuses a request for this reason."""
    error = {"detail": detail, "schemas": [ERROR], "status": status[:3]}
    return response(status, compact(error | ({"scimType": scim_type} if scim_type else {})))


SYNTAX = refusal("400 Bad Request", "the body is not a readable resource", "invalidSyntax")
VALUE = refusal("400 Bad Request", "a value is missing or not allowed", "invalidValue")
FILTER = refusal("400 Bad Request", "the filter is not supported", "invalidFilter")
TAKEN = refusal("409 Conflict", "the name is taken", "uniqueness")
OTHER_VERSION = refusal("412 Precondition Failed", "the resource has another version")
NO_RESOURCE = refusal("404 Not Found", "no such resource")
NO_PATH = refusal("404 Not Found", "no such path")
NO_METHOD = refusal("501 Not Implemented", "the method is not supported")
LONG_HEAD = refusal("431 Request Header Fields Too Large", "the head is too long")
LONG_BODY = refusal("413 Content Too Large", "the body is too long")
MALFORMED = refusal("400 Bad Request", "the request is malformed")


def meta(kind, number, version):
    location = f"http://localhost:8080/v2/{kind}s/{resource_id(number)}"
    return {"location": location, "resourceType": kind, "version": f'"{version}"'}


def shown_user(name, number=1, version=1):
    """An active user who has only a name, as the provider shows it."""
    shown = {"id": resource_id(number), "meta": meta("User", number, version)}
    return shown | user(name, active=True)


def shown_group(name, number, version=1):
    return {"id": resource_id(number), "meta": meta("Group", number, version)} | group(name)


def found(shown):
    """The answer that shows a resource."""
    fields = {"Content-Location": shown["meta"]["location"], "ETag": shown["meta"]["version"]}
    return response("200 OK", compact(shown), fields)


def not_modified(shown):
    """The answer that a resource still has its version."""
    location, version = shown["meta"]["location"], shown["meta"]["version"]
    lines = ["HTTP/1.1 304 Not Modified", "Connection: close", f"Content-Location: {location}", f"ETag: {version}"]
    return "\r\n".join([*lines, "", ""]).encode()


def created(shown):
    """The answer to the creation of a resource."""
    location = shown["meta"]["location"]
    fields = {"Content-Location": location, "ETag": shown["meta"]["version"], "Location": location}
    return response("201 Created", compact(shown), fields)


def listed(resources, start, total):
    """The answer with a page of a list: its resources, where it starts, and how many the search found in all."""
    page = {"Resources": resources, "itemsPerPage": len(resources), "startIndex": start, "totalResults": total}
    return response("200 OK", compact(page | {"schemas": [LIST]}))


# ---- assertions


class ExchangeTest(ProgramTest):
    def assert_answers(self, provider, asked, expected):
        """The provider answers a request with exactly these bytes."""
        with self.subTest(asked=asked[:400]):
            self.assertEqual(provider.exchange(asked), expected)

    def assert_answer_alone(self, asked, expected):
        """An empty provider of its own answers a request with exactly these bytes."""
        with self.serving(1) as provider:
            self.assert_answers(provider, asked, expected)

    def assert_no_filters(self, *tables):
        """An empty provider refuses a search by each of these texts, in both collections."""
        texts = [text for table in tables for text in table]
        with self.serving(2 * len(texts)) as provider:
            for text in texts:
                for path in (USERS, GROUPS):
                    self.assert_answers(provider, search(path, text), FILTER)

    def assert_holds(self, provider, users=0, groups=0):
        """The provider holds this many users and groups. To see that takes two requests."""
        for path, count in ((USERS, users), (GROUPS, groups)):
            self.assertEqual(provider.ask("GET", f"{path}?count=0").content["totalResults"], count)
