"""`push` reads the statuses and bodies of other providers' responses."""
from exchanges import ERROR
from responses import ABSENT, AGAIN, ALL, CREATION, NOTHING, REPLACEMENT, SEARCH, ResponseTest, said
from support import SOURCE

BOB = (
    '{"id":"x","meta":{"version":"\\"1\\""},"schemas":["urn:ietf:params:scim:schemas:core:2.0:User"],'
    '"userName":"bob"}'
)
HTML = "<html>"

# Bodies with one resource, and the id and the tag that push reads in it, or the code that it prints
RESOURCES = [
    (BOB, ("x", '"1"')),
    (
        ' {"USERNAME" : "Bob", "Schemas" : ["urn:x", "URN:IETF:params:scim:schemas:core:2.0:user"],\r\n'
        '"Meta":{"VERSION":"\\"1\\""},"ID":"y"} ',
        ("y", '"1"'),
    ),
    (
        '{"id":"x","meta":{"version":"W/\\"3\\"","created":7},'
        '"schemas":[null,"urn:ietf:params:scim:schemas:core:2.0:User"],"userName":"bob","emails":null,'
        '"nickName":{"a":[]},"externalId":""}',
        ("x", 'W/"3"'),
    ),
    (
        '{"id":"x","meta":{"version":"\\"\\u00e9!\\""},"schemas":["urn:ietf:params:scim:schemas:core:2.0:User"],'
        '"userName":"bob"}',
        ("x", '"é!"'),
    ),
    (
        '{"id":"x","meta":{"version":"\\"a b\\""},"schemas":["urn:ietf:params:scim:schemas:core:2.0:User"],'
        '"userName":"bob"}',
        "C2",
    ),
    ('{"id":"x","meta":{"version":1},"schemas":["urn:ietf:params:scim:schemas:core:2.0:User"],"userName":"bob"}', "C2"),
    ('{"id":"x","meta":[],"schemas":["urn:ietf:params:scim:schemas:core:2.0:User"],"userName":"bob"}', "C2"),
    ('{"schemas":["urn:ietf:params:scim:schemas:core:2.0:User"],"userName":"bob"}', "K3"),
    ('{"id":7,"schemas":["urn:ietf:params:scim:schemas:core:2.0:User"],"userName":"bob"}', "K3"),
    ('{"id":"x","schemas":["urn:ietf:params:scim:schemas:core:2.0:User"]}', "K3"),
    ('{"id":"x","schemas":["urn:ietf:params:scim:schemas:core:2.0:Group"],"displayName":"crew"}', "K3"),
    (
        '{"id":"x","meta":{"version":"\\"1\\"","VERSION":"\\"2\\""},'
        '"schemas":["urn:ietf:params:scim:schemas:core:2.0:User"],"userName":"bob"}',
        "K3",
    ),
]
# Bodies without a resource, and what becomes of a creation and of a replacement. After a creation without a body the name
# is taken; a replacement that carries a revision waits to see it
NO_RESOURCES = [("[]", "K3", "K3"), ("null", "K3", "K3"), ('{"id":"x"', "K2", "K2"), (" ", "K2", "K2"), ("", AGAIN, "K2")]

# What is answered: the requests, the status, the body (None: a valid one), and what becomes of it
STATUSES = [
    ([CREATION], "200 OK", None, "K3"),
    ([CREATION], "200 OK", HTML, "K2"),
    ([SEARCH, REPLACEMENT], "201 Created", None, "K3"),
    ([SEARCH], "201 Created", NOTHING, "K3"),
    (ALL, "100 Continue", "", "H10"),
    (ALL, "101 Switching Protocols", "", "K1"),
    (ALL, "102 Processing", None, "K1"),
    (ALL, "204 No Content", "", "K2"),
    (ALL, "206 Partial Content", None, "K3"),
    (ALL, "301 Moved Permanently", None, "K3"),
    (ALL, "307 Temporary Redirect", HTML, "K2"),
    (ALL, "399 Unknown", None, "K3"),
    (ALL, "400 Bad Request", None, "C4"),
    (ALL, "502 Bad Gateway", HTML, "C4"),
    (ALL, "599 Unknown", "", "C4"),
    (ALL, "600 Unknown", None, "K3"),
    (ALL, "999 Unknown", "", "K2"),
    ([SEARCH, CREATION], "412 Precondition Failed", "{}", "C4"),
    ([SEARCH, REPLACEMENT], "409 Conflict", "{}", "C4"),
    ([REPLACEMENT], "412 Precondition Failed", "{}", AGAIN),
]
# Answers to a creation: the status of a response counts, whatever its body says
ERRORS = [
    ("409 Conflict", f'{{"detail":"taken","schemas":["{ERROR}"],"scimType":"uniqueness","status":"400"}}', AGAIN),
    (
        "409 Conflict",
        '{"Schemas":["urn:x","URN:ietf:params:scim:api:messages:2.0:ERROR"],"SCIMTYPE":"x","DETAIL":""}',
        AGAIN,
    ),
    ("500 Oops", f'{{"detail":7,"schemas":["{ERROR}"],"scimType":null}}', "C4"),
    ("404 Not Found", f'{{"detail":"a","schemas":"{ERROR}"}}', "C4"),
    ("404 Not Found", '{"detail":"a"}', "C4"),
    ("404 Not Found", f'{{"detail":"a","Detail":"b","schemas":["{ERROR}"]}}', "C4"),
]
# Bodies that answer a search with 200, and what becomes of them. C1: the list isn't of bob alone
LISTS = [
    ('{"totalResults":0}', ABSENT),
    ('{"totalResults":0,"Resources":null}', ABSENT),
    ('{"TOTALRESULTS":7,"resources":[],"startIndex":5}', "C1"),
    ('{"totalResults":7,"startIndex":0,"itemsPerPage":"x"}', "C1"),
    ('{"totalResults":7,"startIndex":"5","schemas":7}', "C1"),
    ('{"totalResults":7,"startIndex":2.0}', "C1"),
    (
        '{"totalResults":1,"Resources":[null,{"id":"x","schemas":["urn:ietf:params:scim:schemas:core:2.0:User"],'
        '"userName":"bob"},null]}',
        "C2",
    ),
    (
        '{"totalResults":2,"Resources":[{"id":"y","meta":{"version":"W/\\"\\""},'
        '"schemas":["urn:ietf:params:scim:schemas:core:2.0:User"],"userName":"ann"},'
        '{"id":"x","schemas":["urn:ietf:params:scim:schemas:core:2.0:User"],"userName":"bob"}]}',
        "C1",
    ),
    ('{"Resources":[]}', "K3"),
    ('{"totalResults":null}', "K3"),
    ('{"totalResults":"0"}', "K3"),
    ('{"totalResults":0.0}', "K3"),
    ('{"totalResults":-1}', "K3"),
    ('{"totalResults":0,"totalresults":0}', "K3"),
    ('{"totalResults":0,"Resources":{}}', "K3"),
    ('{"totalResults":1,"Resources":[7]}', "K3"),
    (
        '{"totalResults":1,"Resources":[{"id":"x","schemas":["urn:ietf:params:scim:schemas:core:2.0:Group"],'
        '"displayName":"crew"}]}',
        "K3",
    ),
    (
        '{"totalResults":2,"Resources":[{"id":"x","schemas":["urn:ietf:params:scim:schemas:core:2.0:User"],'
        '"userName":"bob"},{}]}',
        "K3",
    ),
    ("[]", "K3"),
    ("7", "K3"),
    ('{"totalResults":0}}', "K2"),
    ("", "K2"),
]


def at_revision_1(body):
    """A body of which each user is at revision 1."""
    source = f'"{SOURCE}":{{"revision":1}}'
    body = body.replace('{"id"', f'{{{source},"id"').replace('{"schemas"', f'{{{source},"schemas"')
    return body.replace('{"USERNAME"', f'{{{source},"USERNAME"')


def list_of(*resources, total=None):
    total = len(resources) if total is None else total
    return f'{{"totalResults":{total},"Resources":[{",".join(resources)}]}}'


class ResponsesTest(ResponseTest):
    def test_resources(self):
        for body, becomes in RESOURCES:
            body, known = at_revision_1(body), becomes[0] if isinstance(becomes, tuple) else "x"
            self.assert_read(SEARCH, said("200 OK", list_of(body)), becomes)
            self.assert_read(CREATION, said("201 Created", body), becomes)
            self.assert_read(REPLACEMENT, said("200 Fine", body), becomes, known)

    def test_bodies_without_a_resource(self):
        for body, created, replaced in NO_RESOURCES:
            self.assert_read(CREATION, said("201 Created", body), created)
            self.assert_read(REPLACEMENT, said("200 OK", body), replaced)

    def test_statuses(self):
        for asks, status, body, becomes in STATUSES:
            for ask in asks:
                shown = at_revision_1(BOB)
                valid = list_of(shown) if ask == SEARCH else shown
                self.assert_read(ask, said(status, valid if body is None else body), becomes)

    def test_errors(self):
        for status, body, becomes in ERRORS:
            self.assert_read(CREATION, said(status, body), becomes)

    def test_lists(self):
        for body, becomes in LISTS:
            self.assert_read(SEARCH, said("200 OK", at_revision_1(body)), becomes)

    def test_a_list_of_200_resources(self):
        users = [
            f'{{"id":"{place}","schemas":["urn:ietf:params:scim:schemas:core:2.0:User"],"userName":"u{place}"}}'
            for place in range(200)
        ]
        for valid, code in ((users, "C1"), ([*users[:-1], "{}"], "K3"), (["{}", *users[1:]], "K3")):
            self.assert_read(SEARCH, said("200 OK", list_of(*valid, total=201)), code)
        # of 200 items one is a resource
        self.assert_read(SEARCH, said("200 OK", list_of(*["null"] * 199, at_revision_1(BOB), total=1)), ("x", '"1"'))
