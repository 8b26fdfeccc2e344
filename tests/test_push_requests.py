"""Requests of the client: what `push` sends byte for byte, and what `serve` answers to what the client can ask."""
from exchanges import (
    BOB_PATH, GROUPS, NO_RESOURCE, USERS, ExchangeTest, at_revision, found, listed, refusal, shown_user,
)
from peers import NO_HITS, PeerTest, answer, hits, user
from support import BOB_CREATED, CREATE_BOB, GROUP, SOURCE, resource_id

ODD_ID, ODD_PATH = "a/b?c%\u00e9-._~", "a%2Fb%3Fc%25%C3%A9-._~"
FIND_BOB = (
    b"GET /v2/Users?filter=userName+eq+%22bob%22 HTTP/1.1\r\nHost: localhost:8080\r\n"
    b"Accept: application/scim+json\r\nConnection: close\r\n\r\n"
)
REPLACE_BOB = (
    b"PUT /v2/Users/5c1a0000-0000-8000-8000-000000000001 HTTP/1.1\r\nHost: localhost:8080\r\n"
    b"Accept: application/scim+json\r\nConnection: close\r\nContent-Length: 214\r\n"
    b'Content-Type: application/scim+json\r\nIf-Match: "1"\r\n\r\n'
    b'{"active":true,"schemas":["urn:ietf:params:scim:schemas:core:2.0:User",'
    b'"urn:example:params:scim:schemas:extension:source:1.0"],'
    b'"urn:example:params:scim:schemas:extension:source:1.0":{"revision":2},"userName":"bob"}'
)


def gets(target, *lines):
    """The bytes of a GET as the client writes it, with these further field lines."""
    head = ["Host: localhost:8080", "Accept: application/scim+json", "Connection: close"]
    return "\r\n".join([f"GET {target} HTTP/1.1", *head, *lines, "", ""]).encode()


def sent(request):
    """The bytes of a request that a peer has read."""
    lines, body = request
    return "\r\n".join([*lines, "", ""]).encode() + body


class RequestsTest(PeerTest):
    def assert_sends(self, steps, line, *expected):
        """The requests of a push that has these answers and prints this line."""
        self.assertEqual([sent(request) for request in self.meets(steps, line)], list(expected))

    def test_a_search_and_a_creation(self):
        self.site.write_users("bob,1,,,,,active")
        self.assert_sends([NO_HITS, BOB_CREATED], "user bob confirmed 1", FIND_BOB, CREATE_BOB)

    def test_a_replacement_names_the_version_that_it_replaces(self):
        id = resource_id(1)
        self.site.write_users("bob,2,,,,,active")
        steps = [hits(user("bob", 1, '"1"', number=id)), answer(200, user("bob", 2, '"2"', number=id))]
        self.assert_sends(steps, "user bob confirmed 2", FIND_BOB, REPLACE_BOB)

    def test_a_weak_tag(self):
        self.site.write_users("bob,2,,,,,active")
        id = resource_id(1)
        steps = [hits(user("bob", 1, 'W/"2"', number=id)), answer(200, user("bob", 2, number=id))]
        weak = REPLACE_BOB.replace(b'"1"', b'W/"2"')
        self.assert_sends(steps, "user bob confirmed 2", FIND_BOB, weak)

    def test_every_other_byte_of_an_id_is_escaped(self):
        self.site.write_users("bob,2,,,,,active")
        steps = [hits(user("bob", 1, '"1"', number=ODD_ID)), answer(200, user("bob", 2, number=ODD_ID))]
        escaped = REPLACE_BOB.replace(resource_id(1).encode(), ODD_PATH.encode())
        self.assert_sends(steps, "user bob confirmed 2", FIND_BOB, escaped)

    def test_the_id_of_a_group_is_escaped(self):
        def crew(revision):
            schemas = {"schemas": [GROUP], "id": ODD_ID, "displayName": "crew"}
            return schemas | {"meta": {"version": f'"{revision}"'}, SOURCE: {"revision": revision}}

        self.site.write_users()
        self.site.write_groups("crew,2,")
        body = (
            f'{{"displayName":"crew","schemas":["{GROUP}","{SOURCE}"],"{SOURCE}":{{"revision":2}}}}'
        ).encode()
        put = "\r\n".join([
            f"PUT /v2/Groups/{ODD_PATH} HTTP/1.1", "Host: localhost:8080", "Accept: application/scim+json",
            "Connection: close", f"Content-Length: {len(body)}", "Content-Type: application/scim+json",
            'If-Match: "1"', "", "",
        ]).encode()
        search = gets("/v2/Groups?filter=displayName+eq+%22crew%22")
        self.assert_sends([hits(crew(1)), answer(200, crew(2))], "group crew confirmed 2", search, put + body)


BOB = shown_user("bob") | at_revision(1)
OTHER_VERSION = refusal("412 Precondition Failed", "the resource has another version")
NOT_MODIFIED = (
    b"HTTP/1.1 304 Not Modified\r\nConnection: close\r\n"
    b"Content-Location: http://localhost:8080/v2/Users/5c1a0000-0000-8000-8000-000000000001\r\n"
    b'ETag: "1"\r\n\r\n'
)
# Requests that the client can write, to a provider with bob, and the answers
CONVERSATION = [
    (CREATE_BOB, BOB_CREATED),
    (FIND_BOB, listed([BOB], 1, 1)),
    (gets(GROUPS), listed([], 1, 0)),
    (
        gets(f"{USERS}?filter=not+%28externalId+sw+%22a%26b%3D%25%22%29&startIndex=2&count=-5"),
        listed([], 2, 1),
    ),
    (gets(BOB_PATH), found(BOB)),
    (gets(f"{USERS}/x"), NO_RESOURCE),
    (gets(f"{GROUPS}/{ODD_PATH}"), NO_RESOURCE),
    (gets(BOB_PATH, 'If-Match: "1", W/"2"', "If-None-Match: *"), NOT_MODIFIED),
    (REPLACE_BOB, found(shown_user("bob", version=2) | at_revision(2))),
    (REPLACE_BOB, OTHER_VERSION),
]


class AnswersTest(ExchangeTest):
    def test_a_provider_answers_what_the_client_can_ask(self):
        with self.serving(len(CONVERSATION)) as provider:
            for request, expected in CONVERSATION:
                self.assert_answers(provider, request, expected)
