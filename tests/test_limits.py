"""`serve`: each limit of a request is met exactly, and exceeded by one."""
import json

from exchanges import (
    FILTER, LONG_BODY, LONG_HEAD, MALFORMED, NO_PATH, NO_RESOURCE, SYNTAX, VALUE,
    ExchangeTest, as_json, group, listed, user,
)
from support import ENTERPRISE, GROUP, SOURCE

# How often a part may come, and a content in which it comes `count` times
BODIES = [
    (128, lambda count: user("a" * count)),
    (256, lambda count: user("a", externalId="a" * count)),
    (256, lambda count: user("a", name={"givenName": "a" * count})),
    (256, lambda count: user("a", name={"familyName": "a" * count})),
    (256, lambda count: user("a", **{ENTERPRISE: {"department": "a" * count}})),
    (256, lambda count: user("a", emails=[{"value": "a" * count}])),
    (256, lambda count: user("a", emails=[{"value": "a", "type": "a" * count}])),
    (10, lambda count: user("a", emails=[{"value": "a"}] * count)),
    (1, lambda count: user("a", emails=[{"value": "a"}, *[{"value": "a", "primary": True}] * count])),
    (9, lambda count: user("a", **{SOURCE: {"revision": 2 * 10**count}})),
    (128, lambda count: group("a" * count)),
    (256, lambda count: group("a", members=[{"value": "a" * count}])),
]

END, LINE = " HTTP/1.1\r\nHost: h\r\n", "X: y\r\n"
NOTHING = listed([], 1, 0)
# Likewise for whole requests, and the answers at the limit and above it
REQUESTS = [
    (16_344, lambda count: f"GET /v2/Users{END}X: {'a' * count}\r\n\r\n", NOTHING, LONG_HEAD),
    (63, lambda count: f"GET /v2/Users{END}{LINE * count}\r\n", NOTHING, LONG_HEAD),
    (256, lambda count: f"GET /v2/Users/{'a' * count}{END}\r\n", NO_RESOURCE, NO_PATH),
    (256, lambda count: f"GET /v2/Users/{'%61' * count}{END}\r\n", NO_RESOURCE, NO_PATH),
    (128, lambda count: f"GET /v2/Groups/{'%C3%A9' * count}{END}\r\n", NO_RESOURCE, NO_PATH),
    (2_034, lambda count: f"GET /v2/Users?filter=userName+sw+%22{'a' * count}%22{END}\r\n", NOTHING, FILTER),
    (18, lambda count: f"GET /v2/Users?count={'9' * count}{END}\r\n", NOTHING, VALUE),
    (18, lambda count: f"GET /v2/Users?startIndex={'9' * count}{END}\r\n", listed([], 10**18 - 1, 0), VALUE),
    (18, lambda count: f"POST /v2/Users{END}Content-Length: {'0' * count}\r\n\r\n", SYNTAX, MALFORMED),
]


def post(content):
    """The creation of a content, in the collection of its schema, without a media type."""
    path, body = "/v2/Groups" if GROUP in content["schemas"] else "/v2/Users", as_json(content)
    return f"POST {path} HTTP/1.1\r\nHost: h\r\nContent-Length: {len(body)}\r\n\r\n{body}".encode()


def user_of_length(length):
    """A user whose JSON text has this length, by an attribute that is ignored."""
    content = user("a", x="x" * (length - len(as_json(user("a", x="")))))
    assert len(as_json(content)) == length
    return content


def user_of_depth(count):
    """A user with an ignored attribute: this many arrays, one within the other."""
    return user("a", x=json.loads("[" * count + "]" * count))


def group_of(last):
    """A group with the members 1 to `last`, and the first one again."""
    return group("a", members=[{"value": f"m{number}"} for number in [*range(1, last + 1), 1]])


class LimitsTest(ExchangeTest):
    def created(self, content):
        """The answer with which an empty provider creates a content."""
        with self.serving(1) as provider:
            answer = provider.exchange(post(content))
        self.assertEqual(answer.partition(b"\r\n")[0], b"HTTP/1.1 201 Created")
        return answer

    def test_parts_of_bodies(self):
        for most, content in BODIES:
            with self.subTest(content=content(1)):
                self.created(content(most))
                self.assert_answer_alone(post(content(most + 1)), VALUE)

    def test_parts_of_requests(self):
        for most, text, met, passed in REQUESTS:
            self.assert_answer_alone(text(most).encode(), met)
            self.assert_answer_alone(text(most + 1).encode(), passed)

    def test_bodies_have_at_most_32768_bytes(self):
        for length in (16_384, 16_385, 32_768):
            with self.subTest(length=length):
                self.created(user_of_length(length))
        self.assert_answer_alone(post(user_of_length(32_769)), LONG_BODY)

    def test_json_is_at_most_127_deep(self):
        self.created(user_of_depth(126))
        self.assert_answer_alone(post(user_of_depth(127)), SYNTAX)

    def test_groups_have_at_most_400_members(self):
        self.assertIn(b'{"value":"m400"}],', self.created(group_of(400)))
        self.assert_answer_alone(post(group_of(401)), VALUE)
