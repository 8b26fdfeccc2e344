"""Entity tags and conditions: as `serve` compares them with versions, and as `push` sends them back (RFC 7232)."""
from databases import make_store, user_resource
from exchanges import (
    BOB_PATH, OTHER_VERSION, VALUE, ExchangeTest, at_revision, found, not_modified, request, shown_user,
)
from peers import Peer, answer, hits, user

# A condition, the version of bob, and whether it holds as `If-Match`, and as `If-None-Match`
CONDITIONS = [
    # the two comparisons of section 2.3.2
    ('"1"', 1, True, False),
    ('W/"1"', 1, False, False),
    ('"01"', 1, False, True),
    # lists
    ('"7", ,"1"', 1, True, False),
    ('"7", ,"1"', 2, False, True),
    ("*,", 5, True, False),
    ('"a,b"', 1, False, True),
]
MALFORMED = ["1", "*, *", '*, "1"', ",", '"1" "2"']

# Versions that another provider may show, and versions that are no tags
TAGS = ['"1"', 'W/"1"', '"01"', '"a,b"']
NO_TAGS = ["1", "*", '"1', 'w/"1"']


class TagsTest(ExchangeTest):
    def assert_retrievals(self, version, rows):
        """A provider with bob at this version answers a retrieval under each condition as the rows say."""
        with self.subTest(version=version):
            store = make_store(self.folder / f"store {version}", [user_resource(1, "bob", version=version)])
            with self.serving(len(rows), "--store", store) as provider:
                for condition, expected in rows:
                    self.assert_answers(provider, request(f"GET {BOB_PATH}", "", condition), expected)

    def test_conditions_by_versions(self):
        for version in (1, 2, 5):
            bob = shown_user("bob", version=version) | at_revision(1)
            rows = []
            for text, held, matches, matches_none in CONDITIONS:
                if held == version:
                    rows.append((f"If-Match: {text}", found(bob) if matches else OTHER_VERSION))
                    rows.append((f"If-None-Match: {text}", found(bob) if matches_none else not_modified(bob)))
            self.assertTrue(rows)
            self.assert_retrievals(version, rows)

    def test_conditions_that_are_malformed(self):
        fields = [f"{name}: {text}" for text in MALFORMED for name in ("If-Match", "If-None-Match")]
        self.assert_retrievals(1, [(field, VALUE) for field in fields])


class SentTagsTest(ExchangeTest):
    def test_a_tag_is_sent_as_it_was_given(self):
        self.site.write_users("bob,2,,,,,left")
        for tag in TAGS:
            with self.subTest(tag=tag):
                self.site.journal = self.folder / f"journal {tag.replace('/', ' ')}"
                steps = [hits(user("bob", 1, tag)), answer(200, user("bob", 2, tag))]
                with Peer(steps) as peer:
                    self.assert_prints(self.site.push(peer.address), "user bob confirmed 2")
                self.assertIn(f"If-Match: {tag}", peer.requests[1][0])

    def test_versions_that_are_no_tags(self):
        self.site.write_users("bob,1,,,,,active")
        for text in NO_TAGS:
            with self.subTest(text=text), Peer([hits(user("bob", 1, text))] * 3) as peer:
                self.assert_prints(self.site.push(peer.address), "user bob unconfirmed C2", status=1)
