"""`serve`: users and groups are created, retrieved and replaced, with departments and epochs."""
from databases import compact, make_store, user_resource, user_text
from exchanges import (
    BOB_PATH, GROUPS, NO_METHOD, NO_RESOURCE, OTHER_VERSION, SYNTAX, TAKEN, USERS, VALUE,
    ExchangeTest, at_revision, create_user, created, found, get, group, listed, not_modified, refusal, request, search,
    shown_group, shown_user, user,
)
from support import BOB_CREATED, CREATE_BOB, ENTERPRISE, GROUP, SOURCE, USER, resource_id

FIXED = refusal("400 Bad Request", "the name of a resource is fixed", "mutability")
LIMIT = refusal("500 Internal Server Error", "a limit of the provider is reached")
GET_BOB, PUT_BOB = f"GET {BOB_PATH}", f"PUT {BOB_PATH}"


def shown_bob(revision, version=1, name="bob", **epoch):
    """Bob at a revision, as the provider shows it."""
    return shown_user(name, version=version) | at_revision(revision, **epoch)


BOB_FOUND = found(shown_bob(1))
BOB_REPLACED = found(shown_bob(2, version=2))
NOT_MODIFIED = not_modified(shown_bob(1))

# Field lines of a replacement of bob, who is at version 1, and the answer
REPLACEMENTS = [
    (['If-Match: W/"1"'], OTHER_VERSION),
    (['If-Match: "2"'], OTHER_VERSION),
    (["If-Match: *"], BOB_REPLACED),
    (['If-Match: "7", ,"1"'], BOB_REPLACED),
    (['If-Match: "7"', 'If-Match: "1"'], BOB_REPLACED),
    (["If-Match: 1"], VALUE),
    (['If-None-Match: "1"'], OTHER_VERSION),
    (["If-None-Match: *"], OTHER_VERSION),
    ([], BOB_REPLACED),
]
# Likewise of a retrieval
RETRIEVALS = [
    ([], BOB_FOUND),
    (['If-None-Match: W/"1"'], NOT_MODIFIED),
    (['If-Match: "1"'], BOB_FOUND),
    (["If-Match: *"], BOB_FOUND),
    (['If-Match: "2"'], OTHER_VERSION),
    (['If-Match: W/"1"'], OTHER_VERSION),
    (["If-Match: 1"], VALUE),
    (['If-None-Match: "1"', 'If-Match: "2"'], OTHER_VERSION),
    (['If-None-Match: "1"', 'If-Match: "1"'], NOT_MODIFIED),
    (['If-None-Match: "2"'], BOB_FOUND),
]

CREW_PATH = f"{GROUPS}/{resource_id(2)}"
CREW_MEMBERS = {"members": [{"value": "b"}, {"value": "a"}]}
CREW = shown_group("crew", 2) | CREW_MEMBERS
# Requests to a provider with bob and the crew, and the answers
READS = [
    (request(GET_BOB), BOB_FOUND),
    (request(f"GET {USERS}/x"), NO_RESOURCE),
    (request(f"GET {CREW_PATH}", "", 'If-None-Match: "1"'), not_modified(CREW)),
    (get(GROUPS), listed([CREW], 1, 1)),
    (search(GROUPS, 'displayName eq "CREW"'), listed([CREW], 1, 1)),
]
X, SEVEN = {"externalId": "x"}, {"externalId": "7"}
WRITES = [
    (request(PUT_BOB, user("bob", **SEVEN)), found(shown_user("bob", version=2) | SEVEN)),
    (request(f"PUT {CREW_PATH}", group("Crew", **X)), found(shown_group("Crew", 2, 2) | X)),
]

# What the creation of bob says beside his name, and the answer
ALONE = created(shown_user("bob"))
DEPARTMENTS = [
    ({"schemas": [USER, ENTERPRISE], ENTERPRISE: {}}, ALONE),
    ({"schemas": [USER], ENTERPRISE: {"department": ""}}, ALONE),
    ({"schemas": [USER], ENTERPRISE: {"department": None}}, ALONE),
    ({"schemas": [USER], ENTERPRISE: None}, ALONE),
    ({"schemas": [USER], "department": "Sales"}, ALONE),
    ({"schemas": [USER], ENTERPRISE: {"department": "a", "Department": "b"}}, SYNTAX),
    ({"schemas": [USER], ENTERPRISE: {"manager": 1, "MANAGER": 2}}, SYNTAX),
    ({"schemas": [USER], ENTERPRISE: {"department": 4}}, VALUE),
    ({"schemas": [USER], ENTERPRISE: {"department": ["Sales"]}}, VALUE),
    ({"schemas": [USER], ENTERPRISE: "Sales"}, VALUE),
]
# What the creation of bob says in the source's extension, and the answer
EPOCHS = [
    ({"epoch": 4}, ALONE),
    ({"epoch": "four"}, ALONE),
    ({"epoch": -1, "revision": None}, ALONE),
    ({"epoch": None, "revision": 5}, created(shown_bob(5))),
    ({"epoch": 1_000_000, "revision": 1}, VALUE),
    ({"epoch": -1, "revision": 1}, VALUE),
    ({"epoch": 1.5, "revision": 1}, VALUE),
    ({"epoch": "1", "revision": 1}, VALUE),
    ({"epoch": [1], "revision": 1}, VALUE),
    ({"epoch": 1, "revision": 0}, VALUE),
    ({"epoch": 1, "revision": 2_000_000_001}, VALUE),
    ({"epoch": 1, "EPOCH": 1, "revision": 1}, SYNTAX),
]


class ExchangesTest(ExchangeTest):
    def assert_converses(self, rows, *options):
        """A provider answers each request of the rows as they say, one after the other."""
        with self.serving(len(rows), *options) as provider:
            for asked, expected in rows:
                self.assert_answers(provider, asked, expected)

    def assert_converses_of_bob(self, rows):
        """So does a provider that holds bob at version 1 and revision 1."""
        self.assert_converses([(CREATE_BOB, BOB_CREATED), *rows])

    # ---- creations

    def test_a_user_is_created_byte_for_byte_and_once(self):
        with self.serving(5) as provider:
            self.assert_answers(provider, CREATE_BOB, BOB_CREATED)
            self.assert_answers(provider, create_user(compact(user("BOB") | at_revision(1))), TAKEN)
            self.assert_answers(provider, request(GET_BOB), BOB_FOUND)
            self.assert_holds(provider, users=1, groups=0)

    def test_two_users_have_two_ids(self):
        self.assert_converses_of_bob([(create_user(user("ann")), created(shown_user("ann", 2)))])

    def test_a_request_as_curl_writes_it(self):
        asked = (
            b"POST /v2/Users HTTP/1.1\r\nHost: localhost:8080\r\nUser-Agent: curl/7.88.1\r\nAccept: */*\r\n"
            b"Content-Type: application/json\r\nContent-Length: 80\r\n\r\n"
            b'{ "schemas": ["urn:ietf:params:scim:schemas:core:2.0:User"], "userName": "cid" }'
        )
        self.assert_answer_alone(asked, created(shown_user("cid")))

    def test_a_leaver_is_created_inactive(self):
        schemas = ["URN:ietf:params:scim:schemas:core:2.0:USER", None]
        leaver = {"SCHEMAS": schemas, "username": "Dee", "Active": False, "id": "mine", "meta": 7}
        self.assert_answer_alone(create_user(leaver), created(shown_user("Dee") | {"active": False}))

    # ---- replacements, and conditions

    def test_a_replacement_comes_once(self):
        replacement = request(PUT_BOB, user_text("bob", 2), 'If-Match: "1"')
        self.assert_converses_of_bob([(replacement, BOB_REPLACED), (replacement, OTHER_VERSION)])

    def test_conditions_of_a_replacement(self):
        for fields, expected in REPLACEMENTS:
            self.assert_converses_of_bob([(request(PUT_BOB, user_text("bob", 2), *fields), expected)])

    def test_conditions_of_a_retrieval(self):
        self.assert_converses_of_bob([(request(GET_BOB, "", *fields), expected) for fields, expected in RETRIEVALS])

    def test_a_name_is_fixed_an_id_is_not_made_and_nothing_is_deleted(self):
        rows = [
            (request(PUT_BOB, user_text("bill", 2), 'If-Match: "1"'), FIXED),
            (request(f"PUT {USERS}/x", user_text("bob", 2), 'If-Match: "9"'), NO_RESOURCE),
            (request(f"DELETE {BOB_PATH}"), NO_METHOD),
        ]
        self.assert_converses_of_bob(rows)

    def test_a_lower_revision_replaces_too(self):
        rows = [
            (request(PUT_BOB, user_text("BOB", 5)), found(shown_bob(5, 2, "BOB"))),
            (request(PUT_BOB, user_text("BOB", 3)), found(shown_bob(3, 3, "BOB"))),
            (request(GET_BOB), found(shown_bob(3, 3, "BOB"))),
        ]
        self.assert_converses_of_bob(rows)

    def test_the_last_version_is_not_replaced(self):
        store = make_store(self.folder / "store", [user_resource(1, "bob", version=9007199254740990)])
        last = found(shown_bob(2, 9007199254740991))
        rows = [
            (request(PUT_BOB, user_text("bob", 2), 'If-Match: "9007199254740990"'), last),
            (request(PUT_BOB, user_text("bob", 2)), LIMIT),
            # the limit is looked at before the condition
            (request(PUT_BOB, user_text("bob", 2), 'If-Match: "1"'), LIMIT),
            (request(GET_BOB), last),
        ]
        self.assert_converses(rows, "--store", store)

    # ---- departments

    def test_a_department_is_kept_shown_and_taken_away(self):
        bob = {"userName": "bob", "schemas": [USER]}
        source = {SOURCE: {"revision": 2}}
        sales = bob | {ENTERPRISE: {"department": "Sales"}} | source
        capitals = "URN:IETF:params:scim:schemas:extension:Enterprise:2.0:USER"
        other_letters = bob | {capitals: {"costCenter": 4, "DEPARTMENT": "Sales"}} | source

        def in_sales(version):
            schemas = {"schemas": [USER, ENTERPRISE, SOURCE], ENTERPRISE: {"department": "Sales"}}
            return shown_bob(2, version) | schemas

        rows = [
            (create_user(sales), created(in_sales(1))),
            (request(GET_BOB), found(in_sales(1))),
            (request(PUT_BOB, bob | source), found(shown_bob(2, 2))),
            (request(GET_BOB), found(shown_bob(2, 2))),
            (request(PUT_BOB, other_letters), found(in_sales(3))),
            (request(GET_BOB), found(in_sales(3))),
        ]
        self.assert_converses(rows)

    def test_departments_that_are_absent_or_refused(self):
        for more, expected in DEPARTMENTS:
            self.assert_answer_alone(create_user({"userName": "bob"} | more), expected)

    def test_a_group_has_no_department(self):
        content = {"displayName": "crew", "schemas": [GROUP], ENTERPRISE: {"department": 4, "Department": 5}}
        self.assert_answer_alone(request(f"POST {GROUPS}", content), created(shown_group("crew", 1)))

    # ---- epochs

    def test_an_epoch_is_kept_and_shown_if_it_is_not_0(self):
        def sent(**source):
            return {"userName": "bob", "schemas": [USER], SOURCE: source}

        last = found(shown_bob(2_000_000_000, 3, epoch=999_999))
        rows = [
            (create_user(sent(revision=5)), created(shown_bob(5))),
            (request(PUT_BOB, sent(epoch=1, revision=1)), found(shown_bob(1, 2, epoch=1))),
            (request(GET_BOB), found(shown_bob(1, 2, epoch=1))),
            (request(PUT_BOB, sent(epoch=999_999, revision=2_000_000_000)), last),
            (request(GET_BOB), last),
            (request(PUT_BOB, sent(epoch=0, revision=5)), found(shown_bob(5, 4))),
            (request(GET_BOB), found(shown_bob(5, 4))),
            (request(PUT_BOB, sent(REVISION=1, other=True, Epoch=1)), found(shown_bob(1, 5, epoch=1))),
        ]
        self.assert_converses(rows)

    def test_epochs_that_are_disregarded_or_refused(self):
        for source, expected in EPOCHS:
            self.assert_answer_alone(create_user({"userName": "bob", "schemas": [USER], SOURCE: source}), expected)

    def test_a_group_has_an_epoch_too(self):
        source = {SOURCE: {"epoch": 1, "revision": 1}}
        content = {"displayName": "crew", "schemas": [GROUP]} | source
        shown = shown_group("crew", 1) | {"schemas": [GROUP, SOURCE]} | source
        self.assert_answer_alone(request(f"POST {GROUPS}", content), created(shown))

    # ---- groups

    def test_a_group_is_created_retrieved_and_replaced(self):
        crew = shown_group("crew two", 2) | CREW_MEMBERS
        replaced = shown_group("crew two", 2, 2) | {"members": [{"value": "c"}]}
        members = [{"value": member} for member in "bab"]
        rows = [
            (request(f"POST {GROUPS}", group("crew two", members=members)), created(crew)),
            (request(f"GET {CREW_PATH}"), found(crew)),
            (request(f"PUT {CREW_PATH}", group("crew two", members=[{"value": "c"}])), found(replaced)),
            # the id of a user is unknown among groups
            (request(f"GET {GROUPS}/{resource_id(1)}"), NO_RESOURCE),
        ]
        self.assert_converses_of_bob(rows)

    # ---- users and groups together

    def assert_converses_of_both(self, rows):
        """A provider with bob and the crew answers each request of the rows as they say."""
        bob = create_user(user("bob", **{SOURCE: {"revision": 1}}))
        crew = request(f"POST {GROUPS}", group("crew", **CREW_MEMBERS))
        self.assert_converses([(bob, BOB_CREATED), (crew, created(CREW)), *rows])

    def test_both_are_retrieved_and_listed(self):
        self.assert_converses_of_both(READS)

    def test_both_are_replaced(self):
        self.assert_converses_of_both(WRITES)
