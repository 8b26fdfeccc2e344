"""`push --give-up-after N`, to providers that keep record after record from being confirmed."""
from databases import make_journal, user_entry
from parallel_peers import Directory
from peers import answer, head
from support import NOWHERE, scimlink
from test_push_abreast import AbreastTest, names

UNAUTHORIZED, FORBIDDEN, TOO_MANY, UNAVAILABLE = (answer(status) for status in (401, 403, 429, 503))
CUT = head(200, Content_Length=3) + b"{}"
GIVEN_UP = "given up after 10 records in a row: 401"


def said_of(answers):
    """A provider that answers so about these users, and to all others as it should."""
    directory = Directory()
    return lambda exchange: answers[exchange.name] if exchange.name in answers else directory(exchange)


class GiveUpTest(AbreastTest):
    def unconfirmed(self, users, code="C4"):
        return [f"user {name} unconfirmed {code}" for name in users]

    def gives_up(self, script, *lines, said=GIVEN_UP, streams=1, options=()):
        """A push to a provider by this script prints these lines, and gives up: the provider."""
        return self.pushes(script, streams, *lines, status=3, errors=[said], options=options)

    def test_every_record_meets_the_same_obstacle(self):
        """The 11th record isn't asked about."""
        everybody = names(12)
        obstacles = [
            (UNAUTHORIZED, "C4", "401"),
            (FORBIDDEN, "C4", "403"),
            (TOO_MANY, "C4", "429"),
            (UNAVAILABLE, "C4", "503"),
            (b"", "H10", "the connection failed"),
            (CUT, "H10", "the connection failed"),
        ]
        for response, code, why in obstacles:
            with self.subTest(response):
                self.want(*everybody)
                said = f"given up after 10 records in a row: {why}"
                peer = self.gives_up(lambda _, response=response: response, *self.unconfirmed(everybody[:10], code), said=said)
                self.assertEqual(len(peer.exchanges), 3 * 10)

    def test_nine_records_and_then_one_that_is_confirmed(self):
        users = names(19)
        answers = {name: UNAUTHORIZED for name in users if name != "u09"}
        lines = [*self.unconfirmed(users[:9]), "user u09 confirmed 1", *self.unconfirmed(users[10:])]
        self.want(*users)
        self.pushes(said_of(answers), 1, *lines, status=1)

    def test_nine_records(self):
        self.want(*names(9))
        self.pushes(lambda _: UNAUTHORIZED, 1, *self.unconfirmed(names(9)), status=1)

    def test_ten_records(self):
        """The last record is the tenth."""
        self.want(*names(10))
        self.gives_up(lambda _: UNAUTHORIZED, *self.unconfirmed(names(10)))

    def test_other_limits(self):
        self.want(*names(12))
        options = ["--give-up-after", "1"]
        said = "given up after 1 record: 401"
        peer = self.gives_up(lambda _: UNAUTHORIZED, *self.unconfirmed(names(1)), said=said, options=options)
        self.assertEqual(len(peer.exchanges), 3)
        said = "given up after 12 records in a row: 401"
        options = ["--give-up-after", "12"]
        self.gives_up(lambda _: UNAUTHORIZED, *self.unconfirmed(names(12)), said=said, options=options)

    def test_without_a_limit(self):
        self.want(*names(12))
        for limit in ("0", "13", "1000000"):
            with self.subTest(limit):
                options = ["--give-up-after", limit]
                self.pushes(lambda _: UNAUTHORIZED, 1, *self.unconfirmed(names(12)), status=1, options=options)

    def test_obstacles_by_turns(self):
        users = names(24)
        self.want(*users)
        answers = {name: (UNAUTHORIZED, FORBIDDEN)[place % 2] for place, name in enumerate(users)}
        self.pushes(said_of(answers), 1, *self.unconfirmed(users), status=1)

    def test_another_obstacle_begins_anew(self):
        users = names(15)
        self.want(*users)
        answers = {name: FORBIDDEN if place < 4 else UNAUTHORIZED for place, name in enumerate(users)}
        self.gives_up(said_of(answers), *self.unconfirmed(users[:14]))

    def test_other_faults(self):
        """They may be about each record."""
        self.want(*names(12))
        for response, code in ((answer(400), "C4"), (answer(500), "C4"), (answer(404), "C4"), (answer(200), "K2")):
            with self.subTest(response):
                self.pushes(lambda _, response=response: response, 1, *self.unconfirmed(names(12), code), status=1)

    def test_records_for_which_nothing_is_sent(self):
        """u05 is confirmed before."""
        users = names(12)
        make_journal(self.site.journal, [user_entry("u05", confirmed=1, id="5")])
        self.want(*users)
        lines = [*self.unconfirmed(users[:5]), "user u05 confirmed 1", *self.unconfirmed(users[6:11])]
        self.gives_up(lambda _: UNAUTHORIZED, *lines)

    def test_users_and_groups(self):
        """They are counted apart."""
        groups = [f"g{place:02}" for place in range(12)]
        self.want(*names(9), groups=[f"{name},1," for name in groups])
        lines = [*self.unconfirmed(names(9)), *(f"group {name} unconfirmed C4" for name in groups[:10])]
        self.gives_up(lambda _: UNAUTHORIZED, *lines)

    def test_several_streams(self):
        users = names(40)
        self.want(*users)
        self.gives_up(lambda _: UNAUTHORIZED, *self.unconfirmed(users[:10]), streams=8)
        self.pushes(Directory(), 8, *self.confirmed(users))

    def test_answers_that_are_under_way(self):
        """push learns from them: the provider has created u01."""
        self.want("u00", "u01")
        directory = Directory()

        def script(exchange):
            return UNAUTHORIZED if exchange.name == "u00" else directory(exchange)

        options = ["--give-up-after", "1"]
        said = "given up after 1 record: 401"
        self.gives_up(script, *self.unconfirmed(["u00"]), said=said, streams=2, options=options)
        self.assertIn("user u01 wanted=1 confirmed=1 id=u01", self.site.show_journal().output.decode())

    def test_a_quiet_push(self):
        self.want(*names(12))
        self.gives_up(lambda _: UNAUTHORIZED, *self.unconfirmed(names(10)), options=["--quiet"])


class GiveUpOptionTest(AbreastTest):
    def test_numbers_that_are_not_accepted(self):
        self.want("bob")
        for count in ("1000001", "4294967295"):
            with self.subTest(count):
                run = self.site.push(NOWHERE, "--give-up-after", count)
                self.assert_prints(run, status=2, errors=["error: --give-up-after is 0 to 1000000"])
        for count in ("-1", "x", "", "1.5", "4294967296"):
            with self.subTest(count):
                run = self.site.push(NOWHERE, f"--give-up-after={count}")
                self.assertEqual((run.status, run.output), (2, b""))
        self.assertFalse(self.site.journal.exists())

    def test_a_plan_gives_nothing_up(self):
        self.want("bob")
        options = [*self.site.source_options(), "--journal", self.site.journal, "--give-up-after", "3"]
        run = scimlink("push", "--plan", *options)
        self.assertEqual((run.status, run.output), (2, b""))
        self.assertIn("'--plan' cannot be used with '--give-up-after", run.errors)
