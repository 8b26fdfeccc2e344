"""Several `push` and somebody else at one provider: each connector's records are as its files want them, and theirs as
they wrote them, if nobody else writes these records. And what is printed if somebody does."""
import contextlib
import http.client
import json
import random
import time

from exchanges import USERS, at_revision, user
from support import PATIENCE, SCIM_TYPE, Beside, ProgramTest, Provider, Running, Site, free_port
from test_push_kills import shown

CONNECTORS = 4
USERS_EACH = 120
# Kills of a push or of the provider for each revision
KILLS = 12
# Runs of a push until it has nothing more to do. Each wants a provider that is there for a while
RUNS = 20


class Others(Beside):
    """Somebody who creates and replaces users of his own, without conditions, for as long as its context lasts."""

    def __init__(self, port, seed):
        self.port, self.random = port, random.Random(seed)
        # by login: the id, once it is known; and the family names that the user may have now
        self.ids, self.surnames = {}, {}

    def work(self):
        for count in range(1_000_000):
            if self.is_over.wait(0.001):
                return
            with contextlib.suppress(OSError, http.client.HTTPException):
                self.write(f"their-{self.random.randrange(30)}", f"name {count}")

    def ask(self, method, path, content=None):
        """The status and the content of an answer."""
        client = http.client.HTTPConnection("127.0.0.1", self.port, timeout=PATIENCE)
        with contextlib.closing(client):
            body = None if content is None else json.dumps(content)
            client.request(method, path, body, {"Content-Type": SCIM_TYPE})
            answer = client.getresponse()
            return answer.status, json.loads(answer.read())

    def write(self, login, surname):
        """Creates a user or replaces it. If no answer comes, it may have the old family name or the new one."""
        known = self.ids.get(login)
        before = self.surnames.get(login, set())
        self.surnames[login] = before | {surname}
        content = user(login, name={"familyName": surname})
        status, content = self.ask("PUT" if known else "POST", f"{USERS}/{known}" if known else USERS, content)
        if status == 409:
            # a request created it whose answer was lost
            self.ids[login], self.surnames[login] = self.find(login)["id"], before
        elif status in (200, 201):
            self.ids[login], self.surnames[login] = content["id"], {surname}

    def find(self, login):
        """The only user with this login."""
        status, content = self.ask("GET", f"{USERS}?filter=userName%20eq%20%22{login}%22")
        (found,) = content["Resources"]
        return found


class SeveralConnectorsTest(ProgramTest):
    """Connectors with a journal each and a source each, of which no two have a record in common."""

    def setUp(self):
        super().setUp()
        self.address = f"127.0.0.1:{free_port()}"
        self.chance = random.Random(7)
        self.sites = []
        for number in range(CONNECTORS):
            folder = self.folder / str(number)
            folder.mkdir()
            self.sites.append(Site(folder))

    def provider(self):
        return Provider(1_000_000, "--store", self.site.store, listen=self.address)

    def want(self, revision):
        """Every source wants all of its records at this revision; at the second, a third of the users have left."""
        statuses = ["left" if revision == 2 and place % 3 == 0 else "active" for place in range(USERS_EACH)]
        for number, site in enumerate(self.sites):
            logins = [f"c{number}-{place:03}" for place in range(USERS_EACH)]
            site.write_users(*(f"{login},{revision},,,,,{status}" for login, status in zip(logins, statuses)))
            site.write_groups(f"crew-{number},{revision},{' '.join(logins[:5])}")

    def push_among_kills(self, provider):
        """All push at once; now and then one is killed, or the provider is, and starts again: the last provider."""
        pushes = [Running(*site.push_command(self.address)) for site in self.sites]
        for _ in range(KILLS):
            time.sleep(self.chance.uniform(0, 0.06))
            place = self.chance.randrange(CONNECTORS + 1)
            if place == CONNECTORS:
                provider.close()
                provider = self.provider()
                self.addCleanup(provider.close)
            else:
                pushes[place].close()
                pushes[place] = Running(*self.sites[place].push_command(self.address))
        for push in pushes:
            with push:
                push.ends()
        return provider

    def finish(self, revision):
        """Pushes that nobody kills confirm every record."""
        for number, site in enumerate(self.sites):
            lines = [f"user c{number}-{place:03} confirmed {revision}" for place in range(USERS_EACH)]
            self.assert_prints(site.push(self.address), *lines, f"group crew-{number} confirmed {revision}")

    def check_ours(self, revision):
        """The provider holds each record once, as its file wants it. (It isn't running.)"""
        run = self.site.show_store()
        self.assert_reports(run, 0)
        rows = shown(run)
        self.assertEqual(len(rows), len(run.lines), "two rows of one name")
        for number in range(CONNECTORS):
            for place in range(USERS_EACH):
                row = rows["user", f"c{number}-{place:03}"]
                is_active = revision == 1 or place % 3 != 0
                self.assertEqual((row["held"], row["active"]), (str(revision), str(is_active).lower()))
            crew = rows["group", f"crew-{number}"]
            self.assertEqual((crew["held"], crew["members"]), (str(revision), "5"))

    def test_four_connectors_and_somebody_else(self):
        provider = self.provider()
        self.addCleanup(provider.close)
        with Others(provider.port, 3) as others:
            for revision in (1, 2):
                self.want(revision)
                provider = self.push_among_kills(provider)
                self.finish(revision)
        self.assertGreater(len(others.ids), 10)
        for login, surnames in others.surnames.items():
            with self.subTest(login=login):
                self.assertIn(others.find(login)["name"]["familyName"], surnames)
        self.kill(provider)
        self.check_ours(2)


class PremiseTest(ProgramTest):
    """Somebody else writes a record of ours, which the promise excludes."""

    def setUp(self):
        super().setUp()
        self.site.write_users("bob,1,,,,,active")
        provider = Provider(1_000_000, "--store", self.site.store)
        self.addCleanup(provider.close)
        self.address, self.others = provider.address, Others(provider.port, 1)

    def replace_bob(self, **more):
        bob = self.others.find("bob")["id"]
        self.assertEqual(self.others.ask("PUT", f"{USERS}/{bob}", user("bob", **more))[0], 200)

    def is_active(self):
        return self.others.find("bob")["active"]

    def leave(self):
        """Bob has joined and left."""
        self.assert_prints(self.site.push(self.address), "user bob confirmed 1")
        self.site.write_users("bob,2,,,,,left")
        self.assert_prints(self.site.push(self.address), "user bob confirmed 2")
        self.assertFalse(self.is_active())

    def test_an_account_that_is_switched_on_again_isnt_noticed_until_the_next_revision(self):
        self.leave()
        self.replace_bob(active=True, **at_revision(2))
        self.assert_prints(self.site.push(self.address), "user bob confirmed 2")
        self.assertTrue(self.is_active())
        self.site.write_users("bob,3,,,,,left")
        self.assert_prints(self.site.push(self.address), "user bob confirmed 3")
        self.assertFalse(self.is_active())

    def test_an_account_without_its_revision_is_left_alone(self):
        self.leave()
        self.replace_bob(active=True)
        self.assert_prints(self.site.push(self.address), "user bob confirmed 2")
        self.site.write_users("bob,3,,,,,left")
        run = self.site.push(self.address)
        self.assertEqual((run.status, run.lines), (1, ["user bob unconfirmed C1"]))
        self.assertTrue(self.is_active())

    def test_a_revision_that_isnt_ours_counts_as_confirmed(self):
        """Whoever writes a revision that the source has too says that the account is that revision's image."""
        self.assert_prints(self.site.push(self.address), "user bob confirmed 1")
        self.replace_bob(active=True, **at_revision(2))
        self.site.write_users("bob,2,,,,,left")
        self.assert_prints(self.site.push(self.address), "user bob confirmed 2")
        self.assertTrue(self.is_active())

    def test_an_account_that_was_there_before(self):
        self.assertEqual(self.others.ask("POST", USERS, user("bob"))[0], 201)
        run = self.site.push(self.address)
        self.assertEqual((run.status, run.lines), (1, ["user bob unconfirmed C1"]))
