"""`push` and `serve --store`, killed while they work.

After each kill what was printed as confirmed is in the store and in the journal, and nothing that was there before
has gone back. Then a push finishes the work, and one more has nothing to do.
"""
from support import NOWHERE, ProgramTest, Provider, Running, free_port, resource_id

USERS = 150
# Why a record is unconfirmed after its provider went away: no answer, or only a part of one; or a member is so
GONE = {"-", "H10", "H11", "H12", "waits"}


def name_of(place):
    """A long name: a push can't be many lines ahead of whoever reads them."""
    return f"u{place:03}".ljust(120, "-")


def shown(run):
    """The records that `show` printed, in their order: by kind and name, what each line says of it."""
    records = {}
    for line in run.lines:
        kind, name, *parts = line.split(" ")
        records[kind, name] = dict(part.split("=") for part in parts)
    return records


class PushKillsTest(ProgramTest):
    """A connector and a provider at one address, and what was seen of them."""

    def setUp(self):
        super().setUp()
        self.address = f"127.0.0.1:{free_port()}"
        # by record: the last revision that was printed as confirmed, and the one that the provider was seen to hold
        self.confirmed, self.held = {}, {}

    def want(self, revision, has_left=lambda place: False):
        """Input files of users and groups at a revision. Some users have left."""
        self.revision = revision
        self.active = {name_of(place): not has_left(place) for place in range(USERS)}
        statuses = {True: "active", False: "left"}
        self.site.write_users(*(f"{name},{revision},,,,,{statuses[on]}" for name, on in self.active.items()))
        names = list(self.active)
        self.site.write_groups(f"all,{revision},{' '.join(names)}", f"pair,{revision},{names[0]} {names[-1]}")

    def provider(self):
        return Provider(1_000_000, "--store", self.site.store, listen=self.address)

    def begin_push(self):
        """A push that goes on as its lines are read, and waits if too many aren't."""
        return Running(*self.site.push_command(self.address), pipesize=4096)

    def read(self, push, count):
        """Reads this many lines of a push, as they come."""
        self.note(line for line in (push.read_line() for _ in range(count)) if line.endswith("\n"))

    def note(self, lines):
        """Keeps what these lines say is confirmed: why the other records aren't."""
        reasons = set()
        for kind, name, word, said, *_ in map(str.split, lines):
            if word == "confirmed":
                self.confirmed[kind, name] = int(said)
            else:
                self.assertEqual(word, "unconfirmed")
                reasons.add(said)
        return reasons

    def kill_push(self, push):
        """Kills a push, which prints each line whole or not at all."""
        printed = self.kill(push).output
        self.assertTrue(printed == b"" or printed.endswith(b"\n"), "half a line was printed")
        self.note(printed.decode().splitlines())

    def check_store(self):
        """What was confirmed is held, and nothing has gone back. (The provider isn't running.)"""
        run = self.site.show_store()
        self.assert_reports(run, 0)
        rows = shown(run)
        self.assertEqual(len(rows), len(run.lines), "two rows of one name")
        held = {record: int(row["held"]) for record, row in rows.items()}
        for revisions in (self.confirmed, self.held):
            for record, revision in revisions.items():
                self.assertGreaterEqual(held.get(record, 0), revision, record)
        self.held = held
        return rows

    def check_both(self):
        """What was printed as confirmed is so in the journal, and held. (Neither side is running.)"""
        run = self.site.show_journal()
        if self.site.journal.exists():
            self.assert_reports(run, 0)
        else:
            # the push was killed before it made one
            self.assert_reports(run, 3, "file fault")
        entries = shown(run)
        kept = {record: int(entry["confirmed"]) for record, entry in entries.items()}
        for record, revision in self.confirmed.items():
            self.assertGreaterEqual(kept[record], revision, record)
        self.confirmed = {record: revision for record, revision in kept.items() if revision}
        ids = {record: resource_id(number) for number, record in enumerate(self.check_store(), 1)}
        for record, entry in entries.items():
            self.assertIn(entry["id"], ("-", ids.get(record)), record)

    def finish(self):
        """A push finishes the work, one more has nothing to ask, and all is as the files want it."""
        lines = [f"user {name} confirmed {self.revision}" for name in self.active]
        lines += [f"group {name} confirmed {self.revision}" for name in ("all", "pair")]
        with self.provider():
            self.assert_prints(self.site.push(self.address), *lines)
        self.assert_prints(self.site.push(NOWHERE), *lines)
        self.check_both()
        rows = shown(self.site.show_store())
        self.assertEqual(len(rows), USERS + 2)
        self.assertEqual({row["held"] for row in rows.values()}, {str(self.revision)})
        active = {name: rows["user", name]["active"] == "true" for name in self.active}
        self.assertEqual(active, self.active)
        self.assertEqual([rows["group", name]["members"] for name in ("all", "pair")], [str(USERS), "2"])

    def replace_provider(self, provider, push):
        """Kills the provider in the middle of its work, while the push stands still: the one that comes after it."""
        provider.freeze()
        push.freeze()
        self.kill(provider)
        self.check_store()
        after = self.provider()
        self.addCleanup(after.close)
        push.resume()
        return after

    def test_a_provider_that_comes_back_during_a_push(self):
        for revision in (1, 2):
            self.want(revision, lambda place: revision == 2 and place % 3 == 0)
            provider = self.provider()
            self.addCleanup(provider.close)
            with self.begin_push() as push:
                for _ in range(8):
                    self.read(push, USERS // 10)
                    provider = self.replace_provider(provider, push)
                ended = push.ends()
            self.assertLessEqual(self.note(ended.lines), GONE)
            if ended.status == 3:
                # a connection that waited when the provider was killed couldn't be opened
                self.assert_reports(ended, 3, "connection fault")
            else:
                self.assertIn(ended.status, (0, 1))
                self.assert_reports(ended, ended.status)
            self.kill(provider)
            self.check_both()
            self.finish()

    def test_a_provider_that_stays_away(self):
        self.want(1, lambda place: place % 7 == 0)
        for count in (1, 30, 60):
            with self.provider() as provider, self.begin_push() as push:
                self.read(push, count)
                self.kill(provider)
                ended = push.ends()
            self.note(ended.lines)
            self.assert_reports(ended, 3, "connection fault")
            self.check_both()
        self.finish()

    def test_a_connector_that_is_killed(self):
        for revision in (1, 2):
            self.want(revision, lambda place: revision == 2 and place % 2 == 0)
            for count in (0, 1, 35, 70):
                with self.provider() as provider, self.begin_push() as push:
                    self.read(push, count)
                    if count:
                        # as long as it has the journal, no other push does anything
                        push.freeze()
                        self.assert_fault(self.site.push(self.address), "journal fault J1")
                    self.kill_push(push)
                    self.kill(provider)
                self.check_both()
            self.finish()

    def test_both_are_killed(self):
        self.want(1)
        for count in (5, 25, 45, 65):
            provider = self.provider()
            self.addCleanup(provider.close)
            with self.begin_push() as push:
                self.read(push, count)
                provider = self.replace_provider(provider, push)
                self.read(push, 3)
                provider.freeze()
                self.kill_push(push)
                self.kill(provider)
            self.check_both()
        self.finish()
