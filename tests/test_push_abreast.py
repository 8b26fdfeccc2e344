"""`push --streams N`, to providers that answer late, out of turn, in part or not at all; `push --leavers-first`.

Each provider also notes what no push may do (`ParallelPeer`): more than N connections at once, two of one record at
once, more than three exchanges of a record, and an exchange of a group before all users are done.
"""
import itertools
import pathlib
import subprocess
import tempfile
import threading

import test_push_kills
from databases import make_journal, user_entry
from exchanges import ERROR
from parallel_peers import Directory, ParallelPeer
from peers import NO_HITS, TAKEN, PeerTest, answer, head, hits, user
from support import NOWHERE, PATIENCE, PROGRAM, TIME_LIMIT, Running, Site, scimlink, text

REFUSED = answer(403)
CUT = head(200, Content_Length=3) + b"{}"
FOUR = ["ann", "bob", "cid", "dan"]

# By the code that is printed: what each search for bob is answered
MISHAPS = [
    ("H10", b""),
    ("H10", CUT),
    ("K1", b"SSH-2.0-OpenSSH_9.2\r\n"),
    ("K3", answer(202, {})),
    ("C1", hits(user("ann", 1))),
    ("C4", REFUSED),
]


def names(count):
    return [f"u{place:02}" for place in range(count)]


class AbreastTest(PeerTest):
    def want(self, *users, groups=()):
        self.site.write_users(*(f"{name},1,,,,,active" for name in users))
        if groups:
            self.site.write_groups(*groups)

    def confirmed(self, users, groups=()):
        """The lines of a push that confirms revision 1 of all."""
        return [f"user {name} confirmed 1" for name in users] + [f"group {name} confirmed 1" for name in groups]

    def pushes(self, script, streams, *lines, status=0, errors=(), options=()):
        """A push with so many streams to a provider by this script prints these lines: the provider."""
        with ParallelPeer(script, streams) as peer:
            run = self.site.push(peer.address, "--streams", streams, *options)
            self.assert_prints(run, *lines, status=status, errors=errors)
        return peer

    def begin_push(self, peer):
        return Running(*self.site.push_command(peer.address), "--streams", str(peer.streams))


class AnswersTest(AbreastTest):
    def test_answers_that_come_in_the_reverse_order(self):
        self.want(*FOUR)
        directory, sent = Directory(), {}
        for method in ("GET", "POST"):
            sent |= {(method, name): threading.Event() for name in FOUR}
        after = dict(zip(FOUR, FOUR[1:]))

        def script(exchange):
            def step(stream):
                if exchange.name in after and not sent[exchange.method, after[exchange.name]].wait(TIME_LIMIT):
                    raise AssertionError("the next record's answer didn't come")
                stream.sendall(said)
                sent[exchange.method, exchange.name].set()

            said = directory(exchange)
            return step

        self.pushes(script, 4, *self.confirmed(FOUR))

    def test_so_many_connections_at_once(self):
        for streams in (2, 64):
            with self.subTest(streams=streams):
                self.site = Site(pathlib.Path(tempfile.mkdtemp(dir=self.folder)))
                users = names(streams + 3)
                self.want(*users)
                peer = self.pushes_in_rounds(users[:streams], streams, *self.confirmed(users))
                self.assertEqual(peer.most, streams)
                self.assertEqual(len(peer.exchanges), 2 * len(users))

    def pushes_in_rounds(self, users, streams, *lines):
        """A push whose exchanges about these users are answered when each has one, and push does nothing but wait."""
        directory = Directory()
        all_wait = threading.Barrier(len(users), lambda: peer.wait_for(push))

        def script(exchange):
            if exchange.name in users:
                all_wait.wait(TIME_LIMIT)
            return directory(exchange)

        with ParallelPeer(script, streams) as peer, self.begin_push(peer) as push:
            self.assert_prints(push.ends(), *lines)
        return peer

    def test_answers_that_cannot_be_used(self):
        """They are learnt for their own record, and the others aren't disturbed."""
        for code, said in MISHAPS:
            with self.subTest(code, said=said):
                self.site = Site(pathlib.Path(tempfile.mkdtemp(dir=self.folder)))
                self.want(*FOUR, groups=["crew,1,ann bob", "duo,1,ann dan"])
                directory = Directory()

                def script(exchange):
                    return said if exchange.name == "bob" else directory(exchange)

                lines = self.confirmed(FOUR, ["crew", "duo"])
                lines[1], lines[4] = f"user bob unconfirmed {code}", "group crew unconfirmed waits bob"
                peer = self.pushes(script, 4, *lines, status=1)
                self.assertEqual(peer.asked("bob"), ["GET"] * 3)
                self.assertEqual(peer.asked("dan"), ["GET", "POST"])

    def test_answers_that_come_twice(self):
        self.want(*FOUR)
        directory = Directory()
        peer = self.pushes(lambda exchange: 2 * directory(exchange), 4, *self.confirmed(FOUR))
        self.assertEqual([peer.asked(name) for name in FOUR], [["GET", "POST"]] * 4)

    def test_one_of_sixteen_creations_is_closed_after_it_was_made(self):
        users = names(20)
        self.want(*users)
        directory = Directory()

        def script(exchange):
            said = directory(exchange)
            return b"" if (exchange.method, exchange.name) == ("POST", "u06") and said != TAKEN else said

        lines = self.confirmed(users)
        peer = self.pushes(script, 16, *lines[:6], "user u06 unconfirmed H10", *lines[7:], status=1)
        self.assertEqual(peer.asked("u06"), ["GET", "POST", "POST"])
        self.assertEqual(self.pushes(directory, 16, *lines).asked("u06"), ["GET"])

    def test_users_before_groups(self):
        self.want(*FOUR, groups=["all,1,ann bob cid dan", "none,1,", "pair,1,ann dan"])
        peer = self.pushes_in_rounds(FOUR, 8, *self.confirmed(FOUR, ["all", "none", "pair"]))
        self.assertEqual([exchange.record[0] for exchange in peer.exchanges], ["user"] * 8 + ["group"] * 6)

    def test_lines_are_printed_as_soon_as_all_before_are_done(self):
        self.want(*FOUR)
        directory, are_read = Directory(), threading.Event()

        def script(exchange):
            if (exchange.method, exchange.name) == ("POST", "cid"):
                are_read.wait(TIME_LIMIT)
            return directory(exchange)

        lines = self.confirmed(FOUR)
        with ParallelPeer(script, 4) as peer, self.begin_push(peer) as push:
            self.assertEqual([push.read_line() for _ in range(2)], [f"{line}\n" for line in lines[:2]])
            # cid's exchange goes on
            self.assertNotIn(("user", "cid"), directory.held)
            are_read.set()
            self.assert_prints(push.ends(), *lines[2:])

    def test_what_is_said_of_answers_is_of_their_records(self):
        self.want(*FOUR)

        def script(exchange):
            return answer(403, {"schemas": [ERROR], "detail": f"not {exchange.name}", "status": "403"})

        with ParallelPeer(script, 3) as peer:
            command = [PROGRAM, *self.site.push_command(peer.address), "--streams", "3"]
            # both outputs are one pipe: what is said of a record comes behind its line
            both = {"stdout": subprocess.PIPE, "stderr": subprocess.STDOUT}
            run = subprocess.run(command, timeout=PATIENCE, check=False, **both)
        lines = ((f"user {name} unconfirmed C4", f'user {name}: 403, "not {name}"') for name in FOUR)
        self.assertEqual(run.stdout.decode(), text(*itertools.chain(*lines)))

    def test_a_quiet_push(self):
        self.want(*FOUR)
        directory = Directory()

        def script(exchange):
            return REFUSED if exchange.name == "bob" else directory(exchange)

        lines = "user bob unconfirmed C4", "3 confirmed, 1 unconfirmed, 0 rejected"
        self.pushes(script, 4, *lines, status=1, options=["--quiet"])


class EndsTest(AbreastTest):
    def test_a_connection_that_cannot_be_opened(self):
        """The run ends there, but it learns from the answers that are under way."""
        self.want(*FOUR)
        directory = Directory()
        begun = threading.Barrier(3, lambda: peer.stop_listening())

        def script(exchange):
            if exchange.method == "POST":
                begun.wait(TIME_LIMIT)
            return directory(exchange)

        with ParallelPeer(script, 3) as peer:
            run = self.site.push(peer.address, "--streams", "3")
        self.assert_prints(run, "user ann confirmed 1", status=3, errors=["connection fault"])
        entries = [f"user {name} wanted=1 confirmed=1 id={name}" for name in FOUR[:3]]
        self.assert_prints(self.site.show_journal(), *entries, "user dan wanted=1 confirmed=0 id=-")

    def test_a_push_that_is_killed_with_four_creations_under_way(self):
        """The next one finds the four, and creates the fifth."""
        users = names(5)
        self.want(*users)
        directory, begun, is_over = Directory(), threading.Barrier(4 + 1), threading.Event()

        def script(exchange):
            said = directory(exchange)
            if exchange.method == "POST":
                begun.wait(TIME_LIMIT)
                is_over.wait(TIME_LIMIT)
            return said

        with ParallelPeer(script, 4) as peer, self.begin_push(peer) as push:
            begun.wait(PATIENCE)
            self.assertEqual(self.kill(push).output, b"")
            is_over.set()
        peer = self.pushes(directory, 1, *self.confirmed(users))
        self.assertEqual([peer.asked(name) for name in users], [["GET"]] * 4 + [["GET", "POST"]])


class KillsTest(test_push_kills.PushKillsTest):
    """The same kills as of a push with one stream, which here finishes the work."""

    def begin_push(self):
        return Running(*self.site.push_command(self.address), "--streams", "4", pipesize=4096)


class OptionTest(AbreastTest):
    def test_one_stream_is_a_push_without_the_option(self):
        steps = [CUT, NO_HITS, answer(201, user("ann", 1)), hits(user("bob", 1)), NO_HITS, TAKEN, REFUSED]
        lines = [*self.confirmed(FOUR[:2]), "user cid unconfirmed C4", "group crew unconfirmed waits cid"]
        said, requests = ["user cid: 403"], []
        for options in ([], ["--streams", "1"]):
            self.site = Site(pathlib.Path(tempfile.mkdtemp(dir=self.folder)))
            self.want(*FOUR[:3], groups=["crew,1,cid"])
            requests.append(self.meets(steps, *lines, status=1, said=said, options=options))
        self.assertEqual(*requests)

    def test_numbers_that_are_not_accepted(self):
        self.want("bob")
        for count in ("0", "65", "4294967295"):
            with self.subTest(count=count):
                run = self.site.push(NOWHERE, "--streams", count)
                self.assert_prints(run, status=2, errors=["error: --streams is 1 to 64"])
        for count in ("-1", "x", "", "1.5", "4294967296"):
            with self.subTest(count=count):
                run = self.site.push(NOWHERE, f"--streams={count}")
                self.assertEqual((run.status, run.output), (2, b""))
        self.assertFalse(self.site.journal.exists())

    def test_a_plan_has_no_streams(self):
        self.want("bob")
        for option in (["--streams", "4"], ["--leavers-first"]):
            with self.subTest(option=option):
                run = scimlink("push", "--plan", *self.site.source_options(), "--journal", self.site.journal, *option)
                self.assertEqual((run.status, run.output), (2, b""))
                self.assertIn(f"'--plan' cannot be used with '{option[0]}", run.errors)

    def test_too_many_leavers(self):
        make_journal(self.site.journal, [user_entry("bob", confirmed=1, id="bob")])
        self.site.write_users("bob,2,,,,,left")
        excess = "1 user would be switched off, more than 0: nothing was done"
        run = self.site.push(NOWHERE, "--streams", "4", "--most-leavers", "0")
        self.assert_prints(run, status=1, errors=[excess])


class LeaversFirstTest(AbreastTest):
    def test_leavers_who_are_not_confirmed_come_first(self):
        # gus left and is confirmed so; ida left in an earlier file, and wasn't confirmed
        make_journal(self.site.journal, [
            user_entry("fay", confirmed=1, id="fay"),
            user_entry("gus", active=0, revision=2, confirmed=2, id="gus"),
            user_entry("ida", active=0, revision=2, confirmed=1, id="ida"),
        ])
        self.site.write_users("fay,2,,,,,left", "eva,1,,,,,left", "ann,1,,,,,active", "hal,1,,,,,active")
        self.site.write_groups("crew,1,ann eva")
        kept = self.site.journal.read_bytes()
        revisions = {"eva": 1, "fay": 2, "ida": 2, "ann": 1, "gus": 2, "hal": 1}
        lines = [f"user {name} confirmed {revision}" for name, revision in revisions.items()]
        for streams in (1, 2, 4):
            with self.subTest(streams=streams):
                for file in self.folder.glob("journal*"):
                    file.unlink()
                self.site.journal.write_bytes(kept)
                directory = Directory(fay=user("fay", 1, number="fay"), ida=user("ida", 1, number="ida"))
                peer = self.pushes(directory, streams, *lines, "group crew confirmed 1", options=["--leavers-first"])
                asked = list(dict.fromkeys(exchange.name for exchange in peer.exchanges))
                self.assertEqual(asked, [*(name for name in revisions if name != "gus"), "crew"])

    def test_without_it_records_come_by_their_keys(self):
        self.want()
        self.site.write_users("cid,1,,,,,left", "bob,1,,,,,active", "ann,1,,,,,left")
        self.pushes(Directory(), 2, *self.confirmed(["ann", "bob", "cid"]))
