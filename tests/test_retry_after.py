"""`push` to a provider that is busy, and says in `Retry-After` for how long."""
import threading
import time

from faults import Clock, build_shim
from parallel_peers import Directory
from peers import NO_HITS, Peer, PeerTest, answer, head, user
from support import TIME_LIMIT, Running, text
from test_push_abreast import AbreastTest, names

def busy(seconds, status=429):
    return answer(status, Retry_After=seconds)


def waits(name, seconds, status=429):
    """The line on standard error about a record that waits."""
    return f"user {name}: {status}, asked again after {seconds} s"


def refused(name, seconds, status=429):
    """The line on standard error about a record that isn't confirmed."""
    return f"user {name}: {status}, Retry-After: {seconds}"


class WaitTest(PeerTest):
    """Runs whose sleeps only set the clock ahead, so that it says how long they slept."""

    def setUp(self):
        super().setUp()
        self.shim = build_shim(self.folder)
        self.site.write_users("ann,1,,,,,active")

    def sleeps(self, seconds, steps, *lines, said=(), status=0):
        """A push whose exchanges have these answers prints these lines, and sleeps for so many seconds, up to 1 s less:
        what the exchange took meanwhile counts."""
        clock = Clock(self.shim, self.folder)
        with Peer(steps) as peer:
            run = self.site.push(peer.address, **clock.options)
        self.assertEqual((run.output.decode(), run.errors, run.status), (text(*lines), text(*said), status))
        self.assertTrue(seconds - 1 < clock.value / 10**9 <= seconds, f"it slept for {clock.value} ns")

    def is_followed_at_once(self, value):
        """An exchange after this value comes at once."""
        said = [refused("ann", value)]
        self.sleeps(0, 3 * [busy(value)], "user ann unconfirmed C4", said=said, status=1)

    def test_a_busy_provider(self):
        for status in (429, 503):
            with self.subTest(status):
                lines = "user ann unconfirmed C4", waits("ann", 7, status), refused("ann", 7, status)
                self.sleeps(7, 3 * [busy(7, status)], lines[0], said=lines[1:], status=1)

    def test_it_is_confirmed_after_the_wait(self):
        steps = [NO_HITS, busy(7, 503), answer(201, user("ann", 1))]
        self.sleeps(7, steps, "user ann confirmed 1", said=[waits("ann", 7, 503)])

    def test_the_run_ends_after_the_wait(self):
        """Nobody listens any more. Then the record isn't printed."""
        clock = Clock(self.shim, self.folder)
        with Peer([busy(5)]) as peer:
            run = self.site.push(peer.address, **clock.options)
        said = waits("ann", 5), "connection fault", f" {peer.address}: Connection refused"
        self.assertEqual((run.output, run.errors, run.status), (b"", text(*said), 3))

    def test_the_longest_wait(self):
        said = waits("ann", 60), refused("ann", 60)
        self.sleeps(60, 3 * [busy(60)], "user ann unconfirmed C4", said=said, status=1)

    def test_a_longer_one_is_not_waited_for(self):
        for value in ("61", "120", "9" * 18, "9" * 30):
            with self.subTest(value):
                self.is_followed_at_once(value)

    def test_what_is_no_wait(self):
        for value in ("0", "-1", "1.5", "+5", "5 s", "5, 6", "Mon, 30 Nov 2026 07:00:00 GMT"):
            with self.subTest(value):
                self.is_followed_at_once(value)

    def test_without_the_field(self):
        for status in (429, 503):
            with self.subTest(status):
                said = [f"user ann: {status}"]
                self.sleeps(0, 3 * [answer(status)], "user ann unconfirmed C4", said=said, status=1)

    def test_zeros_in_front(self):
        said = waits("ann", 5), refused("ann", "005")
        self.sleeps(5, 3 * [busy("005")], "user ann unconfirmed C4", said=said, status=1)

    def test_another_status(self):
        for status in (403, 500, 502):
            with self.subTest(status):
                said = [f"user ann: {status}"]
                self.sleeps(0, 3 * [busy(5, status)], "user ann unconfirmed C4", said=said, status=1)

    def test_it_waits_once_a_record(self):
        steps = [busy(3), busy(20, 503), busy(20)]
        said = waits("ann", 3), refused("ann", 20)
        self.sleeps(3, steps, "user ann unconfirmed C4", said=said, status=1)

    def test_a_wait_after_the_first_answer_that_asks_for_one(self):
        steps = [busy(61), busy(4), busy(5)]
        said = waits("ann", 4), refused("ann", 5)
        self.sleeps(4, steps, "user ann unconfirmed C4", said=said, status=1)

    def test_no_wait_after_the_last_exchange(self):
        steps = [answer(429), answer(429), busy(5)]
        self.sleeps(0, steps, "user ann unconfirmed C4", said=[refused("ann", 5)], status=1)

    def test_a_field_that_is_beyond_what_is_kept(self):
        far = head(429, X=4096 * "x", Retry_After=5, Content_Length=0)
        self.sleeps(0, 3 * [far], "user ann unconfirmed C4", said=["user ann: 429"], status=1)

    def test_records_one_after_another(self):
        """With one stream nothing else happens meanwhile."""
        self.site.write_users("ann,1,,,,,active", "bob,1,,,,,active")
        said = waits("ann", 2), refused("ann", 2), waits("bob", 3), refused("bob", 3)
        lines = "user ann unconfirmed C4", "user bob unconfirmed C4"
        self.sleeps(5, [*3 * [busy(2)], *3 * [busy(3)]], *lines, said=said, status=1)

    def test_a_quiet_push(self):
        clock = Clock(self.shim, self.folder)
        with Peer(3 * [busy(2)]) as peer:
            run = self.site.push(peer.address, "--quiet", **clock.options)
        self.assertEqual(run.errors, text(waits("ann", 2), refused("ann", 2)))


class MeanwhileTest(AbreastTest):
    def test_it_goes_on_later(self):
        self.want("ann")
        directory, times = Directory(), []

        def script(exchange):
            times.append(time.monotonic())
            return busy(1) if len(times) == 1 else directory(exchange)

        peer = self.pushes(script, 1, *self.confirmed(["ann"]))
        self.assertEqual(peer.asked("ann"), ["GET", "GET", "POST"])
        self.assertGreaterEqual(times[1] - times[0], 1)
        self.assertLess(times[2] - times[1], 1)

    def test_other_streams_go_on(self):
        """The others are done while the first record waits. It goes on after its wait."""
        users = names(8)
        for streams in (2, 3, 8):
            with self.subTest(streams):
                self.want(*users)
                self.site.journal.unlink(missing_ok=True)
                directory, done, times = Directory(), [], []

                def script(exchange):
                    if exchange.name == users[0]:
                        times.append(time.monotonic())
                        if len(times) == 1:
                            return busy(1)
                        done.append(len(directory.held))
                    return directory(exchange)

                self.pushes(script, streams, *self.confirmed(users))
                self.assertEqual(done[0], len(users) - 1)
                self.assertGreaterEqual(times[1] - times[0], 1)

    def test_a_later_record_waits(self):
        """The records before and after it go on, and with it there are never more exchanges at once than streams."""
        users = names(8)
        self.want(*users)
        directory, asked = Directory(), []

        def script(exchange):
            if exchange.name == users[2]:
                asked.append(len(directory.held))
                if len(asked) == 1:
                    return busy(1)
            return directory(exchange)

        self.pushes(script, 3, *self.confirmed(users))
        self.assertGreater(asked[1], 2)

    def test_all_wait(self):
        """Each is asked again when it is due, the ones that are due first before the others."""
        users = names(3)
        self.want(*users)
        directory, asked, begun = Directory(), [], threading.Barrier(3)
        seconds = dict(zip(users, (3, 2, 1)))

        def script(exchange):
            if exchange.name not in asked[:3]:
                asked.append(exchange.name)
                begun.wait(TIME_LIMIT)
                return busy(seconds[exchange.name])
            asked.append(exchange.name)
            return directory(exchange)

        began = time.monotonic()
        self.pushes(script, 3, *self.confirmed(users))
        again = [name for name, _ in zip(asked[3::2], range(3))]
        self.assertEqual(again, users[::-1])
        self.assertLess(time.monotonic() - began, 6)

    def test_all_wait_and_are_refused_again(self):
        """The run ends."""
        users = names(5)
        self.want(*users)
        lines = [f"user {name} unconfirmed C4" for name in users]
        peer = self.pushes(lambda _: busy(1), 2, *lines, status=1)
        self.assertEqual(len(peer.exchanges), 3 * len(users))

    def test_lines_are_printed_when_it_begins_to_wait(self):
        self.want("ann")
        with Peer([busy(60)]) as peer, Running(*self.site.push_command(peer.address)) as push:
            line = push.process.stderr.readline().decode()
        self.assertEqual(line, f"{waits('ann', 60)}\n")
