"""The two proxies of docs/GUIDE.md, tried with nginx: their text is read from the page, and only its places differ."""
import contextlib
import os
import re
import shutil
import socket
import subprocess
import sys
import time
import unittest

from example_tools import run_tool
from small_provider import DropsExtension, HasNoVersions, SmallProvider
from support import (
    BOB, NOWHERE, PATIENCE, ROOT, USER, ProgramTest, Provider, free_port, resource_id, wait_until, watchdog,
)

PATH = f"{os.environ['PATH']}:/usr/sbin"
NGINX, OPENSSL = shutil.which("nginx", path=PATH), shutil.which("openssl", path=PATH)
if not NGINX or not OPENSSL:
    print("the proxies weren't tried: nginx or openssl isn't installed", file=sys.stderr)

PAGE = (ROOT / "docs/GUIDE.md").read_text()
FOR_SERVE, FOR_PUSH = re.findall(r"^```nginx\n(.*?)^```$", PAGE, re.MULTILINE | re.DOTALL)
TOKEN = "Authorization: Bearer CHANGE-ME"
# What is around a file of /etc/nginx/conf.d: {folder} is the test's own
AROUND = """
daemon off;
master_process off;
pid {folder}/pid;
error_log {folder}/error.log;
events {{}}
http {{
    access_log off;
    client_body_temp_path {folder}/body;
    proxy_temp_path {folder}/proxy;
    fastcgi_temp_path {folder}/fastcgi;
    uwsgi_temp_path {folder}/uwsgi;
    scgi_temp_path {folder}/scgi;
    {more}
    {file}
}}
"""
KEY = ["-newkey", "ec", "-pkeyopt", "ec_paramgen_curve:prime256v1", "-nodes"]


def replaced(file, places):
    """A file of the page with other places, each of which it names."""
    for theirs, ours in places.items():
        if theirs not in file:
            raise AssertionError(f"{theirs} isn't in the file")
        file = file.replace(theirs, str(ours))
    return file


class Proxy:
    """A run of nginx with this file, which listens on this port. It is killed at the end of its context."""

    def __init__(self, folder, port, file, more=""):
        folder.mkdir()
        config, self.log = folder / "nginx.conf", folder / "error.log"
        config.write_text(AROUND.format(folder=folder, more=more, file=file))
        self.process = subprocess.Popen([NGINX, "-p", folder, "-c", config, "-e", self.log], stdin=subprocess.DEVNULL)
        self.watchdog = watchdog(self.process)
        wait_until(lambda: is_listening(port) or self.process.poll() is not None, "the proxy")

    def __enter__(self):
        if self.process.poll() is not None:
            raise AssertionError(self.log.read_text())
        return self

    def __exit__(self, *_):
        self.process.kill()
        self.process.wait()
        self.watchdog.cancel()


def is_listening(port):
    with contextlib.suppress(OSError), socket.create_connection(("127.0.0.1", port), PATIENCE):
        return True
    return False


@unittest.skipUnless(NGINX and OPENSSL, "nginx or openssl isn't installed")
class ProxiesTest(ProgramTest):
    def setUp(self):
        super().setUp()
        self.tls_port, self.push_port = free_port(), free_port()
        self.access_log = self.folder / "access.log"
        self.run_openssl("req", "-x509", *KEY, "-keyout", "ca.key", "-out", "ca.pem", "-subj", "/CN=ca")
        self.run_openssl("req", *KEY, "-keyout", "key", "-out", "request", "-subj", "/CN=scim.example")
        (self.folder / "names").write_text("subjectAltName=DNS:scim.example,DNS:accounts.example\n")
        self.certify("valid.pem", days=1)

    def run_openssl(self, *arguments):
        subprocess.run([OPENSSL, *arguments], cwd=self.folder, capture_output=True, timeout=PATIENCE, check=True)

    def certify(self, name, days):
        """A certificate of both names that ends in this many days."""
        by = ["-CA", "ca.pem", "-CAkey", "ca.key", "-CAcreateserial", "-extfile", "names"]
        self.run_openssl("x509", "-req", "-in", "request", *by, "-days", str(days), "-out", name)

    def start(self, running):
        started = running.__enter__()
        self.addCleanup(running.__exit__, None, None, None)
        return started

    def provider(self):
        return self.start(Provider(1000, "--base", "http://scim.example/v2", "--store", self.site.store))

    def before_serve(self, address, certificate="valid.pem", token="CHANGE-ME"):
        """The page's proxy for a provider at this address."""
        places = {
            "listen 443": f"listen 127.0.0.1:{self.tls_port}",
            "/etc/ssl/scim.example.pem": self.folder / certificate,
            "/etc/ssl/private/scim.example.key": self.folder / "key",
            "/var/log/nginx/scim.log": self.access_log,
            "127.0.0.1:8080": address,
            "CHANGE-ME": token,
        }
        return Proxy(self.folder / f"before-{certificate}", self.tls_port, replaced(FOR_SERVE, places))

    def behind_push(self, connect_timeout="5s"):
        """The page's proxy for `push`, whose provider accounts.example is the other proxy."""
        places = {
            "127.0.0.1:8081": f"127.0.0.1:{self.push_port}",
            "/etc/ssl/certs/ca-certificates.crt": self.folder / "ca.pem",
            "connect_timeout 5s": f"connect_timeout {connect_timeout}",
        }
        there = f"upstream accounts.example {{ server 127.0.0.1:{self.tls_port}; }}"
        return self.start(Proxy(self.folder / "push", self.push_port, replaced(FOR_PUSH, places), there))

    def logged(self, count):
        """The lines of the record without their times, once there are this many: nginx writes after it answers."""
        wait_until(lambda: self.access_log.read_text().count("\n") >= count, "the record")
        return [line.split(" ", 1)[1] for line in self.access_log.read_text().splitlines()]

    def push(self):
        return self.site.push(f"127.0.0.1:{self.push_port}")

    def run_curl(self, *options, token=TOKEN):
        """What curl prints of the answers by the proxy for `serve`."""
        how = ["--cacert", self.folder / "ca.pem", "--resolve", f"scim.example:{self.tls_port}:127.0.0.1"]
        command = ["curl", "-s", *how, "-H", token, *options]
        return subprocess.run(command, capture_output=True, timeout=PATIENCE, check=True).stdout

    def curl(self, path, *options, token=TOKEN):
        """An answer: its status, its head, and its body."""
        printed = self.run_curl("-i", *options, f"https://scim.example:{self.tls_port}/v2/{path}", token=token)
        head, _, body = printed.decode().removeprefix("HTTP/1.1 100 Continue\r\n\r\n").partition("\r\n\r\n")
        return int(head.split()[1]), head, body

    def assert_contains(self, head, *lines):
        for line in lines:
            self.assertIn(f"\r\n{line}\r\n", f"{head}\r\n")


class BeforeServeTest(ProxiesTest):
    def test_tls_a_token_and_the_record(self):
        self.start(self.before_serve(self.provider().address))
        status, head, body = self.curl("Users", "--json", BOB)
        self.assertEqual(status, 201)
        there = f"scim.example/v2/Users/{resource_id(1)}"
        self.assert_contains(
            head, f"Location: https://{there}", f"Content-Location: http://{there}", f"Content-Length: {len(body)}",
            'ETag: "1"',
        )
        for token in ("Authorization: Bearer WRONG", "X: no token"):
            status, head, _ = self.curl("Users", token=token)
            self.assertEqual(status, 401)
            self.assert_contains(head, "WWW-Authenticate: Bearer")
        self.assertEqual(self.curl(f"Users/{resource_id(1)}", "-X", "PUT", "--json", BOB)[0], 200)
        self.assertEqual(self.curl("Users", "--json", "x" * 33_000)[0], 413)
        record = [
            f'connector POST /v2/Users 201 http://{there}',
            "- GET /v2/Users 401 -",
            "- GET /v2/Users 401 -",
            f'connector PUT /v2/Users/{resource_id(1)} 200 http://{there}',
            "connector POST /v2/Users 413 -",
        ]
        self.assertEqual(self.logged(len(record)), record)
        for line in record[0], record[3]:
            self.assertIn(f" {line}\n", PAGE)

    def test_bodies_that_scimlink_does_not_take(self):
        provider = self.provider()
        self.start(self.before_serve(provider.address))
        for number, field in enumerate(("Transfer-Encoding: chunked", "Expect: 100-continue"), 1):
            name = f"u{number}"
            with self.subTest(field):
                self.assertEqual(self.curl("Users", "--json", BOB.replace("bob", name), "-H", field)[0], 201)
                shown = provider.ask("GET", f"/v2/Users/{resource_id(number)}").content
                self.assertEqual(shown["userName"], name)

    def test_too_many_requests(self):
        # nothing listens behind the proxy, so that its answers are quick
        self.start(self.before_serve(NOWHERE))
        url = f"https://scim.example:{self.tls_port}/v2/Users?count=[1-200]"
        answers = self.run_curl(url, "-o", self.folder / "page", "-w", "%{http_code}\n").decode().split()
        self.assertEqual((len(answers), set(answers), answers[:101]), (200, {"502", "429"}, ["502"] * 101))


class BehindPushTest(ProxiesTest):
    def test_a_rate_limit(self):
        self.start(self.before_serve(self.provider().address))
        self.behind_push()
        names = [f"u{number:02}" for number in range(15)]
        self.site.write_users(*(f"{name},1,,,,,active" for name in names))
        start = time.monotonic()
        self.assert_prints(self.push(), *(f"user {name} confirmed 1" for name in names))
        # 20 requests a second: a search and a creation for each user, of which the first doesn't wait
        self.assertGreater(time.monotonic() - start, (2 * len(names) - 1) / 20 - 0.1)

    def test_the_conditions_through_both_proxies(self):
        self.start(self.before_serve(self.provider().address))
        self.behind_push()
        tried = run_tool("try-provider.py", "--to", f"127.0.0.1:{self.push_port}")
        self.assertEqual([line.split(":")[0] for line in tried.lines[:-1]], ["met"] * 9 + ["push by"], tried.output.decode())
        self.assertEqual(tried.status, 0)

    def test_a_leaver_who_had_an_account_before(self):
        foreign = SmallProvider(*({"schemas": [USER], "userName": name, "active": True} for name in ("Ann", "bob")))
        self.start(self.before_serve(self.start(foreign).address))
        self.behind_push()
        self.site.write_users("ann,5,,,,,active", "bob,5,,,,,active")
        self.assert_prints(self.push(), "user ann unconfirmed C1", "user bob unconfirmed C1", status=1)
        adopted = run_tool("adopt.py", "--users", self.site.users, "--to", f"127.0.0.1:{self.push_port}")
        self.assertEqual(adopted.lines, ["ann adopted at revision 1", "bob adopted at revision 1"])
        self.site.write_users("ann,5,,,,,active", "bob,6,,,,,left")
        self.assert_prints(self.push(), "user ann confirmed 5", "user bob confirmed 6")
        self.assertEqual([user["active"] for user in foreign.users.values()], [True, False])

    def test_a_leaver_at_a_provider_that_drops_the_source_extension(self):
        self.tried_and_pushed(DropsExtension, "versions")

    def test_a_leaver_at_a_provider_without_versions(self):
        self.tried_and_pushed(HasNoVersions, "nothing")

    def tried_and_pushed(self, kind, keeps):
        """By the line that try-provider.py prints, a joiner gets an account, and a leaver who had one before loses it."""
        foreign = kind({"schemas": [USER], "userName": "Bob", "active": True})
        self.start(self.before_serve(self.start(foreign).address))
        self.behind_push()
        to = f"127.0.0.1:{self.push_port}"
        tried = run_tool("try-provider.py", "--to", to)
        line = f"push by: scimlink push --users FILE --journal FILE --to {to} --provider-keeps {keeps}"
        self.assertIn(line, tried.lines, tried.output.decode())
        self.site.write_users("ann,5,,,,,active", "bob,5,,,,,active")
        confirmed = "user ann confirmed 5", "user bob confirmed 5"
        self.assert_prints(self.site.push(to, "--provider-keeps", keeps), *confirmed)
        self.site.write_users("ann,5,,,,,active", "bob,6,,,,,left")
        self.assert_prints(self.site.push(to, "--provider-keeps", keeps), confirmed[0], "user bob confirmed 6")
        held = {user["userName"].lower(): user["active"] for user in foreign.users.values()}
        self.assertEqual((held["ann"], held["bob"]), (True, False))

    def test_an_expired_certificate(self):
        self.site.write_users("bob,1,,,,,active")
        self.certify("expired.pem", days=-1)
        address, proxy = self.provider().address, self.behind_push()
        with self.before_serve(address, "expired.pem"):
            self.assert_prints(self.push(), "user bob unconfirmed C4", status=1)
        self.assertIn("certificate has expired", proxy.log.read_text())
        self.assertEqual(self.access_log.read_text(), "")
        self.start(self.before_serve(address))
        self.assert_prints(self.push(), "user bob confirmed 1")

    def test_a_provider_that_says_nothing(self):
        self.site.write_users("bob,1,,,,,active")
        with socket.create_server(("127.0.0.1", self.tls_port)):
            self.behind_push(connect_timeout="1s")
            run = self.push()
        self.assert_prints(run, "user bob unconfirmed C4", status=1)
        self.assertEqual(run.errors, "user bob: 504\n")

    def test_a_wrong_token(self):
        self.site.write_users("bob,1,,,,,active")
        self.behind_push()
        # as long as those that the page makes
        self.start(self.before_serve(self.provider().address, token="a" * 64))
        self.assert_prints(self.push(), "user bob unconfirmed C4", status=1)
        self.assertEqual(self.logged(3), ["- GET /v2/Users?filter=userName+eq+%22bob%22 401 -"] * 3)
