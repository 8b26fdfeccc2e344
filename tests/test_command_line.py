"""Arguments that are invalid, help and the version."""
from support import CREATE_BOB, PROGRAM, ProgramTest, full_disk, scimlink

COMMANDS = ["answer", "check", "loop", "map", "push", "reset", "serve", "show", "simulate"]
# Arguments that are complete, but for the one that a test adds or leaves out
LOOP = ["loop", "--users", "absent"]
PUSH = ["push", "--users", "absent", "--journal", "journal", "--to", "127.0.0.1:1"]
SERVE = ["serve", "--listen", "127.0.0.1:0", "--requests", "1"]

# What the parser of arguments rejects, in words of its own
NOT_PARSED = [
    [],
    ["answers"],
    ["answer", "more"],
    ["answer", "--base"],
    ["answer", "--store"],
    ["loop"],
    ["loop", "--groups", "absent"],
    [*LOOP, "more"],
    [*LOOP, "--path", "/scim/v2"],
    ["map"],
    ["map", "a", "b"],
    ["push", "--users", "absent", "--to", "127.0.0.1:1"],
    ["push", "--journal", "journal", "--to", "127.0.0.1:1"],
    ["push", "--users", "absent", "--journal", "journal"],
    [*PUSH, "more"],
    ["reset"],
    ["reset", "--store", "store"],
    ["serve", "--requests", "1"],
    [*SERVE, "more"],
    *(["serve", "--listen", "127.0.0.1:0", f"--requests={count}"] for count in ("-1", "x", "", "1.5", "4294967297")),
    *([*SERVE, f"--longest-search={seconds}"] for seconds in ("-1", "x", "", "1.5", "4294967297")),
    ["show", "--store", "store", "more"],
    ["simulate"],
    ["simulate", "a", "b"],
    ["simulate", "--base", "http://localhost/v2", "absent"],
]

BASE = "error: --base is http://HOST/v2"
# Its host has a byte more than it may
LONG_BASE = f"http://{'a' * 101}/v2"
SERVICE_PATH = "error: --path is one segment or more, such as /scim/v2, and at most 200 bytes"
# No segment, an empty one, a byte that no segment has, an escape that is none, and a byte too many
NO_PATHS = ["", "/", "scim/v2", "/v2/", "//v2", "/scim//v2", "/v2?x", "/v2#x", "/a b", "/é", "/%", "/%2", "/%2g", "/a\\b"]
NO_PATHS += [f"/{'a' * 200}", "/v2\"", "/[v2]", "/v2%2F/"]
REQUESTS = "error: --requests is 1 to 1000000"
LONGEST_SEARCH = "error: --longest-search is 1 to 3600 seconds"
SHOW = "error: show takes one of --store FILE and --journal FILE"
# What is parsed and yet invalid
INVALID = [
    *((["answer", "--base", base], BASE) for base in ("ftp://x/v2", "http://x", "http:///v2", LONG_BASE, "")),
    ([*LOOP, "--base", "http://x"], BASE),
    ([*PUSH, "--base", "ftp://x/v2"], BASE),
    *(([*PUSH, "--path", path], SERVICE_PATH) for path in NO_PATHS),
    (["check", "--journal", "journal", "--to", "127.0.0.1:1", "--path", "/v2/"], SERVICE_PATH),
    ([*SERVE, "--base", "http://x"], BASE),
    *(([*SERVE[:-1], count], REQUESTS) for count in ("0", "1000001", "4294967295")),
    *(([*SERVE, "--longest-search", seconds], LONGEST_SEARCH) for seconds in ("0", "3601", "4294967295")),
    (["show"], SHOW),
    (["show", "--store", "store", "--journal", "journal"], SHOW),
    (["\udcff"], "error: the command line isn't UTF-8"),
]


class CommandLineTest(ProgramTest):
    def run_here(self, arguments, **options):
        """A run in an empty folder, which it is to leave so."""
        return scimlink(*arguments, stdin=CREATE_BOB, cwd=self.folder, **options)

    def assert_nothing_is_made(self):
        self.assertEqual(list(self.folder.iterdir()), [])

    def test_arguments_that_are_not_parsed(self):
        for arguments in NOT_PARSED:
            with self.subTest(arguments=arguments):
                run = self.run_here(arguments)
                self.assertEqual((run.status, run.output), (2, b""))
                self.assertRegex(run.errors, r"\Aerror: .")
                self.assert_nothing_is_made()

    def test_arguments_that_are_parsed_and_invalid(self):
        for arguments, error in INVALID:
            with self.subTest(arguments=arguments):
                self.assert_prints(self.run_here(arguments), status=2, errors=[error])
                self.assert_nothing_is_made()

    def test_help_names_each_command(self):
        for arguments in (["--help"], ["help"]):
            with self.subTest(arguments=arguments):
                run = self.run_here(arguments)
                self.assert_reports(run, 0)
                for command in COMMANDS:
                    self.assertRegex(run.output.decode(), rf"(?m)^ +{command} ")

    def test_help_of_each_command(self):
        for command in COMMANDS:
            with self.subTest(command=command):
                run = self.run_here([command, "--help"])
                self.assert_reports(run, 0)
                self.assertIn(f"Usage: {PROGRAM.name} {command} ", run.output.decode())

    def test_version(self):
        self.assert_prints(self.run_here(["--version"]), "scimlink 0.1.0")

    def test_output_that_takes_nothing(self):
        for arguments in (["--version"], ["--help"]):
            with self.subTest(arguments=arguments), full_disk() as stdout:
                self.assertEqual(self.run_here(arguments, stdout=stdout).status, 3)
