"""`map`: its output, reports and faults. (Images of rows and rejected records are in test_sources.py.)"""
from databases import user_text
from support import EXAMPLES, SOURCE, USERS_HEADER, ProgramTest, broken_pipe, full_disk, scimlink, text

PERSONNEL = EXAMPLES / "personnel.csv"


class MapTest(ProgramTest):
    def write(self, content):
        """A users file of this text."""
        path = self.folder / "users.csv"
        path.write_bytes(content.encode("latin-1"))
        return path

    def test_the_example(self):
        run = scimlink("map", PERSONNEL)
        self.assert_reports(run, 1, "users record 3: S5")
        self.assertEqual(len(run.lines), 3)
        self.assertIn(f'"{SOURCE}":{{"revision":7}},"userName":"ann"', run.lines[0])

    def test_reports_in_the_order_of_the_file(self):
        records = ['bob,1,,Bob,"Ray\nRay",,active', "c d,1,,,,,active", 'c d,1,,,"Poe\n",,active', "cid,1,,,,,active"]
        run = scimlink("map", self.write(text(USERS_HEADER, *records)))
        told = [f"users record {place}: a quoted field goes over 2 lines; is a quote missing?" for place in (1, 3)]
        self.assert_reports(run, 1, told[0], "users record 2: S4", "users record 3: S4", told[1])
        self.assertEqual(len(run.lines), 2)

    def test_a_pipe(self):
        records = ["ann,1,,,,,active", "c d,1,,,,,active"]
        run = scimlink("map", "/dev/stdin", stdin=text(USERS_HEADER, *records).encode())
        self.assert_prints(run, user_text("ann"), status=1, errors=["users record 2: S4"])
        run = scimlink("map", "/dev/stdin", stdin=b"name\n")
        self.assert_prints(run, status=1, errors=["users: S1"])

    def test_files_that_cannot_be_read(self):
        for path in (self.folder / "absent", self.folder):
            with self.subTest(path=path):
                self.assert_fault(scimlink("map", path), "file fault")

    def test_an_output_that_takes_nothing(self):
        for output in (full_disk, broken_pipe):
            with self.subTest(output=output.__name__), output() as stdout:
                run = scimlink("map", PERSONNEL, stdout=stdout)
                self.assert_reports(run, 3, "users record 3: S5", "file fault")

    def test_each_row_of_a_large_file_has_its_line(self):
        numbers = range(1, 150_002)
        path = self.write(text(USERS_HEADER, *(f"user{number},{number},,,,,active" for number in numbers)))
        images = text(*(user_text(f"user{number}", number) for number in numbers))
        run = scimlink("map", path)
        self.assert_reports(run, 0)
        self.assertTrue(run.output.decode() == images, "other images")
        with broken_pipe() as stdout:
            self.assert_reports(scimlink("map", path, stdout=stdout), 3, "file fault")
