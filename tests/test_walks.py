"""The walks of docs/DEVELOPING.md: each file is there, and defines what its row names. docs/MODEL.md has a link to
every file of definitions."""
import pathlib
import re
import unittest

TOP = pathlib.Path(__file__).resolve().parent.parent
PAGE = (TOP / "docs/DEVELOPING.md").read_text(encoding="utf-8")
# A row of a walk: its file, and the names
ROW = re.compile(r"^\|[^|]*\| `(\w+/src/\w+\.rt)` \|([^|]*)\|$", re.MULTILINE)


class Walks(unittest.TestCase):
    def test_each_step_is_there(self):
        rows = ROW.findall(PAGE)
        self.assertTrue(rows)
        for file, cell in rows:
            text = (TOP / "crates" / file).read_text(encoding="utf-8")
            for name in re.findall(r"`(\w+)`", cell):
                with self.subTest(f"{file} {name}"):
                    self.assertRegex(text, rf"\b(const|enum|fn|struct|trait) {name}\b")

    def test_each_file_of_definitions_is_there(self):
        page = (TOP / "docs/MODEL.md").read_text(encoding="utf-8")
        named = set(re.findall(r"\]\(\.\./(crates/\w+/specs/[\w/]+\.antt)\)", page))
        files = {str(it.relative_to(TOP)) for it in TOP.glob("crates/*/specs/**/*.antt")
                 if it.stem != "Lib"}
        self.assertEqual((files - named, named - files), (set(), set()))


if __name__ == "__main__":
    unittest.main()
