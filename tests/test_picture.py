"""The pages show the run as the program prints it."""
import importlib.util
import pathlib
import unittest

TOP = pathlib.Path(__file__).resolve().parent.parent
SPEC = importlib.util.spec_from_file_location("picture", TOP / "docs/picture.py")
picture = importlib.util.module_from_spec(SPEC)
SPEC.loader.exec_module(picture)


class Pages(unittest.TestCase):
    def test_picture(self):
        block = picture.diagram()
        for page in picture.PAGES:
            with self.subTest(page=page.name):
                self.assertEqual(picture.BLOCK.findall(page.read_text(encoding="utf-8")), [block])


if __name__ == "__main__":
    unittest.main()
