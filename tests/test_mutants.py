"""The mutants of edits/: each applies, and the crates are as they were when the prover rejected them."""
import pathlib
import sys
import unittest

sys.path.insert(0, str(pathlib.Path(__file__).resolve().parent.parent / "tools"))
import mutant_files as mutants


class Mutants(unittest.TestCase):
    def test_each_mutant_applies_to_its_crate(self):
        self.assertTrue(mutants.crates_with_mutants())
        for crate in mutants.crates_with_mutants():
            with self.subTest(crate):
                self.assertEqual(mutants.faults_of(crate), [])

    def test_each_sum_is_of_the_texts_that_are_there(self):
        for crate in mutants.kept_sums():
            with self.subTest(crate):
                self.assertTrue(mutants.is_current(crate), f"make mutants CRATE={crate}")
        without = sorted(set(mutants.crates_with_mutants()) - set(mutants.kept_sums()))
        if without:
            print("not all mutants were tried on what is there:", *without)


if __name__ == "__main__":
    unittest.main()
