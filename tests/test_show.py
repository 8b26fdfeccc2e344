"""`show`: what a store or a journal keeps. (Its lines are asserted beside whatever wrote the file.)"""
from databases import make_journal, make_store, user_entry, user_resource
from support import ProgramTest, broken_pipe, contents, full_disk, scimlink


class ShowTest(ProgramTest):
    def test_no_rows(self):
        make_store(self.site.store)
        make_journal(self.site.journal)
        for option, path in (("--store", self.site.store), ("--journal", self.site.journal)):
            with self.subTest(option=option):
                self.assert_prints(scimlink("show", option, path))

    def test_an_output_that_takes_nothing(self):
        make_store(self.site.store, [user_resource(1, "bob")])
        make_journal(self.site.journal, [user_entry("bob", confirmed=1, id="7")])
        for option, path in (("--store", self.site.store), ("--journal", self.site.journal)):
            before = contents(path)[1]
            for output in (full_disk, broken_pipe):
                with self.subTest(option=option, output=output.__name__), output() as stdout:
                    self.assert_fault(scimlink("show", option, path, stdout=stdout), "file fault")
                    self.assertEqual(contents(path)[1], before)
