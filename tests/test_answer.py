"""`answer`: one request from standard input, answered on standard output."""
import os

from support import BOB_CREATED, CREATE_BOB, ProgramTest, broken_pipe, full_disk, scimlink

FAULT = "connection fault"


class AnswerTest(ProgramTest):
    def answer(self, *options, **more):
        return scimlink("answer", *options, **{"stdin": CREATE_BOB} | more)

    def assert_answers(self, run, answer):
        self.assert_reports(run, 0)
        self.assertEqual(run.output, answer)

    def test_the_example(self):
        self.assert_answers(self.answer(), BOB_CREATED)

    def test_locations_begin_with_the_base(self):
        moved = BOB_CREATED.replace(b"localhost:8080", b"scim.example")
        moved = moved.replace(b"Content-Length: 388", b"Content-Length: 386")
        self.assert_answers(self.answer("--base", "http://scim.example/v2"), moved)

    def test_a_refusal_is_an_answer(self):
        run = self.answer(stdin=b"GET /v2/Users/x HTTP/1.1\r\nHost: h\r\n\r\n")
        self.assert_reports(run, 0)
        self.assertTrue(run.output.startswith(b"HTTP/1.1 404 Not Found\r\n"), run.output)

    def test_repeated_names_among_16_and_17(self):
        user = ['"schemas":["urn:ietf:params:scim:schemas:core:2.0:User"]', '"userName":"bob"']
        for count in (16, 17):
            for last, status in (('"zz":1', 201), ('"A0":1', 400), ('"USERNAME":"bob"', 400)):
                with self.subTest(count=count, last=last):
                    others = [f'"a{number}":1' for number in range(count - len(user) - 1)]
                    body = f"{{{','.join([*user, *others, last])}}}".encode()
                    head = b"POST /v2/Users HTTP/1.1\r\nHost: h\r\nContent-Type: application/scim+json\r\n"
                    run = self.answer(stdin=head + b"Content-Length: %d\r\n\r\n" % len(body) + body)
                    self.assert_reports(run, 0)
                    self.assertEqual(run.output[9:12], str(status).encode(), run.output)

    def test_no_whole_request(self):
        for request in (b"", CREATE_BOB[:100], CREATE_BOB[:-1]):
            with self.subTest(request=request):
                self.assert_fault(self.answer(stdin=request), FAULT)

    def test_an_input_that_cannot_be_read(self):
        folder = os.open(self.folder, os.O_RDONLY)
        self.addCleanup(os.close, folder)
        self.assert_fault(self.answer(stdin=folder), FAULT)

    def test_an_output_that_takes_nothing(self):
        for output in (full_disk, broken_pipe):
            with self.subTest(output=output.__name__), output() as stdout:
                self.assert_fault(self.answer(stdout=stdout), FAULT)

    def test_an_output_that_is_closed(self):
        self.assert_fault(self.answer(preexec_fn=lambda: os.close(1)), FAULT)
