"""What all entries have in common: how they end, and what they say meanwhile."""
import contextlib
import io
import time
import unittest
from unittest import mock

from tools import entry, files
from tools.entry import Wrong


def ended(answer, *given):
    """The status of an entry with this answer, what it writes, and what it says."""
    parser = entry.words("an-entry", "Does nothing.", "scripts/an-entry")
    parser.add_argument("word", nargs="?")
    said, written = io.StringIO(), []
    with contextlib.redirect_stderr(said), mock.patch.object(entry, "write", written.append):
        status = entry.run(parser, answer, list(given))
    return status, written, said.getvalue()


class Ends(unittest.TestCase):
    """How an entry ends."""

    def test_an_answer_is_written_with_its_status(self):
        self.assertEqual(ended(lambda parsed: (f"{parsed.word}\n", 1), "x"), (1, ["x\n"], ""))

    def test_what_is_wrong_is_one_line_and_status_2(self):
        def wrong(_):
            raise Wrong("no\nlog")
        self.assertEqual(ended(wrong), (2, [], "an-entry: no log\n"))
        status, written, said = ended(wrong, "x", "y")
        self.assertEqual((status, written, said.count("\n")), (2, [], 1))

    def test_a_fault_of_the_tool_is_no_answer(self):
        status, written, said = ended(lambda parsed: (1 // 0, 0))
        self.assertEqual((status, written), (2, []))
        self.assertIn("gives no answer: ZeroDivisionError", said)

    def test_what_takes_long_says_so(self):
        def slow(_):
            time.sleep(0.2)
            return "", 0
        with mock.patch.object(entry, "SLOW", 0.05):
            self.assertIn("it goes on", ended(slow)[2])

    def test_a_file_that_is_none_is_refused(self):
        for path in ("/", "", "not/there", "a\0b"):
            with self.subTest(path=path), self.assertRaises(Wrong):
                files.read_text(path)
