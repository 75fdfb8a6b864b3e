"""The fuzzer: what it takes for a failing input, by programs that the tests write, and the proved build on some inputs."""
import re
import shutil
import tempfile
import unittest
from pathlib import Path

from tools import fuzz
from tools.made_inputs import Made
from tools.tests.support import TOP, needs_program, run_entry, text

INPUT, LOG, CHECK = (f"examples/03-secret.{end}" for end in ("toml", "log", "check"))
REFUSED, LINE = "examples/refused/bad-value.toml", "examples/refused/bad-value.line"
VALUE = re.compile(r"^(turn \S+ ok )(0x[0-9A-F]{8})$", re.MULTILINE)


class Programs(unittest.TestCase):
    """Programs that give an answer of the test's own."""

    def setUp(self):
        self.folder = Path(tempfile.mkdtemp(prefix="uvisor-fuzz-test-"))
        self.addCleanup(shutil.rmtree, self.folder)

    def program(self, script, check, status=0, more=""):
        """A program that writes one text under 'script' and another under 'check'."""
        for name, answer in (("script", script), ("check", check)):
            (self.folder / name).write_text(answer, encoding="utf-8", newline="")
        path = self.folder / "program"
        path.write_text(f'#!/bin/sh\ncat >/dev/null\ncat "{self.folder}/$1"\n{more}\nexit {status}\n', encoding="ascii")
        path.chmod(0o755)
        return path

    def failing(self, program, path=INPUT):
        """Why an input fails, or None, and the counts."""
        tally = fuzz.Tally()
        tally.look(program, Made(0, "grammar", (TOP / path).read_bytes()))
        return (tally.failed[0][1] if tally.failed else None), tally

    def test_a_right_answer_is_counted(self):
        why, tally = self.failing(self.program(text(LOG), text(CHECK)))
        self.assertIsNone(why)
        self.assertEqual((dict(tally.accepted), tally.compared, tally.lines), ({"grammar": 1}, 1, text(LOG).count("\n")))
        self.assertEqual(tally.replies["fault daccviol"], 1)
        self.assertIn("no input fails", tally.shown())

    def test_a_refusal_is_counted_by_its_name(self):
        why, tally = self.failing(self.program(text(LINE), text(LINE), 1), REFUSED)
        self.assertIsNone(why)
        self.assertEqual((dict(tally.refused), sum(tally.accepted.values())), ({"BadValue": 1}, 0))

    def test_another_refusal_than_the_one_that_is_due_fails(self):
        other = "refused NotToml\n"
        self.assertIn("is due, and not 'refused NotToml'", self.failing(self.program(other, other, 1), REFUSED)[0])
        self.assertEqual(self.failing(self.program(other, other, 1))[0], "'accepted' is due, and not 'refused NotToml'")
        self.assertIn("is due, and not 'accepted'", self.failing(self.program(text(LOG), text(CHECK)), REFUSED)[0])

    def test_a_wrong_value_fails_with_its_line(self):
        found = VALUE.search(text(LOG))
        wrong = text(LOG)[:found.start(2)] + "0x0000BEEF" + text(LOG)[found.end(2):]
        line = text(LOG).count("\n", 0, found.start()) + 1
        why, tally = self.failing(self.program(wrong, text(CHECK)))
        self.assertIn(f"at line {line}, '{found[0]}' is due", why)
        self.assertIn("1 inputs fail: 0", tally.shown())

    def test_other_statuses_and_other_words_fail(self):
        line, log, check = text(LINE), text(LOG), text(CHECK)
        for answer, words in (((log, check, 134), "ends with status 134"), (("", "", 5), "ends with status 5"),
                              ((log, check, 0, "echo no >&2"), "on standard error"),
                              ((line + line, line + line, 1), "the line of the refusal has another form"),
                              (("refused Nothing\n", "refused Nothing\n", 1), "another form"),
                              ((line.rstrip("\n"), line.rstrip("\n"), 1), "another form"),
                              (("refused NotToml\n", line, 1), "'check' ends with 1"), ((line, line), "is a refusal"),
                              ((log, check + "box\n"), "no text of 'check'"), ((log + "\n", check), "is no log"),
                              ((text("examples/01-one-box.log"), check), "its threads are others"),
                              (("\u00e9", check), "what is no text")):
            with self.subTest(words=words):
                self.assertIn(words, self.failing(self.program(*answer))[0])

    def test_the_first_failing_input_is_stored(self):
        ended, told, said = run_entry("fuzz", 3, 991, self.program("", "", 7))
        self.assertEqual((ended, said), (1, []))
        path = Path(re.search(r"^it is stored in (.+)$", told, re.MULTILINE)[1])
        self.addCleanup(path.unlink)
        self.assertEqual(path.read_bytes(), next(fuzz.made_inputs(991, 1)).content)
        self.assertIn("3 inputs fail: 0 1 2\n", told)


class Words(unittest.TestCase):
    """The words of the entry."""

    def test_what_is_no_number_or_no_program_is_refused(self):
        for given in (("x",), ("1", "-1"), ("1", "1", "examples"), ("1", "1", "/not/there"), ()):
            with self.subTest(given=given):
                ended, told, said = run_entry("fuzz", *given)
                self.assertEqual((ended, told, len(said)), (2, "", 1))


@needs_program
class Proved(unittest.TestCase):
    """The proved build."""

    def test_no_input_fails(self):
        ended, told, _ = run_entry("fuzz", 20, 3)
        self.assertEqual(ended, 0, told)
        self.assertTrue(told.startswith("20 inputs of seed 3\naccepted "))
        self.assertTrue(told.endswith("no input fails\n"))
