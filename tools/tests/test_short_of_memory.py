"""The tool that refuses memory, on small programs in C that the tests write, and on the proved build."""
import os
import shutil
import subprocess
import tempfile
import unittest
from pathlib import Path

from tools.short_of_memory import compiled
from tools.tests.support import needs_program, run_entry

COMPILER = shutil.which(os.environ.get("CC", "cc"))
# Three requests, of which the third may be refused without harm. Then the whole text.
PROGRAM = """
#include <stdlib.h>
#include <unistd.h>
static int text(const char *bytes, int count) { return write(1, bytes, count) == count ? 0 : 4; }
int main(void) {
    char *volatile first = malloc(10);
    if (first == NULL) return %(first)s;
    char *volatile second = realloc(first, 100);
    if (second == NULL) return %(second)s;
    char *volatile third = calloc(3, 5);
    (void)third;
    return text("whole\\n", 6);
}
"""


@unittest.skipUnless(COMPILER, "there is no C compiler")
class Programs(unittest.TestCase):
    """Programs that bear a refused request, and such that do not."""

    def setUp(self):
        self.folder = Path(tempfile.mkdtemp(prefix="uvisor-memory-test-"))
        self.addCleanup(shutil.rmtree, self.folder)

    def program(self, first="5", second="5"):
        """A program with these answers to a refused first or second request."""
        source, path = self.folder / "program.c", self.folder / "program"
        source.write_text(PROGRAM % {"first": first, "second": second}, encoding="ascii")
        subprocess.run([COMPILER, "-O1", "-o", path, source], check=True)
        return path

    def told(self, program, *given):
        """What the entry says of a program."""
        return run_entry("short-of-memory", *given, "examples/01-one-box.toml", program)

    def test_each_request_is_refused_alone_and_with_all_that_follow(self):
        ended, told, said = self.told(self.program())
        self.assertEqual((ended, said), (0, []))
        self.assertEqual(told.splitlines(), [
            f"{command}: 3 requests, of which 3 were refused, alone and with all that follow: "
            "4 runs ended with 5 and nothing written, 2 with the whole output" for command in ("script", "check")])

    def test_some_requests_are_refused_where_that_is_asked(self):
        self.assertIn("3 requests, of which 2 were refused", self.told(self.program(), "--every", "2")[1])

    def test_a_part_another_status_and_an_early_text_are_told(self):
        for answers, words in ((("text(\"wh\", 2)", "5"), "with request 1 refused, the status is 0, and 2 bytes of 6 are written"),
                               (("5", "text(\"whole\\n\", 6), 5"), "with request 2 refused, the status is 5, and 6 bytes"),
                               (("5", "3"), "with request 2 refused, the status is 3, and 0 bytes"),
                               (("5", "(abort(), 0)"), "with request 2 refused, the status is -6")):
            with self.subTest(words=words):
                ended, told, _ = self.told(self.program(*answers))
                self.assertEqual(ended, 1)
                self.assertIn(words, told)

    def test_the_library_counts_and_refuses_what_the_environment_says(self):
        library, file, program = compiled(self.folder), self.folder / "counted", self.program()
        for variables, status in (({"COUNTED_REQUESTS": str(file)}, 0), ({"REFUSED_REQUEST": "1"}, 5), ({"REFUSED_REQUEST": "3"}, 0),
                                  ({"REFUSED_REQUEST": "4"}, 0), ({"REFUSED_REQUESTS": "2"}, 5), ({"REFUSED_REQUESTS": "0"}, 0)):
            run = subprocess.run([program], env={**os.environ, "LD_PRELOAD": str(library), **variables}, capture_output=True, check=False)
            self.assertEqual((run.returncode, run.stdout), (status, b"whole\n" if status == 0 else b""), variables)
        self.assertEqual(file.read_text(encoding="ascii"), "3\n")

    def test_what_asks_for_no_memory_or_is_no_program_is_refused(self):
        nothing = self.program()
        nothing.write_text("#!/bin/true\n", encoding="ascii")
        for given in (("--every", "0"), ("--every", "x")):
            self.assertEqual(self.told(nothing, *given)[0], 2)
        self.assertEqual(run_entry("short-of-memory", "/not/there", nothing)[0], 2)
        self.assertEqual(self.told("/not/there")[0], 2)


@needs_program
@unittest.skipUnless(COMPILER, "there is no C compiler")
class Proved(unittest.TestCase):
    """The proved build on the realistic board."""

    def test_each_run_writes_all_or_nothing(self):
        ended, told, _ = run_entry("short-of-memory", "--every", "50")
        self.assertEqual(ended, 0, told)
        self.assertEqual([line.split(":")[0] for line in told.splitlines()], ["script", "check"])
