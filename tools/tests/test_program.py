"""`scripts/uvisor`: which build it runs, and what it says of it. The builds and the kit are made here."""
import os
import shutil
import subprocess
import tempfile
import unittest
from pathlib import Path

from tools.tests.support import TOP

BUILD = "#!/bin/sh\necho \"built $*\"\ncat\nexit 3\n"
KIT = "#!/bin/sh\nshift; shift\necho \"tried $*\"\necho 'run=ended status=1 runners=1 proved=no' >&2\n"
NO_ANSWER = "#!/bin/sh\necho 'run=none' >&2\nexit 6\n"


class Builds(unittest.TestCase):
    """A small repository of its own, with `scripts/uvisor` in it."""

    def setUp(self):
        self.top = Path(tempfile.mkdtemp(prefix="uvisor-builds-"))
        self.addCleanup(shutil.rmtree, self.top)
        (self.top / "scripts").mkdir()
        (self.top / "crates/uvisor/src").mkdir(parents=True)
        (self.top / "crates/uvisor/src/main.rt").write_text("", encoding="utf-8")
        (self.top / "crates.txt").write_text("", encoding="utf-8")
        shutil.copy(TOP / "scripts/uvisor", self.top / "scripts/uvisor")

    def program(self, path, text):
        """A program that the test writes."""
        where = self.top / path
        where.parent.mkdir(parents=True, exist_ok=True)
        where.write_text(text, encoding="utf-8")
        where.chmod(0o755)
        return where

    def run_it(self, *words):
        """Runs the entry with the kit that the test made, if any."""
        path = f"{self.top / 'kit'}:/usr/bin:/bin"
        return subprocess.run([self.top / "scripts/uvisor", *words], env={**os.environ, "PATH": path}, input="given\n",
                              capture_output=True, text=True, check=False)

    def test_the_proved_build_runs_and_its_status_comes_back(self):
        self.program("crates/uvisor/out/uvisor", BUILD)
        run = self.run_it("check")
        self.assertEqual((run.returncode, run.stdout, run.stderr), (3, "built check\ngiven\n", ""))

    def test_an_older_proved_build_is_told(self):
        build = self.program("crates/uvisor/out/uvisor", BUILD)
        os.utime(build, (1, 1))
        run = self.run_it("check")
        self.assertEqual((run.returncode, run.stdout), (3, "built check\ngiven\n"))
        self.assertIn("the proved build is older than crates", run.stderr)

    def test_an_unproved_build_is_told(self):
        self.program("kit/rt", KIT)
        run = self.run_it("script")
        self.assertEqual((run.returncode, run.stdout), (1, "tried script\n"))
        self.assertIn("this is an unproved build", run.stderr)
        self.assertIn("keeps none", run.stderr)

    def test_no_answer_and_no_kit_end_with_127(self):
        self.assertEqual(self.run_it("script").returncode, 127)
        self.program("kit/rt", NO_ANSWER)
        self.assertEqual(self.run_it("script").returncode, 127)
