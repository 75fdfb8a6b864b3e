"""Each entry on each example, and on what it does not expect: status 2, one line on standard error, nothing printed."""
import json
import tempfile
import unittest
import xml.etree.ElementTree as tree

from tools.firmware import firmware_of
from tools.numbers import hexadecimal
from tools.tests.support import DATA, TOP, inputs, log_of, needs_program, refused, run_entry, text

WRONG = DATA / "wrong"
EMPTY, BINARY, FOLDER, MISSING = WRONG / "empty", WRONG / "binary", DATA, WRONG / "not-there"
REFUSED, REFUSAL = "examples/refused/bad-value.toml", "examples/refused/bad-value.line"
INPUT, LOG, OTHER_LOG, CHECK = ("examples/03-secret.toml", "examples/03-secret.log", "examples/02-rotation.log",
                                "examples/03-secret.check")
ENTRIES = ["counts", "check-docs", "explain", "fuzz", "lint", "log-diff", "memory-map", "schedule", "short-of-memory", "slots-at",
           "timeline", "who-holds"]
# What is no log, whatever the entry; and what is no accepted input.
NO_LOG = [REFUSAL, EMPTY, BINARY, FOLDER, MISSING, INPUT, CHECK]
NO_INPUT = [REFUSED, EMPTY, BINARY, FOLDER, MISSING, LOG]


class Entries(unittest.TestCase):
    """What is asked of all entries."""

    def answers(self, *given, status=0, stdin=b""):
        """Runs an entry that has an answer, and gives the answer."""
        ended, told, said = run_entry(*given, stdin=stdin)
        self.assertEqual(ended, status, (given, said))
        return told

    def refuses(self, *given, stdin=b""):
        """Runs an entry on what it does not expect."""
        with self.subTest(given=" ".join(map(str, given))):
            ended, told, said = run_entry(*given, stdin=stdin)
            self.assertEqual((ended, told, len(said)), (2, "", 1), said)
            self.assertTrue(said[0].startswith(f"{given[0]}: "), said)


class Helps(Entries):
    """What each entry says of itself."""

    def test_each_entry_says_what_it_does_with_an_example(self):
        for name in ENTRIES:
            with self.subTest(name=name):
                told = self.answers(name, "--help")
                self.assertIn("example:", told)
                self.assertIn(f"scripts/{name}", told)


class DocsEntry(Entries):
    """The check of pages."""

    def test_what_is_no_page_is_refused(self):
        for wrong in (EMPTY, BINARY, FOLDER, MISSING, LOG, REFUSAL):
            self.refuses("check-docs", wrong)
        self.refuses("check-docs", "README.md", "--nothing")


class LogEntries(Entries):
    """Entries that read logs alone."""

    def test_each_log_is_counted(self):
        for path in inputs():
            log = text(log_of(path))
            counts = json.loads(self.answers("counts", log_of(path), "--json"))
            self.assertEqual(counts["all"]["turns"], sum(line.startswith("turn ") for line in log.splitlines()))
            self.assertEqual(counts["all"]["denied"], log.count(" denied\n"))
            self.assertEqual(counts["all"]["granted"], log.count(" slot "))
            self.assertEqual(counts["all"]["faults"], log.count(" fault "))
            self.assertEqual(counts["all"]["switches"], log.count("unit switch "))
            self.assertIn("turns", self.answers("counts", log_of(path)))

    def test_pages_interrupts_and_calls_are_counted(self):
        for name, wanted in (("04-pages", {"turns": 10, "rotations": 2, "flushes": 3, "granted": 4, "denied": 1, "rings": 0}),
                             ("05-interrupt", {"turns": 15, "granted": 4, "rings": 3}),
                             ("06-register-gateway", {"turns": 6, "granted": 0, "denied": 1}),
                             ("07-remote-call", {"turns": 15, "starts": 2, "calls": 3, "idles": 0}),
                             ("08-device", {"turns": 17, "starts": 1, "calls": 1, "rotations": 1, "rings": 1})):
            counts = json.loads(self.answers("counts", f"examples/{name}.log", "--json"))
            self.assertEqual({key: {**counts["all"], "rings": counts["rings"]}[key] for key in wanted}, wanted, name)

    def test_changed_pages_interrupts_and_calls_are_told(self):
        for name, line, other, words, box in (
                ("04-pages", "turn a.0 frames 0 1 2", "turn a.0 frames 0 1 3", "it was given pages 0 1 3", "box a: reply 3 differs"),
                ("04-pages", "unit flush", None, "slots 2 to 6 are emptied", "box a: 10 replies, the same in both"),
                ("05-interrupt", "turn button.0 irq 5", "turn button.0 irq 6", "the interrupt of line 6 is delivered",
                 "box button: reply 2 differs"),
                ("06-register-gateway", "turn spy.0 status 9", "turn spy.0 ok 0x00000000", "done, and the value is 0x00000000",
                 "box led: 4 replies, the same in both"),
                ("07-remote-call", "turn q.0 status 1", "turn q.0 status 4", "status 4, the thread has no such call to collect",
                 "box q: reply 3 differs"),
                ("07-remote-call", "start server.0 q.0#1 ok", "start server.0 p.0#2 ok", "server.0 starts call 2 of p.0, function 7",
                 "box server: reply 5 differs")):
            lines = text(f"examples/{name}.log").split("\n")
            place = next(place for place, read in enumerate(lines) if read.startswith(line))
            changed = lines[:place] + ([] if other is None else [other + lines[place][len(line):]]) + lines[place + 1:]
            with tempfile.NamedTemporaryFile("w", suffix=".log") as file, self.subTest(name=name, line=line):
                file.write("\n".join(changed))
                file.flush()
                told = self.answers("log-diff", f"examples/{name}.log", file.name, status=1)
                self.assertIn(words, told)
                self.assertIn(box, told)

    def test_each_log_is_itself_and_no_other(self):
        paths = inputs()
        for path, other in zip(paths, paths[1:]):
            self.assertEqual(self.answers("log-diff", log_of(path), log_of(path)), "the logs are the same\n")
            self.assertIn("the first line that differs", self.answers("log-diff", log_of(path), log_of(other), status=1))

    def test_each_log_is_drawn(self):
        for path in inputs():
            tree.fromstring(self.answers("timeline", log_of(path), "--svg"))

    def test_what_is_no_log_is_refused(self):
        for wrong in NO_LOG:
            self.refuses("counts", wrong)
            self.refuses("log-diff", wrong, LOG)
            self.refuses("log-diff", LOG, wrong)
            self.refuses("timeline", wrong, "--svg")

    def test_other_words_are_refused(self):
        for given in (["counts"], ["counts", LOG, LOG], ["counts", LOG, "--xml"], ["log-diff", LOG], ["timeline", LOG],
                      ["timeline", LOG, "--svg", "--lines", "5"], ["timeline", LOG, "--svg", "--lines", "9-2"],
                      ["timeline", LOG, "--svg", "--lines", "900-901"]):
            self.refuses(*given)


class CheckEntries(Entries):
    """Entries that read a text of `check` from standard input."""

    def test_a_check_text_is_mapped_and_asked(self):
        for check in sorted(TOP.glob("examples/*.check")):
            content = check.read_bytes()
            self.assertIn("0x00000000", self.answers("memory-map", stdin=content))
            tree.fromstring(self.answers("memory-map", "--svg", stdin=content))
            self.assertIn(" rx\n", self.answers("who-holds", "0x0", stdin=content))
            self.assertEqual(self.answers("who-holds", "0xE0000000", stdin=content, status=1), "no box\n")

    def test_what_is_no_check_text_is_refused(self):
        cut = text(CHECK)[:-20]
        changed = text(CHECK).replace("item rx", "item wx")
        wrong = [text(REFUSAL), "", text(LOG), text(INPUT), (TOP / BINARY).read_bytes(), cut, changed]
        for content in wrong:
            self.refuses("memory-map", stdin=content)
            self.refuses("memory-map", "--svg", stdin=content)
            self.refuses("who-holds", "0x40000060", stdin=content)

    def test_what_is_no_address_is_refused(self):
        for address in ("08", "20000000", "0x", "0x123456789", "0xG", "-1", "0X20", "x20", ""):
            self.refuses("who-holds", address, stdin=text(CHECK))
        self.refuses("who-holds", stdin=text(CHECK))


@needs_program
class InputEntries(Entries):
    """Entries that read an input, and logs of it."""

    def test_each_example_is_linted(self):
        for path in inputs():
            self.assertEqual(self.answers("lint", path), "")
        for path in refused():
            told = self.answers("lint", path, status=1)
            line = text(path.with_suffix(".line")).strip()
            self.assertRegex(told, rf"^{path}:[1-9][0-9]*:[1-9][0-9]*: {line}: .")
            self.assertNotIn("not found by these tools", told)

    def test_each_example_is_explained(self):
        for path in inputs():
            log = text(log_of(path))
            self.assertEqual(self.answers("explain", path, log_of(path)).count(" fault "), log.count(" fault "))
            self.assertIn(":1: ", self.answers("explain", path, log_of(path), 1))
            self.assertIn("slot 7", self.answers("slots-at", path, log_of(path), 1))
            tree.fromstring(self.answers("timeline", log_of(path), path, "--svg"))

    def test_each_example_is_mapped_and_asked(self):
        for path in inputs():
            self.assertIn("own memory of", self.answers("memory-map", path))
            tree.fromstring(self.answers("memory-map", path, "--svg"))
            own = firmware_of(str(TOP / path)).boxes[0].own
            self.assertIn(" rw\n", self.answers("who-holds", hexadecimal(own.base), path))

    def test_each_example_is_scheduled(self):
        for path in inputs():
            with self.subTest(path=path):
                self.assertIn("script = [", self.answers("schedule", path, "--round-robin", 1))

    def test_what_is_no_accepted_input_is_refused(self):
        for wrong in NO_INPUT:
            self.refuses("explain", wrong, LOG)
            self.refuses("slots-at", wrong, LOG, 1)
            self.refuses("timeline", LOG, wrong, "--svg")
            self.refuses("memory-map", wrong)
            self.refuses("who-holds", "0x20000000", wrong)
            self.refuses("schedule", wrong, "a.0")

    def test_what_is_no_log_of_the_input_is_refused(self):
        for wrong in NO_LOG + [OTHER_LOG]:
            self.refuses("explain", INPUT, wrong)
            self.refuses("slots-at", INPUT, wrong, 1)
            self.refuses("timeline", wrong, INPUT, "--svg")

    def test_what_is_no_moment_is_refused(self):
        wrong = [["--log", log, "--line", "1"] for log in NO_LOG + [OTHER_LOG]]
        wrong += [["--log", LOG, "--line", line] for line in ("0", "99", "x", "-1", "01", "1.5")]
        wrong += [["--log", LOG], ["--line", "1"], ["--log"], ["--log", LOG, "--line"], ["--log", LOG, "--line", "1", "more"]]
        for given in wrong:
            self.refuses("who-holds", "0x20000000", INPUT, *given)
            self.refuses("memory-map", INPUT, *given)
        for wrong_input in NO_INPUT:
            self.refuses("who-holds", "0x20000000", wrong_input, "--log", LOG, "--line", "1")
            self.refuses("memory-map", wrong_input, "--log", LOG, "--line", "1", "--svg")
        self.refuses("who-holds", "0x20000000", "--log", LOG, "--line", "1", stdin=text(CHECK))
        self.refuses("memory-map", "--log", LOG, "--line", "1", stdin=text(CHECK))

    def test_what_is_no_line_is_refused(self):
        for line in ("0", "99", "x", "-1", "01", "1.5"):
            self.refuses("explain", INPUT, LOG, line)
            self.refuses("slots-at", INPUT, LOG, line)

    def test_lint_refuses_what_is_no_file(self):
        for given in ([FOLDER], [MISSING], [], [INPUT, INPUT], ["--fix", INPUT], [""]):
            self.refuses("lint", *given)
        self.assertIn(":1:1: refused NotToml: ", self.answers("lint", BINARY, status=1))
        self.assertIn(":1:1: refused MissingKey top format: ", self.answers("lint", EMPTY, status=1))
        self.assertIn(":1:6: refused NotToml: ", self.answers("lint", LOG, status=1))

    def test_words_that_are_no_schedule_are_refused(self):
        for given in ([], ["a.0*0"], ["zz.0,"], ["keys.9"], ["ring 99"], ["keys.0", "--until-ended"], ["--round-robin", "0"],
                      ["--round-robin", "9999999"], ["keys.0*250001"]):
            self.refuses("schedule", INPUT, *given)
