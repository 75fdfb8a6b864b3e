"""What is said of logs, also of those with pages, interrupts and calls, and that a changed log is refused."""
import random
import re
import unittest
from pathlib import Path

from tools import advice, timeline
from tools.check_text import read_check
from tools.entry import Wrong
from tools.firmware import Firmware, firmware_of
from tools.log_text import Turn, read_line, read_log
from tools.moment import wanted_line
from tools.program import accepted
from tools.replay import Replay, followed
from tools.sentences import said
from tools.tests.boards import board_of, spelled
from tools.tests.support import DATA, TOP, inputs, log_of, needs_program, run_entry, text

GRANT = re.compile(r"a grant of (\w+) allows it: base = (0x[0-9A-F]+), len = 0x20, rights = \"(\w+)\"(, shared = true)?")
RIGHTS = re.compile(r"grant (\d+) of (\w+) allows it with rights = \"(\w+)\"")
READ = re.compile(r"turn \S+ ok 0x")
STATUS = re.compile(r"turn (\S+) status (\d+)")
SHORT = 60
HEX = re.compile(r"0x[0-9A-F]{8}")


def flipped(line):
    """A line with the last digit of each of its numbers in HEX changed, one at a time."""
    for found in HEX.finditer(line):
        digit = "1" if line[found.end() - 1] != "1" else "2"
        yield line[:found.end() - 1] + digit + line[found.end():]


@needs_program
class Following(unittest.TestCase):
    """A log beside its input."""

    def test_each_log_is_one_of_its_input(self):
        for path in inputs():
            with self.subTest(path=path):
                followed(firmware_of(str(TOP / path)), read_log(text(log_of(path)), "log"))

    def test_a_log_with_a_changed_number_is_refused(self):
        # What memory holds is not followed, so a value that was read, and is gone at the end, may be any.
        for path in inputs(SHORT):
            firmware = firmware_of(str(TOP / path))
            lines = text(log_of(path)).split("\n")
            for place, line in enumerate(lines):
                for other in flipped(line if not READ.match(line) else ""):
                    with self.subTest(path=path, other=other), self.assertRaises(Wrong):
                        followed(firmware, read_log("\n".join([*lines[:place], other, *lines[place + 1:]]), "log"))

    def test_a_log_with_another_status_is_refused(self):
        for path in inputs(SHORT):
            firmware = firmware_of(str(TOP / path))
            lines = text(log_of(path)).split("\n")
            for place, line in enumerate(lines):
                found = STATUS.fullmatch(line)
                others = [f"turn {found[1]} status {number}" for number in range(14) if number != int(found[2])] if found else []
                for other in others + ([f"turn {found[1]} ok", f"turn {found[1]} posted 9"] if found else []):
                    with self.subTest(path=path, other=other), self.assertRaises(Wrong):
                        followed(firmware, read_log("\n".join([*lines[:place], other, *lines[place + 1:]]), "log"))

    def test_a_log_with_another_order_of_calls_or_lines_is_refused(self):
        for name, line, other in (("calls", 10, "start s.0 p.0#1 status 12"), ("calls", 10, "start s.0 p.0#2 status 2"),
                                  ("calls", 10, "start s.0 p.0#2 ok 0x00000007 0x0000000A 0x00000000 0x00000000 0x00000000"),
                                  ("calls", 10, "start s.0 q.0#2 ok 0x00000007 0x0000000A 0x00000000 0x00000000 0x00000000"),
                                  ("waiting", 5, "turn p.0 ok 0x00000000"), ("answers", 10, "turn p.0 posted 9"),
                                  ("answers", 9, "turn p.0 status 3"), ("interrupt", 5, "turn a.0 ok"),
                                  ("interrupt", 4, "turn a.0 irq 5")):
            path = DATA / f"{name}.toml"
            lines = text(log_of(path)).split("\n")
            lines[line - 1] = other
            with self.subTest(name=name, other=other), self.assertRaises(Wrong):
                followed(firmware_of(str(TOP / path)), read_log("\n".join(lines), "log"))

    def test_a_log_without_one_of_its_turns_is_refused(self):
        for path in inputs(SHORT):
            firmware = firmware_of(str(TOP / path))
            lines = text(log_of(path)).split("\n")
            for place, line in enumerate(lines):
                if line.startswith(("turn ", "unit ", "start ", "thread ")) and not line.endswith(" ended"):
                    with self.subTest(path=path, line=line), self.assertRaises(Wrong):
                        followed(firmware, read_log("\n".join([*lines[:place], *lines[place + 1:]]), "log"))


@needs_program
class Explained(unittest.TestCase):
    """Lines in words."""

    def told(self, name, line):
        """What is said of a line of a log of these tests."""
        status, said, wrong = run_entry("explain", DATA / f"{name}.toml", DATA / f"{name}.log", line)
        self.assertEqual((status, wrong), (0, []))
        return said

    def test_a_freed_page_is_told(self):
        said = self.told("pages", 21)
        self.assertIn("r3 0x20008000 plus 0x00000000; it is a read of 4 bytes", said)
        self.assertIn("slot 2 0x20008000 8192 bytes rw without subregions 0 1 3 4 5 6 7", said)
        self.assertIn("no slot matches the address", said)
        self.assertIn("0x20008000 is in page 0 of the heap, which is free", said)
        self.assertIn("the nearest range of a is its page 2, 0x20008800 to 0x20008BFF rw; the access is 2048 bytes before", said)
        self.assertIn("a page of the heap is given by pages_alloc alone", said)

    def test_calls_are_told(self):
        self.assertIn("s.0 starts call 1 of p.0, function 7, arguments 0x0000000A", self.told("calls", 10))
        self.assertIn("status 1, the call is not done yet", self.told("calls", 16))
        self.assertIn("status 4, the thread has no such call to collect", self.told("calls", 26))

    def test_interrupts_are_told(self):
        self.assertIn("line 5 is rung by device 0", self.told("interrupt", 1))
        self.assertIn("the interrupt of line 5 is delivered", self.told("interrupt", 5))

    def said(self, name, line):
        """What is said of a line of a log of the examples, after the line itself."""
        path = f"examples/{name}"
        status, said, wrong = run_entry("explain", f"{path}.toml", f"{path}.log", line)
        self.assertEqual((status, wrong), (0, []))
        return [told.strip() for told in said.splitlines()[1:]]

    def test_each_status_of_a_page_call_is_told_with_its_reason(self):
        for name, line, number, means, why in (
                ("bad-count", 3, 13, "the count of pages is 0 or above 16", "it asks for 0 pages"),
                ("bad-count", 5, 13, "the count of pages is 0 or above 16", "it asks for 17 pages"),
                ("bad-count", 7, 6, "the table is not aligned, or the box may not write it", "the table is at 0x00000003, no multiple of 4"),
                ("bad-table", 6, 6, "the table is not aligned, or the box may not write it",
                 "a may not write word 0 of the table, at 0x20000100"),
                ("bad-table", 9, 6, "the table is not aligned, or the box may not write it",
                 "a may not write word 1 of the table, at 0x20000100"),
                ("out-of-pages", 7, 5, "too few pages are free", "it asks for 3 pages, and 2 of 8 are free"),
                ("bad-origin", 7, 7, "the address is not that of a page", "0x20008200 is inside page 0, which begins at 0x20008000"),
                ("bad-origin", 11, 7, "the address is not that of a page", "0x2000A000 is not in the heap, 0x20008000 to 0x20009FFF"),
                ("not-owner", 7, 8, "the box does not own the page", "page 1 is free")):
            with self.subTest(name=name, line=line):
                self.assertEqual(self.said(f"statuses/{name}", line)[1:], [f"status {number}, {means}", why])

    def test_each_status_of_the_other_calls_is_told_with_its_reason(self):
        for line, number, why in ((10, 3, "8 calls to s are posted"), (13, 9, "the server of s is its thread 0"),
                                  (14, 9, "there is no register gateway 0"), (15, 9, "there is no gateway 1"),
                                  (16, 9, "gateway 0 is not for s"), (17, 7, "the board has no heap"), (19, 11, "it serves call 1 of p.0"),
                                  (21, 10, "s.0 serves no call"), (22, 9, "s.0 is in no handler"), (23, 9, "s does not own line 6"),
                                  (25, 4, "p.0 has made no call 9"), (26, 1, "its call 8 is posted, and not started")):
            with self.subTest(line=line):
                told = self.told("answers", line).splitlines()
                self.assertIn(f"status {number}, ", told[-2])
                self.assertEqual(told[-1].strip(), why)
        self.assertIn("status 12, another call is next", said(read_line(1, "start s.0 p.0#2 status 12")))

    def test_pages_are_told(self):
        self.assertEqual(self.said("04-pages", 4)[0], "slots 2 to 6 are emptied, since pages came or went")
        self.assertEqual(self.said("04-pages", 5)[1], "done, and it was given pages 0 1 2")
        self.assertEqual(self.said("04-pages", 12)[1], "it is a region of a, for its pages of group 0")
        self.assertIn("0x20008000 is in page 0 of the heap, which is free", self.said("04-pages", 21))

    def test_lines_latches_and_handlers_are_told(self):
        rings = ["it is not enabled, and latched by this ring",
                 "it is not enabled, and latched already, so that both rings are one interrupt", "it is enabled, and latched by this ring"]
        for line, told in zip((1, 2, 8), rings):
            self.assertEqual(self.said("05-interrupt", line), ["line 5 is rung by device 0", f"it is a line of button; {told}"])
        self.assertEqual(self.said("05-interrupt", 5)[1], "its handler is at place 2; place 1 and the registers are kept until irq_return")

    def test_register_gateways_are_told(self):
        self.assertEqual(self.said("06-register-gateway", 3)[1:], ["register gateway 0 is replace at 0x40000100, mask 0x0000FF00", "done"])
        self.assertEqual(self.said("06-register-gateway", 4)[1:],
                         ["register gateway 1 is read at 0x40000100", "done, and the value is 0x1234AB78"])
        self.assertEqual(self.said("06-register-gateway", 5)[-1], "register gateway 0 (replace) only writes")
        self.assertEqual(self.said("06-register-gateway", 7)[-1], "register gateway 1 is not for spy")
        self.assertIn("register gateway 1 (read) reaches it for led", self.said("06-register-gateway", 9))

    def test_calls_and_looks_are_told(self):
        self.assertEqual(self.said("07-remote-call", 16)[-1], "its call 1 is posted, and not started")
        self.assertEqual(self.said("07-remote-call", 26)[-1], "its call 1 was collected at line 14")
        self.assertEqual(self.said("08-device", 26), ["main.0: done, and the value is 0x5EC2E711",
                                                      "it waits for its call 1, with 20 looks left, this one among them"])

    def test_statuses_of_page_calls_are_told(self):
        self.assertIn("status 6, the table is not aligned, or the box may not write it", self.told("statuses", 4))
        self.assertIn("it was given page 0", self.told("statuses", 9))
        self.assertIn("status 7, the address is not that of a page", self.told("statuses", 11))
        self.assertIn("status 8, the box does not own the page", self.told("statuses", 13))

    def test_gateways_are_told(self):
        self.assertIn("gw_read r1 1", self.told("gateways", 4))
        self.assertIn("status 9, the box or the thread may not do that", self.told("gateways", 5))
        status, said, noted = run_entry("who-holds", "0x40000102", DATA / "gateways.toml")
        self.assertEqual((status, said), (1, "no box\n"))
        self.assertEqual(noted, [f"who-holds: register gateway {number} reaches it for a" for number in ("0 (replace)", "1 (read)")])
        self.assertIn("register gateway 0 0x40000100 replace: a\n", run_entry("memory-map", DATA / "gateways.toml")[1])

    def test_a_page_is_held_by_no_item(self):
        status, said, noted = run_entry("who-holds", "0x20008400", DATA / "statuses.toml")
        self.assertEqual((status, said, len(noted)), (1, "no box\n", 1))
        self.assertIn("page 1 of the heap", noted[0])
        self.assertIn("heap                            (pages)\n", run_entry("memory-map", DATA / "statuses.toml")[1])

    def test_waiting_is_told(self):
        self.assertIn("p.0: it waits for its call", self.told("waiting", 5))
        self.assertIn("no call is posted", self.told("waiting", 2))


@needs_program
class Answers(unittest.TestCase):
    """The arrows of a timeline."""

    def arrows(self, name, folder=DATA):
        """The arrows of a log beside its input."""
        firmware = firmware_of(str(TOP / folder / f"{name}.toml"))
        log = read_log(text(folder / f"{name}.log"), "log")
        found = timeline.arrows_of_run(followed(firmware, log))
        return sorted((arrow.kind, arrow.start, arrow.end) for arrow in found), timeline.arrows_of_log(log)

    def test_calls_lead_to_their_starts_and_answers(self):
        found, alone = self.arrows("calls")
        self.assertEqual(found, [("answer", 12, 14), ("answer", 21, 24), ("call", 3, 10), ("call", 6, 19)])
        self.assertEqual(sorted((arrow.start, arrow.end) for arrow in alone), [(3, 10), (6, 19)])

    def test_calls_of_the_examples_lead_to_their_starts_and_answers(self):
        found = self.arrows("07-remote-call", Path("examples"))[0]
        self.assertEqual(found, [("answer", 12, 14), ("answer", 21, 24), ("call", 3, 10), ("call", 6, 19)])
        self.assertEqual(self.arrows("08-device", Path("examples"))[0], [("answer", 24, 26), ("call", 3, 5)])
        self.assertEqual(self.arrows("answers")[0], [("call", 2, 18)])

    def test_a_waiting_caller_gets_its_answer(self):
        self.assertEqual(self.arrows("sensor-board")[0], [("answer", 24, 26), ("call", 3, 5)])


@needs_program
class Advice(unittest.TestCase):
    """The grant that is advised makes the program grant the access."""

    def faults(self, seed):
        """The faults of a made board with what is advised, and with the number of the entry."""
        board = board_of(seed)
        content = spelled(board, "headers", random.Random(f"{seed}headers")).encode()
        firmware = Firmware("board", content, read_check(accepted("check", content, "board"), "check"))
        replay = Replay(firmware, read_log(accepted("script", content, "board"), "log"))
        numbers = {id(entry): number for number, entry in enumerate(replay.log.entries())}
        for item in replay:
            if isinstance(item, Turn) and item.reply.why in ("daccviol", "iaccviol"):
                state = replay.threads[item.thread]
                kind, _, address = state.named_access()
                yield numbers[id(item)], advice.advice(firmware, state.thread.box, kind, address)

    def changed(self, seed, told):
        """The board with the advised change, or None where no grant is advised."""
        board = board_of(seed)
        boxes = {box["name"]: box for box in board["box"]}
        more, other = GRANT.search(told), RIGHTS.search(told)
        if more:
            grant = {"base": int(more[2], 16), "len": 32, "rights": more[3], **({"shared": True} if more[4] else {})}
            boxes[more[1]].setdefault("grant", []).append(grant)
            for number, name in re.findall(r"grant (\d+) of (\w+) (?:and|must)", told):
                boxes[name]["grant"][int(number)]["shared"] = True
            return board
        if other:
            boxes[other[2]]["grant"][int(other[1])]["rights"] = other[3]
            return board
        return None

    def test_an_advised_grant_is_granted(self):
        tried = 0
        for seed in range(40):
            for number, told in list(self.faults(seed))[:1]:
                board = self.changed(seed, told)
                if board is None:
                    self.assertTrue(told.startswith(advice.NEVER), told)
                    continue
                with self.subTest(seed=seed, told=told):
                    content = spelled(board, "headers", random.Random(f"{seed}headers")).encode()
                    log = read_log(accepted("script", content, "board"), "log")
                    self.assertNotEqual(log.entries()[number].reply.word, "fault")
                    tried += 1
        self.assertGreater(tried, 8)


class Refusing(unittest.TestCase):
    """What explain refuses by itself."""

    def test_a_line_that_is_not_there_is_refused(self):
        log = read_log(text("examples/03-secret.log"), "log")
        for number in ("0", "99", "1e3", ""):
            with self.assertRaises(Wrong):
                wanted_line(log, number)
