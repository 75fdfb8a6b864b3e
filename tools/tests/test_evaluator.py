"""The evaluator is compared with the stored logs, which were written before it, and with the pages by hand."""
import re
import unittest

from tools.board_input import Board
from tools.entry import Wrong
from tools.evaluator import ALL_BITS, READS, WRITES, Memory, evaluated
from tools.log_text import read_log
from tools.ranges import Range
from tools.replay import followed
from tools.tests.support import inputs, log_of, resolved, text

EVENT = re.compile(r"(turn|start|idle|ring) ")
HEX = re.compile(r"0x[0-9A-F]{8}")
VALUE = re.compile(r"(turn \S+ ok )0x[0-9A-F]+")
DUE = re.compile(r"line (\d+), '(.+)' is due for word \d+ of the script")


def changed(line):
    """An event's line with another reply, in several ways."""
    for found in HEX.finditer(line):
        yield line[:found.start()] + f"0x{int(found[0], 16) ^ 0x100:08X}" + line[found.end():]
    if line.startswith("turn "):
        thread = " ".join(line.split(" ")[:2])
        for reply in ("ok", "ok 0x00000000", "ended", "halted", "waiting", "posted 1", "status 9", "frames 0", "irq 5"):
            if f"{thread} {reply}" != line:
                yield f"{thread} {reply}"


class Logs(unittest.TestCase):
    """Stored logs, as they are and changed."""

    def log(self, path, lines):
        """A log of an input."""
        return read_log("\n".join(lines), "log")

    def test_each_stored_log_is_the_one_that_is_due(self):
        self.assertGreater(len(inputs()), 20)
        for path in inputs():
            with self.subTest(path=path):
                evaluated(resolved(path), read_log(text(log_of(path)), "log"))

    def test_each_changed_reply_is_told_with_its_line_and_what_is_due(self):
        for path in inputs(40):
            firmware, lines = resolved(path), text(log_of(path)).split("\n")
            events = [place for place, line in enumerate(lines) if EVENT.match(line)]
            for place in events:
                for other in changed(lines[place]):
                    with self.subTest(path=path, other=other):
                        with self.assertRaises(Wrong) as refused:
                            evaluated(firmware, self.log(path, [*lines[:place], other, *lines[place + 1:]]))
                        due = DUE.search(str(refused.exception))
                        self.assertEqual((due[1], due[2]), (str(place + 1), lines[place]))

    def test_a_log_with_an_event_less_or_more_is_refused(self):
        for path in inputs(40):
            firmware, lines = resolved(path), text(log_of(path)).split("\n")
            events = [place for place, line in enumerate(lines) if EVENT.match(line)]
            last = events[-1]
            for other in ([*lines[:last], *lines[last + 1:]], [*lines[:last], lines[last], *lines[last:]]):
                with self.subTest(path=path), self.assertRaises(Wrong):
                    evaluated(firmware, self.log(path, other))

    def test_a_value_that_is_gone_at_the_end_is_compared_here_alone(self):
        taken = 0
        for path in inputs(40):
            firmware, lines = resolved(path), text(log_of(path)).split("\n")
            for place, line in enumerate(lines):
                found = VALUE.fullmatch(line)
                if found:
                    other = self.log(path, [*lines[:place], found[1] + "0x00000077", *lines[place + 1:]])
                    try:
                        followed(firmware, other)
                    except Wrong:
                        continue
                    taken += 1
                    self.assertRaises(Wrong, evaluated, firmware, other)
        self.assertGreater(taken, 0)


class Bytes(unittest.TestCase):
    """Memory, by docs/MODEL.md and docs/PROGRAMS.md."""

    def memory(self):
        """Memory with two words."""
        return Memory(Board(Range(0, 64), Range(0x100, 64), Range(0x200, 64), None, None, [[0x10, 0x11223344], [0x204, 5]]))

    def test_words_of_the_board_stand_there_and_all_else_is_zero(self):
        memory = self.memory()
        self.assertEqual([memory.load(address, 4) for address in (0x10, 0x204, 0, 0x100, 0x13C)], [0x11223344, 5, 0, 0, 0])

    def test_the_lowest_byte_comes_first_and_only_the_low_bytes_are_stored(self):
        memory = self.memory()
        self.assertEqual([memory.load(0x10 + place, 1) for place in range(4)], [0x44, 0x33, 0x22, 0x11])
        memory.store(0x100, 2, 0xAABBCCDD)
        self.assertEqual([memory.load(0x100, 4), memory.load(0x101, 1)], [0xCCDD, 0xCC])
        memory.store(0x101, 1, 0x1FF)
        self.assertEqual(memory.load(0x100, 4), 0xFFDD)

    def test_a_page_that_is_cleared_has_zero_bytes_and_no_other_changes(self):
        memory = self.memory()
        for address in range(0x100, 0x140, 4):
            memory.store(address, 4, ALL_BITS)
        memory.clear(Range(0x110, 16))
        self.assertEqual([memory.load(address, 4) for address in (0x10C, 0x110, 0x11C, 0x120)], [ALL_BITS, 0, 0, ALL_BITS])


class Registers(unittest.TestCase):
    """The seven operations, bit by bit."""

    def test_bits_under_the_mask_change_and_the_others_stay(self):
        due = {"write": lambda reg, under, value: value, "and": lambda reg, under, value: reg & value if under else reg,
               "or": lambda reg, under, value: reg | value if under else reg,
               "xor": lambda reg, under, value: reg ^ value if under else reg,
               "replace": lambda reg, under, value: value if under else reg}
        for name, of_bit in due.items():
            for bits in range(8):
                reg, under, value = bits & 1, bits >> 1 & 1, bits >> 2 & 1
                for place in (0, 31):
                    found = WRITES[name](reg << place, under << place, value << place)
                    self.assertEqual(found, of_bit(reg, under, value) << place, (name, bits, place))

    def test_reads_give_the_word_or_what_is_under_the_mask(self):
        self.assertEqual((READS["read"](0x1234, 0xFF), READS["read_and"](0x1234, 0xFF)), (0x1234, 0x34))
