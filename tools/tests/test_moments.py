"""Who owns which page after a line of a log, and the slots of the unit there, by the rules of docs/MODEL.md."""
import unittest
from pathlib import Path

from tools.board_input import Heap
from tools.firmware import firmware_of
from tools.log_text import read_log
from tools.moment import taken_after, wanted_line
from tools.ranges import Range
from tools.tests.support import TOP, log_of, needs_program, run_entry, text
from tools.tests.test_pictures import titles

BOARD, LOG = "examples/04-pages.toml", "examples/04-pages.log"
# From which line on box a has which pages: they change at the turns of page calls.
PAGES = {1: [], 5: [0, 1, 2], 9: [0, 2], 16: [2]}
# From which line on slot 2 has which pages of the group: none after a flush, and those that the box has after a rotation.
GROUP = {1: None, 12: [0, 2], 15: None, 17: [2]}
LINES = 22


def at(table, line):
    """The entry of a table that holds at a line."""
    return table[max(first for first in table if first <= line)]


def slots(pages):
    """The lines of the slots with these pages of the group in slot 2, or with nothing there."""
    out = [str(page) for page in range(8) if page not in (pages or ())]
    second = "disabled" if pages is None else "0x20008000 8192 bytes rw without subregions " + " ".join(out)
    return ["slot 0 0x00000000 1048576 bytes rx", "slot 1 0x20000000 1024 bytes rw", f"slot 2 {second}",
            *(f"slot {slot} disabled" for slot in range(3, 8)), f"the next pair goes to slot {2 if pages is None else 3}"]


@needs_program
class Pages(unittest.TestCase):
    """A board with a heap of eight pages, of which a box takes three and gives back two."""

    @classmethod
    def setUpClass(cls):
        cls.firmware = firmware_of(str(TOP / BOARD))
        cls.log = read_log(text(LOG), LOG)

    def test_pages_change_owners_at_the_turns_of_page_calls(self):
        for line in range(1, LINES + 1):
            owners = taken_after(self.firmware, self.log, wanted_line(self.log, str(line)), lambda replay: list(replay.owners))
            self.assertEqual([page for page, owner in enumerate(owners) if owner == 0], at(PAGES, line), line)
            self.assertTrue(all(owner in (0, None) for owner in owners))

    def test_slots_follow_flushes_and_rotations(self):
        for line in range(1, LINES + 1):
            told = run_entry("slots-at", BOARD, LOG, line)[1].splitlines()
            self.assertEqual(told[0], f"after line {line}: {text(LOG).splitlines()[line - 1]}")
            self.assertEqual(told[1:], slots(at(GROUP, line)), line)

    def test_who_holds_a_page_after_a_line(self):
        for line, page, answer, owner in ((4, 1, (1, "no box\n"), "free"), (5, 1, (0, "a rw\n"), "owned by a"),
                                          (9, 1, (1, "no box\n"), "free"), (22, 2, (0, "a rw\n"), "owned by a")):
            asked = f"0x{0x20008000 + 1024 * page + 1023:X}"
            status, told, said = run_entry("who-holds", asked, BOARD, "--log", LOG, "--line", line)
            self.assertEqual((status, told), answer, line)
            self.assertEqual(said, [f"who-holds: it is in page {page} of the heap, which is {owner} after line {line}: "
                                    + text(LOG).splitlines()[line - 1]])

    def test_what_is_no_page_is_held_as_without_a_log(self):
        for address in ("0x0", "0x20000000", "0x20007FFF", "0x2000A000", "0x40000000"):
            without = run_entry("who-holds", address, BOARD)
            self.assertEqual(run_entry("who-holds", address, BOARD, "--log", LOG, "--line", 9), without)

    def test_a_map_shows_pages_after_a_line(self):
        told = run_entry("memory-map", BOARD, "--log", LOG, "--line", 9)[1].splitlines()
        self.assertEqual(told[0], "pages after line 9: turn a.0 ok")
        self.assertEqual([line.split()[0:1] + line.split()[3:] for line in told if " heap " in line],
                         [["0x20008000", "heap", "page", "0", "rw"], ["0x20008400", "heap", "page", "1", "-"],
                          ["0x20008800", "heap", "page", "2", "rw"], ["0x20008C00", "heap", "pages", "3", "to", "7", "-"]])
        plain = run_entry("memory-map", BOARD)[1].splitlines()
        self.assertEqual([line for line in told[1:] if " heap " not in line], [line for line in plain if " heap " not in line])

    def test_a_picture_shows_pages_after_a_line(self):
        drawn = run_entry("memory-map", BOARD, "--svg", "--log", LOG, "--line", 9)[1]
        self.assertIn("a: rw in 0x20008800 to 0x20008BFF", titles(drawn))
        self.assertIn("a: nothing in 0x20008400 to 0x200087FF", titles(drawn))
        self.assertIn("pages after line 9: turn a.0 ok", drawn)
        self.assertNotIn("its pages", drawn)

    def test_a_board_without_a_heap_has_no_pages(self):
        board, log = "examples/03-secret.toml", "examples/03-secret.log"
        told = run_entry("memory-map", board, "--log", log, "--line", 1)[1]
        self.assertEqual(told, "pages after line 1: unit switch keys\n" + run_entry("memory-map", board)[1])


class Runs(unittest.TestCase):
    """Pages with one owner are one part."""

    def test_pages_of_one_owner_are_one_run(self):
        runs = Heap(0x1000, 32, 8).runs([0, 0, None, 1, 0, 0, 0, 0])
        self.assertEqual([run[:3] for run in runs], [(0, 0, 1), (None, 2, 2), (1, 3, 3), (0, 4, 7)])
        self.assertEqual([run[3] for run in runs], [Range(0x1000, 64), Range(0x1040, 32), Range(0x1060, 32), Range(0x1080, 128)])

    @needs_program
    def test_pages_of_one_owner_are_one_line_of_a_map(self):
        board = "examples/statuses/out-of-pages.toml"
        told = run_entry("memory-map", board, "--log", log_of(Path(board)), "--line", 7)[1].splitlines()
        self.assertEqual([line.split() for line in told if " heap " in line],
                         [["0x20008000", "0x200097FF", "6144", "heap", "pages", "0", "to", "5", "rw"],
                          ["0x20009800", "0x20009FFF", "2048", "heap", "pages", "6", "to", "7", "-"]])
