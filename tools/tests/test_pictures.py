"""The pictures: they stand alone, show what they should, and are as stored."""
import unittest
import xml.etree.ElementTree as tree

from tools import timeline
from tools.check_text import read_check
from tools.log_text import read_log
from tools.map_picture import picture
from tools.memory_map import segments
from tools.tests.support import DATA, TOP, inputs, log_of, needs_program, run_entry, text


def titles(drawn):
    """The titles of the elements of a picture."""
    root = tree.fromstring(drawn)
    return [element.text for element in root.iter("{http://www.w3.org/2000/svg}title")]


class Pictures(unittest.TestCase):
    """Maps and timelines."""

    def test_pictures_name_nothing_outside(self):
        for path in TOP.glob("examples/*.svg"):
            drawn = text(path.relative_to(TOP))
            self.assertNotIn("href", drawn)
            self.assertEqual(drawn.count("http"), 1)

    def test_a_map_has_a_column_a_box_and_a_row_a_segment(self):
        boxes = read_check(text("examples/03-secret.check"), "check")
        listed = segments(boxes)
        shown = titles(picture(boxes, listed, False, []))
        solid = [segment for segment in listed if not segment.gap]
        self.assertEqual(len(shown), 1 + len(solid) * len(boxes))
        self.assertIn("keys: rx in 0x000F0000 to 0x000FFFFF", shown)
        self.assertIn("driver: nothing in 0x000F0000 to 0x000FFFFF", shown)

    def test_a_timeline_shows_each_event_switch_and_rotation(self):
        for path in inputs():
            log = text(log_of(path))
            shown = titles(run_entry("timeline", log_of(path), "--svg")[1])
            self.assertEqual(sum(title.startswith("line ") for title in shown), len(read_log(log, "log").entries()))
            self.assertEqual(sum(title.startswith("switch to ") for title in shown), log.count("unit switch "))
            self.assertEqual(sum(title.startswith("rotation ") for title in shown), log.count("unit rotate "))
            self.assertEqual(sum(title.startswith("flush ") for title in shown), log.count("unit flush"))

    def test_a_part_of_a_log_is_drawn(self):
        shown = titles(run_entry("timeline", DATA / "sensor-board.log", "--svg", "--lines", "8-17")[1])
        self.assertEqual(sum(title.startswith("line ") for title in shown), 7)

    def test_a_long_log_is_refused_without_lines(self):
        many = "unit switch a\n" + "turn a.0 ok\n" * (timeline.MOST + 1)
        log = read_log(many + "thread a.0 ready 401" + " 0x00000000" * 8 + "\n", "log")
        with self.assertRaisesRegex(timeline.Wrong, "--lines"):
            timeline.chosen(timeline.events_of(log), 1, len(log.items))
        self.assertEqual(len(timeline.chosen(timeline.events_of(log), 2, 10)), 9)

    @needs_program
    def test_a_timeline_with_calls_and_interrupts_is_as_stored(self):
        drawn = run_entry("timeline", DATA / "sensor-board.log", DATA / "sensor-board.toml", "--svg")[1]
        self.assertEqual(drawn, text(DATA / "sensor-board.run.svg"))
        self.assertIn("call main.0#1", titles(drawn))
        self.assertIn("answer main.0#1", titles(drawn))
