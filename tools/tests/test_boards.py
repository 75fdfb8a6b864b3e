"""Reading is compared with the program, over boards that are made from numbers and spelled in several ways."""
import random
import tempfile
import tomllib
import unittest
from pathlib import Path

from tools.check_text import read_check
from tools.firmware import Firmware
from tools.log_text import Access, Switch, read_log
from tools.program import accepted
from tools.replay import Replay, followed
from tools.tests.boards import SPELLINGS, board_of, spelled
from tools.tests.support import needs_program
from tools.toml_document import Document

BOARDS = 50


def texts():
    """Two hundred texts: each board in each spelling."""
    for seed in range(BOARDS):
        for spelling in SPELLINGS:
            yield seed, spelling, spelled(board_of(seed), spelling, random.Random(f"{seed}{spelling}"))


class Spellings(unittest.TestCase):
    """The reader of documents alone."""

    def test_each_spelling_of_a_board_is_read_as_the_board(self):
        for seed, spelling, text in texts():
            with self.subTest(seed=seed, spelling=spelling):
                self.assertEqual(Document(text).root.plain(), board_of(seed))
                self.assertEqual(tomllib.loads(text), board_of(seed))


@needs_program
class Generated(unittest.TestCase):
    """What the tools hold is what `check` and the log say."""

    def held(self, firmware, check):
        """Compares names, items and rights with the lines of the text of `check`, which are split by hand here."""
        lines = [line.split() for line in check.splitlines()]
        items = [(words[1], int(words[2], 16), int(words[3], 16)) for words in lines if words[0] == "item"]
        held = [(item.rights, item.range.base, item.range.length) for box in firmware.boxes for item in box.items]
        self.assertEqual(held, items)
        self.assertEqual([box.name for box in firmware.boxes], [words[1] for words in lines if words[0] == "box"])
        for box in firmware.boxes:
            self.assertIn(("rw", box.own.base, box.own.length), items)
            last = box.items[len(box.items) - len(box.grants):]
            self.assertEqual([item.range for item in last], [grant.range for grant in box.grants])

    def decided(self, firmware, log):
        """Compares each verdict with that of the slots, and each slot with what the box holds."""
        replay = Replay(firmware, log)
        seen = 0
        for item in replay:
            if isinstance(item, Access):
                seen += 1
                self.assertEqual(replay.unit.decided(item.address, item.kind), item.slot)
                for slot, loaded in enumerate(replay.unit.slots):
                    if loaded.enabled and slot > 1 and loaded.rights != "none":
                        self.assertTrue(any(held.range.contains(loaded.range) for held in replay.unit.box.items))
        return seen

    def test_ranges_rights_and_slots_are_those_of_check_and_log(self):
        checks, seen, switches = {}, 0, 0
        with tempfile.TemporaryDirectory() as folder:
            path = str(Path(folder) / "board.toml")
            for seed, spelling, text in texts():
                with self.subTest(seed=seed, spelling=spelling):
                    content = text.encode()
                    check = accepted("check", content, path)
                    self.assertEqual(checks.setdefault(seed, check), check)
                    firmware = Firmware(path, content, read_check(check, path))
                    self.held(firmware, check)
                    log = read_log(accepted("script", content, path), "its log")
                    followed(firmware, log)
                    seen += self.decided(firmware, log)
                    switches += sum(isinstance(item, Switch) for item in log.items)
        self.assertGreater(seen, 500)
        self.assertGreater(switches, 500)
