"""Inputs that are made by chance: the same ones again, what the grammar covers, and that changes change."""
import random
import tomllib
import unittest

from tools import mutations
from tools.board_input import input_of
from tools.made_boards import document_of, spelled
from tools.made_inputs import KINDS, example_paths, made_input, made_inputs
from tools.programs import MOST, OPERANDS, assembled
from tools.rules import VALUES
from tools.toml_document import Document

BOARDS = 60
INNER = {"box": ("thread", "grant", "irq"), "board": ("heap",)}


def documents():
    """Boards by the grammar."""
    return [document_of(random.Random(seed)) for seed in range(BOARDS)]


def keys(name, tables, found):
    """Gathers the keys of tables and of those within them."""
    for table in tables:
        found.setdefault(name, set()).update(table)
        for key in INNER.get(name, ()):
            inner = table.get(key, [])
            keys(key, [inner] if isinstance(inner, dict) else inner, found)


class Inputs(unittest.TestCase):
    """The inputs of a seed."""

    def test_a_seed_and_a_number_give_the_same_input_however_many_are_made(self):
        self.assertEqual(list(made_inputs(7, 20))[:5], list(made_inputs(7, 5)))
        self.assertNotEqual([made.content for made in made_inputs(7, 5)], [made.content for made in made_inputs(8, 5)])

    def test_each_kind_is_made_and_inputs_differ(self):
        made = list(made_inputs(1, 60))
        self.assertEqual({one.kind for one in made}, set(KINDS))
        self.assertGreater(len({one.content for one in made}), 55)

    def test_a_kind_may_be_asked_for(self):
        examples = [path.read_bytes() for path in example_paths()]
        self.assertGreater(len(examples), 30)
        for kind in KINDS:
            self.assertEqual(made_input(1, 2, examples, kind).kind, kind)


class Grammar(unittest.TestCase):
    """Boards by the grammar."""

    def test_each_spelling_is_read_as_its_board(self):
        for seed, document in enumerate(documents()):
            text = spelled(random.Random(seed), document)
            with self.subTest(seed=seed):
                self.assertEqual(tomllib.loads(text), document)
                self.assertEqual(Document(text).root.plain(), document)

    def test_all_keys_occur(self):
        found = {}
        keys("top", documents(), found)
        for document in documents():
            keys("board", [document["board"]], found)
            for name in ("box", "register", "gateway", "device"):
                keys(name, document.get(name, []), found)
        for name, listed in VALUES.items():
            self.assertEqual(found[name], set(listed), name)

    def test_all_instructions_occur_and_each_program_is_one(self):
        words = set()
        for document in documents():
            for box in document["box"]:
                for thread in box["thread"]:
                    program = [made for _, made in assembled(thread["program"])]
                    self.assertLessEqual(len(program), MOST)
                    words.update(made.word for made in program)
        self.assertEqual(words, set(OPERANDS))

    def test_names_lines_and_words_of_the_script_are_there(self):
        for document in documents():
            text = input_of(Document(spelled(random.Random(1), document)).root)
            names = {box.name for box in text.boxes}
            threads = {f"{box.name}.{place}" for box in text.boxes for place in range(len(box.threads))}
            lines = [line for box in text.boxes for line, _ in box.lines]
            self.assertEqual(len(set(lines)), len(lines))
            self.assertLessEqual(set(text.script), threads | {f"ring {line}" for line in lines})
            for gate in text.gateways:
                self.assertLessEqual({gate.box, *gate.callers}, names)


class Changes(unittest.TestCase):
    """Changes of a text."""

    def test_each_change_changes_most_texts_and_takes_any(self):
        text = (example_paths()[-1].parent.parent / "08-device.toml").read_bytes()
        for change in {*mutations.CHANGES, *mutations.MILD}:
            with self.subTest(change=change.__name__):
                self.assertGreater(sum(change(random.Random(seed), text) != text for seed in range(20)), 12)
                for odd in (b"", b"\n", b"\xff\x00", b"a = ", b"[", b"script = []", b"script = [\"a.0\"]"):
                    for seed in range(10):
                        self.assertIsInstance(change(random.Random(seed), odd), bytes)

    def test_a_date_and_a_nested_array_come_in_place_of_values(self):
        made = [mutations.change_value(random.Random(seed), b"size = 256\n") for seed in range(200)]
        for value in (b"size = 2020-01-01\n", b"size = [[1]]\n", b"size = -1\n"):
            self.assertIn(value, made)
