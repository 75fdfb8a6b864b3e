"""The readers of small texts: TOML beside Python's own reader, programs, refusals, pages."""
import random
import tomllib
import unittest

from tools.numbers import address, power_down, power_up
from tools.pages import Page
from tools.placing import cover, rounded
from tools.programs import OPERANDS, BadLine, assembled, read_shown
from tools.ranges import Range
from tools.refusals import read_refusal
from tools.tests.support import TOP, refused, text
from tools.toml_document import BadText, Document
from tools.unit import Pair, pair

GOOD = [
    "", "a = 1", "a = 0xFF\nb = 0o17\nc = 0b101\nd = 1_000", "a = [1, [2, 3], ]", "a = { b = { c = 1 } }", "a.b.c = 1\na.b.d = 2",
    "[a]\nb = 1\n[a.c]\nd = 2\n[[e]]\nf = 1\n[[e]]\n[[e.g]]\n[e.h]\n", "a = \"x\\ty\\u00e9\\n\"", "a = '''\nx\n'y'\n'''",
    'a = """\nx \\\n   y\n""z"""', '"a b" = 1\n\'c.d\' = 2\n"e".f = 3', "a = 1 # end\n# all\n\n  b = true", "a = [ # one\n 1, # two\n]",
    "a = 1.5\nb = -inf\nc = 1979-05-27T07:32:00Z\nd = 07:32:00\ne = 1e6", "a = \"\"\nb = ''\nc = \"\"\"\"\"\"", "a = 1\r\nb = 2\r\n",
    'a = """"quoted""""', "[a.b.c]\nd = 1\n[a]\ne = 2", "a = -0\nb = +5",
]
BAD = [
    "a", "a =", "a = 1 b = 2", "a = 1\na = 2", "[a]\n[a]", "a = [1", "a = {b = 1", 'a = "x', 'a = "\\q"', "a = 01", "a = 1__0", "= 1",
    "a = 1\n[a]", "a = 1\n[[a]]", "[[a]]\n[a]", "a = {}\na.b = 1", "[a]\nb = 1\n[a.b]", "a = 'x\ny'", "a = 0xG", "[a", "a = tru",
    "a = 99999999999999999999", "a.b = 1\na = 2", 'a = "\x01"', "[]\n", "a = '''x''", "a = \"\\ud800\"", "a = [1 2]",
]
# What TOML 1.1 has and Python's own reader does not.
NEWER = {'a = "\\e\\x41"': {"a": "\x1bA"}, "a = {\n b = 1,\n c = 2, # x\n}": {"a": {"b": 1, "c": 2}}, "a = 07:32\nb = 1": None}


class Documents(unittest.TestCase):
    """The reader of TOML."""

    def same(self, mine, theirs):
        """Compares two values, of which dates and floats are kept as they are written."""
        if isinstance(mine, dict):
            self.assertEqual(list(mine), list(theirs))
            for key in mine:
                self.same(mine[key], theirs[key])
        elif isinstance(theirs, (str, bool, int, list)):
            self.assertEqual(mine, theirs)

    def test_documents_are_read_as_python_reads_them(self):
        for content in GOOD + [text(path.relative_to(TOP)) for path in TOP.glob("examples/**/*.toml") if "not-toml" not in path.name]:
            with self.subTest(content=content):
                self.same(Document(content).root.plain(), tomllib.loads(content))

    def test_what_is_no_document_is_refused(self):
        for content in BAD:
            with self.subTest(content=content), self.assertRaises(BadText):
                Document(content)

    def test_newer_spellings_are_read(self):
        for content, wanted in NEWER.items():
            found = Document(content).root.plain()
            self.assertEqual(wanted or found, found)

    def test_changed_documents_are_read_as_python_reads_them_or_refused(self):
        chance = random.Random(7)
        for content in GOOD * 40:
            place = chance.randrange(len(content) + 1)
            other = content[:place] + chance.choice("\"'[]{}=,.#\n\\ a1_-x") + content[place + chance.randrange(2):]
            try:
                mine = Document(other).root.plain()
                theirs = tomllib.loads(other)
            except (BadText, tomllib.TOMLDecodeError):
                continue
            with self.subTest(other=other):
                self.same(mine, theirs)

    def test_lines_of_a_program_have_their_places(self):
        document = Document('a = """\nset r0 1\n  halt"""\nb = "x\\ny"')
        lines = [document.place(offset) for offset in document.root.value["a"].lines]
        self.assertEqual(lines, [(2, 1), (3, 1)])
        self.assertEqual([document.place(offset) for offset in document.root.value["b"].lines], [(4, 6), (4, 9)])

    def test_deep_nesting_is_refused(self):
        with self.assertRaises(BadText):
            Document("a = " + "[" * 100_000)


class Programs(unittest.TestCase):
    """The reader of programs."""

    def test_there_are_31_instructions(self):
        self.assertEqual(len(OPERANDS), 31)

    def test_bad_lines_are_told_with_their_rule(self):
        for line, why in (("fly", "is no instruction"), ("set r0", "takes 2 operands, and 1"), ("set r9 1", "operand 1"),
                          ("set r0 0x100000000", "operand 2"), ("jump 65536", "0 to 65535"), ("rpc_sync 0 0", "1 to 65535"),
                          ("set r0 01", "operand 2"), ("set r0 0X1", "operand 2"), ("halt now", "takes 0 operands")):
            with self.subTest(line=line), self.assertRaisesRegex(BadLine, why):
                assembled(line)

    def test_comments_and_empty_lines_are_no_instructions(self):
        self.assertEqual([line for line, _ in assembled("\n; x\n\thalt ; y\n\r\n  jump\t0\r\n")], [3, 5])
        with self.assertRaises(BadLine):
            assembled("halt\n" * 257)

    def test_a_shown_instruction_is_read_back_and_no_other_spelling(self):
        self.assertEqual(read_shown("load32 r1 r0 0x00000004").operands, (1, 0, 4))
        for other in ("load32 r1 r0 4", "load32  r1 r0 0x00000004", "jump 0x1", "stop"):
            self.assertIsNone(read_shown(other))


class Numbers(unittest.TestCase):
    """Numbers, ranges and regions, by values from docs/MODEL.md and docs/INPUT.md."""

    def test_an_address_is_spelled_in_one_way(self):
        self.assertEqual(address("0x40000060"), 0x40000060)
        for other in ("08", "20000000", "0x", "0x123456789", "0X1", " 0x1", "0x1\n"):
            self.assertIsNone(address(other))

    def test_powers(self):
        self.assertEqual([power_up(number) for number in (1, 33, 64)], [1, 64, 64])
        self.assertEqual([power_down(number) for number in (1, 33, 64)], [1, 32, 64])

    def test_grants_are_rounded(self):
        self.assertEqual(rounded(0x40000100, 0x1FF, "down"), Range(0x40000100, 0x100))
        self.assertEqual(rounded(0x40000000, 0x44, "up"), Range(0x40000000, 0x80))
        self.assertEqual(rounded(0x40000000, 0, "up"), Range(0x40000000, 32))
        for bad in ((0x40000100, 31, "down"), (0x40000020, 33, "none"), (0x40000020, 0, "none"), (0x40000020, 64, "up"),
                    (0, (1 << 31) + 1, "up")):
            self.assertIsNone(rounded(*bad))

    def test_a_range_is_covered_by_blocks(self):
        blocks = cover(Range(0x40000020, 0xE0))
        self.assertEqual([(block.base, block.length) for block in blocks], [(0x40000020, 32), (0x40000040, 64), (0x40000080, 128)])
        self.assertEqual(pair(blocks[2], "rw"), Pair(0x40000080, 0x1300000D))

    def test_subregions_are_taken_out(self):
        group = Pair(0x20008000, 0x1300FA19)
        self.assertEqual((group.range.length, group.without, group.rights), (8192, [1, 3, 4, 5, 6, 7], "rw"))
        self.assertEqual([group.matches(at) for at in (0x20008000, 0x20008400, 0x20008800)], [True, False, True])


class Refusals(unittest.TestCase):
    """Refusal lines."""

    def test_each_stored_line_is_read(self):
        for path in refused():
            self.assertIsNotNone(read_refusal(text(path.with_suffix(".line"))))
        for other in ("refused", "refused Nothing", "refused Clash box 0", "refused BadValue top", "box a"):
            self.assertIsNone(read_refusal(other))


class Pages(unittest.TestCase):
    """The reader of pages."""

    def test_commands_links_and_paths_are_found(self):
        page = Page("x.md", "# One `two`\n[a](b.md#c) docs/LOG.md `crates/NAME/src` scripts/uvisor.\n```toml f.toml\na = 1\n```\n"
                            "```\n$ one \\\n  two\nout\n$ three\n```\n\n    a = 1\n\ngives `refused NotToml`.\n")
        self.assertEqual(page.anchors(), {"one-two"})
        self.assertEqual(page.links(), [(2, "b.md#c")])
        self.assertEqual([path for _, path in page.named()], ["docs/LOG.md", "scripts/uvisor"])
        self.assertEqual(page.fences[0].file, "f.toml")
        self.assertEqual([(command.text, command.wanted) for command in page.fences[1].commands()],
                         [("one \\\n  two", ["out"]), ("three", [])])
        self.assertEqual(page.refusals(), [(13, "a = 1\n", "refused NotToml")])
