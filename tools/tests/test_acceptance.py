"""The refusal that is due: of the stored inputs, of the page's own texts, and the order of refusals."""
import unittest

from tools.acceptance import due
from tools.pages import Page
from tools.tests.support import TOP, inputs, refused, text

BOARD = "board = { flash = [0, 32], sram = [0x100, 0x400], peripherals = [0x1000, 0x100] }\n"
PAIRS = 'format = 1\n' + BOARD


def boxes(*listed):
    """A document with these boxes, as inline tables without their braces."""
    return PAIRS + "box = [" + ", ".join("{ " + box + " }" for box in listed) + "]\n"


def box(name, more="", program="halt"):
    """A box with one thread."""
    return f'name = "{name}", size = 1, thread = [{{ program = "{program}" }}]{more}'


GRANT = ', grant = [{{ base = {}, len = {}, rights = "r"{} }}]'
IRQ = ", irq = [{ line = 5, handler = 0 }]"
# Texts with two refusals: the one that is looked for first is due.
ORDER = [
    ("zz = 1\n", "UnknownKey top"),
    (PAIRS + "box = [1, { zz = 1 }]\n", "UnknownKey box 1"),
    ("format = 2\n" + BOARD + "box = 0\ndevice = [{ zz = 1, rings = 0 }]\n", "UnknownKey device 0"),
    ("format = 2\n" + BOARD, "MissingKey top box"),
    (boxes('name = "a", size = 1, thread = [], server = 0'), "BadValue box 0 server"),
    (boxes('name = "a", size = 1, thread = []'), "BadValue box 0 thread"),
    (boxes('name = "a", size = 1, thread = 3, server = 7'), "BadValue box 0 thread"),
    (boxes(box("a", ", secret = true")), "BadValue box 0 secret"),
    (boxes(box("a", ", size = true").replace("size = 1, ", "")), "BadValue box 0 size"),
    (boxes(*[box("a")] * 9) + "script = [" + "'ring x', " * 10001 + "]\n", "TooMany top box"),
    (boxes(box("a")) + "script = [" + "'ring x', " * 10001 + "]\n", "TooMany top script"),
    (boxes(box("a"), box("9"), box("a")), "BadName box 1"),
    (boxes(box("a"), box("a"), box("b"), box("c"), box("d")), "TwiceNamed box 1"),
    (boxes(box("a", GRANT.format(0, 0, "")), box("b"), box("c"), box("d"), box("e")), "NoRoom box 4"),
    (boxes(box("a", GRANT.format("0x100", 32, "")), box("b", GRANT.format(0, 0, ""))), "BadGrant box 1 grant 0"),
    (boxes(box("a", GRANT.format("0x1000", 0, ', round = "up"'))), None),
    (boxes(box("a", GRANT.format("0xFFFFFFE0", 64, ""))), "GrantOutside box 0 grant 0"),
    (boxes(box("a", GRANT.format("0x1000", 64, "")), box("b"), box("c", GRANT.format("0x1020", 64, ', shared = true') + IRQ)),
     "Clash box 0 box 2"),
    (boxes(box("a", IRQ), box("b", IRQ)) + "register = [{ at = 2, op = 'read', boxes = [] }]\n", "LineTaken box 1 irq 0"),
    (boxes(box("a")) + "gateway = [{ box = 'x', function = 0, callers = [] }, { box = 'a', function = 0, callers = ['y'] }]\n",
     "BadGateway gateway 1"),
    (boxes(box("a", program="a")) + "gateway = [{ box = 'x', function = 0, callers = [] }]\n", "NoServer gateway 0"),
    (boxes(box("a", program="halt\\n;\\n set r0")) + "device = [{ rings = [5] }]\n", "BadProgram box 0 thread 0 line 3"),
    (boxes(box("a")) + "device = [{ rings = [] }, { rings = [5] }]\nscript = ['x']\n", "BadDevice device 1"),
    (boxes(box("a", IRQ)) + "script = ['a.0', 'ring 5', 'ring 05']\n", "BadScript script 2"),
    (boxes(box("a", IRQ)) + "script = ['a.0', 'ring 5', 'a.00']\n", "BadScript script 2"),
]


class Refusals(unittest.TestCase):
    """Refusals that are due."""

    def test_each_refused_example_gets_its_line(self):
        self.assertGreater(len(refused()), 15)
        for path in refused():
            with self.subTest(path=path):
                self.assertEqual(f"refused {due((TOP / path).read_bytes())}\n", text(path.with_suffix(".line")))

    def test_each_accepted_input_gets_none(self):
        for path in inputs():
            self.assertIsNone(due((TOP / path).read_bytes()), path)

    def test_each_text_of_the_page_gets_its_refusal(self):
        found = Page("docs/INPUT.md", text("docs/INPUT.md")).refusals()
        self.assertGreater(len(found), 3)
        for _, content, refusal in found:
            self.assertEqual(f"refused {due(content.encode())}", refusal)

    def test_the_first_refusal_in_the_order_of_the_page_is_due(self):
        for content, wanted in ORDER:
            with self.subTest(wanted=wanted):
                self.assertEqual(due(content.encode()), wanted)

    def test_bytes_that_are_too_many_or_no_text_are_refused(self):
        self.assertEqual((due(b"#" * 4194305), due(b"#" * 4194304)), ("TooLong", "MissingKey top format"))
        self.assertEqual((due(b"\xff"), due(b"a = "), due(b"a = 1\na = 1\n"), due(b"")),
                         ("NotToml", "NotToml", "NotToml", "MissingKey top format"))
