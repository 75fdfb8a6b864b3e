"""Program texts: the 31 instructions, how they are read and shown, and the first rule that a line breaks."""
import re
from dataclasses import dataclass

# Operands: R a register, W a word, N a small number, M a count of looks.
OPERANDS = {
    "set": "RW", "mov": "RR", "add": "RRR", "sub": "RRR", "and": "RRR", "orr": "RRR", "eor": "RRR",
    "load8": "RRW", "load16": "RRW", "load32": "RRW", "store8": "RRW", "store16": "RRW", "store32": "RRW",
    "exec": "RW", "jump": "N", "jz": "RN", "jnz": "RN", "box_id": "R", "pages_alloc": "RR", "page_free": "R",
    "irq_on": "N", "irq_off": "N", "irq_return": "", "gw_read": "RN", "gw_write": "RN", "rpc_call": "RN",
    "rpc_sync": "NM", "rpc_take": "", "rpc_return": "R", "rpc_result": "RR", "halt": "",
}
BOUNDS = {"W": (0, 0xFFFFFFFF), "N": (0, 65535), "M": (1, 65535)}
KINDS = {"R": "a register, r0 to r7", "W": "a number from 0 to 4294967295", "N": "a number from 0 to 65535",
         "M": "a number from 1 to 65535"}
MOST = 256
NUMBER = re.compile(r"(?:0|[1-9][0-9]{0,9}|0x[0-9a-fA-F]{1,8})\Z", re.ASCII)
REGISTER = re.compile(r"r[0-7]\Z")
# What each memory instruction does, and how many bytes it reaches.
ACCESSES = {"load8": ("read", 1), "load16": ("read", 2), "load32": ("read", 4), "store8": ("write", 1),
            "store16": ("write", 2), "store32": ("write", 4), "exec": ("fetch", 2)}


@dataclass(frozen=True)
class Instruction:
    """An instruction word and its operands: registers by their numbers."""
    word: str
    operands: tuple

    def shown(self):
        """The one spelling in which `check` prints it."""
        spell = {"R": "r{}", "W": "0x{:08X}", "N": "{}", "M": "{}"}
        kinds = OPERANDS[self.word]
        return " ".join([self.word] + [spell[kind].format(value) for kind, value in zip(kinds, self.operands)])


class BadLine(Exception):
    """The first bad line of a program text, from 1, and the rule that it breaks."""

    def __init__(self, line, why):
        super().__init__(why)
        self.line = line
        self.why = why


def operand(kind, word):
    """The value of an operand, or None where the word is none of that kind."""
    if kind == "R":
        return int(word[1]) if REGISTER.match(word) else None
    if not NUMBER.match(word):
        return None
    value = int(word, 0)
    low, high = BOUNDS[kind]
    return value if low <= value <= high else None


def instruction(words, line):
    """The instruction of a line's words."""
    name, *given = words
    if name not in OPERANDS:
        raise BadLine(line, f"'{name}' is no instruction; the words are listed in docs/PROGRAMS.md")
    kinds = OPERANDS[name]
    if len(given) != len(kinds):
        wants = f"{len(kinds)} operand{'' if len(kinds) == 1 else 's'}"
        raise BadLine(line, f"'{name}' takes {wants}, and {len(given)} stand here")
    values = [operand(kind, word) for kind, word in zip(kinds, given)]
    if None in values:
        place = values.index(None)
        raise BadLine(line, f"operand {place + 1} of '{name}' is {KINDS[kinds[place]]}, and '{given[place]}' is none")
    return Instruction(name, tuple(values))


def assembled(text):
    """The instructions of a program text, each with its line from 1."""
    program = []
    for line, content in enumerate(text.split("\n"), 1):
        words = [word for word in re.split(r"[ \t\r]+", content.split(";", 1)[0]) if word]
        if not words:
            continue
        if len(program) == MOST:
            raise BadLine(line, f"a program has at most {MOST} instructions, and this is one more")
        program.append((line, instruction(words, line)))
    return program


def read_shown(text):
    """The instruction that a text shows, or None where it is not spelled as `check` spells one."""
    try:
        found = instruction(text.split(" "), 0)
    except BadLine:
        return None
    return found if found.shown() == text else None
