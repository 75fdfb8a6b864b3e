"""The one reader of the text that `check` writes."""
import re
from dataclasses import dataclass, field

from tools.entry import Wrong
from tools.programs import Instruction, read_shown
from tools.ranges import Range
from tools.refusals import read_refusal

NAME = r"[a-z][a-z0-9_]{0,15}"
NUMBER = r"(0|[1-9][0-9]{0,9})"
HEX = r"(0x[0-9A-F]{8})"
BOX = re.compile(rf"box ({NAME})")
ITEM = re.compile(rf"item (r|rw|rx|rwx) {HEX} {HEX}")
LINE = re.compile(rf"line {NUMBER} handler {NUMBER}")
SERVER = re.compile(rf"server {NUMBER}")
THREAD = re.compile(rf"thread ({NAME})\.{NUMBER} steps {NUMBER}")
PLACE = re.compile(rf"{NUMBER} (.+)")


@dataclass(frozen=True)
class Item:
    """A range that a box holds, with its rights."""
    rights: str
    range: Range


@dataclass
class CheckedThread:
    """A thread: its name, its budget and its program."""
    name: str
    steps: int
    program: list = field(default_factory=list)


@dataclass
class CheckedBox:
    """A box: its items in order, its lines with their handlers, its server and its threads."""
    name: str
    items: list = field(default_factory=list)
    lines: list = field(default_factory=list)
    server: int = 0
    threads: list = field(default_factory=list)

    def holding(self, address, size=1):
        """The items that hold these bytes."""
        return [item for item in self.items if item.range.holds(address, size)]


class CheckReader:
    """Reads the lines one after another, and refuses the first that may not stand where it stands."""

    def __init__(self, text, name):
        self.name = name
        self.lines = text.split("\n")
        self.at = 0

    def next(self, pattern):
        """What the pattern finds in the next line, which is taken; None where it is another line."""
        found = pattern.fullmatch(self.lines[self.at]) if self.at < len(self.lines) else None
        if found:
            self.at += 1
        return found

    def bad(self):
        """Refuses the next line."""
        raise Wrong(f"{self.name} is no text of 'check': line {self.at + 1} may not stand there")

    def boxes(self):
        """All boxes, up to the end of the text."""
        boxes = []
        while self.at < len(self.lines) - 1:
            boxes.append(self.box())
        if not boxes or self.at != len(self.lines) - 1 or self.lines[self.at] != "":
            self.bad()
        if len({box.name for box in boxes}) != len(boxes):
            raise Wrong(f"{self.name} is no text of 'check': two boxes have one name")
        return boxes

    def box(self):
        """The box that stands next."""
        found = self.next(BOX) or self.bad()
        box = CheckedBox(found[1])
        while found := self.next(ITEM):
            box.items.append(Item(found[1], Range(int(found[2], 16), int(found[3], 16))))
        while found := self.next(LINE):
            box.lines.append((int(found[1]), int(found[2])))
        found = self.next(SERVER) or self.bad()
        box.server = int(found[1])
        while found := self.next(THREAD):
            box.threads.append(self.thread(box, found))
        if not box.items or box.server >= len(box.threads):
            self.bad()
        return box

    def thread(self, box, found):
        """The program below a thread's line."""
        if found[1] != box.name or int(found[2]) != len(box.threads):
            self.at -= 1
            self.bad()
        thread = CheckedThread(f"{found[1]}.{found[2]}", int(found[3]))
        while found := self.next(PLACE):
            shown: Instruction | None = read_shown(found[2])
            if int(found[1]) != len(thread.program) or shown is None:
                self.at -= 1
                self.bad()
            thread.program.append(shown)
        return thread


def read_check(text, name):
    """The boxes of a text of `check`; the name is that of the text in refusals."""
    if text == "":
        raise Wrong(f"{name} is empty, and no text of 'check'")
    refusal = read_refusal(text)
    if refusal:
        raise Wrong(f"{name} is a refusal, and no text of 'check': {refusal.text}")
    return CheckReader(text, name).boxes()
