"""An accepted input as a whole: its text joined with what `check` resolved it to. Where the two differ it is refused."""
from dataclasses import dataclass

from tools import placing
from tools.board_input import input_of
from tools.check_text import CheckedBox, Item, read_check
from tools.entry import Wrong
from tools.files import as_text, read_bytes
from tools.program import accepted
from tools.programs import BadLine, assembled
from tools.ranges import Range
from tools.toml_document import BadText, Document


@dataclass(frozen=True)
class Step:
    """An instruction of a program, and where it stands in the file."""
    instruction: object
    line: int
    column: int


@dataclass(frozen=True)
class Thread:
    """A thread: its box, its place in the box, its budget and its program."""
    name: str
    box: "Box"
    index: int
    steps: int
    program: list


@dataclass(frozen=True)
class Grant:
    """A grant with its rounded range."""
    index: int
    rights: str
    range: Range
    shared: bool


@dataclass(frozen=True, eq=False)
class Box:
    """A box as `check` resolved it, and the names of its items."""
    index: int
    name: str
    owner: bool
    server: int
    own: Range
    items: list
    grants: list
    lines: dict
    threads: list

    def holding(self, address, size=1):
        """The items that hold these bytes."""
        return [item for item in self.items if item.range.holds(address, size)]

    def item_name(self, item):
        """What an item is: flash, own memory, or a grant by its number."""
        place = next(place for place, other in enumerate(self.items) if other is item)
        before = len(self.items) - len(self.grants) - 1
        if place < before:
            return "flash"
        return "its own memory" if place == before else f"its grant {place - before - 1}"


class Firmware:
    """An accepted input."""

    def __init__(self, path, content, check):
        self.path = path
        self.content = content
        self.document = self.read_document()
        self.text = input_of(self.document.root)
        self.board = self.text.board
        owns = placing.own_ranges(self.board, [box.size for box in self.text.boxes])
        self.common = placing.common_part(self.board, owns)
        self.boxes = [self.box(index, own, checked) for index, (own, checked) in enumerate(zip(owns, check))]
        self.threads = {thread.name: thread for box in self.boxes for thread in box.threads}
        self.compare(check)

    def read_document(self):
        """The document of the input. That the program reads it is known here."""
        try:
            return Document(as_text(self.content, self.path))
        except BadText as bad:
            raise Wrong(f"{self.path} is accepted by the program, but these tools cannot read it: {bad.why}") from None

    def box(self, index, own, checked):
        """One box: its text joined with what `check` says of it."""
        text = self.text.boxes[index]
        grants = [Grant(number, grant.rights, placing.rounded(grant.base, grant.length, grant.round), grant.shared)
                  for number, grant in enumerate(text.grants)]
        box = Box(index, checked.name, text.secret, text.server, own, checked.items, grants, dict(text.lines), [])
        for number, thread in enumerate(text.threads):
            box.threads.append(Thread(f"{text.name}.{number}", box, number, thread.steps, self.program(thread.program)))
        return box

    def program(self, node):
        """The instructions of a program with their places in the file."""
        steps = []
        try:
            for line, instruction in assembled(node.value):
                steps.append(Step(instruction, *self.document.place(node.lines[line - 1])))
        except BadLine as bad:
            raise Wrong(f"{self.path} is accepted by the program, but these tools cannot read a program: {bad.why}") from None
        return steps

    def compare(self, check):
        """Refuses an input of which `check` says anything else than what is held here."""
        alike = len(check) == len(self.text.boxes)
        for text, box, checked in zip(self.text.boxes, self.boxes, check):
            alike = alike and text.name == checked.name and text.lines == checked.lines and text.server == checked.server
            alike = alike and checked.items == placing.items(self.board, text, box.own)
            programs = [(thread.name, thread.steps, [step.instruction for step in thread.program]) for thread in box.threads]
            alike = alike and programs == [(thread.name, thread.steps, thread.program) for thread in checked.threads]
        if not alike:
            raise Wrong(f"what 'check' says of {self.path} is not what these tools read in it; nothing is said of it")

    def box_named(self, name):
        """The box of that name, or None."""
        return next((box for box in self.boxes if box.name == name), None)

    def page_runs(self, owners):
        """The runs of pages that have one owner; the owners are the numbers of boxes, or None."""
        return self.board.heap.runs(owners) if self.board.heap else []

    def page_parts(self, owners):
        """The runs of pages as parts of the board, each with its name."""
        return [(f"heap page {first}" if first == last else f"heap pages {first} to {last}", whole)
                for _, first, last, whole in self.page_runs(owners)]

    def holders(self, owners):
        """What each box holds, its pages among it."""
        pages = [(owner, Item("rw", whole)) for owner, _, _, whole in self.page_runs(owners)]
        return [CheckedBox(box.name, box.items + [page for owner, page in pages if owner == box.index]) for box in self.boxes]

    def owner_shown(self, owner):
        """Who owns a page, in words."""
        return "free" if owner is None else f"owned by {self.boxes[owner].name}"

    def reaching(self, address):
        """The register gateways that reach an address, in words."""
        found = [(number, gate) for number, gate in enumerate(self.text.registers) if gate.at <= address < gate.at + 4]
        return [f"register gateway {number} ({gate.op}) reaches it for {', '.join(dict.fromkeys(gate.boxes)) or 'no box'}"
                for number, gate in found]

    def region(self, address):
        """Which part of the board holds an address: its name and its range, or None."""
        return next(((name, whole) for name, whole in self.regions() if whole.holds(address)), None)

    def regions(self):
        """The parts of the board with their names; a part within another comes first."""
        parts = [("secret", self.board.secret)] if self.board.secret else []
        parts.append(("flash", self.board.flash))
        parts += [(f"own memory of {box.name}", box.own) for box in self.boxes]
        if self.board.heap:
            parts.append(("heap", self.board.heap.range))
        if self.common.length:
            parts.append(("common part", self.common))
        return parts + [("SRAM", self.board.sram), ("peripherals", self.board.peripherals)]


def firmware_of(path):
    """The accepted input in a file."""
    content = read_bytes(path)
    text = accepted("check", content, path)
    return Firmware(path, content, read_check(text, f"what 'check' says of {path}"))
