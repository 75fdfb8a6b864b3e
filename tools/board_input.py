"""The one reader of inputs that the program accepts: what they say, before anything is placed or rounded."""
from dataclasses import dataclass

from tools.ranges import Range
from tools.toml_document import Node

MOST_GRANTS = 64


@dataclass(frozen=True)
class Heap:
    """The heap of a board."""
    base: int
    page: int
    count: int

    @property
    def range(self):
        """All pages."""
        return Range(self.base, self.page * self.count)

    def frame(self, number):
        """The page with that number."""
        return Range(self.base + number * self.page, self.page)

    def number(self, address):
        """The number of the page that holds an address of the heap."""
        return (address - self.base) // self.page

    def runs(self, owners):
        """The runs of pages that have one owner, or none: the owner, the first page and the last, and their range."""
        starts = [number for number, owner in enumerate(owners) if number == 0 or owner != owners[number - 1]]
        return [(owners[first], first, following - 1, Range(self.frame(first).base, (following - first) * self.page))
                for first, following in zip(starts, starts[1:] + [len(owners)])]


@dataclass(frozen=True)
class Board:
    """The ranges of a board."""
    flash: Range
    sram: Range
    peripherals: Range
    secret: Range | None
    heap: Heap | None
    words: list

    @property
    def limit(self):
        """Where the part of SRAM ends in which boxes and the common part lie."""
        return self.heap.base if self.heap else self.sram.end


@dataclass(frozen=True)
class GrantText:
    """A grant as written."""
    base: int
    length: int
    rights: str
    round: str
    shared: bool


@dataclass(frozen=True)
class ThreadText:
    """A thread as written: the place and the lines of its program are those of the node."""
    program: Node
    steps: int


@dataclass(frozen=True)
class BoxText:
    """A box as written."""
    name: str
    size: int
    secret: bool
    server: int
    threads: list
    grants: list
    lines: list


@dataclass(frozen=True)
class RegisterText:
    """A register gateway as written."""
    at: int
    op: str
    mask: int
    boxes: list


@dataclass(frozen=True)
class GatewayText:
    """A call gateway as written."""
    box: str
    function: int
    callers: list


@dataclass(frozen=True)
class InputText:
    """A whole input as written."""
    board: Board
    boxes: list
    registers: list
    gateways: list
    devices: list
    script: list


def plain(table, key, default=None):
    """The value of a key without its places, or the default."""
    node = table.value.get(key)
    return default if node is None else node.plain()


def nodes(table, key):
    """The elements of an array, none where the key is not there."""
    node = table.value.get(key)
    return node.value if node is not None else []


def range_of(table, key):
    """The range of a key, or None."""
    pair = plain(table, key)
    return Range(*pair) if pair is not None else None


def board_of(table):
    """The board of its table."""
    heap = plain(table, "heap")
    return Board(range_of(table, "flash"), range_of(table, "sram"), range_of(table, "peripherals"),
                 range_of(table, "secret"), Heap(heap["base"], heap["page"], heap["count"]) if heap else None,
                 plain(table, "words", []))


def grant_of(table):
    """A grant of its table."""
    return GrantText(plain(table, "base"), plain(table, "len"), plain(table, "rights"),
                     plain(table, "round", "none"), plain(table, "shared", False))


def box_of(table):
    """A box of its table."""
    threads = [ThreadText(thread.value["program"], plain(thread, "steps", 10000)) for thread in nodes(table, "thread")]
    lines = [(plain(irq, "line"), plain(irq, "handler")) for irq in nodes(table, "irq")]
    return BoxText(plain(table, "name"), plain(table, "size"), plain(table, "secret", False), plain(table, "server", 0),
                   threads, [grant_of(grant) for grant in nodes(table, "grant")], lines)


def input_of(root):
    """An accepted input of its document's table."""
    registers = [RegisterText(plain(table, "at"), plain(table, "op"), plain(table, "mask", 0xFFFFFFFF), plain(table, "boxes"))
                 for table in nodes(root, "register")]
    gateways = [GatewayText(plain(table, "box"), plain(table, "function"), plain(table, "callers"))
                for table in nodes(root, "gateway")]
    return InputText(board_of(root.value["board"]), [box_of(table) for table in nodes(root, "box")], registers, gateways,
                     [plain(table, "rings") for table in nodes(root, "device")], plain(root, "script", []))
