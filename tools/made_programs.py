"""Programs made of pieces that reach memory, take pages, call, serve and enable lines, and of any instruction at all."""
from dataclasses import dataclass

from tools.programs import ACCESSES, BOUNDS, MOST, OPERANDS

WORDS = [0, 1, 2, 3, 4, 16, 17, 0xFF, 0x100, 0x8000, 0xFFFF, 0x12345678, 0x7FFFFFFF, 0x80000000, 0xFFFFFFFC, 0xFFFFFFFF]
SMALL = [0, 1, 2, 3, 4, 5, 8, 31, 32, 63, 64, 255, 256, 65535]
LOCAL = ["set", "mov", "add", "sub", "and", "orr", "eor", "box_id"]
MOST_PIECES = 7


@dataclass(frozen=True)
class Reach:
    """What a program is made to reach: own memory, other addresses that its box holds, edges of what there is, and numbers of
    its lines, of its call gateways and of its register gateways by the word that goes through them."""
    own: list
    held: list
    edges: list
    lines: list
    calls: list
    registers: list
    serves: bool


class Maker:
    """Makes one program: what it may reach, and the instructions so far."""

    def __init__(self, chance, reach):
        self.chance = chance
        self.reach = reach
        self.made = []

    def add(self, word, *operands):
        """One more instruction; registers are given by their numbers."""
        self.made.append((word, operands))

    def register(self):
        """A register that is no table and no address of the pieces below."""
        return self.chance.randrange(8)

    def operand(self, kind):
        """An operand of any value."""
        if kind == "R":
            return self.register()
        low, high = BOUNDS[kind]
        reach = self.reach
        edges = WORDS + reach.edges + reach.held if kind == "W" else [*SMALL, len(self.made) + 1, *reach.lines]
        chosen = self.chance.choice(edges) if self.chance.random() < 0.8 else self.chance.randint(low, high)
        return min(max(chosen, low), high)

    def any(self):
        """One of all the instructions, with operands of any value."""
        word = self.chance.choice(list(OPERANDS))
        if word not in ("halt", "jump") or self.chance.random() < 0.2:
            self.add(word, *map(self.operand, OPERANDS[word]))

    def local(self):
        """Instructions on registers alone."""
        for _ in range(self.chance.randrange(1, 5)):
            word = self.chance.choice(LOCAL)
            self.add(word, *map(self.operand, OPERANDS[word]))

    def memory(self):
        """A store and loads in memory that the box holds."""
        self.add("set", 5, self.chance.choice(self.reach.own + self.reach.held))
        size = self.chance.choice([8, 16, 32])
        offset = self.chance.choice([0, 0, 4, 8]) if self.chance.random() < 0.95 else 1
        self.add(f"store{size}", self.register(), 5, offset)
        self.add(f"load{self.chance.choice([8, size])}", self.chance.randrange(5), 5, offset)

    def edge(self):
        """An access at an edge of what there is, which may be denied."""
        word = self.chance.choice(list(ACCESSES))
        size = ACCESSES[word][1]
        address = (self.chance.choice(self.reach.edges) + self.chance.choice([-size, -size, 0, 0, size, -1])) % (1 << 32)
        below = self.chance.choice([0, address % 256, address])
        self.add("set", 6, address - below)
        self.add(word, *([self.register()] if word != "exec" else []), 6, below)

    def pages(self):
        """Pages are taken, used, and perhaps given back."""
        self.add("set", 0, self.chance.choice([0, 1, 1, 1, 2, 3, 8, 16, 17]))
        near = self.reach.own if self.chance.random() < 0.8 else self.reach.edges
        self.add("set", 1, (self.chance.choice(near) - self.chance.choice([0, 0, 4])) % (1 << 32))
        self.add("pages_alloc", 0, 1)
        self.add("jnz", 7, len(self.made) + self.chance.choice([1, 5, 5]))
        self.add("load32", 2, 1, self.chance.choice([0, 0, 0, 4]))
        self.add("load32", 3, 2, 0)
        self.add("store32", 2, 2, self.chance.choice([0, 28]))
        self.add("page_free" if self.chance.random() < 0.6 else "box_id", self.chance.choice([2, 2, 2, 3]))

    def gateways(self):
        """Register gateways are read and written, also such as are not there."""
        for _ in range(self.chance.randrange(1, 4)):
            others = [(self.chance.choice(["gw_read", "gw_write"]), self.chance.randrange(9))]
            word, number = self.chance.choice(self.reach.registers * 2 + others)
            self.add(word, self.register(), number)

    def call(self):
        """A call, and a look for its result until it is there or given up."""
        self.add("set", self.chance.choice([0, 0, 1, 2, 3]), self.operand("W"))
        gateway, start = self.chance.choice(self.reach.calls * 3 + [self.chance.randrange(6)]), len(self.made)
        if self.chance.random() < 0.4:
            self.add("rpc_sync", gateway, self.chance.choice([1, 2, 3, 20, 65535]))
            return
        self.add("rpc_call", 4, gateway)
        self.add("rpc_result", 3, self.chance.choice([4, 4, 4, 4, 7, 0]))
        if self.chance.random() < 0.7:
            self.add("jnz", 7, start + self.chance.choice([0, 1, 1]))

    def serve(self):
        """A call is taken up and answered, and perhaps the next one."""
        start = len(self.made)
        self.add("rpc_take")
        self.add("jnz", 7, self.chance.choice([start, start, start + 4]))
        self.add("add", 0, 0, self.chance.choice([0, 1, 4, 5]))
        self.add("rpc_return", 0)
        if self.chance.random() < 0.5:
            self.add("jump", start)

    def interrupts(self):
        """A line of the box is enabled, or disabled."""
        number = self.chance.choice(self.reach.lines) if self.reach.lines else self.operand("N")
        self.add(self.chance.choice(["irq_on", "irq_on", "irq_off"]), number)

    def loop(self):
        """A jump to an earlier place."""
        place = self.chance.randrange(len(self.made) + 1)
        word = self.chance.choice(["jump", "jz", "jnz"])
        self.add(word, *([self.register()] if word != "jump" else []), place)


PIECES = [Maker.any, Maker.local, Maker.local, Maker.memory, Maker.memory, Maker.pages, Maker.pages, Maker.gateways,
          Maker.call, Maker.call, Maker.call, Maker.serve, Maker.interrupts, Maker.loop]
# These end a thread more often than not.
RARE = [Maker.edge, Maker.edge, Maker.any, Maker.serve]


def shown(chance, kind, value):
    """An operand as a program may write it."""
    if kind == "R":
        return f"r{value}"
    return chance.choice([str(value), f"0x{value:X}", f"0x{value:08x}"])


def line(chance, word, operands):
    """An instruction as a line, with spaces and a comment as they come."""
    words = [word] + [shown(chance, kind, value) for kind, value in zip(OPERANDS[word], operands)]
    before, between = chance.choice(["", "", " ", "\t"]), chance.choice([" ", " ", "  ", "\t"])
    return before + between.join(words) + chance.choice(["", "", "", " ; jump", ";", "\n", "\n  ; halt"])


def pieces(chance, maker):
    """Some pieces one after another, and perhaps a last one that often ends the thread."""
    for _ in range(chance.randrange(MOST_PIECES)):
        chance.choice(PIECES)(maker)
    if chance.random() < 0.4:
        chance.choice(RARE)(maker)


def program_of(chance, reach):
    """The text of a program, and places at which a handler may begin."""
    maker = Maker(chance, reach)
    if reach.lines and chance.random() < 0.8:
        maker.add("irq_on", chance.choice(reach.lines))
    if reach.serves and chance.random() < 0.7:
        maker.serve()
    elif reach.calls and chance.random() < 0.7:
        maker.call()
    pieces(chance, maker)
    if chance.random() < 0.9:
        back = chance.randrange(len(maker.made) + 1)
        maker.add(*chance.choice([("halt",), ("jump", 0), ("jump", 0), ("jump", back)]))
    handlers = [len(maker.made), len(maker.made), len(maker.made), chance.choice(SMALL)]
    if reach.lines:
        chance.choice([Maker.local, Maker.memory, Maker.any, Maker.interrupts, Maker.call])(maker)
        maker.add("irq_return")
    return "".join(line(chance, *made) + "\n" for made in maker.made[:MOST]), handlers
