"""The protection unit: what its register pairs mean, which slot decides, and how the slots change."""
from dataclasses import dataclass

from tools import placing
from tools.numbers import hexadecimal
from tools.ranges import Range

SLOTS = 8
CIRCLE = range(2, 7)
ATTRIBUTES = {"rx": 0x06000001, "rw": 0x13000001, "r": 0x16000001, "rwx": 0x03000001, "none": 0x10000001}
GIVES = {0: "", 1: "", 2: "r", 3: "rw", 5: "", 6: "r", 7: "r"}
NEEDS = {"read": "r", "write": "w", "fetch": "x"}
GROUP = 8
SUBREGIONS = 8
SMALLEST_SPLIT = 256


@dataclass(frozen=True)
class Pair:
    """A register pair: the base, and the attributes and the size."""
    rbar: int
    rasr: int

    @property
    def range(self):
        """All bytes of the region."""
        return Range(self.rbar, 1 << (((self.rasr >> 1) & 31) + 1))

    @property
    def enabled(self):
        """Whether the region counts at all."""
        return bool(self.rasr & 1)

    @property
    def rights(self):
        """What the region gives: `none` where nothing."""
        given = GIVES.get((self.rasr >> 24) & 7, "")
        fetched = "x" if "r" in given and not (self.rasr >> 28) & 1 else ""
        return given + fetched or "none"

    @property
    def without(self):
        """The subregions that are disabled."""
        return [number for number in range(SUBREGIONS) if (self.rasr >> (8 + number)) & 1]

    def matches(self, address):
        """Whether the region decides on an address, where no higher one does."""
        if not self.enabled or not self.range.holds(address):
            return False
        if self.range.length < SMALLEST_SPLIT:
            return True
        return (address - self.rbar) // (self.range.length // SUBREGIONS) not in self.without

    def serves(self, address, kind):
        """Whether the region, taken alone, grants an access."""
        return self.matches(address) and NEEDS[kind] in self.rights

    def shown(self):
        """The region in words."""
        off = f" without subregions {' '.join(map(str, self.without))}" if self.without else ""
        return f"{hexadecimal(self.rbar)} {self.range.length} bytes {self.rights}{off}"


DISABLED = Pair(0, 0)


def pair(whole, rights, disabled=0):
    """The pair of a range that one region covers."""
    return Pair(whole.base, ATTRIBUTES[rights] | (whole.length.bit_length() - 2) << 1 | disabled << 8)


class Unit:
    """The eight slots, the circle, and the box that they were loaded for."""

    def __init__(self, firmware):
        self.firmware = firmware
        self.slots = [DISABLED] * SLOTS
        self.circle = CIRCLE.start
        self.box = None

    def switch(self, box):
        """The slots of a box."""
        board = self.firmware.board
        self.box = box
        hidden = pair(board.secret, "none") if board.secret and not box.owner else DISABLED
        self.slots = [pair(board.flash, "rx"), pair(box.own, "rw")] + [DISABLED] * len(CIRCLE) + [hidden]
        self.circle = CIRCLE.start

    def rotate(self, slot, loaded):
        """Loads a pair into the circle's slot."""
        self.slots[slot] = loaded
        self.circle = slot + 1 if slot + 1 in CIRCLE else CIRCLE.start

    def flush(self):
        """Empties the slots of the circle."""
        for slot in CIRCLE:
            self.slots[slot] = DISABLED
        self.circle = CIRCLE.start

    def matching(self, address):
        """The highest slot that matches an address, or None."""
        return next((slot for slot in reversed(range(SLOTS)) if self.slots[slot].matches(address)), None)

    def decided(self, address, kind):
        """The slot that grants an access, or None."""
        slot = self.matching(address)
        return slot if slot is not None and NEEDS[kind] in self.slots[slot].rights else None

    def shown(self):
        """The slots, one line each."""
        return [f"slot {slot} {loaded.shown() if loaded.enabled else 'disabled'}" for slot, loaded in enumerate(self.slots)]


def group_pairs(heap, owners, index):
    """The pairs of the page groups in which a box owns a page, with the numbers of the groups."""
    pairs = []
    for group in range(heap.count // GROUP) if heap else ():
        owned = [owners[group * GROUP + number] == index for number in range(GROUP)]
        if any(owned):
            off = sum(1 << number for number, own in enumerate(owned) if not own)
            whole = Range(heap.base + group * GROUP * heap.page, GROUP * heap.page)
            pairs.append((f"pages of group {group}", pair(whole, "rw", off)))
    return pairs


def plan(firmware, box, owners):
    """The pairs that may rotate in for a box, each with the name of what it is for."""
    pairs = []
    for grant in box.grants:
        pairs += [(f"grant {grant.index}", pair(block, grant.rights)) for block in placing.cover(grant.range)]
    return pairs + group_pairs(firmware.board.heap, owners, box.index)
