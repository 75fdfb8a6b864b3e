"""Causes of the refusals that come when all values are good: placing, grants, lines, gateways, programs and script."""
import re

from tools import placing
from tools.board_input import input_of
from tools.causes import Cause, Unplaced, child, element, said_hex, source
from tools.numbers import hexadecimal, of
from tools.programs import BadLine, assembled

THREAD = re.compile(r"([a-z][a-z0-9_]*)\.(0|[1-9][0-9]*)\Z", re.ASCII)
RING = re.compile(r"ring (0|[1-9][0-9]*)\Z", re.ASCII)


class Later:
    """A document whose values are all good, and its refusal."""

    def __init__(self, document, refusal):
        self.document = document
        self.refusal = refusal
        self.text = input_of(document.root)

    def box(self, which=0):
        """The number of a box that the refusal names."""
        return self.refusal.number("box", which)

    def node(self, *path):
        """The value below the document by keys and numbers."""
        node = self.document.root
        for key, number in zip(path[::2], path[1::2]):
            node = element(node, key, number)
        return child(node, path[-1]) if len(path) % 2 else node

    def owns(self):
        """The own memory of each box."""
        return placing.own_ranges(self.text.board, [box.size for box in self.text.boxes])

    def names(self):
        """The names of the boxes."""
        return [box.name for box in self.text.boxes]

    def grants(self, box):
        """The rounded grants of a box; None stands for one whose rule fails."""
        return [placing.rounded(grant.base, grant.length, grant.round) for grant in self.text.boxes[box].grants]

    def grant(self):
        """The grant that the refusal names: as written, rounded, and its place."""
        box, number = self.box(), self.refusal.number("grant")
        return self.text.boxes[box].grants[number], self.grants(box)[number], self.node("box", box, "grant", number)

    def line(self, offset):
        """The line of an offset."""
        return self.document.place(offset)[0]

    def no_room(self):
        """A box that does not fit into SRAM."""
        own = self.owns()[self.box()]
        limit = self.text.board.limit
        return Cause(self.node("box", self.box(), "size").start,
                     f"'size' asks for {said_hex(own)}, which would end past {hexadecimal(limit)}, where "
                     f"{'the heap begins' if self.text.board.heap else 'SRAM ends'}: make a box smaller, SRAM larger, "
                     "or place larger boxes first")

    def bad_grant(self):
        """A grant whose rounding rule fails."""
        grant, whole, node = self.grant()
        if whole is not None:
            raise Unplaced
        key, why = grant_fault(grant)
        return Cause(child(node, key).start, f"'{key}' of the grant {why}: move the grant, or choose another 'round'")

    def grant_outside(self):
        """A grant outside of the peripherals and the common part."""
        _, whole, node = self.grant()
        common = placing.common_part(self.text.board, self.owns())
        part = f"the common part of SRAM, {common.span()}" if common.length else "the common part of SRAM, which is empty here"
        return Cause(child(node, "base").start,
                     f"'base' and 'len' give {said_hex(whole)}, which is neither wholly in the peripherals, "
                     f"{self.text.board.peripherals.span()}, nor in {part}: move the grant")

    def self_overlap(self):
        """A grant that overlaps an earlier one of its box."""
        _, whole, node = self.grant()
        earlier = self.grants(self.box())[:self.refusal.number("grant")]
        number = next(place for place, other in enumerate(earlier) if other and other.overlaps(whole))
        return Cause(child(node, "base").start,
                     f"'base' and 'len' give {said_hex(whole)}, which overlaps grant {number} of the box, "
                     f"{said_hex(earlier[number])}: grant the range once")

    def clash(self):
        """Grants of two boxes that overlap."""
        first, second = self.box(0), self.box(1)
        for number, whole in enumerate(self.grants(second)):
            for other, earlier in enumerate(self.grants(first)):
                shared = self.text.boxes[second].grants[number].shared and self.text.boxes[first].grants[other].shared
                if whole and earlier and whole.overlaps(earlier) and not shared:
                    there = self.line(self.node("box", first, "grant", other).start)
                    ours = f"grant {number} of box '{self.names()[second]}' give {said_hex(whole)}"
                    theirs = f"grant {other} of box '{self.names()[first]}', {said_hex(earlier)} (line {there})"
                    return Cause(self.node("box", second, "grant", number, "base").start,
                                 f"'base' and 'len' of {ours}, which overlaps {theirs}: mark both 'shared = true', or move one")
        raise Unplaced

    def line_taken(self):
        """A line that was named earlier."""
        box, number = self.box(), self.refusal.number("irq")
        line = self.text.boxes[box].lines[number][0]
        earlier = [(place, other) for place, text in enumerate(self.text.boxes[:box + 1])
                   for other, (taken, _) in enumerate(text.lines) if taken == line and (place, other) < (box, number)]
        owner = self.names()[earlier[0][0]]
        return Cause(self.node("box", box, "irq", number, "line").start,
                     f"'line' is {line}, which box '{owner}' has already: a line belongs to one box, so choose another")

    def bad_gateway(self):
        """A register's address, or a name that is no box."""
        kind = self.refusal.place[0]
        number = self.refusal.number(kind)
        key = "boxes" if kind == "register" else "callers"
        if kind == "register":
            at = self.text.registers[number].at
            if at % 4 or not self.text.board.peripherals.holds(at, 4):
                return Cause(self.node(kind, number, "at").start,
                             f"'at' is a multiple of 4 in the peripherals, {self.text.board.peripherals.span()}, and this is "
                             f"{hexadecimal(at)}: write such an address")
        for name in self.node(kind, number, key).value:
            if name.value not in self.names():
                named = source(self.document, name)
                return Cause(name.start, f"'{key}' names {named}, and no box has that name: write the name of a box")
        raise Unplaced

    def no_server(self):
        """A gateway to no box."""
        node = self.node("gateway", self.refusal.number("gateway"), "box")
        return Cause(node.start, f"'box' is {source(self.document, node)}, and no box has that name: write the name of a box")

    def bad_program(self):
        """A bad line of a program."""
        number = self.refusal.number("line")
        node = self.node("box", self.box(), "thread", self.refusal.number("thread"), "program")
        lines = node.value.split("\n")
        if number > len(lines):
            raise Unplaced
        why = "which rule it breaks is not found by these tools"
        try:
            assembled(node.value)
        except BadLine as bad:
            why = bad.why if bad.line == number else why
        skipped = len(lines[number - 1]) - len(lines[number - 1].lstrip(" \t"))
        return Cause(node.lines[number - 1] + skipped, f"'program' has the line '{lines[number - 1].strip()}': {why}")

    def bad_device(self):
        """A ring of a line that no box owns."""
        owned = {line for box in self.text.boxes for line, _ in box.lines}
        for ring in self.node("device", self.refusal.number("device"), "rings").value:
            if ring.value not in owned:
                return Cause(ring.start, f"'rings' has {ring.value}, and no box has that line: add an 'irq' to a box, "
                                         "or drop the ring")
        raise Unplaced

    def bad_script(self):
        """A word of the script that is none."""
        node = self.node("script", self.refusal.number("script"))
        return Cause(node.start, f"'script' has {source(self.document, node)}: {self.script_fault(node.value)}")

    def script_fault(self, word):
        """Why a word is none of a script."""
        ring, thread = RING.match(word), THREAD.match(word)
        if ring:
            return f"no box has the line {ring[1]}; add an 'irq' to a box, or drop the word"
        if not thread:
            return "a word is the name of a box, '.' and a number, or 'ring', one space and a number, without leading zeros"
        box = next((box for box in self.text.boxes if box.name == thread[1]), None)
        if box is None:
            return f"no box is named '{thread[1]}'; the boxes are {', '.join(self.names())}"
        return f"box '{box.name}' has {of(len(box.threads), 'thread')}, numbered from 0; write one that it has"


def grant_fault(grant):
    """The key of a grant that is at fault, and why."""
    if grant.round == "none":
        if grant.length == 0 or grant.length % placing.BLOCK:
            return "len", f"is {hexadecimal(grant.length)}, and without rounding it is a multiple of 32 and not 0"
        return "base", f"is {hexadecimal(grant.base)}, and without rounding it is a multiple of 32"
    if grant.round == "up" and grant.length > 1 << 31:
        return "len", f"is {hexadecimal(grant.length)}, and what is rounded up is at most 0x80000000"
    if grant.round == "down" and grant.length < placing.BLOCK:
        return "len", f"is {hexadecimal(grant.length)}, and what is rounded down is at least 32"
    length = placing.rounded(0, grant.length, grant.round).length
    return "base", f"is {hexadecimal(grant.base)}, and no multiple of {hexadecimal(length)}, the length rounded {grant.round}"


LATER = {"NoRoom": Later.no_room, "BadGrant": Later.bad_grant, "GrantOutside": Later.grant_outside,
         "SelfOverlap": Later.self_overlap, "Clash": Later.clash, "LineTaken": Later.line_taken,
         "BadGateway": Later.bad_gateway, "NoServer": Later.no_server, "BadProgram": Later.bad_program,
         "BadDevice": Later.bad_device, "BadScript": Later.bad_script}
