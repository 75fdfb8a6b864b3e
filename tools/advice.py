"""Why an access was denied: who holds the address, how near the box's own ranges are, and which grant would allow it."""
from tools.board_input import MOST_GRANTS
from tools.numbers import hexadecimal
from tools.placing import BLOCK
from tools.ranges import Range
from tools.unit import NEEDS

LEAST = {"read": "r", "write": "rw", "fetch": "rx"}
ORDER = "rwx"
NEVER = "no grant allows it"


def holders(firmware, address, size=1):
    """The boxes that hold these bytes by an item: the box, the item, and the item's name."""
    return [(box, item, box.item_name(item)) for box in firmware.boxes for item in box.holding(address, size)]


def held_by(replay, address, size=1):
    """Who holds the bytes at this moment, in words."""
    firmware = replay.firmware
    frame = replay.frame(address)
    if frame is not None:
        return f"{hexadecimal(address)} is in page {frame} of the heap, which is {replay.shown_owner(frame)}"
    listed = [f"{box.name} with {item.rights} ({name})" for box, item, name in holders(firmware, address, size)]
    where = firmware.region(address)
    place = f"in {titled(where[0])}" if where else "in no part of the board"
    return f"{hexadecimal(address)} is {place}, and is held by {', '.join(listed) if listed else 'no box'}"


def titled(name):
    """The name of a part of the board with its article."""
    plain = {"secret": "the secret range", "SRAM": "SRAM, between boxes", "flash": "flash"}
    return plain.get(name, f"the {name}")


def nearest(replay, box, address, size):
    """The nearest range that the box holds, pages among them, in words."""
    ranges = [(item.range, item.rights, box.item_name(item)) for item in box.items]
    heap = replay.firmware.board.heap
    ranges += [(heap.frame(frame), "rw", f"its page {frame}") for frame, owner in enumerate(replay.owners) if owner == box.index]
    whole, rights, name = min(ranges, key=lambda found: found[0].distance(address, size))
    return f"the nearest range of {box.name} is {name}, {whole.span()} {rights}; the access is {whole.offset(address, size)}"


def advice(firmware, box, kind, address):
    """What would allow a denied access, in words."""
    where = firmware.region(address)
    name = where[0] if where else ""
    if name in ("peripherals", "common part"):
        return granted(firmware, box, kind, address)
    if name == "heap":
        if kind == "fetch":
            return f"{NEVER}: pages are read and written, and never executed"
        return f"{NEVER}: a page of the heap is given by pages_alloc alone"
    if name == "secret" and kind != "write":
        owner = next((other.name for other in firmware.boxes if other.owner), None)
        now = f"{owner} has it now" if owner else "no box has it now"
        return f"{NEVER}: the secret range is given to one box by 'secret = true', and {now}"
    if name in ("flash", "secret"):
        return f"{NEVER}: flash is read and executed, and never written"
    if name == f"own memory of {box.name}":
        return f"{NEVER}: own memory is read and written, and never executed"
    if name.startswith("own memory"):
        return f"{NEVER}: the own memory of a box is its alone; two boxes can share a range of the common part"
    return f"{NEVER}: a grant lies in the peripherals or in the common part of SRAM, and this address in neither"


def granted(firmware, box, kind, address):
    """The grant that allows an access to the peripherals or to the common part."""
    own = next((grant for grant in box.grants if grant.range.holds(address)), None)
    if own:
        rights = "".join(letter for letter in ORDER if letter in own.rights + NEEDS[kind])
        return f"grant {own.index} of {box.name} allows it with rights = \"{rights}\" in place of \"{own.rights}\""
    if len(box.grants) == MOST_GRANTS:
        return f"a grant could allow it, but {box.name} has {MOST_GRANTS} grants, and may have no more"
    block = Range(address - address % BLOCK, BLOCK)
    text = f"a grant of {box.name} allows it: base = {hexadecimal(block.base)}, len = 0x20, rights = \"{LEAST[kind]}\""
    others = [(other, grant) for other in firmware.boxes for grant in other.grants if grant.range.overlaps(block)]
    if not others:
        return text
    unshared = [f"grant {grant.index} of {other.name}" for other, grant in others if not grant.shared]
    return f"{text}, shared = true" + (f"; {' and '.join(unshared)} must then be shared too" if unshared else "")
