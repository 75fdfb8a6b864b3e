"""Which refusal of an input is due, by docs/INPUT.md: each kind is looked for in its order, and the first that is found counts.

Arrays and inline tables that lie too deep in one another are not looked for.
"""
import re

from tools import placing
from tools.board_input import input_of
from tools.later_causes import RING, THREAD
from tools.programs import BadLine, assembled
from tools.toml_document import BadText, Document

MOST_BYTES = 4194304
LAST_WORD = 0xFFFFFFFF
MOST_BANK = 1048576
BANKS_END = 0xE0000000
NAME = re.compile(r"[a-z][a-z0-9_]{0,15}\Z", re.ASCII)
REQUIRED = {"top": ("format", "board", "box"), "board": ("flash", "sram", "peripherals"), "heap": ("base", "page", "count"),
            "box": ("name", "size", "thread"), "thread": ("program",), "grant": ("base", "len", "rights"),
            "irq": ("line", "handler"), "register": ("at", "op", "boxes"), "gateway": ("box", "function", "callers"),
            "device": ("rings",)}
# How many elements a list may have.
MOST = {"top": {"box": 8, "register": 32, "gateway": 32, "device": 4, "script": 250_000}, "board": {"words": 64},
        "box": {"grant": 64, "irq": 64}, "register": {"boxes": 8}, "gateway": {"callers": 8}}
MOST_RING_WORDS, MOST_THREADS, MOST_STEPS, MOST_RINGS = 10_000, 16, 250_000, 10_000
DEFAULT_STEPS = 10_000


def number_within(low, high):
    """Whether a value is an integer between these two."""
    return lambda node: node.kind == "integer" and low <= node.value <= high


def one_of(*texts):
    """Whether a value is one of these strings."""
    return lambda node: node.kind == "string" and node.value in texts


def array_of(holds, least=0, most=None):
    """Whether a value is an array of such elements."""
    return lambda node: (node.kind == "array" and all(map(holds, node.value)) and len(node.value) >= least
                         and (most is None or len(node.value) <= most))


def is_table(node):
    """Whether a value is a table."""
    return node.kind == "table"


def is_string(node):
    """Whether a value is a string."""
    return node.kind == "string"


def is_boolean(node):
    """Whether a value is a boolean."""
    return node.kind == "boolean"


WORD = number_within(0, LAST_WORD)
PAIR = array_of(WORD, 2, 2)
TABLES, SOME_TABLES, STRINGS = array_of(is_table), array_of(is_table, 1), array_of(is_string)
VALUES = {
    "top": {"format": number_within(1, 1), "board": is_table, "box": SOME_TABLES, "register": TABLES, "gateway": TABLES,
            "device": TABLES, "script": STRINGS},
    "board": {"flash": PAIR, "sram": PAIR, "peripherals": PAIR, "secret": PAIR, "words": array_of(PAIR), "heap": is_table},
    "heap": {"base": WORD, "page": WORD, "count": WORD},
    "box": {"name": is_string, "size": number_within(1, 1048576), "secret": is_boolean, "server": number_within(0, 1 << 63),
            "thread": SOME_TABLES, "grant": TABLES, "irq": TABLES},
    "thread": {"program": is_string, "steps": number_within(1, 100_000)},
    "grant": {"base": WORD, "len": WORD, "rights": one_of("r", "rw", "rx", "rwx"), "round": one_of("none", "up", "down"),
              "shared": is_boolean},
    "irq": {"line": number_within(0, 63), "handler": number_within(0, 65535)},
    "register": {"at": WORD, "op": one_of("read", "read_and", "write", "and", "or", "xor", "replace"), "mask": WORD,
                 "boxes": STRINGS},
    "gateway": {"box": is_string, "function": WORD, "callers": STRINGS},
    "device": {"rings": array_of(number_within(0, 63))},
}


def elements(table, key):
    """The elements of an array with their numbers; none where there is no array."""
    node = table.value.get(key)
    return list(enumerate(node.value)) if node is not None and node.kind == "array" else []


def below(table, key, spot=""):
    """The tables among the elements of an array, with their places."""
    return [(f"{spot}{key} {number}", key, node) for number, node in elements(table, key) if is_table(node)]


def tables(root):
    """All tables in table order, with their places and their kinds."""
    listed = [("top", "top", root)]
    board = root.value.get("board")
    if board is not None and is_table(board):
        listed.append(("board", "board", board))
        heap = board.value.get("heap")
        listed += [("heap", "heap", heap)] if heap is not None and is_table(heap) else []
    for spot, kind, box in below(root, "box"):
        listed.append((spot, kind, box))
        for key in ("thread", "grant", "irq"):
            listed += below(box, key, f"{spot} ")
    return listed + [found for key in ("register", "gateway", "device") for found in below(root, key)]


def unknown_keys(root):
    """Tables with a key that is not listed."""
    return [f"UnknownKey {spot}" for spot, kind, table in tables(root) if set(table.value) - set(VALUES[kind])]


def missing_keys(root):
    """Keys that must be there."""
    return [f"MissingKey {spot} {key}" for spot, kind, table in tables(root) for key in REQUIRED[kind] if key not in table.value]


def bad_values(root):
    """Values of another type, or out of their range."""
    found, owners = [], 0
    has_secret = is_table(root.value["board"]) and "secret" in root.value["board"].value
    for spot, kind, table in tables(root):
        for key, holds in VALUES[kind].items():
            node = table.value.get(key)
            good = node is None or holds(node)
            if good and node is not None and (kind, key) == ("box", "secret") and node.value:
                good, owners = has_secret and owners == 0, owners + 1
            if good and node is not None and (kind, key) == ("box", "server") and table.value["thread"].kind == "array":
                good = node.value < len(table.value["thread"].value)
            if not good:
                found.append(f"BadValue {spot} {key}")
    return found


def length(table, key):
    """How many elements an array has; 0 where it is not there."""
    return len(elements(table, key))


def too_many(root):
    """Lists and sums that pass their limits."""
    found, threads, steps, rings = [], 0, 0, 0
    for spot, kind, table in tables(root):
        for key in VALUES[kind]:
            passed = length(table, key) > MOST.get(kind, {}).get(key, 1 << 64)
            if (kind, key) == ("top", "script"):
                passed = passed or sum(node.value.startswith("ring ") for _, node in elements(table, key)) > MOST_RING_WORDS
            elif (kind, key) == ("box", "thread"):
                threads += length(table, key)
                passed = threads > MOST_THREADS
            elif (kind, key) == ("thread", "steps"):
                steps += table.value[key].value if key in table.value else DEFAULT_STEPS
                passed = steps > MOST_STEPS
            elif (kind, key) == ("device", "rings"):
                rings += length(table, key)
                passed = rings > MOST_RINGS
            if passed:
                found.append(f"TooMany {spot} {key}")
    return found


SHAPES = (unknown_keys, missing_keys, bad_values, too_many)


def is_power(number):
    """Whether a number is a power of two."""
    return number > 0 and number & (number - 1) == 0


def is_bank(whole):
    """Whether a range may be SRAM or the peripherals, the others aside."""
    return whole.base % 32 == 0 and whole.length % 32 == 0 and 32 <= whole.length <= MOST_BANK and whole.end <= BANKS_END


def is_heap(heap, sram):
    """Whether a heap keeps its rule."""
    sizes = is_power(heap.page) and 32 <= heap.page <= 65536 and heap.count % 8 == 0 and 8 <= heap.count <= 256
    return sizes and heap.base % (8 * heap.page) == 0 and sram.contains(heap.range)


def bad_board(text):
    """Keys of the board whose rules are broken, as far as the earlier ones hold."""
    board = text.board
    flash, sram, peripherals, secret = board.flash, board.sram, board.peripherals, board.secret
    at = [address for address, _ in board.words]
    rules_kept = {
        "flash": (is_power(flash.length) and 32 <= flash.length <= MOST_BANK and flash.base % flash.length == 0
                  and flash.end <= BANKS_END),
        "sram": is_bank(sram) and not sram.overlaps(flash),
        "peripherals": is_bank(peripherals) and not peripherals.overlaps(flash) and not peripherals.overlaps(sram),
        "secret": secret is None or (is_power(secret.length) and secret.length >= 32 and secret.base % secret.length == 0
                                     and flash.contains(secret)),
        "words": len(set(at)) == len(at) and all(address % 4 == 0 and (flash.holds(address, 4) or peripherals.holds(address, 4))
                                                 for address in at),
        "heap": board.heap is None or is_heap(board.heap, sram)}
    return [f"BadBoard {key}" for key, kept in rules_kept.items() if not kept]


def bad_names(text):
    """Names that are none."""
    return [f"BadName box {number}" for number, box in enumerate(text.boxes) if not NAME.match(box.name)]


def names_twice(text):
    """Names that an earlier box has."""
    names = [box.name for box in text.boxes]
    return [f"TwiceNamed box {number}" for number, name in enumerate(names) if name in names[:number]]


def no_room(text):
    """Boxes that do not fit."""
    owns = placing.own_ranges(text.board, [box.size for box in text.boxes])
    return [f"NoRoom box {number}" for number, own in enumerate(owns) if own.end > text.board.limit]


def grants(text):
    """All grants: the numbers of the box and of the grant, as written, and rounded."""
    return [(number, place, grant, placing.rounded(grant.base, grant.length, grant.round))
            for number, box in enumerate(text.boxes) for place, grant in enumerate(box.grants)]


def bad_grants(text):
    """Grants whose rounding rule fails."""
    return [f"BadGrant box {box} grant {place}" for box, place, _, whole in grants(text) if whole is None]


def grants_outside(text):
    """Grants outside of the peripherals and the common part."""
    owns = placing.own_ranges(text.board, [box.size for box in text.boxes])
    parts = (text.board.peripherals, placing.common_part(text.board, owns))
    return [f"GrantOutside box {box} grant {place}" for box, place, _, whole in grants(text)
            if not any(part.contains(whole) for part in parts)]


def self_overlaps(text):
    """Grants that overlap an earlier one of their box."""
    listed = grants(text)
    return [f"SelfOverlap box {box} grant {place}" for box, place, _, whole in listed
            if any(other[0] == box and other[1] < place and other[3].overlaps(whole) for other in listed)]


def clashes(text):
    """Grants that overlap one of an earlier box, where not both are shared."""
    listed = grants(text)
    return [f"Clash box {earlier[0]} box {box}" for box, _, grant, whole in listed for earlier in listed
            if earlier[0] < box and earlier[3].overlaps(whole) and not (grant.shared and earlier[2].shared)]


def lines_taken(text):
    """Lines that were named earlier."""
    named = [(box, place, line) for box, one in enumerate(text.boxes) for place, (line, _) in enumerate(one.lines)]
    return [f"LineTaken box {box} irq {place}" for at, (box, place, line) in enumerate(named)
            if line in [earlier[2] for earlier in named[:at]]]


def bad_gateways(text):
    """Registers at a wrong address, and lists that name no box."""
    names = {box.name for box in text.boxes}
    found = [f"BadGateway register {number}" for number, gate in enumerate(text.registers)
             if gate.at % 4 or not text.board.peripherals.holds(gate.at, 4) or set(gate.boxes) - names]
    return found + [f"BadGateway gateway {number}" for number, gate in enumerate(text.gateways) if set(gate.callers) - names]


def no_servers(text):
    """Gateways to no box."""
    names = {box.name for box in text.boxes}
    return [f"NoServer gateway {number}" for number, gate in enumerate(text.gateways) if gate.box not in names]


def bad_programs(text):
    """Programs with a bad line."""
    found = []
    for number, box in enumerate(text.boxes):
        for place, thread in enumerate(box.threads):
            try:
                assembled(thread.program.value)
            except BadLine as bad:
                found.append(f"BadProgram box {number} thread {place} line {bad.line}")
    return found


def bad_devices(text):
    """Devices that ring a line which no box owns."""
    owned = {line for box in text.boxes for line, _ in box.lines}
    return [f"BadDevice device {number}" for number, rings in enumerate(text.devices) if set(rings) - owned]


def is_word(text, word):
    """Whether a word of the script is one."""
    ring, thread = RING.match(word), THREAD.match(word)
    if ring:
        return any(int(ring[1]) == line for box in text.boxes for line, _ in box.lines)
    return bool(thread) and any(box.name == thread[1] and int(thread[2]) < len(box.threads) for box in text.boxes)


def bad_words(text):
    """Words of the script that are none."""
    return [f"BadScript script {number}" for number, word in enumerate(text.script) if not is_word(text, word)]


LATER = (bad_board, bad_names, names_twice, no_room, bad_grants, grants_outside, self_overlaps, clashes, lines_taken,
         bad_gateways, no_servers, bad_programs, bad_devices, bad_words)


def first(looks, thing):
    """What the first of these looks finds, or None."""
    return next((found[0] for found in (look(thing) for look in looks) if found), None)


def due(content):
    """The words of the refusal that is due behind `refused`, or None for an input that is accepted."""
    if len(content) > MOST_BYTES:
        return "TooLong"
    try:
        root = Document(content.decode("utf-8")).root
    except (UnicodeDecodeError, BadText):
        return "NotToml"
    return first(SHAPES, root) or first(LATER, input_of(root))
