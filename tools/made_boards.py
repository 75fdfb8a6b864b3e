"""Inputs made by the grammar of docs/INPUT.md: boards that are accepted, with programs of all instructions and a script."""
from dataclasses import replace

from tools.made_programs import Reach, program_of
from tools.numbers import power_up

FLASHES = [(0, 0x80000), (0x08000000, 0x100000), (0x1000, 0x1000), (0, 32)]
SRAMS = [(0x20000000, 0x20000), (0x20000000, 0x100000), (0x1FFFF000, 0x10000), (0x20000020, 0x8000)]
PERIPHERALS = [(0x40000000, 0x100000), (0x40000000, 0x20000), (0xDFF00000, 0x100000), (0x50000020, 0x4000)]
SIZES = [1, 100, 256, 257, 512, 1000, 2048]
OPERATIONS = ["read", "read_and", "write", "and", "or", "xor", "replace"]
MASKS = [0, 1, 0xFF, 0xFF00, 0x0F0F0F0F, 0x80000000, 0xFFFFFFFF]
VALUES = [0, 1, 0x41, 0x80, 0xFFFF, 0x12345678, 0x7FFFFFFF, 0x80000000, 0xFFFFFFFF]
BUDGETS = [1, 2, 5, 20, 50, 50, 200, 200, 1000, 1000, 10000]
LEAST_BOX = 256
MOST_THREADS = 16


def secret_of(chance, flash):
    """A part of flash that one box alone holds: its lowest, its highest or all of it; or none."""
    base, length = flash
    part = max(32, length >> chance.choice([0, 1, 2, 3, 5]))
    return chance.choice([None, [base, part], [base + length - part, part]])


def heap_of(chance, sram):
    """A heap in the upper half of SRAM, or none."""
    base, length = sram
    page, count = chance.choice([32, 64, 256, 1024]), chance.choice([8, 8, 16, 64])
    start = -(-(base + length // 2) // (8 * page)) * 8 * page
    if chance.random() < 0.3 or start + page * count > base + length:
        return None
    return {"base": start, "page": page, "count": count}


def words_of(chance, ranges):
    """Some words of flash and of the peripherals, each once."""
    edges = [base + offset for base, length in ranges for offset in (0, 4, length // 2, length - 4)]
    chosen = chance.sample(sorted(set(edges)), chance.randrange(len(set(edges))))
    return [[address, chance.choice(VALUES)] for address in chosen]


def board_of(chance):
    """The table of a board."""
    flash, sram, peripherals = chance.choice(FLASHES), chance.choice(SRAMS), chance.choice(PERIPHERALS)
    board = {"flash": list(flash), "sram": list(sram), "peripherals": list(peripherals)}
    secret, heap = secret_of(chance, flash), heap_of(chance, sram)
    board.update({"secret": secret} if secret else {})
    words = words_of(chance, [flash, peripherals])
    board.update({"words": words} if words else {})
    board.update({"heap": heap} if heap else {})
    return board


def owns_of(board, sizes):
    """Where boxes of these sizes lie, as many as there is room for."""
    limit = board["heap"]["base"] if "heap" in board else sum(board["sram"])
    owns, end = [], board["sram"][0]
    for size in sizes:
        length = max(LEAST_BOX, power_up(size))
        base = -(-end // length) * length
        if base + length > limit - 1024:
            break
        owns.append((base, length))
        end = base + length
    return owns


def grant_of(chance, base, length, shared):
    """A grant of a block, with one of the three roundings."""
    grant = {"base": base, "len": length, "rights": chance.choice(["r", "rw", "rw", "rx", "rwx"])}
    how = chance.choice(["none", "up", "down"]) if length & (length - 1) == 0 and base % length == 0 else "none"
    if how == "up":
        grant["len"] = length - chance.randrange(length // 2)
    elif how == "down":
        grant["len"] = length + chance.randrange(length)
    if how != "none" or chance.random() < 0.3:
        grant["round"] = how
    if shared:
        grant["shared"] = True
    return grant


def grants_of(chance, board, index, common):
    """Grants in a part of the peripherals that is one box's alone, and perhaps one of the common part that is shared."""
    base, length = board["peripherals"]
    block = length // 16
    start = base + block * 2 * index
    grants = []
    for place in range(chance.choice([0, 1, 1, 2, 7])):
        part = max(32, block // 8)
        size = chance.choice([32, 64, part, part // 64 * 32 or 32])
        grants.append(grant_of(chance, start + part * place, min(size, part), chance.random() < 0.1))
    if chance.random() < 0.5:
        grants.append({"base": -(-common // 32) * 32, "len": chance.choice([32, 64, 96]),
                       "rights": chance.choice(["r", "rw"]), "shared": True})
    return grants


def registers_of(chance, board, names):
    """Register gateways."""
    base, length = board["peripherals"]
    return [{"at": base + chance.choice([0, 4, 0x20, length - 4]), "op": chance.choice(OPERATIONS),
             **({"mask": chance.choice(MASKS)} if chance.random() < 0.7 else {}),
             "boxes": chance.choices(names, k=chance.randrange(5))} for _ in range(chance.choice([0, 2, 7, 7]))]


def gateways_of(chance, names):
    """Call gateways."""
    return [{"box": chance.choice(names), "function": chance.choice(VALUES),
             "callers": chance.choices(names, k=chance.choice([0, 1, 2, 4, 8]))} for _ in range(chance.choice([0, 1, 3, 5, 5]))]


def script_of(chance, names, lines):
    """Words of a script: threads in stretches and mixed, and rings."""
    words = []
    for _ in range(chance.choice([0, 5, 30, 30])):
        if lines and chance.random() < 0.2:
            words.append(f"ring {chance.choice(lines)}")
        words += [chance.choice(names)] * chance.choice([1, 1, 2, 9])
        words += chance.choices(names, k=chance.randrange(6))
    return words


def box_of(chance, index, board, size, lines, reach):
    """A box with its threads, its lines and its grants; programs come later, since they name all boxes' gateways."""
    box = {"name": chance.choice(["b", "box_", "z9_"]) + str(index), "size": size}
    threads = chance.choice([1, 1, 2, 3])
    box["thread"] = [{"steps": chance.choice(BUDGETS)} if chance.random() < 0.8 else {} for _ in range(threads)]
    if threads > 1 and chance.random() < 0.6:
        box["server"] = chance.randrange(threads)
    grants = grants_of(chance, board, index, reach["common"])
    box.update({"grant": grants} if grants else {})
    own_lines = [lines.pop() for _ in range(chance.choice([0, 0, 1, 3]))]
    box.update({"irq": [{"line": line, "handler": 0} for line in own_lines]} if own_lines else {})
    return box


def reach_of(board, owns):
    """The addresses that programs reach for: bases and ends of what there is."""
    ranges = [*(board[key] for key in ("flash", "sram", "peripherals")), *owns]
    ranges += [board["secret"]] if "secret" in board else []
    heap = board.get("heap")
    ranges += [(heap["base"], heap["page"]), (heap["base"] + heap["page"], heap["page"] * heap["count"])] if heap else []
    return {"common": sum(owns[-1]), "edges": [edge for base, length in ranges for edge in (base, base + length)]}


def reach_of_box(document, box, own, edges):
    """What the programs of a box are made to reach."""
    grants = [grant["base"] for grant in box.get("grant", [])]
    calls = [number for number, gate in enumerate(document.get("gateway", [])) if box["name"] in gate["callers"]]
    registers = [("gw_read" if gate["op"].startswith("read") else "gw_write", number)
                 for number, gate in enumerate(document.get("register", [])) if box["name"] in gate["boxes"]]
    lines = [irq["line"] for irq in box.get("irq", [])]
    return Reach([own[0], own[0] + 64, own[0] + own[1] - 16], grants, edges + grants, lines, calls, registers, False)


def fill(chance, document, owns, edges):
    """Writes the programs of all threads, with the handlers of their lines."""
    for box, own in zip(document["box"], owns):
        reach = reach_of_box(document, box, own, edges)
        for place, thread in enumerate(box["thread"]):
            text, handlers = program_of(chance, replace(reach, serves=place == box.get("server", 0)))
            thread["program"] = text
            if place == 0:
                for irq in box.get("irq", []):
                    irq["handler"] = chance.choice(handlers)


def document_of(chance):
    """A whole document that is accepted, as tables."""
    board = board_of(chance)
    sizes = [chance.choice(SIZES) for _ in range(chance.randrange(1, 9))]
    owns = owns_of(board, sizes)
    sizes = sizes[:len(owns)]
    lines = chance.sample(range(64), 64)
    reach = reach_of(board, owns)
    boxes = [box_of(chance, index, board, size, lines, reach) for index, size in enumerate(sizes)]
    while sum(len(box["thread"]) for box in boxes) > MOST_THREADS:
        boxes.pop()
    if "secret" in board and chance.random() < 0.7:
        chance.choice(boxes)["secret"] = True
    names = [box["name"] for box in boxes]
    threads = [f"{box['name']}.{place}" for box in boxes for place in range(len(box["thread"]))]
    owned = [irq["line"] for box in boxes for irq in box.get("irq", [])]
    document = {"format": 1, "script": script_of(chance, threads, owned), "board": board, "box": boxes}
    for key, listed in (("register", registers_of(chance, board, names)), ("gateway", gateways_of(chance, names))):
        document.update({key: listed} if listed else {})
    if owned and chance.random() < 0.5:
        document["device"] = [{"rings": chance.choices(owned, k=chance.randrange(4))} for _ in range(chance.randrange(1, 5))]
    fill(chance, document, owns, reach["edges"])
    return document


def number(chance, value):
    """A number in one of its spellings."""
    return chance.choice([str(value), f"0x{value:X}", f"0x{value:08x}", f"0b{value:b}", f"0o{value:o}"])


def value(chance, thing):
    """A value as it stands behind `=`."""
    if isinstance(thing, bool):
        return str(thing).lower()
    if isinstance(thing, int):
        return number(chance, thing)
    if isinstance(thing, str):
        return '"' + thing.replace("\n", "\\n") + '"'
    if isinstance(thing, list):
        return "[" + ", ".join(value(chance, element) for element in thing) + "]"
    return "{ " + ", ".join(f"{key} = {value(chance, inner)}" for key, inner in thing.items()) + " }"


def pair(chance, key, thing):
    """A key with its value as a line."""
    if key == "program":
        return f'program = """\n{thing}"""\n'
    return f"{key} = {value(chance, thing)}\n"


def tables(chance, name, listed):
    """Tables under headers, each with its own tables below it."""
    text = ""
    for table in listed:
        inner = [key for key in ("thread", "grant", "irq") if isinstance(table.get(key), list)]
        text += f"\n[[{name}]]\n" + "".join(pair(chance, key, thing) for key, thing in table.items() if key not in inner)
        text += "".join(tables(chance, f"{name}.{key}", table[key]) for key in inner)
    return text


def spelled(chance, document):
    """The text of a document: tables under headers, or each of them in one line."""
    if chance.random() < 0.15:
        return "".join(pair(chance, key, thing) for key, thing in document.items())
    listed = [key for key in ("box", "register", "gateway", "device") if key in document]
    text = "".join(pair(chance, key, thing) for key, thing in document.items() if key not in ("board", *listed))
    text += "\n[board]\n" + "".join(pair(chance, key, thing) for key, thing in document["board"].items())
    return text + "".join(tables(chance, key, document[key]) for key in listed)
