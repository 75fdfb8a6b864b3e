"""Boards made from numbers: one board in several spellings, with programs that reach for edges of what they hold."""
import random

SPELLINGS = ("headers", "inline", "dotted", "mixed")


def number(value, chance):
    """A number in one of the spellings that TOML has."""
    spelled = [str(value), f"0x{value:x}", f"0x{value:08X}", f"0b{value:b}", f"0o{value:o}"]
    if value >= 1000:
        spelled.append(f"{value:_}")
    return chance.choice(spelled)


def string(value, chance):
    """A string in one of the spellings of one line."""
    escaped = value.replace("\n", "\\n")
    if "\n" in value:
        return f'"{escaped}"'
    return chance.choice([f'"{value}"', f"'{value}'", '"""' + value + '"""', f'"\\u{ord(value[0]):04x}{value[1:]}"'])


def value(thing, chance):
    """A value as an inline one."""
    if isinstance(thing, bool):
        return str(thing).lower()
    if isinstance(thing, int):
        return number(thing, chance)
    if isinstance(thing, str):
        return string(thing, chance)
    if isinstance(thing, list):
        return "[" + chance.choice([", ", ",", " , "]).join(value(element, chance) for element in thing) + "]"
    return "{ " + ", ".join(f"{key} = {value(inner, chance)}" for key, inner in thing.items()) + " }"


def comment(chance):
    """A comment line, or none."""
    return chance.choice(["", "", "# a = [comment]\n", "   # 'quotes\" and [brackets\n"])


def pairs(table, chance, prefix=""):
    """The keys of a table, one a line."""
    return "".join(f"{comment(chance)}{prefix}{key} = {value(inner, chance)}{chance.choice(['', ' # = 1'])}\n"
                   for key, inner in table.items())


def program_lines(program):
    """A program as a text of several lines."""
    return '"""\n' + program + '"""'


def box_headers(box, chance):
    """A box by headers."""
    text = "[[box]]\n" + pairs({key: inner for key, inner in box.items() if not isinstance(inner, list)}, chance)
    for thread in box["thread"]:
        text += f"[[box.thread]]\nsteps = {number(thread['steps'], chance)}\nprogram = {program_lines(thread['program'])}\n"
    for key in ("grant", "irq"):
        for table in box.get(key, []):
            text += f"[[ box . {key} ]]\n" + pairs(table, chance)
    return text


def spelled(board, spelling, chance):
    """The text of a board in a spelling."""
    top = {key: inner for key, inner in board.items() if key not in ("board", "box")}
    if spelling == "inline":
        return pairs({**top, "board": board["board"], "box": board["box"]}, chance)
    if spelling == "dotted":
        dotted = "".join(f"board.{key} = {value(inner, chance)}\n" for key, inner in board["board"].items())
        return pairs(top, chance) + dotted + pairs({"box": board["box"]}, chance)
    if spelling == "headers":
        head = pairs(top, chance) + "[board]\n" + pairs(board["board"], chance)
    else:
        head = "board = " + value(board["board"], chance) + "\n" + pairs(top, chance)
    return head + "".join(box_headers(box, chance) for box in board["box"])


def power_up(size):
    """The least power of two at or above a size."""
    return 1 << (size - 1).bit_length()


def placed(sizes, base):
    """Where boxes of these sizes lie."""
    ranges = []
    for size in sizes:
        length = max(256, power_up(size))
        base = (base + length - 1) // length * length
        ranges.append((base, length))
        base += length
    return ranges


def grants_of(chance, block, common):
    """Some grants in a block of the peripherals that is one box's alone, and perhaps one of the common part."""
    grants = []
    base = block
    for _ in range(chance.randrange(4)):
        how = chance.choice(["none", "up", "down"])
        length = chance.choice([32, 64, 96, 224, 256, 4096])
        base = (base + 4095) // 4096 * 4096
        grant = {"base": base + (32 if how == "none" and length < 4096 else 0),
                 "len": length + (0 if how == "none" else chance.randrange(16)),
                 "rights": chance.choice(["r", "rw", "rx", "rwx"])}
        if how != "none" or chance.random() < 0.3:
            grant["round"] = how
        grants.append(grant)
        base += 8192 * 2
    if chance.random() < 0.5:
        grants.append({"base": common, "len": 32, "rights": chance.choice(["r", "rw"]), "shared": True})
    return grants


def program_of(chance, edges, small):
    """A program that reaches for the edges of ranges."""
    lines = []
    for _ in range(chance.randrange(1, 9)):
        edge = chance.choice(edges)
        size = chance.choice([1, 2, 4])
        at = max(0, edge + chance.choice([-size, 0, 0, size, 64])) & 0xFFFFFFFF
        base = at & ~0xFF
        lines.append(f"set r{chance.randrange(7)} 0x{base:X}")
        register = lines[-1].split()[1]
        word = chance.choice([f"load{8 * size} r7", f"store{8 * size} r6", "exec"])
        lines.append(f"{word} {register} 0x{at - base:x}" + chance.choice(["", "   ; an edge"]))
    lines += [chance.choice(["halt", "jump 0", "jz r5 1", "box_id r3" if small else "eor r1 r1 r1"])]
    return "\n".join(lines) + "\n"


def board_of(seed):
    """A board made from a number: always one that is accepted."""
    chance = random.Random(seed)
    sizes = [chance.choice([1, 100, 256, 257, 1000, 4096]) for _ in range(chance.randrange(1, 6))]
    board = {"flash": [0, 0x80000], "sram": [0x20000000, 0x20000], "peripherals": [0x40000000, 0x100000]}
    if chance.random() < 0.6:
        board["secret"] = chance.choice([[0x70000, 0x10000], [0, 0x20], [0x40000, 0x8000], [0, 0x80000]])
    if chance.random() < 0.4:
        board["heap"] = {"base": 0x20010000, "page": 1024, "count": 16}
    own = placed(sizes, 0x20000000)
    common = sum(own[-1])
    edges = [0x80000, 0x20000000, 0x40000000, 0x40100000, common, *board.get("secret", [])[:1], *(base for base, _ in own)]
    owner = chance.randrange(len(sizes) + 1) if "secret" in board else len(sizes)
    boxes = []
    for place, size in enumerate(sizes):
        grants = grants_of(chance, 0x40000000 + place * 0x20000, common)
        reach = edges + [grant["base"] for grant in grants] + [grant["base"] + grant["len"] for grant in grants]
        threads = [{"program": program_of(chance, reach, False), "steps": chance.choice([3, 50, 1000])}
                   for _ in range(chance.choice([1, 1, 2]))]
        box = {"name": f"b{place}", "size": size, **({"secret": True} if place == owner else {}), "thread": threads}
        boxes.append({**box, **({"grant": grants} if grants else {})})
    names = [f"b{place}.{thread}" for place, box in enumerate(boxes) for thread in range(len(box["thread"]))]
    script = [chance.choice(names) for _ in range(chance.randrange(60))]
    return {"format": 1, "script": script, "board": board, "box": boxes}
