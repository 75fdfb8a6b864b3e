"""Changes of a text of TOML, each made by chance: bytes, lines, values, keys, numbers, tables and words of the script."""
import re

NUMBER = re.compile(rb"(?<![\w.])(?:0x[0-9A-Fa-f]+|[0-9]+)(?!\w)")
PAIR = re.compile(rb"^([ \t]*[a-z]+[ \t]*=[ \t]*)([^\n]*)$", re.MULTILINE)
HEADER = re.compile(rb"^\[\[?[^\n]*$", re.MULTILINE)
SCRIPT = re.compile(rb"^script = \[([^\]]*)\]", re.MULTILINE)
WORD = re.compile(rb'"[^"\n]*"')
EDGES = [0, 1, 2, 7, 8, 15, 16, 17, 31, 32, 33, 63, 64, 65, 255, 256, 257, 10000, 65535, 65536, 99999, 100000, 100001, 250000,
         1048575, 1048576, 1048577, 1 << 31, (1 << 31) + 1, 0xDFFFFFE0, 0xE0000000, 0xFFFFFFE0, 0xFFFFFFFC, 0xFFFFFFFF, 1 << 32,
         (1 << 63) - 1, 1 << 63, 1 << 64]
VALUES = [b"2020-01-01", b"1979-05-27T07:32:00Z", b"07:32:00", b"[[1]]", b"[]", b"[[]]", b"{}", b"{ a = 1 }", b"-1", b"-0", b"0.0",
          b"1e3", b"inf", b"nan", b"true", b"false", b'""', b"''", b'"a"', b'"\\u0000"', b"[1, 'a']", b"[1, 2, 3]", b'["a", "a"]',
          b"0b101", b"0o17", b"1_000", b"01", b"+5", b"", b"=", b'"""', b"[[[[[[[[1]]]]]]]]", b"-9223372036854775808",
          b"[0x40000000, 0x20]", b"{ base = 0, page = 32, count = 8 }"]
KEYS = [b"format", b"board", b"box", b"script", b"flash", b"sram", b"secret", b"words", b"heap", b"name", b"size", b"server",
        b"thread", b"grant", b"irq", b"steps", b"shared", b"zz", b"pages", b"regions", b"unit", b"''", b'"a b"', b"a.b",
        b"box.name"]
LINES = [b"[board]", b"[[box]]", b"[[box.thread]]", b"[box]", b"[[board]]", b"[[device]]", b"[board.heap]", b"[a.b.c]", b"zz = 1",
         b"steps = 3", b"server = 1", b"secret = true", b"shared = true", b"# a comment", b'"""', b"'''", b"\r", b"\xef\xbb\xbf"]
BYTES = b"\x00\x09\x0a\x0b\x0d\x1f \"#'+-.0123456789=Ex[\\]_abr{}\x7f\x80\xc3\xff"


def spot(chance, text):
    """Some place in a text, its end too."""
    return chance.randrange(len(text) + 1)


def found(chance, pattern, text):
    """One of the places that a pattern finds, or None."""
    places = list(pattern.finditer(text))
    return chance.choice(places) if places else None


def in_place(text, place, new):
    """The text with something else at a place that a pattern found."""
    return text[:place.start()] + new + text[place.end():]


def change_byte(chance, text):
    """A byte is changed, added or dropped."""
    at = spot(chance, text)
    new = bytes([chance.choice(BYTES)]) if chance.random() < 0.7 else b""
    return text[:at] + new + text[at + chance.randrange(2):]


def cut(chance, text):
    """Only the beginning is left."""
    return text[:spot(chance, text)]


def change_line(chance, text):
    """A line is dropped, doubled, moved or added."""
    lines = text.split(b"\n")
    at, to = chance.randrange(len(lines)), chance.randrange(len(lines))
    how = chance.randrange(4)
    if how == 0:
        del lines[at]
    elif how == 1:
        lines.insert(at, lines[at])
    elif how == 2:
        lines.insert(to, lines.pop(at))
    else:
        lines.insert(at, chance.choice(LINES))
    return b"\n".join(lines)


def change_value(chance, text):
    """The value of a key becomes another, of a type that may be wrong."""
    place = found(chance, PAIR, text)
    return in_place(text, place, place[1] + chance.choice(VALUES)) if place else text


def change_key(chance, text):
    """A key becomes another, or goes with its value."""
    place = found(chance, PAIR, text)
    if place is None:
        return text
    return in_place(text, place, chance.choice([b"", chance.choice(KEYS) + b" = " + place[2]]))


def change_number(chance, text):
    """A number becomes one at an edge, or moves a little."""
    place = found(chance, NUMBER, text)
    if place is None:
        return text
    value = int(place[0], 0) if place[0].startswith(b"0x") else int(place[0])
    near = [value + 1, max(0, value - 1), value + 4, value ^ 32, value * 2, value // 2]
    new = chance.choice(near if chance.random() < 0.6 else EDGES)
    return in_place(text, place, chance.choice([b"%d", b"0x%X"]) % new)


def change_table(chance, text):
    """A table with its header is dropped, doubled or moved."""
    places = [place.start() for place in HEADER.finditer(text)] + [len(text)]
    if len(places) < 2:
        return text
    at = chance.randrange(len(places) - 1)
    table, rest = text[places[at]:places[at + 1]], text[:places[at]] + text[places[at + 1]:]
    how = chance.randrange(3)
    if how == 0:
        return rest
    to = chance.choice(places) if how == 1 else len(rest)
    return (text if how == 1 else rest)[:to] + b"\n" + table + b"\n" + (text if how == 1 else rest)[to:]


def change_script(chance, text):
    """The words of the script come in another order, and more often."""
    place = SCRIPT.search(text)
    words = WORD.findall(place[1]) if place else []
    if not words:
        return text
    made = chance.choices(words, k=chance.randrange(4 * len(words) + 8))
    made += [b'"ring %d"' % chance.choice([5, 37, 63])] * (chance.random() < 0.1)
    return in_place(text, place, b"script = [" + b", ".join(made) + b"]")


CHANGES = [change_byte, cut, change_line, change_value, change_value, change_key, change_number, change_number, change_table]
MILD = [change_script, change_script, change_number]


def mutated(chance, text):
    """A text with one change to three."""
    changes = chance.choices(MILD if chance.random() < 0.4 else CHANGES, k=chance.choice([1, 1, 2, 3]))
    for change in changes:
        text = change(chance, text)
    return text
