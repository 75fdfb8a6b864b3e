"""The values of a TOML 1.1 text, each with the place where it stands.

Python's own `tomllib` reads TOML 1.0 and keeps no places; the program reads TOML 1.1, and `lint` needs places.
"""
import re
from bisect import bisect_right

SPACE = re.compile(r"[ \t]*")
COMMENT = re.compile(r"#[^\x00-\x08\x0a-\x1f\x7f]*")
NEWLINE = re.compile(r"\r?\n")
BARE_KEY = re.compile(r"[A-Za-z0-9_-]+")
PLAIN = re.compile(r"[^\"\\\x00-\x08\x0a-\x1f\x7f]+")
PLAIN_LINES = re.compile(r"(?:[^\"\\\x00-\x08\x0b-\x1f\x7f]|\r\n)+")
LITERAL = re.compile(r"[^'\x00-\x08\x0a-\x1f\x7f]*")
LITERAL_LINES = re.compile(r"(?:[^'\x00-\x08\x0b-\x1f\x7f]|\r\n)+")
CONTINUED = re.compile(r"\\[ \t]*\r?\n(?:[ \t\n]|\r\n)*")
ESCAPE = re.compile(r"\\(?:([btnfre\"\\])|x([0-9a-fA-F]{2})|u([0-9a-fA-F]{4})|U([0-9a-fA-F]{8}))")
LONGEST = 200
SHORT = {"b": "\b", "t": "\t", "n": "\n", "f": "\f", "r": "\r", "e": "\x1b", '"': '"', "\\": "\\"}
SCALAR = re.compile(r"[0-9A-Za-z_+.:-]+")
INTEGER = re.compile(r"(?:[+-]?(?:0|[1-9](?:_?[0-9])*)|0x[0-9a-fA-F](?:_?[0-9a-fA-F])*|0o[0-7](?:_?[0-7])*|0b[01](?:_?[01])*)\Z")
FLOAT = re.compile(r"[+-]?(?:inf|nan|(?:0|[1-9](?:_?[0-9])*)(?:\.[0-9](?:_?[0-9])*)?(?:[eE][+-]?[0-9](?:_?[0-9])*)?)\Z")
TIME = r"[0-9]{2}:[0-9]{2}(?::[0-9]{2}(?:\.[0-9]+)?)?"
DATE = re.compile(r"[0-9]{4}-[0-9]{2}-[0-9]{2}(?:[Tt ]" + TIME + r"(?:[Zz]|[+-][0-9]{2}:[0-9]{2})?)?|" + TIME)


class BadText(Exception):
    """The text is no TOML document, at this offset."""

    def __init__(self, offset, why):
        super().__init__(why)
        self.offset = offset
        self.why = why


class Node:
    """A value: its kind, what it holds, and from which offset to which it stands.

    Kinds are table, array, string, integer, boolean and other. A table has the offsets of its keys in `keys`; a
    string has in `lines` the offset at which each of its lines begins.
    """

    def __init__(self, kind, value, start, end=None):
        self.kind = kind
        self.value = value
        self.start = start
        self.end = start if end is None else end
        self.keys = {}
        self.lines = []
        self.made_by = kind

    def plain(self):
        """The value without its places."""
        if self.kind == "table":
            return {name: node.plain() for name, node in self.value.items()}
        if self.kind == "array":
            return [node.plain() for node in self.value]
        return self.value


class Lines:
    """Lines and columns of the offsets of a text, both from 1."""

    def __init__(self, text):
        self.starts = [0] + [found.end() for found in re.finditer("\n", text)]

    def place(self, offset):
        """The line and the column of an offset."""
        line = bisect_right(self.starts, offset)
        return line, offset - self.starts[line - 1] + 1


class Values:
    """Reads values from one place of a text on."""

    def __init__(self, text):
        self.text = text
        self.at = 1 if text.startswith("\ufeff") else 0

    def bad(self, why, offset=None):
        """Refuses the text at an offset, else where the reader stands."""
        raise BadText(self.at if offset is None else offset, why)

    def ahead(self, text):
        """Whether this text stands next."""
        return self.text.startswith(text, self.at)

    def take(self, pattern):
        """What the pattern finds next, or None."""
        found = pattern.match(self.text, self.at)
        if found:
            self.at = found.end()
        return found

    def skip_space(self):
        """Goes past spaces and tabs."""
        self.take(SPACE)

    def skip_lines(self):
        """Goes past spaces, line ends and comments."""
        while True:
            self.take(SPACE)
            if self.ahead("#"):
                self.take(COMMENT)
            elif not self.take(NEWLINE):
                return

    def end_of_line(self):
        """Goes past the end of a line, or refuses what stands before it."""
        self.skip_space()
        self.take(COMMENT)
        if self.at < len(self.text) and not self.take(NEWLINE):
            self.bad("something stands where the line should end")

    def value(self):
        """The value that stands next."""
        if self.ahead('"') or self.ahead("'"):
            return self.string()
        if self.ahead("["):
            return self.array()
        if self.ahead("{"):
            return self.inline_table()
        return self.scalar()

    def scalar(self):
        """A number, a boolean or a date."""
        start = self.at
        if self.take(DATE):
            return Node("other", self.text[start:self.at], start, self.at)
        found = self.take(SCALAR)
        if not found:
            self.bad("a value is missing")
        word = found.group()
        if word in ("true", "false"):
            return Node("boolean", word == "true", start, self.at)
        if INTEGER.match(word):
            return Node("integer", self.integer(word, start), start, self.at)
        if FLOAT.match(word):
            return Node("other", word, start, self.at)
        return self.bad(f"'{word}' is no value", start)

    def integer(self, word, start):
        """The number that an integer's spelling stands for."""
        if len(word) > LONGEST:
            self.bad("a number is outside of 64 bits", start)
        number = int(word.replace("_", ""), 0) if word.startswith(("0x", "0o", "0b")) else int(word)
        if not -(1 << 63) <= number < 1 << 63:
            self.bad(f"'{word}' is outside of 64 bits", start)
        return number

    def array(self):
        """An array."""
        node = Node("array", [], self.at)
        self.at += 1
        self.skip_lines()
        while not self.ahead("]"):
            node.value.append(self.value())
            self.skip_lines()
            if self.ahead(","):
                self.at += 1
                self.skip_lines()
            elif not self.ahead("]"):
                self.bad("a comma or the end of the array is missing")
        self.at += 1
        node.end = self.at
        return node

    def inline_table(self):
        """An inline table."""
        node = Node("table", {}, self.at)
        self.at += 1
        self.skip_lines()
        while not self.ahead("}"):
            self.pair(node)
            self.skip_lines()
            if self.ahead(","):
                self.at += 1
                self.skip_lines()
            elif not self.ahead("}"):
                self.bad("a comma or the end of the table is missing")
        self.at += 1
        node.end = self.at
        close(node)
        return node

    def pair(self, table):
        """A key, `=` and a value, which goes to the table."""
        parts = self.key()
        self.skip_space()
        if not self.ahead("="):
            self.bad("'=' is missing behind a key")
        self.at += 1
        self.skip_space()
        for name, offset in parts[:-1]:
            table = self.within(table, name, offset)
        name, offset = parts[-1]
        if name in table.value:
            self.bad(f"the key '{name}' stands twice in its table", offset)
        table.keys[name] = offset
        table.value[name] = self.value()

    def within(self, table, name, offset):
        """The table that a part of a dotted key names, made where it is not there."""
        if name not in table.value:
            table.keys[name] = offset
            table.value[name] = Node("table", {}, offset)
            table.value[name].made_by = "dots"
        inner = table.value[name]
        if inner.kind != "table" or inner.made_by not in ("dots", "implied"):
            self.bad(f"the key '{name}' has a value already", offset)
        return inner

    def key(self):
        """The parts of a key, each with its offset."""
        parts = [self.key_part()]
        self.skip_space()
        while self.ahead("."):
            self.at += 1
            self.skip_space()
            parts.append(self.key_part())
            self.skip_space()
        return parts

    def key_part(self):
        """One part of a key."""
        start = self.at
        if self.ahead('"""') or self.ahead("'''"):
            self.bad("a key is no text of several lines")
        if self.ahead('"') or self.ahead("'"):
            return self.string().value, start
        found = self.take(BARE_KEY)
        if not found:
            self.bad("a key is missing")
        return found.group(), start

    def string(self):
        """A string of any of the four spellings."""
        start = self.at
        quote = self.text[start]
        lines = self.ahead(quote * 3)
        self.at += 3 if lines else 1
        if lines:
            self.take(NEWLINE)
        node = Node("string", "", start)
        node.lines = [self.at]
        pieces = self.pieces(quote, lines, node)
        node.value = "".join(pieces)
        node.end = self.at
        return node

    def pieces(self, quote, lines, node):
        """The pieces of a string up to its closing quotes, which are taken."""
        plain = {('"', False): PLAIN, ('"', True): PLAIN_LINES, ("'", False): LITERAL, ("'", True): LITERAL_LINES}
        pattern = plain[quote, lines]
        pieces = []
        while not self.closed(quote, lines, pieces):
            start = self.at
            found = self.take(pattern)
            if found and found.group():
                piece = found.group()
                node.lines += [start + end.end() for end in re.finditer("\n", piece)]
                pieces.append(piece.replace("\r\n", "\n"))
            elif quote == '"' and self.ahead("\\"):
                pieces.append(self.escape(lines, node))
            elif lines and self.ahead(quote):
                pieces.append(quote)
                self.at += 1
            else:
                self.bad("a string is not closed, or has a character that is written by an escape")
        return pieces

    def closed(self, quote, lines, pieces):
        """Whether the string ends here; its closing quotes are taken, and quotes right before them are its own."""
        if not lines:
            if self.ahead(quote):
                self.at += 1
                return True
            return False
        if not self.ahead(quote * 3):
            return False
        more = 0
        while more < 2 and self.text.startswith(quote, self.at + 3 + more):
            more += 1
        pieces.append(quote * more)
        self.at += 3 + more
        return True

    def escape(self, lines, node):
        """The character that an escape stands for, or nothing for the end of a continued line."""
        if lines and self.take(CONTINUED):
            return ""
        start = self.at
        found = self.take(ESCAPE)
        if not found:
            self.bad("a backslash begins no escape")
        short, *numbers = found.groups()
        if short == "n" or any(number and int(number, 16) == 10 for number in numbers):
            node.lines.append(self.at)
        if short:
            return SHORT[short]
        number = int(next(filter(None, numbers)), 16)
        if number > 0x10FFFF or 0xD800 <= number < 0xE000:
            self.bad("an escape names no character", start)
        return chr(number)


def close(node):
    """Marks a table that is written in braces, and all below it: nothing may be added."""
    node.made_by = "braces"
    for inner in node.value.values():
        if inner.kind == "table":
            close(inner)
