"""A TOML 1.1 document as a tree of values with their places."""
from tools.toml_values import BadText, Lines, Node, Values


class Document:
    """A text that is a document: its tree, and lines and columns of offsets."""

    def __init__(self, text):
        self.text = text
        self.lines = Lines(text)
        try:
            self.root = Headers(text).document()
        except RecursionError:
            raise BadText(0, "its values are nested too deeply for these tools") from None

    def place(self, offset):
        """The line and the column of an offset."""
        return self.lines.place(offset)

    def line(self, number):
        """The text of a line, without its end."""
        start = self.lines.starts[number - 1]
        end = self.text.find("\n", start)
        return self.text[start:len(self.text) if end < 0 else end].rstrip("\r")


class Headers(Values):
    """Reads a whole document: pairs, and the headers of tables."""

    def document(self):
        """The table that is the document."""
        root = Node("table", {}, 0, len(self.text))
        root.made_by = "header"
        current = root
        self.skip_lines()
        while self.at < len(self.text):
            if self.ahead("["):
                current = self.header(root)
            else:
                self.pair(current)
            self.end_of_line()
            self.skip_lines()
        return root

    def header(self, root):
        """The table that a header opens."""
        start = self.at
        double = self.ahead("[[")
        self.at += 2 if double else 1
        self.skip_space()
        parts = self.key()
        if not self.ahead("]]" if double else "]"):
            self.bad("a header is not closed")
        self.at += 2 if double else 1
        table = root
        for name, offset in parts[:-1]:
            table = self.through(table, name, offset)
        return self.opened(table, parts[-1], start, double)

    def through(self, table, name, offset):
        """The table that an inner part of a header names, made where it is not there."""
        if name not in table.value:
            table.keys[name] = offset
            table.value[name] = Node("table", {}, offset)
            table.value[name].made_by = "implied"
        inner = table.value[name]
        if inner.kind == "array" and inner.made_by == "headers":
            inner = inner.value[-1]
        if inner.kind != "table" or inner.made_by == "braces":
            self.bad(f"the key '{name}' is no table that a header may open", offset)
        return inner

    def opened(self, table, part, start, double):
        """The table of a header's last part."""
        name, offset = part
        if double:
            return self.next_element(table, name, offset, start)
        if name not in table.value:
            table.keys[name] = offset
            table.value[name] = Node("table", {}, start)
        elif table.value[name].made_by != "implied":
            self.bad(f"the table '{name}' stands twice", offset)
        table.value[name].made_by = "header"
        table.value[name].start = start
        return table.value[name]

    def next_element(self, table, name, offset, start):
        """One more table of an array of tables."""
        if name not in table.value:
            table.keys[name] = offset
            table.value[name] = Node("array", [], start)
            table.value[name].made_by = "headers"
        elif table.value[name].made_by != "headers":
            self.bad(f"the key '{name}' is no array of tables that a header may extend", offset)
        element = Node("table", {}, start)
        element.made_by = "header"
        table.value[name].value.append(element)
        return element


__all__ = ["BadText", "Document", "Node"]
