"""Where in the file a refusal stands, why it comes, and how it is repaired: first the shape, the board and the names."""
from tools import rules
from tools.numbers import hexadecimal

SHOWN = 40


class Unplaced(Exception):
    """The place of a refusal is not found by these tools."""


class Cause:
    """An offset in the file and what is said there."""

    def __init__(self, offset, text):
        self.offset = offset
        self.text = text


def child(node, key):
    """The value of a key."""
    if node.kind != "table" or key not in node.value:
        raise Unplaced
    return node.value[key]


def element(node, key, number):
    """An element of the array of a key."""
    array = child(node, key)
    if array.kind != "array" or number >= len(array.value):
        raise Unplaced
    return array.value[number]


def table(document, refusal):
    """The table that a refusal names, and its kind."""
    place = list(refusal.place)
    root = document.root
    if place[0] == "top":
        return root, "top"
    if place[0] == "board":
        return child(root, "board"), "board"
    if place[0] == "heap":
        return child(child(root, "board"), "heap"), "heap"
    node, kind = root, "top"
    while place:
        kind, number = place.pop(0), int(place.pop(0))
        node = element(node, kind, number)
    return node, kind


def source(document, node):
    """A value as it is written, shortened."""
    text = " ".join(document.text[node.start:node.end].split())
    return text if len(text) <= SHOWN else text[:SHOWN - 3] + "..."


def unknown_key(document, refusal):
    """A key that is not listed."""
    node, kind = table(document, refusal)
    unlisted = [(offset, key) for key, offset in node.keys.items() if key not in rules.VALUES[kind]]
    if not unlisted:
        raise Unplaced
    offset, key = min(unlisted)
    return Cause(offset, f"'{key}' is no key of {'the document' if kind == 'top' else kind}; remove it, or write one of "
                         f"{', '.join(rules.VALUES[kind])}")


def missing_key(document, refusal):
    """A key that must be there."""
    node, kind = table(document, refusal)
    if refusal.key in node.value:
        raise Unplaced
    return Cause(node.start, f"'{refusal.key}' is missing; it is {rules.VALUES[kind][refusal.key]}: add it to this table")


def bad_value(document, refusal):
    """A value of another type or out of its range."""
    node, kind = table(document, refusal)
    value = child(node, refusal.key)
    return Cause(value.start, f"'{refusal.key}' is {rules.VALUES[kind][refusal.key]}, and this is {source(document, value)}: "
                              "write such a value")


def too_many(document, refusal):
    """A list or a sum that passes its limit."""
    node, _ = table(document, refusal)
    start = child(node, refusal.key).start if refusal.key in node.value else node.start
    return Cause(start, f"'{refusal.key}' passes its limit of {rules.LIMITS[refusal.key]}: leave some out, or lower them")


def bad_board(document, refusal):
    """A range of the board that breaks its rule."""
    value = child(child(document.root, "board"), refusal.key)
    return Cause(value.start, f"'{refusal.key}' breaks its rule: {rules.BOARD[refusal.key]}; it is {source(document, value)}")


def bad_name(document, refusal):
    """A name that is none."""
    value = child(element(document.root, "box", refusal.number("box")), "name")
    return Cause(value.start, f"'name' is {rules.NAME}, and this is {source(document, value)}: choose such a name")


def twice_named(document, refusal):
    """A name that an earlier box has."""
    boxes = child(document.root, "box").value
    value = child(boxes[refusal.number("box")], "name")
    earlier = next((place for place, box in enumerate(boxes) if child(box, "name").value == value.value), 0)
    return Cause(value.start, f"'name' is {source(document, value)}, which box {earlier} has already: choose another name")


def not_placed(refusal):
    """What is said where these tools do not find the place."""
    return Cause(0, f"where {' '.join(refusal.place) or 'it'} stands is not found by these tools; docs/INPUT.md tells the rule")


def said_hex(whole):
    """A range's base and length."""
    return f"{hexadecimal(whole.base)} of {hexadecimal(whole.length)} bytes"


SHAPE = {"UnknownKey": unknown_key, "MissingKey": missing_key, "BadValue": bad_value, "TooMany": too_many,
         "BadBoard": bad_board, "BadName": bad_name, "TwiceNamed": twice_named}
