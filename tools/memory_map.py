"""`scripts/memory-map`: the addresses of a firmware from low to high, and what each box may do there."""
from dataclasses import dataclass

from tools import map_picture
from tools.check_text import read_check
from tools.entry import run, words
from tools.files import standard_input
from tools.firmware import firmware_of
from tools.moment import add_words, check_words, moment_of
from tools.numbers import hexadecimal
from tools.ranges import Range

NOTES = """With FILE, the input, the parts of the board are named; without it the text of 'check' is read from standard input,
which does not name them. Who owns a page of the heap changes while the firmware runs, and register gateways reach for
a box what it does not hold: with FILE both are told, and with a text of 'check' they are not known. With --log and --line
the log is followed beside the input, one that is no log of it is refused, and the pages are shown as they are owned after
that line. A page changes its owner at the turn of its page call, which stands right after the flush."""
NARROWEST = 15
PART = 31


@dataclass(frozen=True)
class Segment:
    """Addresses over which nothing changes: the part of the board, and the item of each box, or None."""
    range: Range
    part: str
    items: tuple

    @property
    def pages(self):
        """Whether pages of the heap lie here."""
        return self.part == "heap"

    @property
    def gap(self):
        """Whether no box holds anything, and no part of the board is known to lie here."""
        return not self.part and not any(self.items)


def segments(boxes, parts=()):
    """All segments from the lowest item or part to the highest."""
    ranges = [item.range for box in boxes for item in box.items] + [whole for _, whole in parts]
    edges = sorted({edge for whole in ranges for edge in (whole.base, whole.end)})
    listed = []
    for low, high in zip(edges, edges[1:]):
        items = tuple(next(iter(box.holding(low)), None) for box in boxes)
        part = next((name for name, whole in parts if whole.holds(low)), "")
        listed.append(Segment(Range(low, high - low), part, items))
    return listed


def row(cells, wide):
    """The cells of a line after the first columns."""
    return "".join(f" {cell:<{wide}}" for cell in cells)


def line(segment, named, wide):
    """The line of a segment."""
    text = f"{hexadecimal(segment.range.base)} {hexadecimal(segment.range.end - 1)} {segment.range.length:10}"
    if named:
        text += f" {segment.part:<{PART}}"
    if segment.gap:
        return (text.rstrip() + " (gap)")
    if segment.pages:
        return text + " (pages)"
    return (text + row((item.rights if item else "-" for item in segment.items), wide)).rstrip()


def table(boxes, parts=()):
    """The map as text."""
    wide = max(NARROWEST, *(len(box.name) for box in boxes))
    head = f"{'from':<10} {'to':<10} {'bytes':>10}" + (f" {'part':<{PART}}" if parts else "")
    head += row((box.name for box in boxes), wide)
    lines = [head.rstrip()] + [line(segment, bool(parts), wide) for segment in segments(boxes, parts)]
    return "\n".join(lines) + "\n"


def gates(firmware):
    """The register gateways, one line each."""
    lines = [f"register gateway {number} {hexadecimal(register.at)} {register.op}: {' '.join(dict.fromkeys(register.boxes))}\n"
             for number, register in enumerate(firmware.text.registers)]
    return "".join(lines)


def answer(parsed):
    """The text and the status."""
    check_words(parsed)
    above, below = "", ""
    if parsed.file is None:
        boxes, parts = read_check(standard_input(), "standard input"), ()
    else:
        firmware = firmware_of(parsed.file)
        boxes, parts, below = firmware.boxes, firmware.regions(), gates(firmware)
        moment = moment_of(parsed, firmware)
        if moment:
            boxes, parts = firmware.holders(moment.owners), firmware.page_parts(moment.owners) + parts
            above = f"pages {moment.shown}\n"
    if parsed.svg:
        return map_picture.picture(boxes, segments(boxes, parts), bool(parts), (above + below).splitlines()), 0
    return above + table(boxes, parts) + below, 0


def main():
    """Runs the entry."""
    parser = words("memory-map", "Prints or draws the memory map of a firmware, with one column a box.",
                   "scripts/memory-map examples/03-secret.toml --svg > map.svg", NOTES)
    parser.add_argument("file", metavar="FILE", nargs="?", help="the input")
    parser.add_argument("--svg", action="store_true", help="draw a picture that stands alone")
    add_words(parser)
    return run(parser, answer)
