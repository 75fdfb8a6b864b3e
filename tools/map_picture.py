"""The memory map as a picture: addresses from high to low, one column a box."""
from math import log2

from tools import svg
from tools.numbers import hexadecimal

COLORS = {"r": "#cfe3f7", "rw": "#bfe5c4", "rx": "#f9dfae", "rwx": "#f4b8b0"}
EMPTY, GAP, PAGES, INK, FAINT = "#f4f4f4", "#ffffff", "#e3d7f0", "#222222", "#888888"
LEFT, TOP, COLUMN, SPACE, RIGHT = 124, 76, 118, 8, 300
LOWEST, PER_DOUBLING, GAP_HEIGHT, LETTER = 30, 3, 24, 7


def height(segment):
    """How tall a segment is drawn: a little more for each doubling, so that none is lost."""
    return GAP_HEIGHT if segment.gap else LOWEST + PER_DOUBLING * log2(max(segment.range.length / 32, 1))


def amount(length):
    """So many bytes, in the largest unit that leaves a whole number."""
    for unit, size in (("MiB", 1 << 20), ("KiB", 1 << 10)):
        if length % size == 0:
            return f"{length // size} {unit}"
    return f"{length} B"


def cell(segment, box, item, x, y, tall):
    """What one box may do in a segment."""
    if segment.pages and item is None:
        return [svg.rectangle(x, y, COLUMN, tall, fill=PAGES, stroke=FAINT),
                svg.text(x + COLUMN / 2, y + tall / 2 + 4, "its pages", 11, text_anchor="middle", fill=FAINT)]
    fill = COLORS[item.rights] if item else EMPTY
    drawn = svg.titled(svg.rectangle(x, y, COLUMN, tall, fill=fill, stroke=FAINT),
                       f"{box.name}: {item.rights if item else 'nothing'} in {segment.range.span()}")
    label = item.rights if item else "-"
    return [drawn, svg.text(x + COLUMN / 2, y + tall / 2 + 4, label, 12, text_anchor="middle", fill=INK if item else FAINT)]


def gap(y, tall, width):
    """A segment that nobody holds: a broken edge."""
    middle = y + tall / 2
    teeth = "".join(f" l 8 {-6 if tooth % 2 else 6}" for tooth in range(int(width / 8)))
    return svg.path(f"M {LEFT} {middle - 3:g}{teeth}", fill="none", stroke=FAINT)


def rows(boxes, segments, named):
    """All segments from high to low, and where the last one ends."""
    pieces = []
    y = TOP
    width = len(boxes) * (COLUMN + SPACE) - SPACE
    for segment in reversed(segments):
        tall = height(segment)
        if segment.gap:
            pieces.append(gap(y, tall, width))
            label = "gap"
        else:
            for number, (box, item) in enumerate(zip(boxes, segment.items)):
                pieces += cell(segment, box, item, LEFT + number * (COLUMN + SPACE), y, tall)
            pieces.append(svg.text(LEFT - 8, y + 11, hexadecimal(segment.range.end - 1), 11, text_anchor="end", fill=FAINT))
            pieces.append(svg.text(LEFT - 8, y + tall - 3, hexadecimal(segment.range.base), 11, text_anchor="end", fill=INK))
            label = segment.part if named else ""
        right = LEFT + width + 12
        told = ", ".join(filter(None, [label, amount(segment.range.length)]))
        pieces.append(svg.text(right, y + tall / 2 + 4, told, 12, fill=FAINT if segment.gap else INK))
        y += tall
    return pieces, y


def legend(y, named, pages, below):
    """What the colors say, and what the picture does not show."""
    pieces = []
    x = LEFT
    for rights, color in COLORS.items():
        pieces += [svg.rectangle(x, y, 16, 14, fill=color, stroke=FAINT), svg.text(x + 22, y + 11, rights, 11, fill=INK)]
        x += 64
    notes = list(below)
    if pages:
        notes.append("who owns a page of the heap changes while the firmware runs")
    if not named:
        notes.append("parts of the board, pages of the heap and register gateways are not known here")
    for number, told in enumerate(notes):
        pieces.append(svg.text(LEFT, y + 32 + 16 * number, told, 11, fill=FAINT))
    return pieces, y + 32 + 16 * len(notes)


def picture(boxes, segments, named, below):
    """The whole picture."""
    width = max(LEFT + len(boxes) * (COLUMN + SPACE) + RIGHT, LEFT + LETTER * max(map(len, below), default=0), 760)
    head = [svg.text(LEFT, 28, "Memory: what each box may do", 16, fill=INK),
            svg.text(LEFT, 46, "addresses from high to low; heights are not to scale", 11, fill=FAINT)]
    for number, box in enumerate(boxes):
        size = 13 if len(box.name) <= 14 else 11
        head.append(svg.text(LEFT + number * (COLUMN + SPACE) + COLUMN / 2, TOP - 8, box.name, size,
                             text_anchor="middle", fill=INK, font_weight="bold"))
    drawn, end = rows(boxes, segments, named)
    notes, bottom = legend(end + 16, named, any(segment.pages for segment in segments), below)
    return svg.whole(width, bottom + 8, "Memory map", head + drawn + notes)
