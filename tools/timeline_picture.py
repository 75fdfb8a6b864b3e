"""A run as a picture: a lane for each box, with a row for each of its threads, and a column for each event."""
from tools import svg
from tools.log_text import Idle, Reply, Ring, Start, box_of
from tools.sentences import said

INK, FAINT, LANE, LOADED = "#222222", "#888888", "#f4f4f4", "#d9e8f8"
FAULT, IRQ, CALL, ANSWER, STATUS, ROTATE = "#c62828", "#1565c0", "#7b1fa2", "#00796b", "#ef6c00", "#8d6e63"
LEFT, TOP, COLUMN, ROW, SPACE = 150, 70, 24, 26, 12
HEADS = "".join(f"<marker id='{kind}' viewBox='0 0 8 8' refX='7' refY='4' markerWidth='7' markerHeight='7' "
                f"orient='auto'><path d='M 0 0 L 8 4 L 0 8 z' fill='{color}'/></marker>" for kind, color in (("call", CALL), ("answer", ANSWER)))


class Layout:
    """Where lanes, rows and events lie."""

    def __init__(self, log, events):
        self.log = log
        self.events = events
        self.columns = {event.entry.number: place for place, event in enumerate(events)}
        self.rings = any(isinstance(event.entry, Ring) for event in events)
        self.lanes = {}
        self.rows = {}
        y = TOP + (ROW + SPACE if self.rings else 0)
        for box in log.boxes:
            threads = [thread for thread in log.threads if box_of(thread) == box]
            self.lanes[box] = (y, ROW * len(threads) + 8)
            for place, thread in enumerate(threads):
                self.rows[thread] = y + 4 + ROW * place + ROW / 2
            y += ROW * len(threads) + 8 + SPACE
        self.bottom = y
        self.width = max(LEFT + COLUMN * len(events) + 30, 760)

    def x(self, number):
        """The middle of the column of an event, by its line."""
        return LEFT + COLUMN * (self.columns[number] + 0.5)

    def y(self, entry):
        """The row of an entry."""
        return TOP + ROW / 2 if isinstance(entry, Ring) else self.rows[entry.thread]


def lanes(layout):
    """The lanes with the names of boxes and threads."""
    pieces = []
    right = layout.width - 20
    if layout.rings:
        pieces.append(svg.text(LEFT - 12, TOP + ROW / 2 + 4, "devices", 12, text_anchor="end", fill=FAINT))
    for box, (y, tall) in layout.lanes.items():
        pieces.append(svg.rectangle(LEFT, y, right - LEFT, tall, fill=LANE))
        threads = [thread for thread in layout.rows if box_of(thread) == box]
        for thread in threads:
            name = box if len(threads) == 1 else thread
            pieces.append(svg.text(LEFT - 12, layout.rows[thread] + 4, name, 12, text_anchor="end", fill=INK))
            pieces.append(svg.line(LEFT, layout.rows[thread], right, layout.rows[thread], stroke="#dddddd"))
    return pieces


def loaded(layout, box):
    """The lanes for which the unit is loaded, from each switch on, and a bar at the switch."""
    pieces = []
    start = LEFT
    spans = []
    for place, event in enumerate(layout.events):
        if event.switch:
            spans.append((box, start, LEFT + COLUMN * place))
            box, start = event.switch, LEFT + COLUMN * place
    spans.append((box, start, LEFT + COLUMN * len(layout.events)))
    for name, left, right in spans:
        if name and right > left:
            y, tall = layout.lanes[name]
            pieces.append(svg.rectangle(left, y, right - left, tall, fill=LOADED))
    for place, event in enumerate(layout.events):
        if event.switch:
            y, tall = layout.lanes[event.switch]
            x = LEFT + COLUMN * place
            pieces.append(svg.titled(svg.line(x, y, x, y + tall, stroke=IRQ, stroke_width=3), f"switch to {event.switch}"))
    return pieces


def triangle(x, y):
    """A hollow triangle."""
    corners = f"M {x - 6:g} {y + 6:g} L {x + 6:g} {y + 6:g} L {x:g} {y - 6:g} z"
    return svg.path(corners, fill="none", stroke=IRQ, stroke_width=1.5)


def mark(entry, x, y):
    """The mark of an entry."""
    if isinstance(entry, Ring):
        return triangle(x, y) + svg.text(x, y - 9, str(entry.line), 10, text_anchor="middle", fill=IRQ)
    if isinstance(entry, Idle) or (isinstance(entry, Start) and entry.words is None):
        return status_mark(2 if isinstance(entry, Idle) else 12, x, y)
    if isinstance(entry, Start):
        return dot(x, y, CALL, 5.5)
    return turn_mark(entry.reply, x, y)


def dot(x, y, color, radius=4.5):
    """A full circle."""
    return f"<circle cx='{x:g}' cy='{y:g}' r='{radius}' fill='{color}'/>"


def ring(x, y, color):
    """A hollow circle."""
    return f"<circle cx='{x:g}' cy='{y:g}' r='4.5' fill='#ffffff' stroke='{color}' stroke-width='1.5'/>"


def status_mark(number, x, y):
    """A status with its number."""
    return ring(x, y, STATUS) + svg.text(x, y - 8, str(number), 10, text_anchor="middle", fill=STATUS)


def turn_mark(reply, x, y):
    """The mark of a turn, by its reply."""
    if reply.word == "fault":
        return svg.path(f"M {x - 6:g} {y - 6:g} l 12 12 m 0 -12 l -12 12", stroke=FAULT, stroke_width=3, fill="none")
    if reply.word == "irq":
        return svg.path(f"M {x - 6:g} {y - 6:g} L {x + 6:g} {y - 6:g} L {x:g} {y + 6:g} z", fill=IRQ)
    if reply.word == "status":
        return status_mark(reply.number, x, y)
    if reply.word == "halted":
        return svg.rectangle(x - 5, y - 5, 10, 10, fill=INK)
    if reply.word in ("ended", "waiting"):
        return ring(x, y, FAINT)
    return dot(x, y, CALL if reply.word == "posted" else INK)


def marks(layout):
    """The marks of all events, with rotations and flushes above them."""
    pieces = []
    for event in layout.events:
        x, y = layout.x(event.entry.number), layout.y(event.entry)
        pieces.append(svg.titled(mark(event.entry, x, y), f"line {event.entry.number}: {said(event.entry)}"))
        for place, slot in enumerate(event.rotations):
            top = y - 12 - 9 * place
            diamond = svg.path(f"M {x:g} {top - 4:g} l 4 4 l -4 4 l -4 -4 z", fill=ROTATE)
            label = svg.text(x + 5, top + 3, str(slot), 9, fill=ROTATE)
            pieces.append(svg.titled(diamond + label, f"rotation into slot {slot}"))
        if event.flush:
            pieces.append(svg.titled(svg.rectangle(x - 5, y - 12, 10, 3, fill=ROTATE), "flush of slots 2 to 6"))
    return pieces


def arrows(layout, listed):
    """The arrows of calls and answers whose two ends are in the picture."""
    pieces = []
    for arrow in listed:
        if arrow.start not in layout.columns or arrow.end not in layout.columns:
            continue
        entries = {event.entry.number: event.entry for event in layout.events}
        x1, y1 = layout.x(arrow.start), layout.y(entries[arrow.start])
        x2, y2 = layout.x(arrow.end), layout.y(entries[arrow.end])
        step = 8 if y2 > y1 else -8
        bend = (x1 + x2) / 2
        curve = f"M {x1:g} {y1 + step:g} C {bend:g} {y1 + 3 * step:g} {bend:g} {y2 - 3 * step:g} {x2:g} {y2 - step:g}"
        color = CALL if arrow.kind == "call" else ANSWER
        drawn = svg.path(curve, fill="none", stroke=color, stroke_width=1.6, marker_end=f"url(#{arrow.kind})")
        pieces.append(svg.titled(drawn, f"{arrow.kind} {arrow.ticket}"))
    return pieces


def axis(layout):
    """The numbers of lines below every fifth event."""
    pieces = [svg.text(LEFT - 12, layout.bottom + 6, "line", 11, text_anchor="end", fill=FAINT)]
    for place, event in enumerate(layout.events):
        if place % 5 == 0:
            x = layout.x(event.entry.number)
            pieces.append(svg.text(x, layout.bottom + 6, str(event.entry.number), 10, text_anchor="middle", fill=FAINT))
    return pieces


def sample(kind, color, x, y):
    """A short arrow."""
    return svg.line(x - 8, y, x + 8, y, stroke=color, stroke_width=1.6, marker_end=f"url(#{kind})")


LEGEND = [
    (lambda x, y: dot(x, y, INK), "turn"), (lambda x, y: svg.rectangle(x - 5, y - 5, 10, 10, fill=INK), "halts"),
    (lambda x, y: ring(x, y, FAINT), "waits, or has ended"), (lambda x, y: ring(x, y, STATUS), "status, with its number"),
    (lambda x, y: turn_mark(Reply("fault"), x, y), "fault"),
    (triangle, "ring, with its line"),
    (lambda x, y: turn_mark(Reply("irq"), x, y), "interrupt"),
    (lambda x, y: svg.line(x, y - 7, x, y + 7, stroke=IRQ, stroke_width=3), "switch"),
    (lambda x, y: svg.path(f"M {x:g} {y - 5:g} l 5 5 l -5 5 l -5 -5 z", fill=ROTATE), "rotation, with its slot"),
    (lambda x, y: svg.rectangle(x - 5, y - 2, 10, 3, fill=ROTATE), "flush"),
    (lambda x, y: dot(x, y, CALL), "posts or starts a call"),
    (lambda x, y: sample("call", CALL, x, y), "call to its start"),
    (lambda x, y: sample("answer", ANSWER, x, y), "answer to its caller"),
]


def legend(layout, answers):
    """What the marks say, in as many rows as the width asks for."""
    pieces = []
    x, y = LEFT, layout.bottom + 34
    for draw, label in LEGEND:
        wide = 34 + 7 * len(label)
        if x + wide > layout.width - 10:
            x, y = LEFT, y + 22
        pieces += [draw(x + 8, y), svg.text(x + 20, y + 4, label, 11, fill=INK)]
        x += wide
    notes = ["a lane is blue while the unit is loaded for its box"]
    if not answers:
        notes.append("answers of calls are not known from a log alone")
    pieces += [svg.text(LEFT, y + 26 + 16 * place, told, 11, fill=FAINT) for place, told in enumerate(notes)]
    return pieces, y + 24 + 16 * len(notes)


def ends(layout):
    """The title, and how the threads ended."""
    counts = {}
    for end in layout.log.ends:
        counts[end.mode] = counts.get(end.mode, 0) + 1
    told = ", ".join(f"{number} {mode}" for mode, number in counts.items())
    lines = layout.events[0].entry.number, layout.events[-1].entry.number
    return [svg.text(LEFT, 26, "Run: boxes against events", 16, fill=INK),
            svg.text(LEFT, 44, f"lines {lines[0]} to {lines[1]} of the log; threads at its end: {told}", 11, fill=FAINT)]


def picture(log, events, listed, box, answers):
    """The whole picture."""
    layout = Layout(log, events)
    notes, bottom = legend(layout, answers)
    pieces = ends(layout) + lanes(layout) + loaded(layout, box) + arrows(layout, listed) + marks(layout) + axis(layout) + notes
    return svg.whole(layout.width, bottom, "Timeline", pieces, f"<defs>{HEADS}</defs>")

