"""`scripts/timeline`: a run as a picture, boxes against events."""
from dataclasses import dataclass, field

from tools import timeline_picture
from tools.entry import Wrong, run, words
from tools.files import read_text
from tools.firmware import firmware_of
from tools.log_text import Access, Flush, Ring, Rotate, Start, Switch, read_log
from tools.replay import followed

MOST = 400
NOTES = f"""A picture has at most {MOST} events; --lines chooses those of some lines of the log. A log alone shows which call a
start is of. Which turn answers a call and which collects the answer is known with FILE, the input, alone."""


@dataclass
class Event:
    """An entry of a log with the lines of the unit before it."""
    entry: object
    switch: str = ""
    rotations: list = field(default_factory=list)
    denied: bool = False
    flush: bool = False


@dataclass(frozen=True)
class Arrow:
    """From one event to another, by the numbers of their lines: a call or an answer."""
    kind: str
    start: int
    end: int
    ticket: str


def events_of(log):
    """The events of a log in order."""
    events = []
    pending = Event(None)
    for item in log.items:
        if isinstance(item, Switch):
            pending.switch = item.box
        elif isinstance(item, Rotate):
            pending.rotations.append(item.slot)
        elif isinstance(item, Access):
            pending.denied = item.slot is None
        elif isinstance(item, Flush):
            pending.flush = True
        else:
            pending.entry = item
            events.append(pending)
            pending = Event(None)
    if pending != Event(None):
        raise Wrong(f"{log.name} is no whole log: no event follows the last lines of the unit")
    return events


def arrows_of_log(log):
    """The arrows that a log alone shows: from each call to its start."""
    posted = {}
    arrows = []
    for entry in log.entries():
        if isinstance(entry, Start):
            ticket = (entry.caller, entry.call)
            if entry.words is not None and ticket in posted:
                arrows.append(Arrow("call", posted[ticket], entry.number, f"{entry.caller}#{entry.call}"))
        elif not isinstance(entry, Ring) and getattr(entry, "reply", None) and entry.reply.word == "posted":
            posted[entry.thread, entry.reply.number] = entry.number
    return arrows


def arrows_of_run(replay):
    """The arrows of a log that was followed beside its input: answers too."""
    arrows = []
    for (thread, number), call in replay.calls.items():
        ticket = f"{thread}#{number}"
        if call.started:
            arrows.append(Arrow("call", call.posted.number, call.started.number, ticket))
        if call.collected:
            arrows.append(Arrow("answer", call.answered.number, call.collected.number, ticket))
    return arrows


def bounds(text, log):
    """The first and the last line that are wanted."""
    if text is None:
        return 1, len(log.items)
    first, _, last = text.partition("-")
    if not (first.isascii() and first.isdigit() and last.isascii() and last.isdigit() and 1 <= int(first) <= int(last)):
        raise Wrong(f"'{text}' is no pair of lines: write two numbers as 1-200")
    return int(first), int(last)


def chosen(events, first, last):
    """The events of these lines, which must be few enough."""
    picked = [event for event in events if first <= event.entry.number <= last]
    if not picked:
        raise Wrong(f"the lines {first} to {last} have no event")
    if len(picked) > MOST:
        raise Wrong(f"{len(picked)} events are too many for a picture, which has at most {MOST}: choose by --lines, as 1-{MOST}")
    return picked


def loaded_before(events, line):
    """The box that the unit was loaded for before a line, or an empty name."""
    return next((event.switch for event in reversed(events) if event.switch and event.entry.number < line), "")


def answer(parsed):
    """The text and the status."""
    if not parsed.svg:
        raise Wrong("only a picture can be made: say --svg")
    log = read_log(read_text(parsed.log), parsed.log)
    arrows = arrows_of_log(log) if parsed.file is None else arrows_of_run(followed(firmware_of(parsed.file), log))
    events = events_of(log)
    picked = chosen(events, *bounds(parsed.lines, log))
    box = loaded_before(events, picked[0].entry.number)
    return timeline_picture.picture(log, picked, arrows, box, parsed.file is not None), 0


def main():
    """Runs the entry."""
    parser = words("timeline", "Draws a run: boxes against events, with switches, rotations, faults, interrupts and calls.",
                   "scripts/timeline examples/03-secret.log --svg > run.svg", NOTES)
    parser.add_argument("log", metavar="LOG", help="a log")
    parser.add_argument("file", metavar="FILE", nargs="?", help="the input of the log, by which answers of calls are known")
    parser.add_argument("--svg", action="store_true", help="draw a picture that stands alone")
    parser.add_argument("--lines", metavar="FIRST-LAST", help="the events of these lines of the log alone")
    return run(parser, answer)
