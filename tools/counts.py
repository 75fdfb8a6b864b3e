"""`scripts/counts`: how often each box switched, rotated, reached memory, faulted and called in a log."""
import json

from tools.entry import run, words
from tools.files import read_text
from tools.log_text import Access, Flush, Rotate, Start, Switch, Turn, box_of, read_log

COLUMNS = ["turns", "starts", "idles", "switches", "rotations", "flushes", "granted", "denied", "faults", "calls"]
NOTES = """Turns are lines 'turn', those of ended threads among them. A rotation, an access or a flush counts for the box of the
event that it stands before, and calls are those that a box posted."""


def unit_column(item):
    """The column of a line of the unit."""
    if isinstance(item, Access):
        return "denied" if item.slot is None else "granted"
    return {Switch: "switches", Rotate: "rotations", Flush: "flushes"}.get(type(item))


def entry_columns(item):
    """The columns of an entry of a box."""
    if isinstance(item, Turn):
        named = {"fault": ["faults"], "posted": ["calls"]}
        return ["turns"] + named.get(item.reply.word, [])
    return ["starts"] if isinstance(item, Start) else ["idles"]


def counted(log):
    """The counts of each box, and the rings."""
    counts = {box: dict.fromkeys(COLUMNS, 0) for box in log.boxes}
    rings = 0
    pending = []
    for item in log.items:
        column = unit_column(item)
        if column:
            pending.append(column)
        elif hasattr(item, "thread"):
            for name in pending + entry_columns(item):
                counts[box_of(item.thread)][name] += 1
            pending = []
        else:
            rings += 1
    return counts, rings


def total(counts):
    """The sums over all boxes."""
    return {name: sum(box[name] for box in counts.values()) for name in COLUMNS}


def table(counts, rings):
    """The counts as text."""
    rows = list(counts.items()) + [("all", total(counts))]
    wide = max(len("box"), *(len(name) for name, _ in rows))
    lines = [f"{'box':<{wide}}" + "".join(f" {name:>9}" for name in COLUMNS)]
    lines += [f"{name:<{wide}}" + "".join(f" {row[column]:>9}" for column in COLUMNS) for name, row in rows]
    return "\n".join(lines) + f"\nrings {rings}\n"


def answer(parsed):
    """The text and the status."""
    counts, rings = counted(read_log(read_text(parsed.log), parsed.log))
    if parsed.json:
        return json.dumps({"boxes": counts, "all": total(counts), "rings": rings}, indent=2) + "\n", 0
    return table(counts, rings), 0


def main():
    """Runs the entry."""
    parser = words("counts", "Counts what each box did in a log.", "scripts/counts examples/03-secret.log", NOTES)
    parser.add_argument("log", metavar="LOG", help="a log")
    parser.add_argument("--json", action="store_true", help="print one JSON object")
    return run(parser, answer)
