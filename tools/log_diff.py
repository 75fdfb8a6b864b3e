"""`scripts/log-diff`: the first event in which two logs differ, and how the replies of the boxes differ."""
from itertools import zip_longest

from tools.entry import run, words
from tools.files import read_text
from tools.log_text import read_log
from tools.numbers import of
from tools.sentences import boxes_of, said

NOTES = """The status is 0 where the logs are the same, and 1 where they differ. A box's replies are its turns, starts and
idles in their order, without the lines of the unit: boxes whose replies are the same may have run in another order."""


def first_difference(first, second):
    """The first two lines that differ, either of which may be missing, or None."""
    pairs = zip_longest(first.items + first.ends, second.items + second.ends)
    return next(((a, b) for a, b in pairs if a is None or b is None or a.text != b.text), None)


def told(log, item):
    """One side of a difference, in words."""
    if item is None:
        return [f"  {log.name} has ended"]
    return [f"  {log.name}:{item.number}: {item.text}", f"    {said(item)}"]


def replies(log, box):
    """The entries of a box in order."""
    return [entry for entry in log.entries() if boxes_of(entry) == box]


def box_lines(first, second, box):
    """How the replies of one box differ."""
    ours, theirs = replies(first, box), replies(second, box)
    for place, (a, b) in enumerate(zip(ours, theirs), 1):
        if a.text != b.text:
            return [f"box {box}: reply {place} differs", *told(first, a), *told(second, b)]
    if len(ours) == len(theirs):
        return [f"box {box}: {of(len(ours), 'reply', 'replies')}, the same in both"]
    same = min(len(ours), len(theirs))
    more = f"{first.name} has {len(ours) - same} more, {second.name} {len(theirs) - same} more"
    return [f"box {box}: the first {of(same, 'reply is', 'replies are')} the same, and then {more}"]


def answer(parsed):
    """The text and the status."""
    first = read_log(read_text(parsed.first), parsed.first)
    second = read_log(read_text(parsed.second), parsed.second)
    found = first_difference(first, second)
    if found is None:
        return "the logs are the same\n", 0
    lines = ["the first line that differs:", *told(first, found[0]), *told(second, found[1])]
    for box in dict.fromkeys(first.boxes + second.boxes):
        if box not in first.boxes or box not in second.boxes:
            lines.append(f"box {box}: only {first.name if box in first.boxes else second.name} has it")
        else:
            lines += box_lines(first, second, box)
    return "\n".join(lines) + "\n", 1


def main():
    """Runs the entry."""
    parser = words("log-diff", "Says where two logs first differ, and how the replies of their boxes differ.",
                   "scripts/log-diff examples/02-rotation.log examples/03-secret.log", NOTES)
    parser.add_argument("first", metavar="A", help="a log")
    parser.add_argument("second", metavar="B", help="another log")
    return run(parser, answer)
