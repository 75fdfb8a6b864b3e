"""A moment of a run: the words --log and --line of an entry, and what stands after that line of the log."""
from dataclasses import dataclass

from tools.entry import Wrong
from tools.files import read_text
from tools.log_text import Line, read_log
from tools.replay import Replay

MISSING = object()


@dataclass(frozen=True)
class Moment:
    """The owners of the pages after a line of a log: the numbers of boxes, or None for a page that is free."""
    line: Line
    owners: list

    @property
    def shown(self):
        """The moment as the first line of an answer."""
        return f"after line {self.line.number}: {self.line.text}"


def wanted_line(log, number):
    """The line of that number, which must be there."""
    if number is None:
        return None
    line = log.line(int(number)) if number.isascii() and number.isdigit() and not number.startswith("0") else None
    if line is None:
        raise Wrong(f"{log.name} has no line '{number}'; its lines are 1 to {len(log.items) + len(log.ends)}")
    return line


def taken_after(firmware, log, line, take):
    """What `take` makes of the state after a line. The whole log is followed before anything is answered."""
    replay = Replay(firmware, log)
    found, last = MISSING, None
    for item in replay:
        if last is line:
            found = take(replay)
        last = item
    return take(replay) if found is MISSING else found


def add_words(parser):
    """The words of an entry that takes a moment."""
    parser.add_argument("--log", metavar="LOG", help="a log of FILE, by which the owners of pages are known")
    parser.add_argument("--line", metavar="LINE", help="the number of a line of LOG, from 1, after which they are asked for")


def check_words(parsed):
    """Refuses --log without --line or without FILE, and --line without --log."""
    if (parsed.log is None) != (parsed.line is None):
        raise Wrong("--log and --line go together: say the log, and after which of its lines")
    if parsed.log is not None and parsed.file is None:
        raise Wrong("--log needs FILE, the input: a text of 'check' does not say where pages are")


def moment_of(parsed, firmware):
    """The moment that the words ask for, or None where they name no log."""
    if parsed.log is None:
        return None
    log = read_log(read_text(parsed.log), parsed.log)
    line = wanted_line(log, parsed.line)
    return Moment(line, taken_after(firmware, log, line, lambda replay: list(replay.owners)))
