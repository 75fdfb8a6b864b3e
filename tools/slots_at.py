"""`scripts/slots-at`: the eight slots of the unit after a line of a log."""
from tools.entry import run, words
from tools.files import read_text
from tools.firmware import firmware_of
from tools.log_text import read_log
from tools.moment import taken_after, wanted_line

NOTES = """LINE is the number of a line of LOG, from 1. The log is followed line by line beside the input, and one that is no log
of it is refused. Which pages a box owns is shown as the subregions of a slot."""


def answer(parsed):
    """The text and the status."""
    log = read_log(read_text(parsed.log), parsed.log)
    line = wanted_line(log, parsed.line)
    shown, circle = taken_after(firmware_of(parsed.file), log, line, lambda replay: (replay.unit.shown(), replay.unit.circle))
    lines = [f"after line {line.number}: {line.text}", *shown, f"the next pair goes to slot {circle}"]
    return "\n".join(lines) + "\n", 0


def main():
    """Runs the entry."""
    parser = words("slots-at", "Prints the eight slots of the unit as they stand after a line of a log.",
                   "scripts/slots-at examples/02-rotation.toml examples/02-rotation.log 6", NOTES)
    parser.add_argument("file", metavar="INPUT", help="the input")
    parser.add_argument("log", metavar="LOG", help="a log of that input")
    parser.add_argument("line", metavar="LINE", help="the number of a line, from 1")
    return run(parser, answer)
