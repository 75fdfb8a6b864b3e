"""`scripts/who-holds`: the boxes that hold an address, with their rights."""
from tools.check_text import read_check
from tools.entry import Wrong, note, run, words
from tools.files import standard_input
from tools.firmware import firmware_of
from tools.moment import add_words, check_words, moment_of
from tools.numbers import address

NOTES = """Without FILE the text of 'check' is read from standard input. ADDRESS is 0x and one to eight hexadecimal digits. The
status is 1 where no box holds it. Pages of the heap, whose owners change while the firmware runs, and register gateways
are no items: with FILE they are told on standard error, and a text of 'check' does not have them. With --log and --line
the log is followed beside the input, one that is no log of it is refused, and the owner of a page after that line holds
it too. A page changes its owner at the turn of its page call, which stands right after the flush."""


def beside(firmware, at, moment):
    """What is known of an address beside the items that hold it, in words."""
    heap = firmware.board.heap
    if heap and heap.range.holds(at):
        known = f"which is {firmware.owner_shown(moment.owners[heap.number(at)])} {moment.shown}" if moment else ""
        yield f"it is in page {heap.number(at)} of the heap, {known or 'and who owns a page changes while the firmware runs'}"
    yield from firmware.reaching(at)


def answer(parsed):
    """The text and the status."""
    at = address(parsed.address)
    if at is None:
        raise Wrong(f"'{parsed.address}' is no address: write 0x and one to eight hexadecimal digits")
    check_words(parsed)
    if parsed.file is None:
        boxes = read_check(standard_input(), "standard input")
    else:
        firmware = firmware_of(parsed.file)
        moment = moment_of(parsed, firmware)
        boxes = firmware.holders(moment.owners if moment else ())
        for told in beside(firmware, at, moment):
            note("who-holds", told)
    held = [f"{box.name} {item.rights}\n" for box in boxes for item in box.holding(at)]
    return ("".join(held), 0) if held else ("no box\n", 1)


def main():
    """Runs the entry."""
    parser = words("who-holds", "Names the boxes that hold an address, with their rights.",
                   "scripts/who-holds 0x40000060 examples/02-shared-grant.toml", NOTES)
    parser.add_argument("address", metavar="ADDRESS", help="the address, as 0x40000060")
    parser.add_argument("file", metavar="FILE", nargs="?", help="the input")
    add_words(parser)
    return run(parser, answer)
