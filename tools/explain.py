"""`scripts/explain`: lines of a log in words, and why each fault came."""
from tools import advice, kernel_calls, sentences
from tools.entry import run, words
from tools.files import read_text
from tools.firmware import firmware_of
from tools.log_text import Access, End, Flush, Ring, Rotate, Switch, Turn, read_log
from tools.moment import wanted_line
from tools.numbers import hexadecimal, of
from tools.replay import Replay, followed, place_of
from tools.unit import NEEDS, Pair, Unit

NOTES = """LINE is the number of a line of LOG, from 1; without it each fault of the log is explained. The log is followed line
by line beside the input, and one that is no log of it is refused. Nothing is said of memory's content."""


def instruction_line(state, path):
    """The thread, its place and the instruction there."""
    thread = state.thread
    if state.step is None:
        count = of(len(thread.program), "instruction")
        return f"{thread.name} is at place {state.place}; its program has {count}"
    return f"{thread.name} is at place {state.place}: {state.instruction.shown()} ({place_of(state.step, path)})"


def address_line(state):
    """Which registers made the address of the access."""
    kind, size, address = state.named_access()
    base, offset = state.instruction.operands[-2:]
    held = hexadecimal(state.registers[base])
    made = f"the address {hexadecimal(address)} is r{base} {held} plus {hexadecimal(offset)}"
    return f"{made}; it is a {kind} of {of(size, 'byte')}"


def deciding(unit, address, kind):
    """Which slot decided, in words."""
    slot = unit.matching(address)
    if slot is None:
        return "no slot matches the address, so the access is denied"
    gives = unit.slots[slot].rights
    if NEEDS[kind] in gives:
        return f"slot {slot} is the highest that matches, and gives {gives}, so the access is granted"
    return f"slot {slot} is the highest that matches, and gives {gives}, so the access is denied"


def denied(replay, state, item):
    """A denied access: the slots, who holds the address, what is near, and what would allow it."""
    kind, size, address = state.named_access()
    box = state.thread.box
    return [address_line(state), *replay.unit.shown(), deciding(replay.unit, address, kind),
            advice.held_by(replay, address, size), *replay.firmware.reaching(address), advice.nearest(replay, box, address, size),
            advice.advice(replay.firmware, box, kind, address)]


def past_program(replay, state):
    """A place past the program: how the thread came there."""
    if state.last is None:
        return ["it stands there since an interrupt, or from the start"]
    return [f"it came there from {state.last.instruction.shown()} ({place_of(state.last, replay.firmware.path)})"]


def fault(replay, item):
    """The lines on a fault."""
    state = replay.threads[item.thread]
    lines = [instruction_line(state, replay.firmware.path)]
    if item.reply.why == "place":
        return lines + past_program(replay, state)
    if item.reply.why == "unaligned":
        size = state.named_access()[1]
        return lines + [address_line(state), f"the address is no multiple of {size}; the unit was not asked"]
    return lines + denied(replay, state, item)


def turn(replay, item):
    """The lines on a turn."""
    if item.reply.word == "fault":
        return fault(replay, item)
    state = replay.threads[item.thread]
    if state.ended:
        return [f"{item.thread} has {state.mode}: {sentences.answer(item.reply)}".replace("has spent:", "has spent its steps:")]
    said = f"{item.thread}: {sentences.answer(item.reply)}"
    if item.reply.word == "irq":
        handler = state.thread.box.lines[item.reply.number]
        return [said, f"its handler is at place {handler}; place {state.place} and the registers are kept until irq_return"]
    if state.waiting:
        call, looks = state.waiting
        return [said, f"it waits for its call {call}, with {of(looks, 'look')} left, this one among them"]
    return [instruction_line(state, replay.firmware.path), *called(replay, state, item.reply)]


def called(replay, state, reply):
    """What an instruction was answered; for a kernel call also by which register gateway, and why not."""
    through = kernel_calls.through(replay, state.instruction)
    lines = ([through] if through else []) + [sentences.answer(reply)]
    return lines + [kernel_calls.why(replay, state, reply.number)] if reply.word == "status" else lines


def rotated(replay, item):
    """The lines on a rotation."""
    purpose = replay.purpose(Pair(item.rbar, item.rasr))
    return [sentences.said(item), f"it is a region of {replay.unit.box.name if replay.unit.box else 'no box'}, for its {purpose}"]


def looked(replay, item):
    """The lines on an access."""
    return [sentences.said(item), *replay.unit.shown(), deciding(replay.unit, item.address, item.kind)]


def rung(replay, item):
    """The lines on a ring."""
    owner = next(box.name for box in replay.firmware.boxes if item.line in box.lines)
    enabled = "enabled" if item.line in replay.enabled else "not enabled"
    latched = "latched already, so that both rings are one interrupt" if item.line in replay.latched else "latched by this ring"
    return [sentences.said(item), f"it is a line of {owner}; it is {enabled}, and {latched}"]


def explained(replay, item):
    """The lines on a line of the log, from the state before it."""
    if isinstance(item, Turn):
        return turn(replay, item)
    if isinstance(item, Rotate):
        return rotated(replay, item)
    if isinstance(item, Access):
        return looked(replay, item)
    return rung(replay, item) if isinstance(item, Ring) else [sentences.said(item)]


def block(log, item, lines):
    """A line of the log with what is said of it."""
    return "\n".join([f"{log.name}:{item.number}: {item.text}", *("  " + line for line in lines)]) + "\n"


def answer(parsed):
    """The text and the status."""
    log = read_log(read_text(parsed.log), parsed.log)
    wanted = wanted_line(log, parsed.line)
    firmware = firmware_of(parsed.file)
    # The whole log is followed before anything is said of a line.
    followed(firmware, log)
    replay = Replay(firmware, log)
    blocks = []
    for item in replay:
        is_fault = isinstance(item, Turn) and item.reply.word == "fault"
        if (is_fault and wanted is None) or (item is wanted and not isinstance(item, (Switch, Flush))):
            blocks.append(block(log, item, explained(replay, item)))
        elif item is wanted:
            blocks.append(block(log, item, after(replay, item)))
    if isinstance(wanted, End):
        blocks.append(block(log, wanted, [sentences.said(wanted)]))
    return "".join(blocks) or f"{log.name} has no fault\n", 0


def after(replay, item):
    """The lines on a switch or a flush, with the slots that it leaves. The state stays the one before it."""
    unit = Unit(replay.firmware)
    unit.box, unit.slots, unit.circle = replay.unit.box, list(replay.unit.slots), replay.unit.circle
    if isinstance(item, Switch):
        unit.switch(replay.firmware.box_named(item.box))
    else:
        unit.flush()
    return [sentences.said(item), *unit.shown()]


def main():
    """Runs the entry."""
    parser = words("explain", "Says in words what lines of a log mean, and why each fault came.",
                   "scripts/explain examples/03-secret.toml examples/03-secret.log", NOTES)
    parser.add_argument("file", metavar="FILE", help="the input")
    parser.add_argument("log", metavar="LOG", help="a log of that input")
    parser.add_argument("line", metavar="LINE", nargs="?", help="the number of a line, from 1")
    return run(parser, answer)
