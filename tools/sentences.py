"""Lines of a log in words, by the line alone."""
from tools.log_text import Access, End, Flush, Idle, Ring, Rotate, Start, Switch, Turn, box_of
from tools.numbers import hexadecimal, of
from tools.unit import Pair

STATUSES = {
    0: "done",
    1: "the call is not done yet, or its looks are used up",
    2: "no call is posted",
    3: "the inbox of the called box is full",
    4: "the thread has no such call to collect",
    5: "too few pages are free",
    6: "the table is not aligned, or the box may not write it",
    7: "the address is not that of a page",
    8: "the box does not own the page",
    9: "the box or the thread may not do that",
    10: "the thread serves no call",
    11: "the thread serves a call already",
    12: "another call is next",
    13: "the count of pages is 0 or above 16",
}
FAULTS = {
    "daccviol": "the unit denied its access to {}",
    "iaccviol": "the unit denied its fetch at {}",
    "unaligned": "the address {} is no multiple of the size of its access",
    "place": "its place {} is past its program",
}
MODES = {"ready": "can go on", "waiting": "waits for a call", "halted": "has halted", "faulted": "has faulted",
         "spent": "has spent its steps"}


def status(number):
    """A status in words."""
    return f"status {number}, {STATUSES[number]}"


def fault(reply):
    """A fault in words."""
    at = reply.number if reply.why == "place" else hexadecimal(reply.number)
    return FAULTS[reply.why].format(at)


def answer(reply):
    """The reply of a turn in words."""
    word, number = reply.word, reply.number
    if word == "ok":
        return "done" if number is None else f"done, and the value is {hexadecimal(number)}"
    if word == "frames":
        return f"done, and it was given {'page' if len(reply.numbers) == 1 else 'pages'} {' '.join(map(str, reply.numbers))}"
    simple = {"ended": "nothing happens, since it has ended", "waiting": "it waits for its call", "halted": "it halts"}
    if word in simple:
        return simple[word]
    made = {"status": status, "posted": lambda call: f"its call number {call} is posted",
            "irq": lambda line: f"the interrupt of line {line} is delivered"}
    return made[word](number) if word in made else f"it faults: {fault(reply)}"


def access(item):
    """An access in words."""
    verdict = "no slot grants it" if item.slot is None else f"slot {item.slot} grants it"
    return f"a {item.kind} of {of(item.size, 'byte')} at {hexadecimal(item.address)}: {verdict}"


def start(item):
    """A start in words."""
    ticket = f"call {item.call} of {item.caller}"
    if item.words is None:
        return f"{item.thread} asks for {ticket}: {status(12)}"
    function, *arguments = item.words
    listed = " ".join(map(hexadecimal, arguments))
    return f"{item.thread} starts {ticket}, function {function}, arguments {listed}"


def end(item):
    """The end of a thread in words."""
    words = " ".join(f"r{number}={hexadecimal(word)}" for number, word in enumerate(item.registers))
    return f"at the end {item.thread} {MODES[item.mode]}, after {of(item.steps, 'step')}, with {words}"


SAID = {
    Switch: lambda item: f"the unit is loaded for box {item.box}",
    Rotate: lambda item: f"slot {item.slot} is loaded with {Pair(item.rbar, item.rasr).shown()}",
    Flush: lambda item: "slots 2 to 6 are emptied, since pages came or went",
    Access: access,
    Turn: lambda item: f"a turn of {item.thread}: {answer(item.reply)}",
    Start: start,
    Idle: lambda item: f"{item.thread} looks for a call: {status(2)}",
    Ring: lambda item: f"line {item.line} is rung by device {item.device}",
    End: end,
}


def said(item):
    """A line in words."""
    return SAID[type(item)](item)


def boxes_of(item):
    """The name of the box that an entry is of, or None."""
    return box_of(item.thread) if isinstance(item, (Turn, Start, Idle, End)) else None
