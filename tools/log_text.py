"""The one reader of logs. It knows each line that a log may have."""
import re
from dataclasses import dataclass

from tools.entry import Wrong
from tools.refusals import read_refusal

NAME = r"[a-z][a-z0-9_]{0,15}"
NUMBER = r"(?:0|[1-9][0-9]{0,9})"
HEX = r"0x[0-9A-F]{8}"
THREAD = rf"{NAME}\.{NUMBER}"
REPLY = (rf"ended|ok|ok {HEX}|status {NUMBER}|posted {NUMBER}|waiting|irq {NUMBER}|frames(?: {NUMBER})+|"
         rf"fault (?:daccviol|iaccviol|unaligned|place) {HEX}|halted")
MOST_FRAMES = 16
LAST_STATUS = 13


@dataclass(frozen=True)
class Line:
    """A line of a log, with its number from 1 and its text."""
    number: int
    text: str


@dataclass(frozen=True)
class Switch(Line):
    """The unit is loaded for a box."""
    box: str


@dataclass(frozen=True)
class Rotate(Line):
    """A region is loaded into a slot."""
    slot: int
    rbar: int
    rasr: int


@dataclass(frozen=True)
class Flush(Line):
    """The slots of pages and grants are emptied."""


@dataclass(frozen=True)
class Access(Line):
    """The unit looks at an access; the slot is None where it is denied."""
    kind: str
    size: int
    address: int
    slot: int | None


@dataclass(frozen=True)
class Reply:
    """What a turn was answered: its word, and the numbers behind it."""
    word: str
    numbers: tuple = ()
    why: str = ""

    @property
    def number(self):
        """The first number, or None."""
        return self.numbers[0] if self.numbers else None


@dataclass(frozen=True)
class Turn(Line):
    """A turn of a thread."""
    thread: str
    reply: Reply


@dataclass(frozen=True)
class Start(Line):
    """A server starts a call: ticket, and the five words, or None with status 12."""
    thread: str
    caller: str
    call: int
    words: tuple | None


@dataclass(frozen=True)
class Idle(Line):
    """A server finds no call."""
    thread: str


@dataclass(frozen=True)
class Ring(Line):
    """A device rings a line."""
    line: int
    device: int


@dataclass(frozen=True)
class End(Line):
    """How a thread stands at the end."""
    thread: str
    mode: str
    steps: int
    registers: tuple


def reply_of(text):
    """The reply that a text says, or None where no log may have it."""
    word, *rest = text.split(" ")
    if word == "fault":
        return Reply(word, (int(rest[1], 16),), rest[0])
    numbers = tuple(int(number, 0) for number in rest)
    bounds = {"status": numbers and numbers[0] <= LAST_STATUS, "irq": numbers and numbers[0] < 64,
              "frames": len(numbers) <= MOST_FRAMES and list(numbers) == sorted(set(numbers)) and max(numbers, default=0) < 256}
    return Reply(word, numbers) if bounds.get(word, True) else None


def turn(number, text, thread, reply):
    """A line of a turn."""
    read = reply_of(reply)
    return Turn(number, text, thread, read) if read else None


def access(number, text, kind, size, address, slot):
    """A line of an access."""
    return Access(number, text, kind, int(size), int(address, 16), None if slot is None else int(slot))


def start(number, text, thread, caller, call, words):
    """A line of a start."""
    read = None if words == "status 12" else tuple(int(word, 16) for word in words.split(" ")[1:])
    return Start(number, text, thread, caller, int(call), read)


def end(number, text, thread, mode, steps, registers):
    """A line of a thread's end."""
    return End(number, text, thread, mode, int(steps), tuple(int(word, 16) for word in registers.split(" ")))


FORMS = [(re.compile(pattern), make) for pattern, make in [
    (rf"turn ({THREAD}) ({REPLY})", turn),
    (rf"unit access (read|write|fetch) ([124]) ({HEX}) (?:slot ([0-7])|denied)", access),
    (rf"unit switch ({NAME})", Switch),
    (rf"unit rotate ([0-7]) ({HEX}) ({HEX})",
     lambda number, text, slot, rbar, rasr: Rotate(number, text, int(slot), int(rbar, 16), int(rasr, 16))),
    (r"unit flush", Flush),
    (rf"start ({THREAD}) ({THREAD})#({NUMBER}) (ok(?: {HEX}){{5}}|status 12)", start),
    (rf"idle ({THREAD}) status 2", Idle),
    (r"ring ([1-5]?[0-9]|6[0-3]) by ([0-3])", lambda number, text, line, by: Ring(number, text, int(line), int(by))),
    (rf"thread ({THREAD}) (ready|waiting|halted|faulted|spent) ({NUMBER})((?: {HEX}){{8}})",
     lambda number, text, thread, mode, steps, words: end(number, text, thread, mode, steps, words.strip())),
]]


@dataclass(frozen=True)
class Log:
    """A log: its items in order, the ends of its threads, and its name in refusals."""
    name: str
    items: list
    ends: list

    @property
    def threads(self):
        """The names of the threads, in order."""
        return [ended.thread for ended in self.ends]

    @property
    def boxes(self):
        """The names of the boxes, in order."""
        return list(dict.fromkeys(box_of(thread) for thread in self.threads))

    def entries(self):
        """The items that are no lines of the unit."""
        return [item for item in self.items if isinstance(item, (Turn, Start, Idle, Ring))]

    def line(self, number):
        """The line of that number, or None."""
        lines = len(self.items)
        if 1 <= number <= lines:
            return self.items[number - 1]
        return self.ends[number - lines - 1] if lines < number <= lines + len(self.ends) else None


def box_of(thread):
    """The name of a thread's box."""
    return thread.split(".", 1)[0]


def read_line(number, text):
    """The line that a text is, or None."""
    for pattern, make in FORMS:
        found = pattern.fullmatch(text)
        if found:
            return make(number, text, *found.groups())
    return None


def read_log(text, name):
    """The log that a text is; the name is that of the text in refusals."""
    if text == "":
        raise Wrong(f"{name} is empty, and no log")
    refusal = read_refusal(text)
    if refusal:
        raise Wrong(f"{name} is a refusal, and no log: {refusal.text}")
    lines = text.split("\n")
    if lines.pop() != "":
        raise Wrong(f"{name} is no log: its last line {len(lines) + 1} has no end")
    items, ends = [], []
    for number, line in enumerate(lines, 1):
        read = read_line(number, line)
        if read is None or (ends and not isinstance(read, End)):
            raise Wrong(f"{name} is no log: line {number} may not stand there")
        (ends if isinstance(read, End) else items).append(read)
    log = Log(name, items, ends)
    check_names(log)
    return log


def check_names(log):
    """Refuses a log that names a box or a thread which has no line at its end."""
    if not log.ends:
        raise Wrong(f"{log.name} is no whole log: no 'thread' line stands at its end")
    counted = {}
    last = None
    for ended in log.ends:
        box, index = ended.thread.split(".")
        if int(index) != counted.get(box, 0) or (box in counted and box != last):
            raise Wrong(f"{log.name} is no log: line {ended.number} names a thread out of order")
        counted[box], last = int(index) + 1, box
    threads = set(log.threads)
    for item in log.items:
        named = {"thread", "caller"} & set(vars(item))
        if any(getattr(item, key) not in threads for key in named) or getattr(item, "box", last) not in counted:
            raise Wrong(f"{log.name} is no log: line {item.number} names what has no line at its end")
