"""The state of one thread as a log tells it: each reply fixes what the registers and the place become."""
from tools.numbers import WORDS
from tools.programs import ACCESSES

SERVER_WORD = "rpc_take"
JUMPS = {"jump": lambda value: True, "jz": lambda value: value == 0, "jnz": lambda value: value != 0}
SUMS = {"add": lambda a, b: a + b, "sub": lambda a, b: a - b, "and": lambda a, b: a & b, "orr": lambda a, b: a | b,
        "eor": lambda a, b: a ^ b}
# The statuses that each kernel call may answer in a turn.
STATUSES = {"pages_alloc": (13, 6, 5), "page_free": (7, 8), "irq_on": (9,), "irq_off": (9,), "irq_return": (9,),
            "gw_read": (9,), "gw_write": (9,), "rpc_call": (9, 3), "rpc_sync": (9, 3), "rpc_take": (9, 11),
            "rpc_return": (10,), "rpc_result": (1, 4)}
VALUES = ("box_id", "gw_read", "rpc_result")
ENDED = ("halted", "faulted", "spent")


class Differs(Exception):
    """A line of the log is not what the program of its thread gives."""


def must(holds, why):
    """Refuses a line for a reason."""
    if not holds:
        raise Differs(why)


class ThreadState:
    """A thread: its place, registers, mode and steps, and what it waits for, serves or has saved."""

    def __init__(self, thread):
        self.thread = thread
        self.place = 0
        self.registers = [0] * 8
        self.mode = "ready"
        self.steps = 0
        self.saved = None
        self.waiting = None
        self.calls = 0
        self.serving = None
        self.last = None

    @property
    def ended(self):
        """Whether nothing happens in it any more."""
        return self.mode in ENDED

    @property
    def step(self):
        """The instruction at its place, or None past the program."""
        program = self.thread.program
        return program[self.place] if self.place < len(program) else None

    @property
    def instruction(self):
        """The instruction at its place without its place in the file, or None."""
        return self.step.instruction if self.step else None

    def named_access(self):
        """The access of the instruction at its place: kind, size and address; None where it makes none."""
        instruction = self.instruction
        if self.ended or self.waiting or instruction is None or instruction.word not in ACCESSES:
            return None
        kind, size = ACCESSES[instruction.word]
        base, offset = instruction.operands[-2:]
        return kind, size, (self.registers[base] + offset) % WORDS

    def status(self, number):
        """A kernel call was answered this status."""
        self.registers[7] = number
        self.place += 1

    def counted(self):
        """The end of a step: at its budget a thread that has not ended has spent its steps."""
        if not self.ended and self.steps >= self.thread.steps:
            self.mode = "spent"

    def turn(self, reply, access):
        """A turn with this reply; the access is the unit's line before it, or None."""
        if self.ended:
            must(reply.word == "ended", "the thread has ended before")
            return must(access is None, "a thread that has ended makes no access")
        must(reply.word != "ended", "the thread has not ended before")
        self.steps += 1
        if self.waiting:
            self.look(reply)
        elif reply.word == "irq":
            self.interrupt(reply.number)
        elif self.step is None:
            must(reply.word == "fault" and (reply.why, reply.number) == ("place", self.place), "its place is past its program")
            self.mode = "faulted"
        else:
            self.execute(self.instruction, reply, access)
            access = None
        must(access is None, "an access stands before a turn that makes none")
        return self.counted()

    def look(self, reply):
        """A look of a thread that waits for a call."""
        call, looks = self.waiting
        if reply.word == "waiting":
            must(looks > 1, "its looks are used up")
            self.waiting = (call, looks - 1)
            return
        if reply.word == "ok":
            must(len(reply.numbers) == 1, "a call that is done gives a value")
            self.registers[0], status = reply.number, 0
        else:
            must(reply.word == "status" and reply.number == 1 and looks == 1, "a waiting thread is not answered so")
            self.registers[0], status = call, 1
        self.waiting, self.mode = None, "ready"
        self.status(status)

    def interrupt(self, line):
        """The delivery of a line."""
        lines = self.thread.box.lines
        must(self.thread.index == 0 and self.saved is None and line in lines, "that line is not delivered to it")
        self.saved = (self.place, list(self.registers))
        self.place = lines[line]
        self.registers[0] = line
        self.last = None

    def execute(self, instruction, reply, access):
        """The instruction at its place."""
        self.last = self.step
        word, operands = instruction.word, instruction.operands
        if word in ACCESSES:
            return self.reach(word, operands, reply, access)
        must(access is None, f"'{word}' makes no access")
        if reply.word == "status":
            must(reply.number in STATUSES.get(word, ()), f"'{word}' is not answered status {reply.number}")
            return self.status(reply.number)
        if word in STATUSES or word == "box_id":
            return self.kernel(word, operands, reply)
        must(reply.word == ("halted" if word == "halt" else "ok") and not reply.numbers, f"'{word}' is not answered so")
        return self.local(word, operands)

    def local(self, word, operands):
        """An instruction on registers and the place alone."""
        registers = self.registers
        if word == "halt":
            self.mode = "halted"
            return
        if word in JUMPS:
            jumps = JUMPS[word](registers[operands[0]] if word != "jump" else 0)
            self.place = operands[-1] if jumps else self.place + 1
            return
        if word == "set":
            registers[operands[0]] = operands[1]
        elif word == "mov":
            registers[operands[0]] = registers[operands[1]]
        else:
            registers[operands[0]] = SUMS[word](registers[operands[1]], registers[operands[2]]) % WORDS
        self.place += 1

    def reach(self, word, operands, reply, access):
        """A memory instruction."""
        kind, size, address = self.named_access()
        if address % size:
            must((reply.word, reply.why, reply.number) == ("fault", "unaligned", address) and access is None,
                 "its address is not aligned")
            self.mode = "faulted"
            return
        seen = (access.kind, access.size, access.address) if access else None
        must(seen == (kind, size, address), "the unit's line before it is no line of its access")
        if access.slot is None:
            why = "iaccviol" if kind == "fetch" else "daccviol"
            must((reply.word, reply.why, reply.number) == ("fault", why, address), "a denied access is a fault")
            self.mode = "faulted"
            return
        must(reply.word == "ok" and len(reply.numbers) == (kind == "read"), "a granted access is not answered so")
        if kind == "read":
            must(reply.number < 1 << 8 * size, "the value has more bytes than were read")
            self.registers[operands[0]] = reply.number
        self.place += 1

    def kernel(self, word, operands, reply):
        """A kernel call that was done."""
        numbers = len(reply.numbers)
        if word in ("rpc_call", "rpc_sync"):
            must(reply.word == "posted" and reply.number == self.calls + 1, f"'{word}' is not answered so")
            return self.post(word, operands, reply.number)
        if word == "pages_alloc":
            must(reply.word == "frames" and numbers == self.registers[operands[0]], "the pages are not as many as it asks for")
        else:
            must(reply.word == "ok" and numbers == (word in VALUES) and word != SERVER_WORD, f"'{word}' is not answered so")
        if word == "box_id":
            must(reply.number == self.thread.box.index, "the index of its box is another")
        if word == "irq_return":
            must(self.saved is not None, "the thread is in no handler")
            self.place, self.registers = self.saved
            self.saved = None
            return None
        if word == "rpc_return":
            must(self.serving is not None, "the thread serves no call")
            self.serving = None
        if word in VALUES:
            self.registers[operands[0]] = reply.number
        return self.status(0)

    def post(self, word, operands, call):
        """A call was posted."""
        self.calls = call
        if word == "rpc_sync":
            self.waiting, self.mode = (call, operands[1]), "waiting"
            return
        self.registers[operands[0]] = call
        self.status(0)

    def take(self, started):
        """A start or, with None, an idle look of a server."""
        server = self.thread.box.server == self.thread.index
        must(not self.ended and not self.waiting and self.instruction is not None, "the thread takes no call")
        must(self.instruction.word == SERVER_WORD and server and self.serving is None, "the thread takes no call")
        self.steps += 1
        if started is None or started.words is None:
            self.status(2 if started is None else 12)
        else:
            self.registers[0:4] = started.words[1:]
            self.registers[4] = started.words[0]
            self.serving = (started.caller, started.call)
            self.status(0)
        self.counted()
