"""A run computed beside its log, by docs/PROGRAMS.md and docs/MODEL.md: each line of the log must be the one that is due.

`Replay` takes from a log what it does not follow, as the values that loads gave. Here the bytes of memory, the results of calls
and the order of the script are followed too, so each reply is computed before the log's own is looked at.
"""
from dataclasses import dataclass

from tools import kernel_calls
from tools.log_text import Idle, Ring, Start, Turn
from tools.numbers import hexadecimal
from tools.programs import ACCESSES
from tools.replay import Replay
from tools.threads import SERVER_WORD, STATUSES

EVENTS = (Turn, Start, Idle, Ring)
WORD = 4
ALL_BITS = 0xFFFFFFFF
READS = {"read": lambda reg, mask: reg, "read_and": lambda reg, mask: reg & mask}
WRITES = {"write": lambda reg, mask, value: value,
          "and": lambda reg, mask, value: reg & (value | mask ^ ALL_BITS),
          "or": lambda reg, mask, value: reg | (value & mask),
          "xor": lambda reg, mask, value: reg ^ (value & mask),
          "replace": lambda reg, mask, value: (reg & (mask ^ ALL_BITS)) | (value & mask)}


class Memory:
    """The bytes of flash, SRAM and the peripherals. All are zero at first, but for the words of the board."""

    def __init__(self, board):
        self.banks = [(whole, bytearray(whole.length)) for whole in (board.flash, board.sram, board.peripherals)]
        for address, value in board.words:
            self.store(address, WORD, value)

    def bank(self, address, size):
        """The bank that holds these bytes, and where they begin in it."""
        whole, held = next(bank for bank in self.banks if bank[0].holds(address, size))
        return held, address - whole.base

    def load(self, address, size):
        """The bytes as a number, the lowest first."""
        held, start = self.bank(address, size)
        return int.from_bytes(held[start:start + size], "little")

    def store(self, address, size, value):
        """The low bytes of a number go there."""
        held, start = self.bank(address, size)
        held[start:start + size] = (value % (1 << 8 * size)).to_bytes(size, "little")

    def clear(self, whole):
        """All bytes of a range become zero."""
        held, start = self.bank(whole.base, whole.length)
        held[start:start + whole.length] = bytes(whole.length)


@dataclass
class Due:
    """What is due at a turn: its reply, the pages that are cleared, the words that are written then, and a call's result."""
    reply: str
    cleared: tuple = ()
    written: tuple = ()
    result: int | None = None


def valued(value):
    """The reply of what was done and gave a value."""
    return Due(f"ok {hexadecimal(value)}")


class Evaluator(Replay):
    """The state of a run between two lines of its log, with all that decides the next one."""

    def __init__(self, firmware, log):
        super().__init__(firmware, log)
        self.memory = Memory(firmware.board)
        self.results = {}
        self.events = 0

    def follow(self, item):
        """The state after the item, which must be the one that is due."""
        if not isinstance(item, EVENTS):
            return super().follow(item)
        script = self.firmware.text.script
        if self.events == len(script):
            self.refuse(item.number, "the script has no more words")
        word = script[self.events]
        self.events += 1
        due = self.turn_due(word) if self.is_turn(word) else None
        text = f"turn {word} {due.reply}" if due else self.other_due(word)
        if item.text != text:
            self.refuse(item.number, f"'{text}' is due for word {self.events} of the script, and '{item.text}' stands there")
        if due:
            self.change(self.threads[word], due)
        return super().follow(item)

    def finish(self):
        """Compares the end of the script and the ends of the threads."""
        if self.events != len(self.firmware.text.script):
            self.refuse(self.log.ends[0].number, f"word {self.events + 1} of the script is due")
        super().finish()

    def is_turn(self, word):
        """Whether a word of the script stands for a turn, as the threads stand."""
        return not word.startswith("ring ") and not self.takes(self.threads[word])

    def takes(self, state):
        """Whether a turn of the thread would take up a call, so that it is a start or an idle."""
        if state.ended or state.waiting or self.due_line(state) is not None or state.instruction is None:
            return False
        server = state.thread.box.server == state.thread.index
        return state.instruction.word == SERVER_WORD and server and state.serving is None

    def other_due(self, word):
        """The line of a ring, a start of the oldest call of all that are posted to the box, or an idle where none is."""
        if word.startswith("ring "):
            return f"{word} by 0"
        inbox = self.inboxes[self.threads[word].thread.box.name]
        if not inbox:
            return f"idle {word} status 2"
        call = self.calls[inbox[0]]
        return "start {} {}#{} ok {}".format(word, *call.ticket, " ".join(map(hexadecimal, call.words)))

    def change(self, state, due):
        """What a turn changes in memory, and the result that it gives to a call."""
        for whole in due.cleared:
            self.memory.clear(whole)
        for address, size, value in due.written:
            self.memory.store(address, size, value)
        if due.result is not None:
            self.results[state.serving] = due.result

    def turn_due(self, word):
        """What is due at a turn of a thread."""
        state = self.threads[word]
        if state.ended:
            return Due("ended")
        if state.waiting:
            return self.look_due(state)
        line = self.due_line(state)
        if line is not None:
            return Due(f"irq {line}")
        if state.instruction is None:
            return Due(f"fault place {hexadecimal(state.place)}")
        if state.instruction.word in ACCESSES:
            return self.access_due(state)
        return self.call_due(state) if state.instruction.word in STATUSES else self.local_due(state)

    def look_due(self, state):
        """What is due where a thread waits: the result, one look fewer, or the end of its looks."""
        call, looks = state.waiting
        ticket = (state.thread.name, call)
        if ticket in self.results:
            return valued(self.results[ticket])
        return Due("waiting" if looks > 1 else "status 1")

    def local_due(self, state):
        """What is due at an instruction that changes one thread alone."""
        word = state.instruction.word
        if word == "box_id":
            return valued(state.thread.box.index)
        return Due("halted" if word == "halt" else "ok")

    def access_due(self, state):
        """What is due at a load, a store or a fetch."""
        kind, size, address = state.named_access()
        if address % size:
            return Due(f"fault unaligned {hexadecimal(address)}")
        if not self.may(kind, address, size, state.thread.box):
            return Due(f"fault {'iaccviol' if kind == 'fetch' else 'daccviol'} {hexadecimal(address)}")
        if kind == "read":
            return valued(self.memory.load(address, size))
        if kind == "fetch":
            return Due("ok")
        return Due("ok", written=((address, size, state.registers[state.instruction.operands[0]]),))

    def call_due(self, state):
        """What is due at a kernel call that may answer a status."""
        status, _ = kernel_calls.due(self, state)
        if status:
            return Due(f"status {status}")
        word, operands, held = state.instruction.word, state.instruction.operands, state.registers
        if word == "pages_alloc":
            return self.pages_due(held[operands[0]], held[operands[1]])
        if word == "gw_read":
            gate = self.firmware.text.registers[operands[1]]
            return valued(READS[gate.op](self.memory.load(gate.at, WORD), gate.mask))
        if word == "gw_write":
            gate = self.firmware.text.registers[operands[1]]
            value = WRITES[gate.op](self.memory.load(gate.at, WORD), gate.mask, held[operands[0]])
            return Due("ok", written=((gate.at, WORD, value),))
        if word in ("rpc_call", "rpc_sync"):
            return Due(f"posted {state.calls + 1}")
        if word == "rpc_result":
            return valued(self.results[state.thread.name, held[operands[1]]])
        return Due("ok", result=held[operands[0]] if word == "rpc_return" else None)

    def pages_due(self, count, table):
        """What is due where pages are given: the least free ones, cleared, and their addresses in the table."""
        heap = self.firmware.board.heap
        frames = [number for number, owner in enumerate(self.owners) if owner is None][:count]
        pages = tuple(heap.frame(frame) for frame in frames)
        written = tuple((table + WORD * place, WORD, page.base) for place, page in enumerate(pages))
        return Due("frames " + " ".join(map(str, frames)), pages, written)


def evaluated(firmware, log):
    """The state at the end of a log, each line of which is the one that is due."""
    evaluator = Evaluator(firmware, log)
    for _ in evaluator:
        pass
    return evaluator
