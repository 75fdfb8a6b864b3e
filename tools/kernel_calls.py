"""What a kernel call is due by docs/PROGRAMS.md: its status, and why. A call that is done has status 0."""
from tools.numbers import WORDS, hexadecimal, of

MOST_PAGES = 16
INBOX = 8
READING = ("read", "read_and")
DONE = (0, "")


def pages_alloc(replay, state, count, table):
    """Pages are asked for: the count, the table and the free pages, in this order."""
    if not 1 <= count <= MOST_PAGES:
        return 13, f"it asks for {of(count, 'page')}"
    if table % 4:
        return 6, f"the table is at {hexadecimal(table)}, no multiple of 4"
    for word in range(table, table + 4 * count, 4):
        if word >= WORDS:
            return 6, "the table would go on above 0xFFFFFFFF"
        if not replay.may("write", word, 4, state.thread.box):
            return 6, f"{state.thread.box.name} may not write word {(word - table) // 4} of the table, at {hexadecimal(word)}"
    free = replay.owners.count(None)
    return (5, f"it asks for {of(count, 'page')}, and {free} of {len(replay.owners)} are free") if free < count else DONE


def page_free(replay, state, address):
    """A page is given back: it begins at the address, and is the box's."""
    heap = replay.firmware.board.heap
    if heap is None:
        return 7, "the board has no heap"
    frame = replay.frame(address)
    if frame is None:
        return 7, f"{hexadecimal(address)} is not in the heap, {heap.range.span()}"
    if heap.frame(frame).base != address:
        return 7, f"{hexadecimal(address)} is inside page {frame}, which begins at {hexadecimal(heap.frame(frame).base)}"
    owned = replay.owners[frame] == state.thread.box.index
    return DONE if owned else (8, f"page {frame} is {replay.shown_owner(frame)}")


def line(_, state, number):
    """A line is enabled or disabled: it is the box's."""
    box = state.thread.box
    return DONE if number in box.lines else (9, f"{box.name} does not own line {number}")


def irq_return(_, state):
    """A return from a handler."""
    return DONE if state.saved else (9, f"{state.thread.name} is in no handler")


def register(replay, state, number, read):
    """A register gateway: it is there, names the box, and goes that way."""
    gates = replay.firmware.text.registers
    if number >= len(gates):
        return 9, f"there is no register gateway {number}"
    gate, name = gates[number], state.thread.box.name
    if name not in gate.boxes:
        return 9, f"register gateway {number} is not for {name}"
    if (gate.op in READING) != read:
        return 9, f"register gateway {number} ({gate.op}) only {'writes' if read else 'reads'}"
    return DONE


def post(replay, state, number):
    """A call is posted: its gateway is there and names the box, and the inbox has room."""
    gates = replay.firmware.text.gateways
    if number >= len(gates):
        return 9, f"there is no gateway {number}"
    name, target = state.thread.box.name, gates[number].box
    if name not in gates[number].callers:
        return 9, f"gateway {number} is not for {name}"
    posted = len(replay.inboxes[target])
    return (3, f"{posted} calls to {target} are posted") if posted >= INBOX else DONE


def may_lack_room(replay, number):
    """Whether a call may find no room though fewer than eight are posted: other threads may hold a slot for a moment."""
    gates = replay.firmware.text.gateways
    target = gates[number].box
    callers = {name for gate in gates if gate.box == target for name in gate.callers}
    others = sum(len(box.threads) for box in replay.firmware.boxes if box.name in callers) - 1
    return len(replay.inboxes[target]) + others >= INBOX


def rpc_take(_, state):
    """A turn of a thread that can take no call."""
    if state.thread.box.server != state.thread.index:
        return 9, f"the server of {state.thread.box.name} is its thread {state.thread.box.server}"
    return 11, "it serves call {1} of {0}".format(*state.serving) if state.serving else "it would start a call, or idle"


def rpc_return(_, state):
    """A call is ended."""
    return DONE if state.serving else (10, f"{state.thread.name} serves no call")


def rpc_result(replay, state, number):
    """A result is collected: the call is the thread's, is done, and was not collected before."""
    call = replay.calls.get((state.thread.name, number))
    if call is None:
        return 4, f"{state.thread.name} has made no call {number}"
    if call.collected:
        return 4, f"its call {number} was collected at line {call.collected.number}"
    if call.answered is None:
        return 1, f"its call {number} is {'started, and not answered' if call.started else 'posted, and not started'}"
    return DONE


def due(replay, state):
    """The status that the kernel call at the place of a thread is due, and why; None where no kernel call stands there."""
    held, operands = state.registers, state.instruction.operands
    asked = {
        "pages_alloc": lambda: pages_alloc(replay, state, held[operands[0]], held[operands[1]]),
        "page_free": lambda: page_free(replay, state, held[operands[0]]),
        "irq_on": lambda: line(replay, state, operands[0]),
        "irq_off": lambda: line(replay, state, operands[0]),
        "irq_return": lambda: irq_return(replay, state),
        "gw_read": lambda: register(replay, state, operands[1], True),
        "gw_write": lambda: register(replay, state, operands[1], False),
        "rpc_call": lambda: post(replay, state, operands[1]),
        "rpc_sync": lambda: post(replay, state, operands[0]),
        "rpc_take": lambda: rpc_take(replay, state),
        "rpc_return": lambda: rpc_return(replay, state),
        "rpc_result": lambda: rpc_result(replay, state, held[operands[1]]),
    }.get(state.instruction.word)
    return asked() if asked else None


def fits(replay, state, answered):
    """Whether a turn at a kernel call may be answered a status, where 0 stands for a call that is done."""
    status, _ = due(replay, state)
    if answered == 3 and status == 0 and state.instruction.word in ("rpc_call", "rpc_sync"):
        return may_lack_room(replay, state.instruction.operands[state.instruction.word == "rpc_call"])
    return answered == status


def why(replay, state, answered):
    """Why a turn was answered a status, in words."""
    status, told = due(replay, state)
    return told if answered == status else "other threads may hold slots of the inbox"


def through(replay, instruction):
    """The register gateway that an instruction goes through, in words, or None."""
    if instruction.word not in ("gw_read", "gw_write"):
        return None
    number = instruction.operands[1]
    gates = replay.firmware.text.registers
    if number >= len(gates):
        return None
    masked = "" if gates[number].op in ("read", "write") else f", mask {hexadecimal(gates[number].mask)}"
    return f"register gateway {number} is {gates[number].op} at {hexadecimal(gates[number].at)}{masked}"
