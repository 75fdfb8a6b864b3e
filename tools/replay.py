"""A log followed beside its input. Each line is compared with what it must be; a log of another board is refused."""
from tools import kernel_calls
from tools.entry import Wrong
from tools.log_text import Access, Flush, Idle, Ring, Rotate, Start, Switch, Turn
from tools.threads import STATUSES, Differs, ThreadState, must
from tools.unit import NEEDS, Pair, Unit, plan


# The lines of the unit before an event, in their order, and the calls before which it empties slots.
SWITCH, ROTATION, ACCESS, FLUSH = range(4)
PAGE_CALLS = ("pages_alloc", "page_free")


class Call:
    """A posted call: the items that posted, started, answered and collected it, as far as they came."""

    def __init__(self, ticket, gateway, arguments, posted):
        self.ticket = ticket
        self.target = gateway.box
        self.words = (gateway.function, *arguments)
        self.posted = posted
        self.started = None
        self.answered = None
        self.collected = None


class Replay:
    """The state of a run between two lines of its log."""

    def __init__(self, firmware, log):
        self.firmware = firmware
        self.log = log
        self.unit = Unit(firmware)
        heap = firmware.board.heap
        self.owners = [None] * (heap.count if heap else 0)
        self.threads = {name: ThreadState(thread) for name, thread in firmware.threads.items()}
        self.latched = set()
        self.enabled = set()
        self.calls = {}
        self.inboxes = {box.name: [] for box in firmware.boxes}
        self.access = None
        self.rotated = None
        self.pending = []
        if log.threads != list(firmware.threads):
            raise Wrong(f"{log.name} is no log of {firmware.path}: its threads are others")

    def __iter__(self):
        """The items in order; the state is the one before the item."""
        for item in self.log.items:
            yield item
            self.follow(item)
        self.finish()

    def refuse(self, number, why):
        """Refuses the log at a line."""
        raise Wrong(f"{self.log.name} is no log of {self.firmware.path}: at line {number}, {why}")

    def follow(self, item):
        """The state after the item."""
        try:
            FOLLOWED[type(item)](self, item)
        except Differs as differs:
            self.refuse(item.number, differs)

    def finish(self):
        """Compares the ends of the threads."""
        for end in self.log.ends:
            state = self.threads[end.thread]
            held = (state.mode, state.steps, tuple(state.registers))
            if held != (end.mode, end.steps, end.registers):
                self.refuse(end.number, "the thread does not end so")
        if self.pending:
            self.refuse(self.log.items[-1].number, "no event follows the lines of the unit")

    def home(self, thread):
        """The state of an event's thread. Its box is the one that the unit is loaded for, unless it has ended."""
        state = self.threads[thread]
        if state.ended:
            must(not self.pending, "an ended thread has no lines of the unit before it")
        else:
            must(self.unit.box is state.thread.box, "the unit is not loaded for the box of the thread")
        return state

    def event(self, flushes):
        """The lines of the unit before an event have been used: none is left over."""
        must(self.rotated is None, "a rotation stands before an event without an access")
        must((FLUSH in self.pending) == flushes, "slots are emptied where pages come or go, and only there")
        self.pending = []

    def seen(self, kind):
        """One more line of the unit before the next event: each kind once, in its order."""
        must(not self.pending or self.pending[-1] < kind, "the lines of the unit before an event are out of order")
        self.pending.append(kind)

    def switch(self, item):
        """A switch to another box."""
        self.seen(SWITCH)
        box = self.firmware.box_named(item.box)
        must(box is not self.unit.box, "the unit is loaded for that box already")
        self.unit.switch(box)

    def rotate(self, item):
        """A rotation into the circle's slot. Whether it was due is known at the access."""
        self.seen(ROTATION)
        must(self.unit.box is not None and item.slot == self.unit.circle, "the circle stands at another slot")
        pair = Pair(item.rbar, item.rasr)
        must(self.purpose(pair) is not None, "the pair is not in the plan of the box")
        self.rotated = (pair, list(self.unit.slots))
        self.unit.rotate(item.slot, pair)

    def purpose(self, pair):
        """What a pair of the box's plan is for, or None."""
        listed = plan(self.firmware, self.unit.box, self.owners)
        return next((name for name, other in listed if other == pair), None)

    def due(self, item):
        """The pair that must rotate in for an access with these slots, or None."""
        if self.unit.decided(item.address, item.kind) is not None:
            return None
        pairs = (pair for _, pair in plan(self.firmware, self.unit.box, self.owners))
        return next((pair for pair in pairs if pair.serves(item.address, item.kind)), None)

    def look(self, item):
        """The unit's look at an access."""
        self.seen(ACCESS)
        must(self.unit.box is not None, "nothing is loaded yet")
        loaded, slots = self.rotated or (None, self.unit.slots)
        after, self.unit.slots = self.unit.slots, slots
        due, self.unit.slots = self.due(item), after
        must(due == loaded, "another region, or none, is due to rotate in")
        must(self.unit.decided(item.address, item.kind) == item.slot, "the slots decide otherwise")
        must(self.holds(item) == (item.slot is not None), "what the box holds says otherwise")
        self.access, self.rotated = item, None

    def holds(self, item):
        """Whether the box that the unit is loaded for holds the bytes for that kind of access."""
        return self.may(item.kind, item.address, item.size, self.unit.box)

    def may(self, kind, address, size, box):
        """Whether a box holds these bytes for a kind of access."""
        if any(NEEDS[kind] in held.rights for held in box.holding(address, size)):
            return True
        frame = self.frame(address)
        return frame is not None and kind != "fetch" and self.owners[frame] == box.index

    def frame(self, address):
        """The number of the page that holds an address, or None."""
        heap = self.firmware.board.heap
        return heap.number(address) if heap and heap.range.holds(address) else None

    def due_line(self, state):
        """The line whose interrupt is due to a thread: the lowest of its box that is latched and enabled, or None."""
        if state.ended or state.waiting or state.saved or state.thread.index != 0:
            return None
        return min(self.latched & self.enabled & set(state.thread.box.lines), default=None)

    def turn(self, item):
        """A turn."""
        state = self.home(item.thread)
        access, self.access = self.access, None
        irq = item.reply.number if item.reply.word == "irq" else None
        must(irq == self.due_line(state), "another line, or none, is due to be delivered")
        before = None if state.ended or state.waiting or irq is not None else state.instruction
        if state.waiting and not state.ended:
            answered = self.calls[item.thread, state.waiting[0]].answered
            must((item.reply.word == "ok") == (answered is not None), "a look gives the result exactly where the call is done")
        if before and before.word in STATUSES:
            answered = item.reply.number if item.reply.word == "status" else 0
            must(kernel_calls.fits(self, state, answered), "the call is due another answer")
        self.event(before is not None and before.word in PAGE_CALLS and item.reply.word in ("ok", "frames"))
        registers = list(state.registers)
        waited, served = state.waiting, state.serving
        state.turn(item.reply, access)
        if waited and state.waiting is None and item.reply.word == "ok":
            self.collect(item, waited[0])
        if irq is not None:
            self.latched.discard(irq)
        elif before and item.reply.word in ("ok", "frames", "posted"):
            self.done(item, state, before, registers, served)

    def done(self, item, state, instruction, registers, served):
        """What a kernel call that was done changes beyond its thread."""
        word, operands = instruction.word, instruction.operands
        if word == "pages_alloc":
            self.take_pages(item.reply.numbers, state.thread.box.index)
        elif word == "page_free":
            self.free_page(registers[operands[0]], state.thread.box.index)
        elif word in ("irq_on", "irq_off"):
            must(operands[0] in state.thread.box.lines, "the line is not one of the box")
            (self.enabled.add if word == "irq_on" else self.enabled.discard)(operands[0])
        elif word in ("rpc_call", "rpc_sync"):
            self.post(item, operands[1] if word == "rpc_call" else operands[0], registers[:4])
        elif word == "rpc_return":
            self.calls[served].answered = item
        elif word == "rpc_result":
            self.collect(item, registers[operands[1]])

    def take_pages(self, frames, owner):
        """Pages go to a box: the least free ones."""
        free = [number for number, other in enumerate(self.owners) if other is None]
        must(list(frames) == free[:len(frames)], "these are not the least free pages")
        for frame in frames:
            self.owners[frame] = owner

    def free_page(self, address, owner):
        """A page comes back."""
        frame = self.frame(address)
        at_start = frame is not None and self.firmware.board.heap.frame(frame).base == address
        must(at_start and self.owners[frame] == owner, "that is no page of the box")
        self.owners[frame] = None

    def post(self, item, gateway, arguments):
        """A call is posted."""
        ticket = (item.thread, item.reply.number)
        self.calls[ticket] = Call(ticket, self.firmware.text.gateways[gateway], arguments, item)
        self.inboxes[self.calls[ticket].target].append(ticket)

    def collect(self, item, number):
        """A call is collected by its caller."""
        call = self.calls.get((item.thread, number))
        must(call and call.answered and not call.collected, "that call is not to be collected")
        call.collected = item

    def start(self, item):
        """A server starts a call."""
        state = self.home(item.thread)
        must(self.access is None, "a start makes no access")
        self.event(False)
        must(self.due_line(state) is None, "an interrupt is due to the server")
        state.take(item)
        ticket, inbox = (item.caller, item.call), self.inboxes[state.thread.box.name]
        oldest = next((other for other in inbox if other[0] == item.caller), None)
        must((ticket == oldest) == (item.words is not None), "the oldest call of a thread is started, and no other")
        if item.words is not None:
            call = self.calls[ticket]
            must(item.words == call.words, "the call was posted with other words")
            state.registers[5] = self.threads[item.caller].thread.box.index
            call.started = item
            inbox.remove(ticket)

    def idle(self, item):
        """A server finds no call."""
        state = self.home(item.thread)
        must(self.access is None, "an idle look makes no access")
        self.event(False)
        must(self.due_line(state) is None, "an interrupt is due to the server")
        state.take(None)

    def ring(self, item):
        """A device rings a line."""
        must(not self.pending, "a ring has no lines of the unit before it")
        must(any(item.line in box.lines for box in self.firmware.boxes), "no box owns the line")
        self.latched.add(item.line)

    def flush(self, _):
        """The slots of pages and grants are emptied."""
        self.seen(FLUSH)
        must(self.unit.box is not None, "nothing is loaded yet")
        self.unit.flush()

    def shown_owner(self, frame):
        """Who owns a page, in words."""
        return self.firmware.owner_shown(self.owners[frame])


FOLLOWED = {Switch: Replay.switch, Rotate: Replay.rotate, Access: Replay.look, Flush: Replay.flush, Turn: Replay.turn,
            Start: Replay.start, Idle: Replay.idle, Ring: Replay.ring}


def followed(firmware, log):
    """The state at the end of a log, which is compared line by line."""
    replay = Replay(firmware, log)
    for _ in replay:
        pass
    return replay


def place_of(step, path):
    """Where an instruction stands, as editors jump to it."""
    return f"{path}:{step.line}:{step.column}"

