"""`scripts/largest`: the program on the largest inputs of each kind, with the time and the memory that each run takes."""
import os
import resource
import subprocess
import tempfile

from tools.entry import Wrong, run, words

MOST_BYTES = 4_194_304
# The steps of all threads and the words of a script, at most.
MOST_WORDS = 250_000
# The most bytes that an item of the log, and a place in the table of calls, may take.
ITEM = 48
CALL = 48
# The most that a run may take: seconds of a processor, and bytes beside twenty times the input and what start-up reserves.
MOST_SECONDS = 5
MORE_BYTES = 16 * 1024 * 1024
GRANTS = 64
BUDGETS = [100_000, 100_000, 50_000]
NOTES = """Each input is run by `script`. A run must end with the status that its kind has, and within its marks: five seconds of a
processor, and as many bytes as start-up reserves, twenty times the input, and 16 MiB. The program is the proved build
crates/uvisor/out/uvisor, where no other is named."""

BOARD = """format = 1
script = [{script}]
[board]
flash = [0x0, 0x100000]
sram = [0x20000000, 0x20000]
peripherals = [0x40000000, 0x100000]
"""
ONE_BOX = BOARD.format(script='"b.0"') + '[[box]]\nname = "b"\nsize = 256\n[[box.thread]]\nprogram = "halt"\n'


def filled(head, piece, tail=""):
    """A text of as many bytes as an input may have: the head, a piece again and again, and the tail."""
    count = (MOST_BYTES - len(head) - len(tail)) // len(piece)
    text = head + piece * count + tail
    return text + "\n" * (MOST_BYTES - len(text))


def comments():
    """A board of one box, and comments."""
    return filled(ONE_BOX, "# a comment of a line\n")


def tables():
    """As many tables as fit, each with a name of its own."""
    lines = []
    size = len(ONE_BOX)
    for number in range(MOST_BYTES):
        line = f"[t{number}]\n"
        size += len(line)
        if size > MOST_BYTES:
            break
        lines.append(line)
    return ONE_BOX + "".join(lines)


def nested_header():
    """One table, named by as many parts as fit, each inside the one before."""
    return filled("[", "a.", "a]\n")


def nested_key():
    """One value under a key of as many parts as fit."""
    return filled("", "a.", "a = 1\n")


def nested_arrays():
    """Arrays in one another, as many as fit."""
    return filled("a = ", "[", "\n")


def nested_inline():
    """Inline tables in one another, as many as fit."""
    return filled("a = ", "{a=", "\n")


def headers_in_one_another():
    """Tables that lie ten deep in one another, as many as fit."""
    lines = []
    size = 0
    for number in range(MOST_BYTES):
        line = "[" + ".".join(["a"] * 10 + [f"b{number}"]) + "]\n"
        size += len(line)
        if size > MOST_BYTES:
            break
        lines.append(line)
    return "".join(lines)


def long_string():
    """A box with a name of as many bytes as fit."""
    return filled(BOARD.format(script="") + '[[box]]\nname = "', "n", '"\n')


def program_text(box):
    """A program that loads from each grant of its box in turn."""
    base = 0x40000000 + 0x10000 * box
    loads = "".join(f"load32 r1 r0 0x{0x100 * grant:X}\n" for grant in range(GRANTS))
    return f"set r0 0x{base:X}\n{loads}jump 1\n"


def grant_text(box, grant):
    """A grant of 32 bytes that touches no other."""
    return f'[[box.grant]]\nbase = 0x{0x40000000 + 0x10000 * box + 0x100 * grant:X}\nlen = 0x20\nrights = "r"\n'


def turns(budgets):
    """A word for each step: the boxes by turns, as long as each has steps left."""
    left = list(budgets)
    listed = []
    while any(left):
        for box, count in enumerate(left):
            if count:
                listed.append(f'"b{box}.0",')
                left[box] -= 1
    return "\n".join(listed)


def rotations():
    """As many steps as there may be: at nearly each the unit enters another box, and a grant rotates in at a fault."""
    text = BOARD.format(script=turns(BUDGETS))
    for box, budget in enumerate(BUDGETS):
        text += f'[[box]]\nname = "b{box}"\nsize = 256\n'
        text += "".join(grant_text(box, grant) for grant in range(GRANTS))
        text += f'[[box.thread]]\nsteps = {budget}\nprogram = """\n{program_text(box)}"""\n'
    return text


def script_words():
    """As many words of a script as there may be, of a thread that ends at its first turn."""
    words_of_one = '"b.0",' * MOST_WORDS
    return ONE_BOX.replace('"b.0"', words_of_one)


def reserved(steps, script):
    """The bytes that start-up reserves for the log and the calls of so many steps and words."""
    return (4 * steps + script) * ITEM + steps * CALL


# Each kind of input: how it is made, the status that it ends with, its steps and its script words.
KINDS = {
    "comments": (comments, 0, 10_000, 1),
    "tables": (tables, 1, 0, 0),
    "tables in one another": (headers_in_one_another, 1, 0, 0),
    "a header of many parts": (nested_header, 1, 0, 0),
    "a key of many parts": (nested_key, 1, 0, 0),
    "arrays in one another": (nested_arrays, 1, 0, 0),
    "inline tables in one another": (nested_inline, 1, 0, 0),
    "one string": (long_string, 1, 0, 0),
    "script words": (script_words, 0, 10_000, MOST_WORDS),
    "steps that rotate": (rotations, 0, sum(BUDGETS), MOST_WORDS),
}


def write_input(made, path):
    """Writes an input to a file, and returns its size. A process of its own makes it, since a run's peak of memory is
    counted from that of the process which starts it."""
    child = os.fork()
    if child == 0:
        with open(path, "w", encoding="ascii") as out:
            out.write(made())
        os._exit(0)
    os.waitpid(child, 0)
    return os.path.getsize(path)


def run_of(program, path):
    """The status, the seconds of a processor and the peak bytes of one run."""
    with open(path, "rb") as text:
        child = subprocess.Popen([program, "script"], stdin=text, stdout=subprocess.DEVNULL)
        _, status, used = os.wait4(child.pid, 0)
        child.returncode = os.waitstatus_to_exitcode(status)
    return child.returncode, used.ru_utime + used.ru_stime, used.ru_maxrss * 1024


def missed(due, most, status, seconds, peak):
    """The marks that a run missed."""
    found = []
    if status != due:
        found.append(f"ended with {status} in place of {due}")
    if seconds > MOST_SECONDS:
        found.append(f"took {seconds:.1f} seconds, more than {MOST_SECONDS}")
    if peak > most:
        found.append(f"took {peak:,} bytes, more than {most:,}")
    return found


def rows(program, folder):
    """The table of all kinds, and the marks that were missed."""
    lines = [f"{'input':<30} {'bytes':>9} {'status':>6} {'seconds':>8} {'peak bytes':>12} {'mark on it':>12}"]
    wrong = []
    for kind, (made, due, steps, script) in KINDS.items():
        path = os.path.join(folder, "input.toml")
        size = write_input(made, path)
        status, seconds, peak = run_of(program, path)
        most = reserved(steps, script) + 20 * size + MORE_BYTES
        lines.append(f"{kind:<30} {size:>9,} {status:>6} {seconds:>8.2f} {peak:>12,} {most:>12,}")
        wrong += [f"{kind} {why}" for why in missed(due, most, status, seconds, peak)]
    return lines, wrong


def answer(parsed):
    """The text and the status."""
    if not os.access(parsed.program, os.X_OK):
        raise Wrong(f"there is no program {parsed.program} ('rt run' in crates/uvisor makes the proved build)")
    resource.setrlimit(resource.RLIMIT_CORE, (0, 0))
    with tempfile.TemporaryDirectory(prefix="uvisor-largest-") as folder:
        lines, wrong = rows(os.path.abspath(parsed.program), folder)
    lines += [f"missed: {line}" for line in wrong] or ["each mark is met"]
    return "\n".join(lines) + "\n", 1 if wrong else 0


def main():
    """Runs the entry."""
    top = os.path.dirname(os.path.dirname(os.path.abspath(__file__)))
    parser = words("largest", "Runs the largest inputs of each kind.", "scripts/largest", NOTES)
    parser.add_argument("program", metavar="PROGRAM", nargs="?", default=os.path.join(top, "crates/uvisor/out/uvisor"))
    return run(parser, answer)
