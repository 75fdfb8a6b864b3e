"""`scripts/fuzz`: runs the program on inputs made by chance, and compares its answers with what is due."""
import subprocess
import tempfile
from collections import Counter
from pathlib import Path

from tools import acceptance
from tools.check_text import read_check
from tools.entry import Wrong, note, run, words
from tools.evaluator import EVENTS, evaluated
from tools.firmware import Firmware
from tools.log_text import Idle, Ring, Start, Turn, read_log
from tools.made_inputs import made_inputs
from tools.program import ACCEPTED, REFUSED, build_of
from tools.refusals import read_refusal

NOTES = """The program ends with 0 or 1. With 1 both commands write the line of the refusal that is due. With 0 none is due, 'script'
writes a log and 'check' a text that the tools read; where the script has at most 2,000 words, each line of the log is
computed by itself and compared. The status is 1 where an input gets anything else; the first such input is stored. Nothing
is said of inputs that were not made."""
SHORT = 2000
SECONDS = 60
OFTEN = 1000


class Fails(Exception):
    """The answer to an input is not what is due."""


def answer_of(program, command, content):
    """The status and the text of a command, which says nothing beside it and ends by itself with 0 or 1."""
    try:
        ended = subprocess.run([program, command], input=content, capture_output=True, timeout=SECONDS, check=False)
    except subprocess.TimeoutExpired:
        raise Fails(f"'{command}' does not end in {SECONDS} seconds") from None
    if ended.returncode not in (ACCEPTED, REFUSED):
        said = " ".join(ended.stderr.decode("utf-8", "replace").split())[:200]
        raise Fails(f"'{command}' ends with status {ended.returncode} ({said or 'nothing is said'})")
    if ended.stderr:
        raise Fails(f"'{command}' writes on standard error: {ended.stderr[:200]!r}")
    try:
        return ended.returncode, ended.stdout.decode("ascii")
    except UnicodeDecodeError:
        raise Fails(f"'{command}' writes what is no text") from None


def refusal_of(text):
    """The refusal that a text is, which is one line."""
    refusal = read_refusal(text)
    if refusal is None or text != refusal.text + "\n":
        raise Fails(f"the line of the refusal has another form: {text[:200]!r}")
    return refusal


def compared(content, check, log_text):
    """The log of an accepted input; where the run is short, each of its lines is the one that is due."""
    firmware = Firmware("the input", content, read_check(check, "the text of 'check'"))
    log = read_log(log_text, "the log")
    if len(firmware.text.script) > SHORT:
        return log, False
    evaluated(firmware, log)
    return log, True


class Tally:
    """What came of the inputs so far."""

    def __init__(self):
        self.accepted = Counter()
        self.refused = Counter()
        self.replies = Counter()
        self.lines = 0
        self.compared = 0
        self.failed = []

    def take(self, program, made):
        """One more input: its answers are looked at and counted."""
        status, check = answer_of(program, "check", made.content)
        other, log_text = answer_of(program, "script", made.content)
        if status != other or (status == REFUSED and check != log_text):
            raise Fails(f"'check' ends with {status} and {check[:80]!r}, and 'script' with {other} and {log_text[:80]!r}")
        refusal, due = refusal_of(check) if status == REFUSED else None, acceptance.due(made.content)
        if (refusal and refusal.text) != (due and f"refused {due}"):
            raise Fails(f"'{f'refused {due}' if due else 'accepted'}' is due, and not '{refusal.text if refusal else 'accepted'}'")
        if refusal:
            self.refused[refusal.name] += 1
            return
        log, whole = compared(made.content, check, log_text)
        self.accepted[made.kind] += 1
        if whole:
            self.compared += 1
            self.lines += len(log.items) + len(log.ends)
            self.replies.update(reply_name(item) for item in log.items if isinstance(item, EVENTS))

    def look(self, program, made):
        """One more input. A fault of the tools themselves counts as a failing input too."""
        try:
            self.take(program, made)
        except (Fails, Wrong) as why:
            self.failed.append((made, str(why)))
        except (OSError, MemoryError):
            raise
        except Exception as why:  # pylint: disable=broad-except
            self.failed.append((made, f"the tools fail: {type(why).__name__}: {why}"))

    def shown(self):
        """The counts, one kind a line."""
        lines = [f"accepted {sum(self.accepted.values())}: {listed(self.accepted)}",
                 f"refused {sum(self.refused.values())}: {listed(self.refused)}",
                 f"compared {self.compared} logs of {self.lines} lines: {listed(self.replies)}"]
        if not self.failed:
            return [*lines, "no input fails"]
        return lines + [f"{len(self.failed)} inputs fail: {' '.join(str(made.number) for made, _ in self.failed[:20])}"]


def reply_name(item):
    """What an event was answered, without values and addresses."""
    if isinstance(item, Turn):
        reply = item.reply
        return reply.word + (f" {reply.why}" if reply.why else f" {reply.number}" if reply.word == "status" else "")
    return {Start: "start", Idle: "idle", Ring: "ring"}[type(item)]


def listed(counter):
    """Names with their counts, the most frequent first."""
    return ", ".join(f"{name} {count}" for name, count in counter.most_common()) or "none"


def stored(seed, made):
    """The file in which an input is kept."""
    path = Path(tempfile.gettempdir()) / f"uvisor-fuzz-{seed}-{made.number}.toml"
    path.write_bytes(made.content)
    return path


def natural(word):
    """A number of a word of the command line."""
    if not (word.isascii() and word.isdigit()):
        raise Wrong(f"'{word}' is no number")
    return int(word)


def answer(parsed):
    """The text and the status."""
    program, count, seed = build_of(parsed.program), natural(parsed.count), natural(parsed.seed)
    tally = Tally()
    for made in made_inputs(seed, count, parsed.kind):
        tally.look(program, made)
        if (made.number + 1) % OFTEN == 0:
            note("fuzz", f"{made.number + 1} of {count} inputs, {len(tally.failed)} failing")
    lines = [f"{count} inputs of seed {seed}", *tally.shown()]
    if tally.failed:
        made, why = tally.failed[0]
        lines.append(f"input {made.number} ({made.kind}) fails: {' '.join(why.split())}")
        lines.append(f"it is stored in {stored(seed, made)}")
    return "\n".join(lines) + "\n", 1 if tally.failed else 0


def main():
    """Runs the entry."""
    parser = words("fuzz", "Runs the program on inputs that are made by chance, and compares its answers with what is due.",
                   "scripts/fuzz 200 1", NOTES)
    parser.add_argument("count", metavar="COUNT", help="how many inputs")
    parser.add_argument("seed", metavar="SEED", nargs="?", default="1", help="a number that chooses the inputs (1)")
    parser.add_argument("program", metavar="PROGRAM", nargs="?", help="another build than crates/uvisor/out/uvisor, the proved one")
    parser.add_argument("--kind", choices=("grammar", "mutated example", "mutated board"), help="inputs of this kind alone")
    return run(parser, answer)
