"""`scripts/short-of-memory`: refuses the program each request for memory in turn, and looks at what it then writes."""
import os
import shutil
import subprocess
import tempfile
from pathlib import Path

from tools.entry import Wrong, run, words
from tools.files import read_bytes
from tools.numbers import of
from tools.program import ACCEPTED, REFUSED, TOP, build_of

NOTES = """Each request is refused once alone, and once with all that come after it, under 'script' and under 'check'. Each run must
end with 5 and nothing written, or with the whole output and the status that it has with ample memory; where one does not,
the status here is 1. A C compiler, 'cc' or the one that CC names, makes the library that refuses from
tools/refuse_memory.c; it needs the GNU C library, and a build that asks that library for its memory."""
SOURCE = TOP / "tools" / "refuse_memory.c"
BOARD = TOP / "examples" / "08-device.toml"
COMMANDS = ("script", "check")
ALONE, FROM_THERE = "REFUSED_REQUEST", "REFUSED_REQUESTS"
NO_MEMORY = 5
SECONDS = 60


class Differs(Exception):
    """A run that was refused memory wrote a part, or ended in another way."""


def compiled(folder):
    """The library that refuses requests, made in a folder."""
    compiler = shutil.which(os.environ.get("CC", "cc"))
    if compiler is None:
        raise Wrong("there is no C compiler: neither 'cc' nor one that CC names")
    library = Path(folder) / "refuse_memory.so"
    made = subprocess.run([compiler, "-shared", "-fPIC", "-O2", "-Wall", "-o", library, SOURCE], capture_output=True, check=False)
    if made.returncode:
        raise Wrong(f"{compiler} does not compile tools/refuse_memory.c: {made.stderr.decode('utf-8', 'replace')[:200]}")
    return library


class Runs:
    """Runs of one command of a program on one input, with the library before it."""

    def __init__(self, program, command, content, library):
        self.words = [program, command]
        self.content = content
        self.library = library
        self.ended = 0
        self.whole = 0

    def run(self, **variables):
        """The status and the bytes of a run with these variables of the environment."""
        said = {name: str(text) for name, text in variables.items()}
        environment = {**os.environ, "LD_PRELOAD": str(self.library), **said}
        try:
            ended = subprocess.run(self.words, input=self.content, capture_output=True, env=environment, timeout=SECONDS,
                                   check=False)
        except subprocess.TimeoutExpired:
            raise Differs(f"a run with {said} does not end in {SECONDS} seconds") from None
        return ended.returncode, ended.stdout

    def counted(self):
        """What a run with ample memory answers, and how many requests it makes."""
        file = self.library.with_name("requests")
        file.unlink(missing_ok=True)
        due = self.run(COUNTED_REQUESTS=file)
        if due[0] not in (ACCEPTED, REFUSED):
            raise Wrong(f"'{self.words[1]}' with ample memory ends with status {due[0]}")
        requests = int(file.read_text(encoding="ascii")) if file.exists() else 0
        if requests == 0:
            raise Wrong(f"{self.words[0]} asks the C library for no memory, so none can be refused to it here")
        return due, requests

    def refuse(self, variable, number, due):
        """A run that is refused a request writes all or nothing."""
        found = self.run(**{variable: number})
        if found == (NO_MEMORY, b""):
            self.ended += 1
        elif found == due:
            self.whole += 1
        else:
            others = " and all after it" if variable == FROM_THERE else ""
            raise Differs(f"with request {number}{others} refused, the status is {found[0]}, and "
                          f"{of(len(found[1]), 'byte')} of {len(due[1])} are written")


def tried(runs, every):
    """Refuses requests one after another, and says in a line what came of it."""
    due, requests = runs.counted()
    numbers = range(1, requests + 1, every)
    for number in numbers:
        runs.refuse(ALONE, number, due)
        runs.refuse(FROM_THERE, number, due)
    return (f"{of(requests, 'request')}, of which {len(numbers)} were refused, alone and with all that follow: "
            f"{of(runs.ended, 'run')} ended with 5 and nothing written, {runs.whole} with the whole output")


def answer(parsed):
    """The text and the status."""
    if not (parsed.every.isascii() and parsed.every.isdigit() and int(parsed.every) > 0):
        raise Wrong(f"'{parsed.every}' is no number from 1 on")
    program, content, lines = build_of(parsed.program), read_bytes(parsed.input or BOARD), []
    with tempfile.TemporaryDirectory(prefix="uvisor-memory-") as folder:
        library = compiled(folder)
        for command in COMMANDS:
            try:
                lines.append(f"{command}: {tried(Runs(program, command, content, library), int(parsed.every))}")
            except Differs as differs:
                return "\n".join([*lines, f"{command}: {differs}"]) + "\n", 1
    return "\n".join(lines) + "\n", 0


def main():
    """Runs the entry."""
    parser = words("short-of-memory", "Refuses the program each request for memory in turn: each run writes all or nothing.",
                   "scripts/short-of-memory --every 5", NOTES)
    parser.add_argument("input", metavar="INPUT", nargs="?", help="the input (examples/08-device.toml)")
    parser.add_argument("program", metavar="PROGRAM", nargs="?", help="another build than crates/uvisor/out/uvisor, the proved one")
    parser.add_argument("--every", metavar="N", default="1", help="only each N-th request, from the first on (1)")
    return run(parser, answer)
