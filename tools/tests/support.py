"""What the tests share: entries as they are run, the examples, and whether the proved build is there."""
import subprocess
import unittest
from pathlib import Path

from tools import placing
from tools.board_input import input_of
from tools.check_text import CheckedBox, CheckedThread
from tools.firmware import Firmware
from tools.programs import assembled
from tools.toml_document import Document

TOP = Path(__file__).resolve().parent.parent.parent
DATA = Path("tools/tests/data")
BUILD = TOP / "crates" / "uvisor" / "out" / "uvisor"
WHY = "there is no proved build: 'rt run' in crates/uvisor makes it"

needs_program = unittest.skipUnless(BUILD.exists(), WHY)


def run_entry(name, *given, stdin=b""):
    """The status, the text and what is said on standard error, without what scripts/uvisor says of its build."""
    stdin = stdin.encode() if isinstance(stdin, str) else stdin
    run = subprocess.run([f"scripts/{name}", *map(str, given)], cwd=TOP, input=stdin, capture_output=True, check=False)
    said = [line for line in run.stderr.decode().splitlines() if not line.startswith(("uvisor: ", "stand-in: "))
            and "it goes on" not in line]
    return run.returncode, run.stdout.decode(), said


def inputs(longest=400):
    """The accepted examples and the boards of these tests that have a log of at most so many lines beside them."""
    listed = [*TOP.glob("examples/*.toml"), *TOP.glob("examples/faults/*.toml"), *TOP.glob("examples/statuses/*.toml"),
              *(TOP / DATA).glob("*.toml")]
    logs = [path.with_suffix(".log") for path in listed if path.with_suffix(".log").exists()]
    short = [log for log in logs if log.read_bytes().count(b"\n") <= longest]
    return sorted(log.with_suffix(".toml").relative_to(TOP) for log in short)


def refused():
    """The refused examples that have a line beside them."""
    return sorted(path.relative_to(TOP) for path in TOP.glob("examples/refused/*.toml") if path.with_suffix(".line").exists())


def text(path):
    """The text of a file of the repository."""
    return (TOP / path).read_text(encoding="utf-8")


def log_of(path):
    """The log beside an input."""
    return path.with_suffix(".log")


def checked(text, box, own):
    """A box as `check` would resolve it, by the tools alone."""
    threads = [CheckedThread(f"{box.name}.{place}", thread.steps, [made for _, made in assembled(thread.program.value)])
               for place, thread in enumerate(box.threads)]
    return CheckedBox(box.name, placing.items(text.board, box, own), list(box.lines), box.server, threads)


def resolved(path):
    """The accepted input in a file of the repository, without the program."""
    content = (TOP / path).read_bytes()
    read = input_of(Document(content.decode()).root)
    owns = placing.own_ranges(read.board, [box.size for box in read.boxes])
    return Firmware(str(path), content, [checked(read, box, own) for box, own in zip(read.boxes, owns)])
