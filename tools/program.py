"""Runs the program by `scripts/uvisor`, as any caller does, and finds the build for those that run it very often."""
import os
import subprocess
from pathlib import Path

from tools.entry import Wrong
from tools.refusals import read_refusal

TOP = Path(__file__).resolve().parent.parent
PROGRAM = TOP / "scripts" / "uvisor"
BUILD = TOP / "crates" / "uvisor" / "out" / "uvisor"
ACCEPTED, REFUSED = 0, 1


def build_of(named):
    """The build that an entry runs by itself: the one that is named, else the proved one."""
    if named is None and not BUILD.exists():
        raise Wrong("there is no proved build ('rt run' in crates/uvisor makes it), and no other program is named")
    build = Path(named or BUILD)
    if not (build.is_file() and os.access(build, os.X_OK)):
        raise Wrong(f"{build} is no program")
    return build.resolve()


def answered(command, content):
    """The status and the text that the program gives for an input. What it says on standard error passes through."""
    run = subprocess.run([PROGRAM, command], input=content, stdout=subprocess.PIPE, check=False)
    text = run.stdout.decode("utf-8", "replace")
    if run.returncode not in (ACCEPTED, REFUSED):
        raise Wrong(f"'{command}' gave no answer: it ended with status {run.returncode}")
    if run.returncode == REFUSED and read_refusal(text) is None:
        raise Wrong(f"'{command}' refused the input by a line that is not known here")
    return run.returncode, text


def accepted(command, content, path):
    """The text of an accepted input; a refused one is refused here too."""
    status, text = answered(command, content)
    if status == REFUSED:
        more = f" ('scripts/lint {path}' says more)" if Path(path).is_file() else ""
        raise Wrong(f"{path} is refused by '{command}': {text.strip()}{more}")
    return text
