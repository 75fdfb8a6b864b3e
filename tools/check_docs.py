"""`scripts/check-docs`: runs the transcripts of pages and compares them, and finds links and paths that lead nowhere."""
import os
import subprocess
import tempfile
from pathlib import Path

from tools.entry import Wrong, note, run, words
from tools.files import as_text, read_bytes
from tools.pages import Page
from tools.program import TOP, answered

NOT_RUN = ("rt", "git", ".ci/run", "cd", "apt-get")
LONGEST = 120
NOTES = """Without PAGE all pages are checked: those at the top, of docs/ and of the crates. In a block of fences, '$ ' begins a
command, and what follows is what it prints, on both streams, but for what scripts/uvisor says of its build. A block whose
opening names a file, as '```toml board.toml', is written to that file first. Commands run in a scratch folder beside links
to the folders of the repository. Those of the kit and of git are not run, and have no output. The status is 1 where
something does not hold."""


class Scratch:
    """A folder in which the commands of one page run."""

    def __init__(self, folder):
        self.folder = Path(folder)
        self.status = 0
        for entry in os.listdir(TOP):
            if entry != ".git":
                (self.folder / entry).symlink_to(TOP / entry)

    def write(self, name, lines):
        """Writes a file that a page shows."""
        (self.folder / name).write_text("\n".join(lines) + "\n", encoding="utf-8")

    def printed(self, command):
        """The lines that a command prints."""
        script = f"(exit {self.status})\n{command}"
        try:
            ended = subprocess.run(["bash", "-c", script], cwd=self.folder, stdin=subprocess.DEVNULL, timeout=LONGEST,
                                   stdout=subprocess.PIPE, stderr=subprocess.STDOUT, check=False)
        except subprocess.TimeoutExpired:
            return [f"(no end within {LONGEST} seconds)"]
        self.status = ended.returncode
        told = ended.stdout.decode("utf-8", "replace").splitlines()
        return [line for line in told if not line.startswith(("uvisor: ", "stand-in: ")) and not line.endswith("; it goes on")]


def first_difference(wanted, printed):
    """The first line in which two lists differ, in words."""
    for place in range(max(len(wanted), len(printed))):
        ours = wanted[place] if place < len(wanted) else None
        theirs = printed[place] if place < len(printed) else None
        if ours != theirs:
            return f"line {place + 1} of the output is {theirs!r}, and the page says {ours!r}"
    return ""


def transcripts(page, counts):
    """Runs the commands of a page, and yields what differs."""
    with tempfile.TemporaryDirectory(prefix="check-docs-") as folder:
        scratch = Scratch(folder)
        for fence in page.fences:
            if fence.file:
                scratch.write(fence.file, fence.lines)
            for command in fence.commands():
                yield from compared(page, scratch, command, counts)


def compared(page, scratch, command, counts):
    """Runs one command, and yields how it differs."""
    if command.text.split()[0] in NOT_RUN:
        if command.wanted:
            yield f"{page.path}:{command.line}: this command is not run here, so its output cannot be compared"
        return
    counts["commands"] += 1
    differs = first_difference(command.wanted, scratch.printed(command.text))
    if differs:
        yield f"{page.path}:{command.line}: {command.text.splitlines()[0]}: {differs}"


def refusals(page, counts):
    """Checks the texts that a page says are refused."""
    for line, text, wanted in page.refusals():
        counts["refusals"] += 1
        _, printed = answered("check", text.encode("utf-8"))
        if printed.strip() != wanted:
            yield f"{page.path}:{line}: this text gives {printed.splitlines()[:1]}, and the page says {wanted!r}"


def target_of(page, link):
    """The path and the anchor of a link, or None for one that leads out of the repository."""
    if ":" in link.split("/")[0]:
        return None
    path, _, anchor = link.partition("#")
    here = TOP / page.path
    return (here if path == "" else here.parent / path), anchor


def links(page, counts):
    """Yields the links and named paths that lead nowhere."""
    for line, link in page.links():
        target = target_of(page, link)
        if target is None:
            continue
        counts["links"] += 1
        path, anchor = target
        if not path.exists():
            yield f"{page.path}:{line}: the link {link} leads nowhere"
        elif anchor and path.suffix == ".md" and anchor not in Page(str(path), path.read_text(encoding="utf-8")).anchors():
            yield f"{page.path}:{line}: {link} names no heading of its page"
    for line, named in page.named():
        counts["paths"] += 1
        if not (TOP / named).exists() and not (TOP / page.path).parent.joinpath(named).exists():
            yield f"{page.path}:{line}: there is no {named}"


def all_pages():
    """The paths of all pages."""
    found = [*TOP.glob("*.md"), *TOP.glob("docs/*.md"), *TOP.glob("crates/*/README.md")]
    return sorted(str(path.relative_to(TOP)) for path in found)


def page_of(path):
    """The page at a path, which is below the top, or as the caller gives it."""
    where = TOP / path if (TOP / path).exists() else Path(path)
    return Page(path, as_text(read_bytes(str(where)), path))


def answer(parsed):
    """The text and the status."""
    pages = [page_of(path) for path in parsed.pages or all_pages()]
    if any(not page.path.endswith(".md") for page in pages):
        raise Wrong("a page is a file whose name ends in .md")
    counts = dict.fromkeys(("commands", "refusals", "links", "paths"), 0)
    problems = [problem for page in pages for problem in links(page, counts)]
    if parsed.links:
        note("check-docs", "the transcripts are not run")
    else:
        problems += [problem for page in pages for problem in [*transcripts(page, counts), *refusals(page, counts)]]
    told = ", ".join(f"{number} {name}" for name, number in counts.items())
    last = f"{len(pages)} pages: {told}; {len(problems)} do not hold"
    return "\n".join([*problems, last]) + "\n", 1 if problems else 0


def main():
    """Runs the entry."""
    parser = words("check-docs", "Runs the transcripts of pages and compares them, and finds dead links.",
                   "scripts/check-docs docs/TUTORIAL.md", NOTES)
    parser.add_argument("pages", metavar="PAGE", nargs="*", help="a page")
    parser.add_argument("--links", action="store_true", help="look at links and named paths alone, and run nothing")
    return run(parser, answer)
