"""Pages of documentation: their headings, links, named paths, file blocks and transcripts."""
import re
from dataclasses import dataclass, field

FENCE = re.compile(r"^(```+)(.*)$")
HEADING = re.compile(r"^#+ +(.+?) *$")
LINK = re.compile(r"\[[^\]]*\]\(([^)\s]+)\)")
NAMED = re.compile(r"(?<![\w./<-])((?:docs|scripts|examples|crates|tools|\.ci)/[A-Za-z0-9_./-]*[A-Za-z0-9_/])")
GIVES = re.compile(r"((?:^    .*\n)+)\n?gives `(refused [^`]+)`", re.MULTILINE)
PLACEHOLDER = re.compile(r"(?:^|/)[A-Z]{2,}(?:/|$|\.(?!md))")


@dataclass
class Command:
    """A command of a transcript, and the lines that it must print."""
    line: int
    text: str
    wanted: list = field(default_factory=list)


@dataclass
class Fence:
    """A fenced block: the words behind its opening, and its lines."""
    line: int
    words: list
    lines: list = field(default_factory=list)

    @property
    def file(self):
        """The name of the file that the block is, or None: the second word behind its opening."""
        return self.words[1] if len(self.words) == 2 else None

    def commands(self):
        """The commands of a transcript, each after '$ '."""
        listed = []
        for number, line in enumerate(self.lines, self.line + 1):
            if line.startswith("$ "):
                listed.append(Command(number, line[2:]))
            elif listed and not listed[-1].wanted and listed[-1].text.endswith("\\"):
                listed[-1].text += "\n" + line
            elif listed:
                listed[-1].wanted.append(line)
        return listed


class Page:
    """A page: its path below the top, and its text."""

    def __init__(self, path, text):
        self.path = path
        self.text = text
        self.lines = text.split("\n")
        self.fences = self.read_fences()

    def read_fences(self):
        """The fenced blocks in order."""
        fences, opened = [], None
        for number, line in enumerate(self.lines, 1):
            found = FENCE.match(line)
            if opened is None and found:
                opened = (found[1], Fence(number, found[2].split()))
            elif opened and line.strip() == opened[0]:
                fences.append(opened[1])
                opened = None
            elif opened:
                opened[1].lines.append(line)
        return fences

    def fenced(self):
        """The numbers of the lines in fenced blocks."""
        return {number for fence in self.fences for number in range(fence.line, fence.line + len(fence.lines) + 2)}

    def anchors(self):
        """The anchors that the headings make."""
        fenced = self.fenced()
        found = [HEADING.match(line) for number, line in enumerate(self.lines, 1) if number not in fenced]
        titles = [heading[1].lower() for heading in found if heading]
        return {re.sub(r"[^\w\- ]", "", title).strip().replace(" ", "-") for title in titles}

    def links(self):
        """The targets of links, with their lines."""
        fenced = self.fenced()
        return [(number, found[1]) for number, line in enumerate(self.lines, 1) if number not in fenced
                for found in LINK.finditer(line)]

    def named(self):
        """The paths of the repository that the page names, with their lines. What is built and placeholders are none."""
        paths = []
        for number, line in enumerate(self.lines, 1):
            for found in NAMED.finditer(line):
                rest = line[found.end():found.end() + 1]
                if rest != "*" and "/out" not in found[1] and not PLACEHOLDER.search(found[1]):
                    paths.append((number, found[1]))
        return paths

    def refusals(self):
        """The texts that the page says are refused: line, input and refusal."""
        return [(self.text.count("\n", 0, found.start()) + 1, re.sub(r"^    ", "", found[1], flags=re.MULTILINE), found[2])
                for found in GIVES.finditer(self.text)]
