"""Refusal lines of the program: `refused`, a name, a place and a key."""
import re
from dataclasses import dataclass

PLACE = r"(?:top|board|heap|box \d+(?: (?:thread|grant|irq) \d+)?|(?:register|gateway|device) \d+)"
FORMS = {
    "TooLong": "", "NotToml": "",
    "UnknownKey": PLACE, "MissingKey": PLACE + r" [a-z]+", "BadValue": PLACE + r" [a-z]+", "TooMany": PLACE + r" [a-z]+",
    "BadBoard": r"[a-z]+", "BadName": r"box \d+", "TwiceNamed": r"box \d+", "NoRoom": r"box \d+",
    "BadGrant": r"box \d+ grant \d+", "GrantOutside": r"box \d+ grant \d+", "SelfOverlap": r"box \d+ grant \d+",
    "Clash": r"box \d+ box \d+", "LineTaken": r"box \d+ irq \d+", "BadGateway": r"(?:register|gateway) \d+",
    "NoServer": r"gateway \d+", "BadProgram": r"box \d+ thread \d+ line \d+", "BadDevice": r"device \d+",
    "BadScript": r"script \d+",
}
KEYED = ("MissingKey", "BadValue", "TooMany", "BadBoard")


@dataclass(frozen=True)
class Refusal:
    """A refusal: its name, the words of its place, and its key or an empty text."""
    name: str
    place: tuple
    key: str
    text: str

    def number(self, word, which=0):
        """The number behind a word of the place, which may stand there more than once."""
        at = [index for index, other in enumerate(self.place) if other == word][which]
        return int(self.place[at + 1])


def read_refusal(text):
    """The refusal that a line says, or None."""
    words = text.rstrip("\n").split(" ")
    if len(words) < 2 or words[0] != "refused" or words[1] not in FORMS:
        return None
    rest = " ".join(words[2:])
    if not re.fullmatch(FORMS[words[1]], rest, re.ASCII):
        return None
    place, key = words[2:], ""
    if words[1] in KEYED:
        key = place.pop()
    return Refusal(words[1], tuple(place), key, text.rstrip("\n"))
