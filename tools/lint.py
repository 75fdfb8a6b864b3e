"""`scripts/lint`: where in an input its refusal stands, why it comes, and how it is repaired."""
from tools.causes import SHAPE, Cause, Unplaced, not_placed
from tools.entry import run, words
from tools.files import read_bytes
from tools.later_causes import LATER, Later
from tools.program import ACCEPTED, answered
from tools.refusals import read_refusal
from tools.toml_document import BadText, Document
from tools.toml_values import Lines

NOTES = """Each line on standard output is FILE:LINE:COLUMN, the refusal, its cause and its repair, as editors jump to it. The
status is 1 where the input is refused, and 0, with nothing printed, where it is accepted. Only the first refusal is known."""


def no_document(content):
    """The place and the cause where the bytes are no TOML document."""
    try:
        text = content.decode("utf-8")
    except UnicodeDecodeError as bad:
        before = content[:bad.start].decode("utf-8")
        return Lines(before).place(len(before)), "the bytes from here on are not UTF-8"
    try:
        Document(text)
    except BadText as bad:
        return Lines(text).place(bad.offset), f"the text is no TOML document: {bad.why}"
    return (1, 1), "the text is no TOML document; these tools do not find the place"


def found(document, refusal):
    """The cause of a refusal of a document."""
    try:
        if refusal.name in SHAPE:
            return SHAPE[refusal.name](document, refusal)
        return LATER[refusal.name](Later(document, refusal))
    except (Unplaced, LookupError, AttributeError, TypeError, StopIteration):
        return not_placed(refusal)


def placed(content, refusal):
    """The place and the cause of a refusal."""
    if refusal.name == "TooLong":
        return (1, 1), "the input has more than 4,194,304 bytes: make it shorter"
    if refusal.name == "NotToml":
        return no_document(content)
    try:
        document = Document(content.decode("utf-8"))
    except (BadText, UnicodeDecodeError):
        return (1, 1), not_placed(refusal).text
    cause: Cause = found(document, refusal)
    return document.place(cause.offset), cause.text


def printable(text):
    """A text in one line, whatever stands in the file."""
    return "".join(letter if letter.isprintable() else ascii(letter)[1:-1] for letter in text)


def answer(parsed):
    """The text and the status."""
    content = read_bytes(parsed.file)
    status, text = answered("check", content)
    if status == ACCEPTED:
        return "", 0
    refusal = read_refusal(text)
    (line, column), cause = placed(content, refusal)
    return f"{parsed.file}:{line}:{column}: {refusal.text}: {printable(cause)}\n", 1


def main():
    """Runs the entry."""
    parser = words("lint", "Says where an input is refused, why, and how that is repaired.",
                   "scripts/lint examples/refused/bad-value.toml", NOTES)
    parser.add_argument("file", metavar="FILE", help="the input")
    return run(parser, answer)
