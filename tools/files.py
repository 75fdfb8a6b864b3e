"""Files as the entries read them: whole, as text, or refused."""
import os
import sys

from tools.entry import Wrong


def read_bytes(path):
    """The bytes of a file."""
    if os.path.isdir(path):
        raise Wrong(f"{path} is a directory")
    try:
        with open(path, "rb") as file:
            return file.read()
    except (OSError, ValueError) as failed:
        raise Wrong(f"{path} cannot be read: {getattr(failed, 'strerror', None) or failed}") from None


def as_text(content, name):
    """Bytes as the text that they are."""
    try:
        return content.decode("utf-8")
    except UnicodeDecodeError:
        raise Wrong(f"{name} is no text: it is not UTF-8") from None


def read_text(path):
    """The text of a file."""
    return as_text(read_bytes(path), path)


def standard_input():
    """The text on standard input. At a terminal it is said that it is waited for."""
    if sys.stdin.isatty():
        print("reading a text of 'check' from the terminal", file=sys.stderr, flush=True)
    try:
        return as_text(sys.stdin.buffer.read(), "standard input")
    except OSError as failed:
        raise Wrong(f"standard input cannot be read: {failed.strerror}") from None
