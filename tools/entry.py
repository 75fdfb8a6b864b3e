"""What all entries have in common: their words, their refusals, and output that comes whole or not at all."""
import argparse
import os
import sys
import threading

SLOW = 2.0


class Wrong(Exception):
    """A text or a word is not what the entry expects: one line on standard error, and status 2."""


class Words(argparse.ArgumentParser):
    """A reader of words whose refusals are one line."""

    def error(self, message):
        raise Wrong(f"{message} ('{self.prog} --help' says more)")


def words(name, does, example, notes=""):
    """The reader of the words of one entry: what it does, an example, and what it does not show."""
    epilog = f"example:\n  {example}\n" + (f"\n{notes}\n" if notes else "")
    return Words(prog=name, description=does, epilog=epilog, allow_abbrev=False,
                 formatter_class=argparse.RawDescriptionHelpFormatter)


def note(name, text):
    """Says something beside the answer, on standard error."""
    print(f"{name}: {text}", file=sys.stderr, flush=True)


class Waiting:
    """Says once that the work goes on, where it takes more than two seconds."""

    def __init__(self, name, what):
        self.timer = threading.Timer(SLOW, note, (name, f"{what} takes more than {SLOW:.0f} seconds; it goes on"))
        self.timer.daemon = True

    def __enter__(self):
        self.timer.start()
        return self

    def __exit__(self, *_):
        self.timer.cancel()


def write(text):
    """Writes the whole answer to standard output as UTF-8."""
    sys.stdout.flush()
    sys.stdout.buffer.write(text.encode("utf-8"))
    sys.stdout.buffer.flush()


def run(parser, answer, given=None):
    """Runs an entry: `answer` takes the parsed words and gives the text and the status. Returns the status."""
    try:
        parsed = parser.parse_args(given)
        with Waiting(parser.prog, "this"):
            text, status = answer(parsed)
        write(text)
        return status
    except Wrong as wrong:
        note(parser.prog, " ".join(str(wrong).split()))
        return 2
    except BrokenPipeError:
        # Whoever reads the answer has gone: nothing is left to say, not even at the end of the process.
        os.dup2(os.open(os.devnull, os.O_WRONLY), sys.stdout.fileno())
        return 2
    except KeyboardInterrupt:
        return 130
    # A fault of the tool itself must not end with 1, which is an answer.
    except Exception as failed:  # pylint: disable=broad-except
        note(parser.prog, f"this tool failed, and gives no answer: {type(failed).__name__}: {' '.join(str(failed).split())}")
        return 2
