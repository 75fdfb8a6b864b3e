"""`scripts/schedule`: an input with its script written."""
import re

from tools.entry import Wrong, note, run, words
from tools.firmware import firmware_of
from tools.log_text import Turn, read_log
from tools.program import accepted
from tools.toml_document import Document

MOST_WORDS = 250_000
WIDTH = 100
FIRST_ROUNDS = 64
WORD = re.compile(r"([a-z][a-z0-9_]*\.[0-9]+|ring [0-9]+)(?:\*([1-9][0-9]{0,5}))?\Z", re.ASCII)
NOTES = """WORDS are words of a script joined by commas, each with '*' and a count where it comes more than once, as
a.0*33,b.0,'ring 5'. --round-robin gives each thread so many words, one after another. --until-ended runs the input with
more and more rounds until each thread has ended, and drops the words of threads that had ended before. A script that
stands in FILE is replaced. All else in FILE stays byte by byte."""


def listed_words(text):
    """The words that WORDS stands for."""
    listed = []
    for part in text.split(","):
        found = WORD.match(part)
        if not found:
            raise Wrong(f"'{part}' is no word of a script, as a.0, a.0*33 or ring 5")
        count = int(found[2] or 1)
        if len(listed) + count > MOST_WORDS:
            raise Wrong(f"a script has at most {MOST_WORDS} words")
        listed += [found[1]] * count
    return listed


def round_robin(firmware, text):
    """So many rounds of all threads."""
    if not re.match(r"[1-9][0-9]{0,5}\Z", text, re.ASCII):
        raise Wrong(f"'{text}' is no count of rounds from 1 on")
    if int(text) * len(firmware.threads) > MOST_WORDS:
        raise Wrong(f"a script has at most {MOST_WORDS} words, and {text} rounds of all threads are more")
    return list(firmware.threads) * int(text)


def rounds(firmware, number):
    """Each thread once a round, but none more often than its steps allow."""
    threads = list(firmware.threads.values())
    return [thread.name for turn in range(number) for thread in threads if turn < thread.steps]


def script_text(listed):
    """The array of a script, in lines of at most 100 columns."""
    lines = []
    line = ""
    for word in listed:
        quoted = f'"{word}",'
        if line and len(line) + 1 + len(quoted) > WIDTH - 2:
            lines.append(line)
            line = ""
        line = f"{line} {quoted}".strip()
    lines += [line] if line else []
    if len(lines) <= 1 and len(lines[0] if lines else "") + len("script = []") <= WIDTH:
        return "[" + (lines[0].rstrip(",") if lines else "") + "]"
    return "[\n" + "".join(f"  {line}\n" for line in lines) + "]"


def written(firmware, listed):
    """The bytes of the input with this script."""
    text, root = firmware.document.text, firmware.document.root
    script = script_text(listed)
    if "script" in root.value:
        node = root.value["script"]
        return (text[:node.start] + script + text[node.end:]).encode("utf-8")
    line, _ = firmware.document.place(root.value["format"].end)
    starts = firmware.document.lines.starts
    at = starts[line] if line < len(starts) else len(text)
    end = "" if text[:at].endswith("\n") else "\n"
    return (text[:at] + f"{end}script = {script}\n" + text[at:]).encode("utf-8")


def log_of(firmware, listed):
    """The log of the input with this script."""
    content = written(firmware, listed)
    return read_log(accepted("script", content, firmware.path), f"the log of {firmware.path}")


def until_ended(firmware):
    """The words of a run in rounds in which each thread ends, without the words of ended threads."""
    most = max(thread.steps for thread in firmware.threads.values())
    number = FIRST_ROUNDS
    while True:
        listed = rounds(firmware, min(number, most))
        log = log_of(firmware, listed)
        if all(end.mode in ("halted", "faulted", "spent") for end in log.ends):
            for end in log.ends:
                if end.mode == "spent":
                    note("schedule", f"{end.thread} ends by spending its {end.steps} steps")
            return useful(listed, log)
        if number >= most:
            raise Wrong("the threads do not end within their steps")
        number *= 4


def useful(listed, log):
    """The words of a script that found a thread which had not ended."""
    ended = [isinstance(entry, Turn) and entry.reply.word == "ended" for entry in log.entries()]
    return [word for word, nothing in zip(listed, ended) if not nothing]


def chosen(firmware, parsed):
    """The words that are asked for."""
    given = [parsed.round_robin is not None, parsed.until_ended, parsed.words is not None]
    if sum(given) != 1:
        raise Wrong("say one of --round-robin N, --until-ended and WORDS")
    if parsed.until_ended:
        return until_ended(firmware)
    if parsed.words is not None:
        return listed_words(parsed.words)
    return round_robin(firmware, parsed.round_robin)


def answer(parsed):
    """The text and the status."""
    firmware = firmware_of(parsed.file)
    listed = chosen(firmware, parsed)
    content = written(firmware, listed)
    accepted("check", content, f"{parsed.file} with that script")
    text = content.decode("utf-8")
    before, after = firmware.document.root.plain(), Document(text).root.plain()
    if {**before, "script": listed} != after:
        raise Wrong(f"the script cannot be written into {parsed.file}: something else in it would change")
    rings = sum(word.startswith("ring ") for word in before.get("script", []))
    if rings and parsed.words is None:
        note("schedule", f"the {rings} rings of the script in {parsed.file} are not in the new one")
    return text, 0


def main():
    """Runs the entry."""
    parser = words("schedule", "Prints an input with its script written.",
                   "scripts/schedule examples/03-secret.toml --until-ended > scheduled.toml", NOTES)
    parser.add_argument("file", metavar="FILE", help="the input")
    parser.add_argument("words", metavar="WORDS", nargs="?", help="the words, as a.0*33,b.0")
    parser.add_argument("--round-robin", metavar="N", help="so many rounds of all threads")
    parser.add_argument("--until-ended", action="store_true", help="rounds until each thread has ended")
    return run(parser, answer)

