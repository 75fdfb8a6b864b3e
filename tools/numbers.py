"""Numbers as the texts write them."""
import re

WORDS = 1 << 32
HEXADECIMAL = re.compile(r"0x[0-9a-fA-F]{1,8}\Z")


def hexadecimal(number):
    """`0x` and eight digits in upper case."""
    return f"0x{number:08X}"


def address(text):
    """The address that a word of the command line names: `0x` and one to eight digits, or None."""
    return int(text, 16) if HEXADECIMAL.match(text) else None


def power_up(number):
    """The least power of two at or above a number of at least 1."""
    return 1 << (number - 1).bit_length()


def power_down(number):
    """The greatest power of two at or below a number of at least 1."""
    return 1 << (number.bit_length() - 1)


def of(number, noun, many=None):
    """`1 byte`, `2 bytes`."""
    return f"{number} {noun if number == 1 else many or noun + 's'}"
