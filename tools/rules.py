"""What each key of an input takes, and how many of each there may be, in the words of docs/INPUT.md."""

WORD = "a word, an integer from 0 to 4294967295"
RANGE = "two words, base and length, as [0x40000000, 0x100000]"
TABLES = "an array of tables"
STRINGS = "an array of strings"
SOME_TABLES = "an array of at least one table"

VALUES = {
    "top": {"format": "the integer 1", "board": "a table", "box": SOME_TABLES, "register": TABLES, "gateway": TABLES,
            "device": TABLES, "script": STRINGS},
    "board": {"flash": RANGE, "sram": RANGE, "peripherals": RANGE, "secret": RANGE,
              "words": "an array of pairs of words, address and value", "heap": "a table"},
    "heap": {"base": WORD, "page": WORD, "count": WORD},
    "box": {"name": "a string", "size": "an integer from 1 to 1048576",
            "secret": "a boolean, and true only where the board has a secret range and no earlier box says true",
            "server": "an integer from 0 to the number of threads of the box less one", "thread": SOME_TABLES,
            "grant": TABLES, "irq": TABLES},
    "thread": {"program": "a string", "steps": "an integer from 1 to 100000"},
    "grant": {"base": WORD, "len": WORD, "rights": 'one of "r", "rw", "rx" and "rwx"',
              "round": 'one of "none", "up" and "down"', "shared": "a boolean"},
    "irq": {"line": "an integer from 0 to 63", "handler": "an integer from 0 to 65535, a place in the program of thread 0"},
    "register": {"at": WORD, "op": 'one of "read", "read_and", "write", "and", "or", "xor" and "replace"', "mask": WORD,
                 "boxes": STRINGS},
    "gateway": {"box": "a string", "function": WORD, "callers": STRINGS},
    "device": {"rings": "an array of integers from 0 to 63"},
}
LIMITS = {
    "box": "at most 8 boxes", "register": "at most 32 registers", "gateway": "at most 32 gateways", "device": "at most 4 devices",
    "script": "at most 250,000 words, of which at most 10,000 begin with 'ring '", "words": "at most 64 words",
    "thread": "at most 16 threads in all boxes together, and here they pass 16", "grant": "at most 64 grants in a box",
    "irq": "at most 64 lines in a box", "boxes": "at most 8 names", "callers": "at most 8 names",
    "steps": "at most 250,000 steps in all threads together, and here they pass that (a thread that says nothing has 10,000)",
    "rings": "at most 10,000 rings in all devices together, and here they pass that",
}
BOARD = {
    "flash": "its length is a power of two from 32 to 1048576, its base a multiple of that, and its end at most 0xE0000000",
    "sram": "base and length are multiples of 32, the length is from 32 to 1048576, the end at most 0xE0000000, and no address "
            "is also in flash",
    "peripherals": "base and length are multiples of 32, the length is from 32 to 1048576, the end at most 0xE0000000, and no "
                   "address is also in flash or SRAM",
    "secret": "its length is a power of two of at least 32, its base a multiple of that, and it lies inside flash",
    "words": "each address is a multiple of 4 with its four bytes in flash or in the peripherals, and none comes twice",
    "heap": "the page is a power of two from 32 to 65536, the count a multiple of 8 from 8 to 256, the base a multiple of eight "
            "pages, and the whole lies inside SRAM",
}
NAME = "a lower-case letter and then at most 15 lower-case letters, digits or '_'"
