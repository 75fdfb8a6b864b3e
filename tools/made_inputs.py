"""Inputs made by chance from a seed: examples with changes, boards by the grammar, and such boards with changes.

Each input is made from the seed and its own number alone, so it is the same however many are made.
"""
import random
from dataclasses import dataclass
from pathlib import Path

from tools.made_boards import document_of, spelled
from tools.mutations import mutated

TOP = Path(__file__).resolve().parent.parent
FOLDERS = ("examples", "examples/faults", "examples/statuses", "examples/refused")
KINDS = ("grammar", "mutated example", "mutated board")
OFTEN = (4, 5, 1)


@dataclass(frozen=True)
class Made:
    """An input: its number from 0, how it was made, and its bytes."""
    number: int
    kind: str
    content: bytes


def example_paths():
    """The inputs of the examples, in the order of their names."""
    return sorted(path for folder in FOLDERS for path in (TOP / folder).glob("*.toml"))


def made_input(seed, number, examples, kind=None):
    """The input of a seed and a number; of that kind, where one is named."""
    chance = random.Random(f"{seed} {number}")
    kind = kind or chance.choices(KINDS, weights=OFTEN)[0]
    if kind == "mutated example":
        return Made(number, kind, mutated(chance, chance.choice(examples)))
    content = spelled(chance, document_of(chance)).encode()
    return Made(number, kind, mutated(chance, content) if kind == "mutated board" else content)


def made_inputs(seed, count, kind=None):
    """So many inputs of a seed, one after another."""
    examples = [path.read_bytes() for path in example_paths()]
    for number in range(count):
        yield made_input(seed, number, examples, kind)
