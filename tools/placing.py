"""Where boxes lie and what their grants come to, by docs/MODEL.md. What `check` prints is compared with it."""
from tools.check_text import Item
from tools.numbers import power_down, power_up
from tools.ranges import Range

SMALLEST_BOX = 256
BLOCK = 32


def own_ranges(board, sizes):
    """The own memory of each box, in order."""
    ranges = []
    end = board.sram.base
    for size in sizes:
        length = max(SMALLEST_BOX, power_up(size))
        base = -(-end // length) * length
        ranges.append(Range(base, length))
        end = base + length
    return ranges


def common_part(board, owns):
    """The common part of SRAM, which may be empty."""
    start = owns[-1].end
    return Range(start, max(board.limit - start, 0))


def rounded(base, length, how):
    """A grant's range after rounding, or None where its rule fails."""
    if how == "none":
        fits = length > 0 and base % BLOCK == 0 and length % BLOCK == 0
        return Range(base, length) if fits else None
    if how == "up":
        length = max(BLOCK, power_up(max(length, 1))) if length <= 1 << 31 else 0
    else:
        length = power_down(length) if length >= BLOCK else 0
    return Range(base, length) if length and base % length == 0 else None


def flash_ranges(board, owner):
    """The ranges of flash that a box holds: all of it for the owner of the secret range, else without that."""
    if owner or board.secret is None:
        return [board.flash]
    parts = [Range(board.flash.base, board.secret.base - board.flash.base),
             Range(board.secret.end, board.flash.end - board.secret.end)]
    return [part for part in parts if part.length > 0]


def items(board, box, own):
    """All items of a box in order."""
    listed = [Item("rx", part) for part in flash_ranges(board, box.secret)] + [Item("rw", own)]
    return listed + [Item(grant.rights, rounded(grant.base, grant.length, grant.round)) for grant in box.grants]


def cover(whole):
    """The touching blocks of a range, each the largest power of two that divides its base and ends within."""
    blocks = []
    base = whole.base
    while base < whole.end:
        length = power_down(whole.end - base)
        while base % length:
            length >>= 1
        blocks.append(Range(base, length))
        base += length
    return blocks
