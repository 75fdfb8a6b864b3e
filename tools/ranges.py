"""Ranges of addresses."""
from dataclasses import dataclass

from tools.numbers import hexadecimal, of


@dataclass(frozen=True, order=True)
class Range:
    """So many bytes from a base on."""
    base: int
    length: int

    @property
    def end(self):
        """The first address past the range."""
        return self.base + self.length

    def holds(self, address, size=1):
        """Whether all these bytes lie in the range."""
        return self.base <= address and address + size <= self.end

    def contains(self, other):
        """Whether the other range lies wholly in this one."""
        return self.holds(other.base, other.length)

    def overlaps(self, other):
        """Whether some address is in both."""
        return self.base < other.end and other.base < self.end and self.length > 0 and other.length > 0

    def span(self):
        """The first and the last address, in words."""
        return f"{hexadecimal(self.base)} to {hexadecimal(self.end - 1)}"

    def distance(self, address, size=1):
        """How many bytes lie between the range and these bytes; 0 where they touch or overlap."""
        return max(self.base - (address + size), address - self.end, 0)

    def offset(self, address, size=1):
        """Where the bytes lie as seen from the range, in words."""
        if self.holds(address, size):
            return f"{of(address - self.base, 'byte')} from its start"
        if address >= self.end:
            return f"{of(address - self.end, 'byte')} past its end" if address > self.end else "right past its end"
        if address + size <= self.base:
            return f"{of(self.base - address, 'byte')} before its start"
        return "across its edge"
