"""The page tables in the guest's memory, and what of them changed since it was last said.

Watched are the frames that were tables at some stop, for good: a processor may hold an entry that references a table
after it was taken out, and go on by whatever stands in its frame.
"""
import struct
from dataclasses import dataclass

from qemu_record import Refusal

FRAME = 4096
PRESENT, LARGE, ACCESSED_AND_DIRTY = 1, 1 << 7, 3 << 5
ADDRESS_BITS = (1 << 52) - FRAME
# So many bytes an entry has.
ENTRY = 8


@dataclass(frozen=True)
class Root:
    """The frame of a top table, and its level: 4 or 5."""

    frame: int
    level: int


@dataclass(frozen=True)
class Write:
    address: int
    data: bytes


def referenced(contents, level):
    """The frames of the tables that a table's entries reference."""
    found = set()
    for entry in struct.unpack("<512Q", contents):
        # At levels 3 and 2 an entry with PS maps a page; above, PS is reserved, and such an entry maps nothing.
        if entry & PRESENT and not entry & LARGE:
            found.add(entry & ADDRESS_BITS)
    return found if level > 1 else set()


def changes(before, now, address):
    """The writes that make a frame's contents those of now: one for each row of entries that changed.

    What changed in A and D alone is left out. Processors set them, and no answer goes by them.
    """
    old, new = struct.unpack("<512Q", before), struct.unpack("<512Q", now)
    changed = [(old[number] ^ new[number]) & ~ACCESSED_AND_DIRTY != 0 for number in range(512)]
    first = None
    for number, differs in enumerate([*changed, False]):
        if differs and first is None:
            first = number
        if not differs and first is not None:
            yield Write(address + ENTRY * first, now[ENTRY * first : ENTRY * number])
            first = None


def translate(memory, root, address):
    """The physical address to which the tables at a root lead, whatever they grant, or None where they lead nowhere."""
    frame = root.frame
    for level in range(root.level, 0, -1):
        contents = memory(frame)
        if contents is None:
            return None
        at = (address >> 3 + 9 * level & 511) * ENTRY
        entry = int.from_bytes(contents[at : at + ENTRY], "little")
        if not entry & PRESENT:
            return None
        if level == 1 or entry & LARGE:
            inside = (FRAME << 9 * (level - 1)) - 1
            return entry & ADDRESS_BITS & ~inside | address & inside
        frame = entry & ADDRESS_BITS


class TableWatch:
    """`memory` gives a frame of the guest's memory, or None where there is none; `known` one of the core, likewise."""

    def __init__(self, memory, known):
        self.memory = memory
        self.known = known
        # Of each watched frame the contents that core and log give it so far, but for A and D.
        self.said = {}
        # The frames that were reached at the last stop.
        self.reached = set()
        # By frame and level: contents, and the frames that they reference.
        self.references = {}

    def walk(self, roots):
        """The present contents of the frames that are tables, as the roots reach them."""
        contents, seen = {}, set()
        left = [(root.frame, root.level) for root in roots]
        while left:
            table = left.pop()
            if table in seen:
                continue
            seen.add(table)
            frame, level = table
            if frame not in contents:
                contents[frame] = self.memory(frame)
            # An entry may name what isn't memory: nothing is read there.
            if contents[frame] is None:
                continue
            left += [(child, level - 1) for child in self.children(frame, level, contents[frame])]
        return {frame: data for frame, data in contents.items() if data is not None}

    def children(self, frame, level, contents):
        kept = self.references.get((frame, level))
        if kept is None or kept[0] != contents:
            kept = self.references[frame, level] = (contents, referenced(contents, level))
        return kept[1]

    def compare(self, roots):
        """The writes since the last stop, in an order of our own.

        First come frames that are tables since then, then those that still are, at last those that are none any more;
        each by address. So a table is filled before it is referenced, and its frame used again after it was taken out.
        """
        contents = self.walk(roots)
        now = set(contents)
        writes = []
        for frames in (now - self.reached, now & self.reached, self.said.keys() - now):
            for frame in sorted(frames):
                writes += self.difference(frame, contents.get(frame) or self.memory(frame))
        self.reached = now
        return writes

    def difference(self, frame, contents):
        before = self.said.get(frame) or self.known(frame)
        if before is None:
            raise Refusal(f"there is a page table at {frame:#x}, which the core leaves out")
        self.said[frame] = contents
        return [] if before == contents else list(changes(before, contents, frame))
