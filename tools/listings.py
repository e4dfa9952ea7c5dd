"""Reads the listings among the answers of a run, as docs/FORMATS.md has them under "Listings".

A listing may have two million areas, so its numbers stand in arrays, and its lines are read one at a time.
"""
import re
from array import array
from bisect import bisect_left
from collections import defaultdict
from collections.abc import Callable
from dataclasses import dataclass, field
from typing import BinaryIO

PAGE = 4096
# The bits of a linear address, by the levels of the page tables.
WIDTHS = {4: 48, 5: 57}
LEVEL_NAMES = {4: "four", 5: "five"}
UPPER_HALF = 1 << 63
# The places of a user's, a supervisor's and an implicit access in the eight letters.
USER, SUPERVISOR, IMPLICIT = slice(0, 3), slice(3, 6), slice(6, 8)

# No line of an answer is longer; of a file that has no lines at all, no more than that is read.
LONGEST_LINE = 1024
NUMBER = rb"(0x0|0x[1-9a-f][0-9a-f]{0,15})"
AREA = re.compile(rb" ".join([NUMBER] * 3) + rb" ([r-][w-][x-][r-][w-][x-][r-][w-])\n?")
HEAD = re.compile(rb"areas (0|[1-9][0-9]{0,18})\n?")
TOO_LARGE = re.compile(rb"areas too large\n?")
REFUSED = re.compile(rb"((?:core|log|line [0-9]+) refused: [ -~]*)\n?")
OTHER = re.compile(rb"(granted|denied|point|cpu|core ok:|usage:) [ -~]*\n?")

# The bytes and the number of areas by their rights, and by whether they lie in the upper half.
Totals = dict[tuple[str, bool], tuple[int, int]]


class Refusal(Exception):
    """Why what was given can't be shown."""


@dataclass
class Listing:
    """The areas of a listing: number i has the addresses first[i] to last[i], and the letters rights[i]."""

    first: array = field(default_factory=lambda: array("Q"))
    last: array = field(default_factory=lambda: array("Q"))
    frame: array = field(default_factory=lambda: array("Q"))
    rights: list[str] = field(default_factory=list)

    def __len__(self) -> int:
        return len(self.first)

    def size(self, index: int) -> int:
        """The bytes of an area."""
        return self.last[index] - self.first[index] + 1

    def mapped(self, begin: int, end: int) -> int:
        """The bytes of the areas from one number up to another."""
        return sum(self.last[begin:end]) - sum(self.first[begin:end]) + end - begin

    def totals(self) -> Totals:
        sizes: dict[tuple[str, bool], int] = defaultdict(int)
        counts: dict[tuple[str, bool], int] = defaultdict(int)
        for first, last, rights in zip(self.first, self.last, self.rights):
            kind = rights, first >= UPPER_HALF
            sizes[kind] += last - first + 1
            counts[kind] += 1
        return {kind: (size, counts[kind]) for kind, size in sizes.items()}

    def levels(self) -> int:
        """Five where an area has an address that isn't canonical with four levels, else four."""
        # Areas ascend, so that only the last one of the lower half and the first one of the upper half matter.
        border = bisect_left(self.first, UPPER_HALF)
        half = 1 << WIDTHS[4] - 1
        is_lower_wide = border > 0 and self.last[border - 1] >= half
        is_upper_wide = border < len(self) and self.first[border] < (1 << 64) - half
        return 5 if is_lower_wide or is_upper_wide else 4

    def outline(self, levels: int) -> str:
        """The listing in one line."""
        size = size_text(self.mapped(0, len(self)))
        return f"{count_text(len(self), 'area')}, {size} mapped, {LEVEL_NAMES[levels]} levels"


def writes_and_runs(letters: str) -> bool:
    """Whether a user or a supervisor, by its letters, can run what it wrote."""
    return letters[1:] == "wx"


# What someone who looks over a space wants to know first. For each line, whether an area belongs to it: by its rights,
# and by whether it lies in the upper half.
CONCERNS: dict[str, Callable[[str, bool], bool]] = {
    "A user may reach in the upper half": lambda rights, is_upper: is_upper and rights[USER] != "---",
    "A user may both write and run": lambda rights, _: writes_and_runs(rights[USER]),
    "A supervisor may both write and run": lambda rights, _: writes_and_runs(rights[SUPERVISOR]),
}


class Reader:
    """The lines of a file, with the number of the last one that was read."""

    def __init__(self, file: BinaryIO):
        self.file = file
        self.number = 0

    def line(self) -> bytes:
        """The next line; empty at the end."""
        line = self.file.readline(LONGEST_LINE)
        if line:
            self.number += 1
        if len(line) == LONGEST_LINE and not line.endswith(b"\n"):
            raise Refusal(f"line {self.number} is longer than any line of an answer")
        return line


def chosen_listing(file: BinaryIO, wanted: int | None) -> Listing:
    """The listing with the wanted number, counted from 1; without one, the only listing."""
    reader = Reader(file)
    count, chosen, refusal = 0, None, ""
    while line := reader.line():
        is_large = TOO_LARGE.fullmatch(line)
        if is_large or (head := HEAD.fullmatch(line)):
            count += 1
            areas = None if is_large else areas_of(reader, int(head[1]))
            if count == (wanted or 1):
                chosen = areas
        elif found := REFUSED.fullmatch(line):
            refusal = f": the run ended with `{found[1].decode()}`"
        elif AREA.fullmatch(line):
            raise Refusal(f"line {reader.number} is an area, and no head before it counts it")
        elif not OTHER.fullmatch(line):
            raise Refusal(f"line {reader.number} isn't a line of an answer")
    if count == 0:
        raise Refusal(f"there is no listing{refusal}")
    if wanted is None and count > 1:
        raise Refusal(f"there are {count} listings: choose one by --listing, from 1 to {count}")
    if wanted is not None and wanted > count:
        raise Refusal(f"there is no listing {wanted}: there {'is 1' if count == 1 else f'are {count}'}")
    if chosen is None:
        raise Refusal(f"listing {wanted or 1} is the answer `areas too large`, which has no areas")
    return chosen


def areas_of(reader: Reader, count: int) -> Listing:
    """The areas that follow a head, which counts them."""
    listing = Listing()
    names: dict[bytes, str] = {}
    end = -1
    for found in range(count):
        line = reader.line()
        match = AREA.fullmatch(line)
        if not match:
            raise Refusal(why_no_area(reader, line, count, found))
        first, last, frame = int(match[1], 16), int(match[2], 16), int(match[3], 16)
        if first <= end:
            raise Refusal(f"line {reader.number} has an area that doesn't begin after the one before it")
        if first % PAGE or last % PAGE != PAGE - 1 or last < first:
            raise Refusal(f"line {reader.number} has a range that isn't one of whole pages")
        if last >= 1 << 56 and first < (1 << 64) - (1 << 56):
            raise Refusal(f"line {reader.number} has addresses that aren't canonical")
        if frame % PAGE or frame >> 52:
            raise Refusal(f"line {reader.number} has a frame that isn't the address of one")
        end = last
        listing.first.append(first)
        listing.last.append(last)
        listing.frame.append(frame)
        # One text for each kind of rights, however many areas have it.
        listing.rights.append(names.get(match[4]) or names.setdefault(match[4], match[4].decode()))
    return listing


def why_no_area(reader: Reader, line: bytes, count: int, found: int) -> str:
    """What is wrong with a line that stands where an area should."""
    cut = f"the listing is cut: its head counts {count} areas, and {found} follow"
    if not line.endswith(b"\n"):
        return cut
    if any(form.fullmatch(line) for form in (HEAD, TOO_LARGE, REFUSED, OTHER)):
        return f"{cut}, up to line {reader.number}"
    return f"line {reader.number} isn't of the form FIRST LAST FRAME RIGHTS"


def size_text(size: int) -> str:
    """A number of bytes for people. A decimal says that the number is rounded."""
    unit = 0
    while size >= 1024 << 10 * unit and unit < 5:
        unit += 1
    name = ("bytes", "KiB", "MiB", "GiB", "TiB", "PiB")[unit]
    whole, rest = divmod(size, 1 << 10 * unit)
    return f"{whole} {name}" if rest == 0 else f"{size / (1 << 10 * unit):.1f} {name}"


def count_text(number: int, thing: str) -> str:
    return f"{number:,} {thing}{'' if number == 1 else 's'}"


def range_text(first: int, last: int) -> str:
    return f"{first:#x} - {last:#x}"
