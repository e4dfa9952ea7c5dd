#!/usr/bin/env python3
"""Writes the core and the log of a generated run, or counts how a run answered a log.

    slow_gen.py SEED COUNT FOLDER
    slow_gen.py --counts LOG ANSWERS

The first writes FOLDER/generated.core and FOLDER/generated.log: the files that `gen SEED COUNT` makes in memory, as
docs/FORMATS.md describes them, by a program that was written apart from the project's code. SEED is from 0 to
2,147,483,647, and COUNT from 1 to 100,000.

The second prints nine lines of counts, as `gen` does, of a log without state lines and of what `run` printed for it.
So what `gen` prints can be seen to be counted from what `run` answers:

    slow_gen.py 7 1000 .
    rights run generated.core generated.log >answers
    slow_gen.py --counts generated.log answers
    rights gen 7 1000
"""
import collections
import re
import struct
import sys
from pathlib import Path

from make_example import core_of, machine_note, processor_note

SEEDS = 2**31
MOST_LINES = 100_000

ROOT = 0x1000
TABLES, ENTRIES = 16, 512
MEMORY_SIZE = 1 << 20
PAGE_SIZE = 4096

# The kinds of access, in the order in which they are numbered from 0.
KINDS = ("ur", "uw", "ux", "sr", "sw", "sx", "ir", "iw")

# The lines of a summary, and the first words of the events that the first four count.
COUNTS = ("events", "writes", "sets", "invalidations", "granted", "denied", "areas", "points yes", "points no")
EVENTS = {"write": "writes", "set": "sets", "invlpg": "invalidations", "invpcid": "invalidations"}


class Numbers:
    """Random numbers below small limits."""

    def __init__(self, seed):
        self.state = seed

    def below(self, limit):
        self.state = (1103515245 * self.state + 12345) % 2**31
        return self.state // 65536 % limit


def slot_of(table, number):
    """Where the entry of a table of level 1 stands."""
    return 0x10000 + 0x1000 * table + 8 * number


def page_of(table, number):
    """The page that the entry maps in the core."""
    return 0x100000 + 0x1000 * (ENTRIES * table + number)


def memory():
    """1 MByte from physical address 0 on: one table of each upper level, and 16 full tables of level 1."""
    data = bytearray(MEMORY_SIZE)
    struct.pack_into("<Q", data, ROOT, 0x2007)
    struct.pack_into("<Q", data, 0x2000, 0x3007)
    for table in range(TABLES):
        struct.pack_into("<Q", data, 0x3000 + 8 * table, 0x10007 + 0x1000 * table)
        for number in range(ENTRIES):
            struct.pack_into("<Q", data, slot_of(table, number), page_of(table, number) + 7)
    return bytes(data)


def core():
    """The bytes of the core. They are the same for each seed."""
    notes = machine_note(40, 1) + processor_note(number=0) + processor_note(number=1)
    return core_of([(0, memory())], notes)


def drawn_line(numbers):
    form = numbers.below(8)
    if form <= 3:
        table = numbers.below(TABLES)
        number = numbers.below(ENTRIES)
        page = page_of(table, number)
        entry = (page + 7, page + 5, page + 3, 0)[numbers.below(4)]
        return f"write {slot_of(table, number):#x} {entry.to_bytes(8, 'little').hex()}"
    if form == 4:
        processor = numbers.below(2)
        return f"invlpg {processor} {PAGE_SIZE * numbers.below(8192):#x}"
    if form == 6:
        return f"set {numbers.below(2)} cr3 {ROOT:#x}"
    processor = numbers.below(2)
    kind = KINDS[numbers.below(len(KINDS))]
    return f"ask {processor} {kind} {PAGE_SIZE * numbers.below(8192):#x}"


# The lines at fixed places of each thousand.
FIXED = {0: "point current", 1: "invpcid 0 2 0 0x0", 2: "invpcid 1 2 0 0x0", 500: "list 0"}


def lines(seed, count):
    """The lines of the log, without their ends."""
    numbers = Numbers(seed)
    return [FIXED.get(place % 1000) or drawn_line(numbers) for place in range(1, count + 1)]


def log(seed, count):
    """The bytes of the log."""
    return "".join(line + "\n" for line in lines(seed, count)).encode()


def summary_of(events, answers):
    """What `gen` prints where the log has these lines, each an event, and `run` answers so: nine lines."""
    counts = collections.Counter(events=len(events))
    for line in events:
        name = EVENTS.get(line.split()[0])
        if name is not None:
            counts[name] += 1
    for line in answers.decode().splitlines():
        found = re.match(r"granted|denied|areas(?= \d)|point yes|point no", line)
        if found is None:
            continue
        name = found.group().replace("point ", "points ")
        counts[name] += int(line.split()[1]) if name == "areas" else 1
    return "".join(f"{name} {counts[name]}\n" for name in COUNTS).encode()


def main():
    words = sys.argv[1:]
    if len(words) == 3 and words[0] == "--counts":
        events, answers = (Path(word).read_bytes() for word in words[1:])
        print(summary_of(events.decode().splitlines(), answers).decode(), end="")
        return
    if len(words) != 3 or not all(word.isdecimal() for word in words[:2]):
        sys.exit("usage: slow_gen.py SEED COUNT FOLDER | slow_gen.py --counts LOG ANSWERS")
    seed, count = int(words[0]), int(words[1])
    if seed >= SEEDS or not 1 <= count <= MOST_LINES:
        sys.exit(f"slow_gen: SEED is below {SEEDS}, and COUNT from 1 to {MOST_LINES}")
    folder = Path(words[2])
    (folder / "generated.core").write_bytes(core())
    (folder / "generated.log").write_bytes(log(seed, count))


if __name__ == "__main__":
    main()
