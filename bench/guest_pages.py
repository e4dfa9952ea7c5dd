#!/usr/bin/env python3
"""Compares listings of a guest's spaces with QEMU's own lists of its pages.

    guest_pages.py MONITOR LOG ANSWERS

MONITOR is a text of QEMU's monitor with the answer to `info tlb` for each processor, as bench/qemu_core.sh takes it, or
tools/qemu-record with --pages. LOG has the `machine` line, the processors' `cpu` lines, and a `list` line for each.
ANSWERS is what a run wrote for these.

A line of `info tlb` has a page's first address, its frame, and flags of its last entry: X is XD, P a large page, U is
U/S and W is R/W. From these, and from CR0, CR4 and AC of the processor, follow the letters that a listing has to have.
So it is compared as far as the entries of upper levels let all pass, and no protection key denies anything. The first
is so in Linux without page-table isolation, the second where LOG has a PKRU of 0. How large a large page is isn't
shown: the largest is taken that the machine has, and that the alignment and the next page leave room for.

Prints for each processor how many pages agree, and the first that don't; status 1 where there are such ones.
"""
import argparse
import re
import sys
from pathlib import Path

PAGE_SIZE = 4 << 10
SIZES = {1 << 30: "1 GByte", 2 << 20: "2 MBytes", PAGE_SIZE: "4 KBytes"}

# The monitor shows a command again with each letter that is typed, with codes of the terminal in between.
COMMAND = re.compile(r"^\(qemu\) .*?(info tlb|cpu [0-9]+)(?:\x1b\[K)?\s*$")
PAGE_LINE = re.compile(r"^([0-9a-f]{16}): ([0-9a-f]{16}) ([-X][-G][-P][-D][-A][-C][-T][-U][-W])\s*$")
AREA_LINE = re.compile(r"^0x([0-9a-f]+) 0x([0-9a-f]+) 0x([0-9a-f]+) ([-rwx]{8})$")

WP, SMEP, SMAP, AC = 1 << 16, 1 << 20, 1 << 21, 1 << 18


class Difference(Exception):
    """What doesn't fit, in one sentence."""


def monitor_pages(text):
    """For each processor that QEMU listed: the first address, the frame and the flags of each page."""
    found = {}
    processor, listed = 0, None
    for line in text.splitlines():
        if line.startswith("(qemu)"):
            typed = COMMAND.match(line)
            listed = None
            if typed and typed[1] == "info tlb":
                listed = found[processor] = []
            elif typed:
                processor = int(typed[1].split()[1])
        elif listed is not None:
            page = PAGE_LINE.match(line)
            if not page:
                raise Difference(f"`info tlb` has the line {line!r}")
            listed.append((int(page[1], 16), int(page[2], 16), page[3]))
    return found


def letters(flags, registers):
    """The rights of a page, as a listing spells them."""
    cr0, cr4, rflags = registers
    user, write, run = "U" in flags, "W" in flags, "X" not in flags
    implicit = not user or not cr4 & SMAP
    explicit = implicit or rflags & AC
    kernel_write = write or not cr0 & WP
    granted = (
        *(user, user and write, user and run),
        *(explicit, explicit and kernel_write, run and not (user and cr4 & SMEP)),
        *(implicit, implicit and kernel_write),
    )
    return "".join(letter if is_granted else "-" for letter, is_granted in zip("rwxrwxrw", granted))


def qemu_pages(listed, registers, has_gigabytes):
    """The first address, the size, the frame and the letters of each page."""
    known = [size for size in SIZES if has_gigabytes or size < 1 << 30]
    nexts = [first for first, _, _ in listed[1:]] + [1 << 64]
    for (first, frame, flags), following in zip(listed, nexts):
        sizes = known if "P" in flags else (PAGE_SIZE,)
        fitting = [size for size in sizes if (first | frame) % size == 0 and first + size <= following]
        if not fitting:
            raise Difference(f"`info tlb` has the page at {first:#x} out of its place")
        yield first, fitting[0], frame, letters(flags, registers)


def listings(answers):
    """For each listing the first address, the size, the first frame and the letters of each area."""
    found = []
    for line in answers.splitlines():
        area = AREA_LINE.match(line)
        if re.fullmatch(r"areas [0-9]+", line):
            found.append([])
        elif area and found:
            first, last, frame = (int(digits, 16) for digits in area.groups()[:3])
            found[-1].append((first, last + 1 - first, frame, area[4]))
        else:
            raise Difference(f"the run answered {line!r}")
    return found


def parts(pages):
    """The parts of 4 KBytes of pages or areas: their frames and letters, by address."""
    return {
        first + offset: (frame + offset, rights)
        for first, size, frame, rights in pages
        for offset in range(0, size, PAGE_SIZE)
    }


def compare(processor, pages, areas):
    """Prints how many pages agree, and tells whether all do and nothing else is listed."""
    theirs, ours = parts(pages), parts(areas)
    wrong = {address for address in theirs | ours if theirs.get(address) != ours.get(address)}
    agreeing = [size for first, size, _, _ in pages if wrong.isdisjoint(range(first, first + size, PAGE_SIZE))]
    sizes = ", ".join(f"{agreeing.count(size)} of {name}" for size, name in SIZES.items())
    print(f"processor {processor}: {len(agreeing)} of {len(pages)} pages agree: {sizes}")
    for address in sorted(wrong)[:5]:
        print(f"at {address:#x} {shown(ours, address)} is listed, and by QEMU {shown(theirs, address)}")
    return bool(agreeing) and not wrong


def shown(mapped, address):
    return "{:#x} {}".format(*mapped[address]) if address in mapped else "nothing"


def main():
    parser = argparse.ArgumentParser(description="Compares listings with what QEMU's monitor lists.")
    for name in ("monitor", "log", "answers"):
        parser.add_argument(name, metavar=name.upper(), type=Path)
    words = parser.parse_args()
    monitor, log, answers = (
        path.read_text(encoding="utf-8", errors="replace") for path in (words.monitor, words.log, words.answers)
    )
    stated = re.findall(r"^cpu ([0-9]+) (0x\w+) 0x\w+ (0x\w+) 0x\w+ (0x\w+)", log, re.MULTILINE)
    registers = {int(number): [int(value, 16) for value in values] for number, *values in stated}
    asked = [int(number) for number in re.findall(r"^list ([0-9]+)$", log, re.MULTILINE)]
    listed, tlbs = listings(answers), monitor_pages(monitor)
    if not tlbs or len(listed) != len(asked) or not set(asked) == set(tlbs) == set(registers):
        raise Difference("the processors of MONITOR, LOG and ANSWERS aren't the same")
    has_gigabytes = not re.search(r"^machine [0-9]+ 0$", log, re.MULTILINE)
    agree = [
        compare(number, list(qemu_pages(tlbs[number], registers[number], has_gigabytes)), areas)
        for number, areas in zip(asked, listed)
    ]
    sys.exit(0 if all(agree) else 1)


if __name__ == "__main__":
    try:
        main()
    except (Difference, OSError) as error:
        sys.exit(f"guest_pages: {error}")
