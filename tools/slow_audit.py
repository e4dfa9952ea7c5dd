#!/usr/bin/env python3
"""Compares the program's points of random histories with those of a slow session (tools/slow_caches.py).

    slow_audit.py [--runs COUNT] [--seed NUMBER] [--program PROGRAM]

It makes random cores and logs of some 10 to 45 lines, runs the program on each, and compares what it prints and its
exit status with the slow session. It prints the first run that differs, leaves its core and log in the folder that it
names, and ends with 1 then; else it says how often which case came up. Without --runs there are 10,000 runs. Without
--program nothing is run, and it says what the histories have in them.
"""
import argparse
import collections
import random
import struct
import subprocess
import sys
import tempfile
from pathlib import Path

from make_example import core_of, machine_note
from slow_caches import Audit
from slow_session import (
    G,
    KEEP,
    KINDS,
    LAM_SUP,
    LAM_U48,
    LAM_U57,
    LA57,
    LASS,
    LMA,
    LME,
    NXE,
    P,
    PAE,
    PCIDE,
    PE,
    PG,
    PGE,
    PKE,
    PKS,
    PS,
    SMAP,
    SMEP,
    U,
    W,
    WP,
    XD,
    Registers,
    size_of,
)


class RandomHistory:
    """A random core of a few tables, which reference each other and themselves, and a random log for it.

    Each table is meant for a level, so that most walks end at a page, but now and then an entry names any other.
    """

    # A log ends where the processors may hold more than that.
    MOST = 260

    SLOTS = (0, 0, 1, 2, 3, 255, 256, 511)
    BITS_OF_CR4 = (PGE, PGE, PGE, PCIDE, PCIDE, SMEP, SMEP, SMAP, PKE, PKS, LASS, LAM_SUP)

    def __init__(self, seed):
        self.random = random.Random(seed)
        self.choice = self.random.choice
        self.width, self.big = self.choice((40, 40, 46, 52)), self.choice((1, 1, 1, 0))
        self.levels = self.choice((4, 4, 5))
        self.frames = [0x1000 * number for number in range(1, self.random.randint(7, 13))]
        self.slots = [self.choice(self.SLOTS), self.choice(self.SLOTS), self.random.randrange(512)]
        self.pcids = [0, self.choice((1, 1, 2, 4095)), self.choice((3, 9))]
        self.numbers = self.random.sample((0, 1, 2, 7), self.choice((1, 1, 2, 3)))

    def odds(self, one_in):
        return self.random.randrange(one_in) == 0

    def level_of(self, frame):
        """The level for which a table is meant: two are top tables, and then each lower level has its turn."""
        place = self.frames.index(frame)
        return self.levels if place < 2 else self.levels - 1 - (place - 2) % (self.levels - 1)

    def tables_of(self, level):
        return [frame for frame in self.frames if self.level_of(frame) == level]

    def slot(self):
        return self.choice(self.slots)

    def leaf_frame(self, level, index):
        """Mostly a frame that follows from that of the slot before, so that large and small pages may go on from each
        other; the frames of small pages may be tables."""
        base = self.choice((0, 0x200000, 0x400000, 0x40000000))
        if self.odds(3):
            return base if level > 1 else self.choice((*self.frames, 0xE000, 0xF000))
        return base + size_of(level) * index

    def entry(self, level, index):
        """A number for a slot of a table that is meant for a level."""
        flags = P | (0 if self.odds(6) else W) | (0 if self.odds(6) else U) | self.choice((0, 0, 0x20, 0x60, 0x18))
        is_large = level in (2, 3) and self.odds(3)
        if level == 1 or is_large:
            frame = self.leaf_frame(level, index)
            flags |= self.choice((0, G)) | self.choice((0, 0, 0, 1, 2, 15)) << 59
            # PAT, and now and then a bit of the frame that a large page must not have.
            flags |= PS | self.choice((0, 0, 0, 0, 0x1000, 0x2000)) if is_large else self.choice((0, 0, 0, PS))
        else:
            frame = self.choice(self.frames if self.odds(8) else self.tables_of(level - 1))
            flags |= G if self.odds(8) else 0
        flags |= XD if self.odds(10) else 0
        flags |= 1 << self.random.randrange(64) if self.odds(30) else 0
        return frame | (flags & ~P if self.odds(12) else flags)

    def row(self, frame):
        """Some pages in a row for a table of level 1, whose frames follow one another; rarely all 512."""
        count = 512 if self.odds(40) else self.random.randint(2, 5)
        flags = P | W | U | self.choice((0, 0, G))
        base = self.choice((0, 0x200000, 0x400000))
        return [(frame + 8 * index, base + 0x1000 * index | flags) for index in range(count)]

    def tables(self):
        memory = bytearray(self.frames[-1] + 0x2000)
        for frame in self.frames:
            level = self.level_of(frame)
            entries = [(frame + 8 * index, self.entry(level, index)) for index in (self.slot(), self.slot())]
            if level == 1 and self.odds(4):
                entries = self.row(frame) + entries
            for at, value in entries:
                struct.pack_into("<Q", memory, at, value)
        return memory

    def segments(self):
        memory = bytes(self.tables())
        # Most cuts go through an entry.
        cut = self.choice(self.frames) + 8 * self.slot() + self.random.randrange(8)
        way = self.random.randrange(8)
        if way == 0:
            return [(cut, memory[cut:]), (0, memory[:cut])]
        if way == 1:
            hole = self.choice((1, 4, 8))
            return [(0, memory[:cut]), (cut + hole, memory[cut + hole :])]
        if way == 2:
            return [(0, memory[: cut + 4096])]
        if way == 3:
            # Other bytes, which don't count where the first segment has them.
            return [(cut, memory[cut:]), (0, memory[: cut + 64].replace(b"\7", b"\5"))]
        return [(0, memory)]

    def keys(self):
        """PKRU or PKRS, of the keys that pages have."""
        return sum(self.random.randrange(4) << 2 * key for key in (0, 1, 2, 15) if self.odds(2))

    def cr3(self, cr4):
        roots = self.frames if self.odds(8) else self.frames[:2]
        low = self.choice(self.pcids) if cr4 & PCIDE else self.choice((0, 0, 0, 0x18))
        return self.choice(roots) | low | self.choice((0, 0, 0, 0, 0, LAM_U57, LAM_U48, LAM_U48 | LAM_U57))

    def cr4(self, five):
        bits = {PGE: 2, PCIDE: 2, SMEP: 5, SMAP: 5, PKE: 3, PKS: 3, LASS: 9, LAM_SUP: 9}
        return PAE | (LA57 if five else 0) | sum(bit for bit, one_in in bits.items() if self.odds(one_in))

    def registers(self):
        # The tables are meant for one number of levels, but a processor may have the other.
        cr4 = self.cr4((self.levels == 5) != self.odds(12))
        return Registers(
            PG | PE | self.choice((0, WP)),
            self.cr3(cr4),
            cr4,
            LME | LMA | (0 if self.odds(5) else NXE),
            self.random.randrange(2),
            self.keys(),
            self.keys(),
        )

    def page_of(self, number):
        """An address of what a processor may hold, or of some slots."""
        held = sorted(self.session.caches[number].held)
        if held and not self.odds(4):
            one = self.choice(held)
            return one.first + self.random.randrange(size_of(one.level))
        space = self.session.space(number)
        address = space.first_of(space.top, self.slot(), 0)
        return address + sum(size_of(level) * self.slot() for level in range(1, space.top))

    def write(self):
        """Of an entry mostly, which is cleared, or gets another bit, or is another one."""
        memory = self.session.memory
        frame = self.choice(self.frames)
        tables = {held.frame for caches in self.session.caches.values() for held in caches.held if not held.is_leaf}
        if tables.intersection(self.frames) and self.odds(2):
            frame = self.choice(sorted(tables.intersection(self.frames)))
        level = self.level_of(frame)
        slots = [index for index, _ in memory.slots_of(frame)]
        index = self.choice(slots) if slots and self.odds(2) else self.slot()
        at, number = frame + 8 * index, memory.table(frame)[index] or 0
        way = self.random.randrange(10)
        if way < 3:
            number = 0
        elif way < 7 and number:
            number ^= self.choice((P, W, W, W, U, U, U, XD, XD, G, G, 0x20, PS, 1 << 59, 1 << 60, 0x1000, 0x200000))
        else:
            number = self.entry(level, index)
        data = number.to_bytes(8, "little")
        way = self.random.randrange(16)
        if way == 0:
            place = self.random.randrange(8)
            at, data = at + place, data[place : place + 1]
        elif way == 1:
            at += 4
        elif way == 2:
            data += self.entry(level, index + 1).to_bytes(8, "little")
        elif way == 3 and self.odds(2):
            at, data = frame, bytes(4096)
        elif way == 4 and level == 1:
            row = self.row(frame)
            at, data = frame, b"".join(value.to_bytes(8, "little") for _, value in row)
        if at % 4096 + len(data) > 4096 or not memory.is_known(at, len(data)):
            return None
        return f"write {at:#x} {data.hex()}"

    def set(self, number):
        """A change of a register; most often of CR3."""
        registers = self.session.processors[number]
        register = self.choice(("cr3", "cr3", "cr3", "cr3", "cr4", "cr4", "cr4", "cr0", "efer", "ac", "pkru", "pkrs"))
        if register == "cr3":
            keep = KEEP if registers.cr4 & PCIDE and self.odds(2) else 0
            value = self.cr3(registers.cr4) | keep
        elif register == "cr4":
            value = registers.cr4 ^ self.choice(self.BITS_OF_CR4)
            value ^= self.choice(self.BITS_OF_CR4) if self.odds(5) else 0
            if value & PCIDE and not registers.cr4 & PCIDE and registers.cr3 & 0xFFF:
                return f"set {number} cr3 {registers.cr3 & ~0xFFF:#x}"
        elif register == "cr0":
            value = registers.cr0 ^ WP
        elif register == "efer":
            value = registers.efer ^ NXE
        elif register == "ac":
            value = 1 - registers.ac
        else:
            value = self.keys()
        return f"set {number} {register} {value:#x}"

    def invalidate(self, number, pcid, address):
        """An invalidation that mostly has to do with a PCID and an address."""
        registers = self.session.processors[number]
        pcid = self.choice(self.pcids) if self.odds(6) else pcid
        pcid = pcid if registers.cr4 & PCIDE else 0
        way = self.random.randrange(12)
        if way < 4:
            # Now and then it isn't canonical.
            return f"invlpg {number} {address ^ (1 << self.choice((47, 56, 63)) if self.odds(4) else 0):#x}"
        if way < 7:
            return f"invpcid {number} 0 {pcid} {address:#x}"
        if way < 9:
            return f"invpcid {number} 1 {pcid} {self.choice((0, address)):#x}"
        if way < 10:
            return f"invpcid {number} {self.choice((2, 3))} {self.choice((0, 5))} 0x0"
        if way < 11:
            return f"set {number} cr4 {registers.cr4 ^ self.choice((PGE, SMEP, SMAP)):#x}"
        return f"set {number} cr3 {registers.cr3 & ~0xFFF | (pcid if registers.cr4 & PCIDE else 0):#x}"

    def cure(self):
        """An invalidation that may remove what one of the findings is of, or of another processor or address."""
        number, pcid, one = self.choice(self.session.findings)
        address = one.page
        if self.odds(4):
            address = one.held.first + self.random.randrange(size_of(one.held.level))
        if self.odds(8):
            address = self.page_of(number)
        if self.odds(4):
            pcid = one.held.pcid
        return self.invalidate(self.choice(self.numbers) if self.odds(8) else number, pcid, address)

    def question(self, number):
        if self.odds(3):
            return f"list {number}"
        return f"ask {number} {self.choice(KINDS)} {self.page_of(number):#x}"

    def refused(self, number):
        """A line that is refused."""
        registers = self.session.processors[number]
        return self.choice(
            (
                f"ask 99 ur {self.page_of(number):#x}",
                f"list {number} ",
                f"point {self.choice(('', 'Current', 'all all', '0'))}",
                f"cpu 5 {PG | PE:#x} 0x1000 0x20 0xd00 0x2 0x0 0x0",
                "machine 40 1",
                f"invpcid {number} 4 0 0x0",
                f"invpcid {number} 3 4096 0x0",
                f"invpcid {number} 0 0 {0x5 << 60:#x}",
                f"set {number} cr4 {registers.cr4 ^ LA57:#x}",
                f"set {number} cr3 {1 << 60:#x}",
                f"set {number} cr0 {WP:#x}",
                f"set {number} efer {LME | NXE:#x}",
                f"write {self.frames[-1] + 0x3000:#x} 00",
                f"write {self.frames[0] - 1:#x} 0000",
            )
        )

    def place_of(self, held):
        """A slot in memory that says what a processor holds, with its number; None where there is none."""
        for frame in self.frames:
            for index, number in self.session.memory.slots_of(frame):
                entry = self.session.space(self.numbers[0]).entry(held.level, number)
                if self.level_of(frame) == held.level and entry[:2] == (held.is_leaf, held.frame):
                    return frame + 8 * index, number
        return None

    def pick(self, number, is_wanted):
        """Something that a processor holds and that is wanted, and the slot that says it in memory; or None."""
        held = [held for held in sorted(self.session.caches[number].held) if is_wanted(held)]
        one = self.choice(held) if held else None
        place = self.place_of(one) if one else None
        return place and (one, *place)

    def split(self, number):
        """A large page becomes a table of the same frames, which has its first few pages; one of them may differ."""
        found = self.pick(number, lambda held: held.is_leaf and held.level > 1)
        if not found:
            return
        held, at, value = found
        level = held.level - 1
        table = self.choice(self.tables_of(level))
        flags = value & (0xF << 59 | G | U | W | P) | (PS if level == 2 else 0)
        row = [held.frame + size_of(level) * index | flags for index in range(self.random.randint(1, 5))]
        if self.odds(3):
            row[-1] ^= self.choice((P, W, U, 0x400000, XD))
        data = b"".join(entry.to_bytes(8, "little") for entry in row)
        yield f"write {table:#x} {data.hex()}"
        yield f"write {at:#x} {(table | value & (XD | U | W | P)).to_bytes(8, 'little').hex()}"
        yield f"point {self.choice(('current', 'all'))}"

    def journey(self, number):
        """A PCID is left, a table that it holds is dropped, and the PCID comes back when the table has another page."""
        registers = self.session.processors[number]
        found = self.pick(number, lambda held: not held.is_leaf and held.level < 4 and held.pcid == registers.pcid)
        others = [pcid for pcid in self.pcids if pcid != registers.pcid]
        if not found or not registers.cr4 & PCIDE:
            return
        held, at, _ = found
        cr3, other = registers.cr3, self.choice(others)
        root = self.choice((cr3 & ~0xFFF, self.choice(self.frames[:2])))
        yield f"set {number} cr3 {KEEP | root | other:#x}"
        yield f"write {at:#x} {bytes(8).hex()}"
        yield self.invalidate(number, self.choice((other, held.pcid)), self.choice((held.first, self.page_of(number))))
        index = self.random.randrange(4)
        entry = self.leaf_frame(1, index) | P | W | U
        yield f"write {self.choice(self.tables_of(1)) + 8 * index:#x} {entry.to_bytes(8, 'little').hex()}"
        yield f"set {number} cr3 {cr3 | (0 if self.odds(6) else KEEP):#x}"
        yield f"point {self.choice(('current', 'all'))}"

    def line(self):
        number = self.choice(self.numbers)
        way = self.random.randrange(24)
        if way < 9:
            return self.write()
        if way < 14:
            return self.set(number)
        if way < 17:
            return self.invalidate(number, self.session.processors[number].pcid, self.page_of(number))
        if way < 19:
            return self.question(number)
        if way < 20:
            return self.choice(("", "# a comment", f"invlpg {number} 0x1"))
        return f"point {self.choice(('current', 'all'))}"

    def add(self, line):
        """Another line of the log; whether there may be more, since it isn't refused and not too much may be held."""
        self.lines.append(line)
        self.said += self.session.answer(len(self.lines), line)
        return self.session.status != 4 and self.session.size() <= self.MOST

    def start(self):
        """The core and the first lines, which state what the core doesn't."""
        machine = (self.width, self.big)
        segments = self.segments()
        stated = {number: self.registers() for number in self.numbers}
        in_core = dict(list(stated.items())[: self.random.randint(0, len(stated))])
        way = self.random.randrange(3)
        notes = b"".join(registers.note(number) for number, registers in in_core.items())
        self.core = core_of(segments, (machine_note(*machine) if way == 0 else b"") + notes)
        self.session = Audit(segments, in_core, machine if way == 0 else None)
        self.lines, self.said = [], ""
        lines = [f"machine {self.width} {self.big}"] if way == 1 and not in_core else []
        lines += [registers.line(number) for number, registers in stated.items() if number not in in_core]
        return self.session.size() <= self.MOST and all(self.add(line) for line in lines)

    def go_on(self):
        """A few more lines that belong together; whether there may be more."""
        number = self.choice(self.numbers)
        if self.odds(8):
            lines = self.choice((self.split, self.journey))(number)
        else:
            lines = filter(None, [self.line()])
        for line in lines:
            if not self.add(line):
                return False
            # What a point found is removed most often, or something like it, and the point comes again.
            if line.startswith("point") and self.session.findings and not self.odds(4):
                if not self.add(self.cure()) or not self.add(line):
                    return False
        return True

    def make(self):
        """A core, a log, what it prints, and its exit status."""
        while not self.start():
            pass
        count = self.random.randint(10, 40)
        while len(self.lines) < count and self.go_on():
            pass
        if self.session.status != 4:
            self.add(f"point {self.choice(('current', 'all'))}")
            if self.odds(12):
                self.add(self.refused(self.choice(self.numbers)))
                self.lines.append("point all")
        log = "\n".join(self.lines) + self.choice(("", "\n"))
        return self.core, log.encode(), self.said.encode(), self.session.status


def histories(count, seed=0):
    """Random histories, each by its seed."""
    for number in range(seed, seed + count):
        history = RandomHistory(number)
        yield number, history.make(), history.session.seen


def compare(program, room, case):
    """Whether the program prints what it must, and ends with the status that it must; else they are in a folder."""
    core, log, text, status = case
    (room / "core").write_bytes(core)
    (room / "log").write_bytes(log)
    words = [program, "run", room / "core", room / "log"]
    done = subprocess.run(words, stdin=subprocess.DEVNULL, capture_output=True, timeout=100, check=False)
    if (done.returncode, done.stdout, done.stderr) == (status, text, b""):
        return True
    (room / "expected").write_bytes(text)
    (room / "written").write_bytes(done.stdout)
    print(f"status {done.returncode} and not {status}, or another output; see {room}", file=sys.stderr)
    return False


def main():
    parser = argparse.ArgumentParser(usage=__doc__)
    parser.add_argument("--runs", type=int, default=10_000)
    parser.add_argument("--seed", type=int, default=0)
    parser.add_argument("--program", type=Path)
    arguments = parser.parse_args()
    room = Path(tempfile.mkdtemp())
    seen = collections.Counter()
    for seed, case, cases in histories(arguments.runs, arguments.seed):
        seen += cases
        seen[f"status {case[3]}"] += 1
        seen["lines"] += case[1].count(b"\n")
        if arguments.program and not compare(arguments.program.resolve(), room, case):
            print(f"slow_audit: seed {seed} differs", file=sys.stderr)
            return 1
    for path in room.iterdir():
        path.unlink()
    room.rmdir()
    for what, count in sorted(seen.items()):
        print(f"{count:8} {what}")
    are = "are as they must be" if arguments.program else "weren't compared with a program"
    print(f"slow_audit: {arguments.runs} runs {are}")
    return 0


if __name__ == "__main__":
    sys.exit(main())
