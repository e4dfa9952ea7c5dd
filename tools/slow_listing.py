#!/usr/bin/env python3
"""Compares the program's listings of random tables with those of the slow session (tools/slow_session.py).

    slow_listing.py [--runs COUNT] [--seed NUMBER] [--beside LISTER] PROGRAM

It makes random cores and logs, runs the program on each, and compares what it prints with the slow session. It prints
the first run that differs, leaves its core and log in the folder that it names, and ends with 1 then. Without --runs
there are 2,000 runs, of some twelve listings each. LISTER is another program, of the words CORE LOG, that lists:
bench's `list.c`. It is compared on the first listing of each run, with a log that states the machine and the processor.
"""
import argparse
import random
import struct
import subprocess
import sys
import tempfile
from pathlib import Path

from make_example import core_of, machine_note
from slow_session import (
    G,
    KINDS,
    LAM_SUP,
    LAM_U48,
    LAM_U57,
    LA57,
    LASS,
    NXE,
    P,
    PAE,
    PCIDE,
    PGE,
    PKE,
    PKS,
    PS,
    SMAP,
    SMEP,
    U,
    W,
    WP,
    XD,
    Registers,
    Session,
    event_of,
    listing,
    size_of,
)


class RandomRun:
    """Random cores of a few tables, which reference each other and themselves, and random logs for them."""

    # A listing has at most so many leaves.
    MOST = 300

    # The slots of the most entries.
    SLOTS = (0, 0, 0, 1, 2, 255, 256, 511)

    # Rows of pages: the first slot, how many, the first frame, and the size of a page.
    ROWS = (
        (0, 4, 0x600000, 0x1000),
        (505, 7, 0x1F9000, 0x1000),
        (1, 5, 0x5000, 0x1000),
        (1, 2, 0x200000, 0x200000),
        (1, 2, 0x200000, 0x200000),
    )

    def __init__(self, seed):
        self.random = random.Random(seed)
        self.width = self.random.choice((40, 40, 46, 52))
        self.big = self.random.choice((1, 1, 1, 0))
        self.frames = [0x1000 * number for number in range(1, self.random.randint(4, 9))]

    def odds(self, one_in):
        return self.random.randrange(one_in) == 0

    def entry(self):
        """Mostly present, of one of the tables or of a page beside them."""
        frame = self.random.choice(self.frames) if self.odds(2) else 0x1000 * self.random.randrange(0x20)
        entry = frame | P | (0 if self.odds(6) else W) | (0 if self.odds(6) else U)
        entry |= self.random.choice((0, 0, 0x60, G))
        if self.odds(12):
            entry |= XD
        if self.odds(4):
            entry |= self.random.randrange(16) << 59
        if self.odds(6):
            # A large page, whose frame has as many zeros as it wants, or has a bit too many.
            entry = entry & ~0xFFFFF000 | PS | self.random.choice((0, 0x200000, 0x400000, 0x40000000, 0x1000))
            entry |= self.random.choice((0, 0, 0, 0, 0x2000, 0x200000))
        if self.odds(20):
            entry |= 1 << self.random.randrange(64)
        return entry & ~P if self.odds(10) else entry

    def fill(self, memory, frame):
        """Some entries of a table; often a row of pages that follow one another, and most often one of the next table.

        The rows of small pages at the ends of a table go on in the row of large ones in the slots 1 and 2.
        """
        for _ in range(self.random.choice((1, 2, 3))):
            slot = self.random.choice((*self.SLOTS, self.random.randrange(512)))
            struct.pack_into("<Q", memory, frame + 8 * slot, self.entry())
        if self.odds(2):
            flags = self.random.choice((P | W | U, P | W | U, self.entry() & 0x7F | P))
            first, count, start, size = self.random.choice(self.ROWS)
            for place in range(count):
                value = start + size * place | flags | (PS if size > 4096 else 0)
                struct.pack_into("<Q", memory, frame + 8 * (first + place), value)
        if frame != self.frames[-1] and not self.odds(8):
            slot = self.random.choice((0, 3, *self.SLOTS))
            struct.pack_into("<Q", memory, frame + 8 * slot, self.entry() & 0x66 | frame + 0x1000 | P)

    def segments(self):
        memory = bytearray(0x10000)
        for frame in self.frames:
            self.fill(memory, frame)
        cut = self.random.choice((0x3004, 0x2000, 0x4010, self.random.randrange(1, 0x8000)))
        way = self.random.randrange(4)
        if way == 0:
            return [(0, bytes(memory))]
        if way == 1:
            return [(0, bytes(memory[:cut])), (cut, bytes(memory[cut:]))]
        if way == 2:
            # A hole of a few bytes.
            return [(0, bytes(memory[:cut])), (cut + self.random.choice((1, 8, 4096)), bytes(memory[cut:]))]
        # Other bytes, which don't count where the first segment has them.
        return [(cut, bytes(memory[cut:])), (0, bytes(memory[: cut + 64]).replace(b"\7", b"\5"))]

    def cr3(self, cr4):
        lam = self.random.choice((0, 0, LAM_U57, LAM_U48, LAM_U48 | LAM_U57))
        low = self.random.randrange(4096) if cr4 & PCIDE else self.random.choice((0, 0x18))
        return self.random.choice((self.frames[0], self.frames[0], *self.frames)) | lam | low

    def cr4(self, kept):
        """CR4 with these bits, and any others that have to do with rights and may be changed at any time."""
        bits = (PGE, SMEP, SMAP, PKE, PKS, LASS, LAM_SUP)
        return kept | PAE | sum(bit for bit in bits if self.odds(2))

    def cr0(self):
        return 0x80000001 | self.random.choice((0, WP))

    def efer(self):
        return 0x500 | self.random.choice((0, NXE, NXE, NXE))

    def keys(self):
        """PKRU or PKRS: a quarter of the bits."""
        return self.random.getrandbits(32) & self.random.getrandbits(32)

    def registers(self):
        cr4 = self.cr4(self.random.choice((0, LA57)) | self.random.choice((0, PCIDE)))
        return Registers(
            self.cr0(),
            self.cr3(cr4),
            cr4,
            self.efer(),
            self.random.randrange(2),
            self.keys(),
            self.keys(),
        )

    def change(self, session):
        """A line that changes a register or memory."""
        cr4 = session.processors[0].cr4
        register = self.random.choice(("cr0", "cr3", "cr4", "efer", "ac", "pkru", "pkrs", "write", "write", "write"))
        if register == "write":
            frame = self.random.choice(self.frames)
            at = frame + 8 * self.random.choice(self.SLOTS)
            data = self.entry().to_bytes(8, "little")
            if self.odds(3):
                at, data = at + self.random.randrange(8), data[:1]
            if not session.memory.is_known(at, len(data)):
                return None
            return f"write {at:#x} {data.hex()}"
        value = {
            "cr0": self.cr0,
            "cr3": lambda: self.cr3(cr4) | (XD if cr4 & PCIDE and self.odds(2) else 0),
            "cr4": lambda: self.cr4(cr4 & (LA57 | PCIDE)),
            "efer": self.efer,
            "ac": lambda: self.random.randrange(2),
            "pkru": self.keys,
            "pkrs": self.keys,
        }[register]()
        return f"set 0 {register} {value:#x}"

    def asks(self, areas):
        """Asks at the ends of some areas, and beside them; then anywhere."""
        for first, last, _, _ in self.random.sample(areas, min(len(areas), 3)):
            pointer = self.random.choice((first, last, last + 1, first - 1)) % (1 << 64)
            if self.odds(3):
                pointer ^= 1 << self.random.choice((47, 48, 56, 57, 62, 63))
            yield f"ask 0 {self.random.choice(KINDS)} {pointer:#x}"
        for _ in range(2):
            pointer = sum(size_of(level) * self.random.choice(self.SLOTS) for level in range(1, 6))
            pointer |= ((1 << 64) - (1 << 48)) * self.random.randrange(2)
            yield f"ask 0 {self.random.choice(KINDS)} {pointer:#x}"

    def make(self):
        """A core, a log, what it prints, and how many listings that has."""
        while True:
            segments, registers = self.segments(), self.registers()
            self.state = f"machine {self.width} {self.big}\n{registers.line()}\n"
            session = Session(segments, {0: registers}, (self.width, self.big))
            lines, said, listings = [], [], 0
            for _ in range(12):
                areas = session.space(0).areas(self.MOST)
                if areas is None:
                    break
                listings += 1
                lines.append("list 0")
                said.append(listing(areas))
                for line in self.asks(areas):
                    lines.append(line)
                    said.append(session.step(event_of(line)))
                for line in filter(None, (self.change(session) for _ in range(self.random.randint(1, 3)))):
                    lines.append(line)
                    assert session.step(event_of(line)) is None
            if listings > 1:
                self.first = said[0] + "\n"
                core = core_of(segments, machine_note(self.width, self.big) + registers.note())
                return core, "\n".join(lines).encode(), ("\n".join(said) + "\n").encode(), listings


def main():
    parser = argparse.ArgumentParser(usage=__doc__)
    parser.add_argument("--runs", type=int, default=2000)
    parser.add_argument("--seed", type=int, default=0)
    parser.add_argument("--beside", type=Path)
    parser.add_argument("program", type=Path)
    arguments = parser.parse_args()
    room = Path(tempfile.mkdtemp())
    count = lines = 0
    for seed in range(arguments.seed, arguments.seed + arguments.runs):
        run = RandomRun(seed)
        core, log, text, listings = run.make()
        (room / "core").write_bytes(core)
        (room / "log").write_bytes(log)
        words = [arguments.program.resolve(), "run", room / "core", room / "log"]
        done = subprocess.run(words, stdin=subprocess.DEVNULL, capture_output=True, timeout=100, check=False)
        if (done.returncode, done.stdout, done.stderr) != (0, text, b""):
            (room / "expected").write_bytes(text)
            (room / "written").write_bytes(done.stdout)
            print(f"slow_listing: seed {seed}: status {done.returncode}, another output; see {room}", file=sys.stderr)
            return 1
        if arguments.beside:
            (room / "log").write_text(run.state + "list 0\n")
            words = [arguments.beside.resolve(), room / "core", room / "log"]
            done = subprocess.run(words, stdin=subprocess.DEVNULL, capture_output=True, timeout=100, check=False)
            if (done.returncode, done.stdout) != (0, run.first.encode()):
                (room / "expected").write_text(run.first)
                (room / "written").write_bytes(done.stdout)
                print(f"slow_listing: seed {seed}: {arguments.beside} lists otherwise; see {room}", file=sys.stderr)
                return 1
        count += listings
        lines += text.count(b"\n")
    for path in room.iterdir():
        path.unlink()
    room.rmdir()
    print(f"slow_listing: {arguments.runs} runs of {count} listings, {lines} lines in all, are as they must be")
    return 0


if __name__ == "__main__":
    sys.exit(main())
