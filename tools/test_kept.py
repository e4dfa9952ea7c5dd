#!/usr/bin/env python3
"""Runs the built program on logs that list spaces again after writes to their tables, and compares each output.

    test_kept.py [--runs COUNT] [--seed NUMBER] [PROGRAM ...]

A space that was listed is kept, and updated after each write. What is listed has to be what a session without kept
spaces lists: the slow session (tools/slow_session.py), which walks all tables at each list. Without names it runs what
`rt ci` leaves. With --runs it makes so many random logs alone, of some 40 writes each.
"""
import argparse
import hashlib
import os
import struct
import subprocess
import sys
import tempfile
import unittest
from pathlib import Path

import slow_gen
from listing_cases import listed
from make_example import core_of, machine_note, page_tables, processor_note
from slow_listing import RandomRun
from slow_session import LA57, P, PS, U, W, Registers, Session, event_of, listing

CRATE = Path(__file__).resolve().parent.parent / "crates" / "rights"
BUILT = [CRATE / "out" / "rights", CRATE / "out" / "rights.by-rattle"]

# How many random logs are run, and from which number on.
RANDOM_RUNS = 150
FIRST_SEED = 1

TWO = ("0x0 0xfff 0x5000 rwxrwxrw", "0x1000 0x1fff 0x6000 r-xr-xr-")
TWICE = ("0x200000 0x200fff 0x5000 rwxrwxrw", "0x201000 0x201fff 0x6000 r-xr-xr-")

programs = []
runs = 0


class KeptRun(RandomRun):
    """Tables that reference each other and themselves, processors with many roots, and a list after each write."""

    # The slots of all entries: few, so that tables are used at many places.
    SLOTS = (0, 0, 1, 2, 255, 256, 511)
    MOST = 600

    def root(self, session, number):
        """A change of a processor's root, or of another register that its space goes by."""
        cr4 = session.processors[number].cr4
        register = self.random.choice(("cr3", "cr3", "cr3", "efer", "cr0"))
        value = {"cr3": lambda: self.cr3(cr4), "efer": self.efer, "cr0": self.cr0}[register]()
        return f"set {number} {register} {value:#x}"

    def data(self):
        """Where a write begins, and its bytes: mostly one entry, some or several bytes of one, or several entries."""
        at = self.random.choice(self.frames) + 8 * self.random.choice((*self.SLOTS, self.random.randrange(512)))
        data = b"".join(self.entry().to_bytes(8, "little") for _ in range(self.random.choice((1, 1, 1, 2, 3))))
        if self.odds(3):
            start = self.random.randrange(8)
            at, data = at + start, data[start : start + self.random.randint(1, 12)]
        return at, data

    def make(self):
        """A core, a log, what it prints, and how many listings that has."""
        while True:
            segments = self.segments()
            la57 = self.random.choice((0, LA57))
            processors = {number: self.registers() for number in range(self.random.randint(1, 3))}
            for registers in processors.values():
                registers.cr4 = registers.cr4 & ~LA57 | la57
            session = Session(segments, processors, (self.width, self.big))
            lines, said = [], []
            for _ in range(40):
                number = self.random.randrange(len(processors))
                areas = session.space(number).areas(self.MOST)
                if areas is None:
                    break
                lines.append(f"list {number}")
                said.append(listing(areas))
                if self.odds(4):
                    lines.append(self.root(session, number))
                    assert session.step(event_of(lines[-1])) is None
                at, data = self.data()
                if data and at % 4096 + len(data) <= 4096 and session.memory.is_known(at, len(data)):
                    lines.append(f"write {at:#x} {data.hex()}")
                    assert session.step(event_of(lines[-1])) is None
            if len(said) > 5:
                notes = machine_note(self.width, self.big)
                notes += b"".join(self.note(number, registers) for number, registers in processors.items())
                return core_of(segments, notes), "\n".join(lines).encode(), ("\n".join(said) + "\n").encode(), len(said)

    @staticmethod
    def note(number, registers):
        """The state note of a processor."""
        return processor_note(
            cr0=registers.cr0,
            cr3=registers.cr3,
            cr4=registers.cr4,
            efer=registers.efer,
            rflags=2 | registers.ac << 18,
            pkru=registers.pkru,
            pkrs=registers.pkrs,
            number=number,
        )


def entries(value, count=512, step=0):
    """The bytes of so many entries, as a log has them."""
    return struct.pack(f"<{count}Q", *(value + step * place for place in range(count))).hex()


class Kept(unittest.TestCase):
    """Runs in a new folder, which holds the core and the log."""

    def setUp(self):
        room = tempfile.TemporaryDirectory()
        self.addCleanup(room.cleanup)
        self.room = Path(room.name)

    def run_log(self, core, log, text):
        """Each program prints a text and ends with status 0."""
        global runs
        (self.room / "core").write_bytes(core)
        (self.room / "log").write_bytes(log if isinstance(log, bytes) else ("\n".join(log) + "\n").encode())
        for program in programs:
            runs += 1
            words = [program, "run", self.room / "core", self.room / "log"]
            done = subprocess.run(words, stdin=subprocess.DEVNULL, capture_output=True, timeout=100, check=False)
            self.assertEqual((done.returncode, done.stderr), (0, b""), program)
            wanted = text if isinstance(text, bytes) else text.encode()
            self.assertTrue(done.stdout == wanted, f"{program} lists otherwise")

    def example(self):
        return core_of([(0, page_tables())], machine_note() + processor_note())

    def test_a_table_that_is_used_twice(self):
        log = ["write 0x3008 0740000000000000", "list 0", "write 0x4010 0770000000000000", "list 0"]
        both = ("0x2000 0x2fff 0x7000 rwxrwxrw", "0x202000 0x202fff 0x7000 rwxrwxrw")
        self.run_log(self.example(), log, listed(*TWO, *TWICE) + listed(*TWO, both[0], *TWICE, both[1]))

    def test_a_table_that_is_used_512_times(self):
        log = ["write 0x3000 " + entries(0x4007), "list 0", "write 0x4008 0760000000000000", "list 0"]
        places = [0x200000 * place for place in range(512)]
        before = []
        for at in places:
            before.append(f"{at:#x} {at + 0xFFF:#x} 0x5000 rwxrwxrw")
            before.append(f"{at + 0x1000:#x} {at + 0x1FFF:#x} 0x6000 r-xr-xr-")
        after = [f"{at:#x} {at + 0x1FFF:#x} 0x5000 rwxrwxrw" for at in places]
        self.run_log(self.example(), log, listed(*before) + listed(*after))

    def test_a_space_that_a_write_makes_too_large_and_back(self):
        zeros = entries(0, 511)
        log = ["list 0", "write 0x1000 " + entries(0x1007), "list 0", "ask 0 ur 0x0"]
        log += ["write 0x1000 0720000000000000" + zeros, "list 0"]
        text = listed(*TWO) + "areas too large\ngranted 0x1000\n" + listed(*TWO)
        self.run_log(self.example(), log, text)

    def test_a_write_over_two_entries_of_a_table_that_is_used_on_two_levels(self):
        # The table at 0x3000 is a PD, and by its entry 1 the PT of the next 2 MBytes.
        memory = bytearray(page_tables())
        struct.pack_into("<Q", memory, 0x3008, 0x3000 | U | W | P)
        core = core_of([(0, bytes(memory))], machine_note() + processor_note())
        log = ["list 0", f"write 0x3004 {bytes(4).hex()}{(0x3007).to_bytes(4, 'little').hex()}", "list 0"]
        log += ["write 0x3004 " + bytes(8).hex(), "list 0", "write 0x3000 " + entries(0x3007, 2), "list 0"]
        self.compare(core, [(0, bytes(memory))], log)

    def test_a_write_that_unlinks_the_table_it_stands_in(self):
        # The PML4 is its own PDPT, PD and PT.
        memory = bytearray(page_tables())
        struct.pack_into("<3Q", memory, 0x1000, 0x2007, 0x1007, 0x1005)
        core = core_of([(0, bytes(memory))], machine_note() + processor_note())
        log = ["list 0", "write 0x1008 " + bytes(8).hex(), "list 0", "write 0x1008 0710000000000000", "list 0"]
        log += ["write 0x1010 " + (0x40000007 | PS).to_bytes(8, "little").hex(), "list 0", "write 0x1000 00", "list 0"]
        self.compare(core, [(0, bytes(memory))], log)

    def compare(self, core, segments, log):
        """Each program prints what the slow session does."""
        registers = Registers(0x80010001, 0x1000, 0x20, 0xD00, 0, 0, 0)
        session = Session(segments, {0: registers}, (40, 1))
        self.run_log(core, log, session.run("\n".join(log)))

    def test_seventeen_roots(self):
        # Each PML4 at 0x6000 and so on references the same PDPT from another entry.
        memory = bytearray(page_tables()) + bytearray(0x20000)
        roots = [0x6000 + 0x1000 * number for number in range(17)]
        for number, root in enumerate(roots):
            struct.pack_into("<Q", memory, root + 8 * number, 0x2007)
        segments = [(0, bytes(memory))]
        core = core_of(segments, machine_note() + processor_note())
        log = []
        for number, root in enumerate((*roots, *roots[::-1], roots[0])):
            log += [f"set 0 cr3 {root:#x}", "list 0"]
            log += [f"write {0x4008 + 8 * (number % 3):#x} {entries(0x6000 | number % 8, 1)}", "list 0"]
        self.compare(core, segments, log)

    def test_five_thousand_rounds(self):
        # Of the generated core 256 entries of a PDPT reference one PD. Built anew at each list it takes minutes.
        core = bytearray(slow_gen.core())
        struct.pack_into("<256Q", core, 384 + 0x2000, *[0x3007] * 256)
        round_of = ["write 0x10008 " + entries(0, 1), "list 0", "write 0x10008 " + entries(0x101007, 1), "list 0"]
        log = ["list 0", *round_of * 5000]
        gigabytes = [0x40000000 * place for place in range(256)]
        whole = listed(*(f"{at:#x} {at + 0x1FFFFFF:#x} 0x100000 rwxrwxrw" for at in gigabytes)).encode()
        lines = []
        for at in gigabytes:
            lines.append(f"{at:#x} {at + 0xFFF:#x} 0x100000 rwxrwxrw")
            lines.append(f"{at + 0x2000:#x} {at + 0x1FFFFFF:#x} 0x102000 rwxrwxrw")
        parts = listed(*lines).encode()
        wanted = hashlib.sha256(whole)
        for _ in range(5000):
            wanted.update(parts + whole)
        (self.room / "core").write_bytes(core)
        (self.room / "log").write_text("\n".join(log) + "\n")
        for program in programs:
            words = [program, "run", self.room / "core", self.room / "log"]
            with subprocess.Popen(words, stdin=subprocess.DEVNULL, stdout=subprocess.PIPE) as done:
                written = hashlib.sha256()
                while piece := done.stdout.read(1 << 20):
                    written.update(piece)
                self.assertEqual(done.wait(), 0)
            self.assertEqual(written.digest(), wanted.digest(), program)

    def test_random_tables(self):
        listings = 0
        for seed in range(FIRST_SEED, FIRST_SEED + RANDOM_RUNS):
            core, log, text, count = KeptRun(seed).make()
            with self.subTest(seed=seed):
                self.run_log(core, log, text)
            listings += count
        self.assertGreater(listings, 5 * RANDOM_RUNS)


def say(text):
    print(f"test_kept: {text}", file=sys.stderr)


def main():
    global RANDOM_RUNS, FIRST_SEED
    parser = argparse.ArgumentParser(usage=__doc__)
    parser.add_argument("--runs", type=int)
    parser.add_argument("--seed", type=int, default=FIRST_SEED)
    parser.add_argument("program", type=Path, nargs="*")
    arguments = parser.parse_args()
    programs.extend(arguments.program or [it for it in BUILT if it == BUILT[0] or it.exists()])
    for program in programs:
        if not os.access(program, os.X_OK) or not program.is_file():
            say(f"there is no program {program}: `rt ci` builds it, and `./rights` does")
            return 1
    FIRST_SEED = arguments.seed
    loader = unittest.defaultTestLoader
    tests = loader.loadTestsFromTestCase(Kept)
    if arguments.runs is not None:
        RANDOM_RUNS = arguments.runs
        tests = loader.loadTestsFromName("Kept.test_random_tables", sys.modules[__name__])
    if not unittest.TextTestRunner(verbosity=1).run(tests).wasSuccessful():
        return 1
    say(f"{runs} runs of {' and '.join(it.name for it in programs)} ended as they must")
    return 0


if __name__ == "__main__":
    sys.exit(main())
