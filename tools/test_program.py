#!/usr/bin/env python3
"""Runs the built program, and compares each run's exit status and its output byte for byte.

    test_program.py [PROGRAM ...]

Without names it runs what `rt ci` leaves: crates/rights/out/rights, and beside it rights.by-rattle, which Rattle's own
compiler made. `./rights` leaves the first of them. It prints each run that ended otherwise and ends with 1 then, and
where there is no program to run.

No contract speaks of this part: that the program's arguments, files and output are those of the host, and that its exit
status is that of the run. Expected output is worked out here, from the page tables that each test writes.
"""
import collections
import os
import re
import resource
import signal
import struct
import subprocess
import sys
import tempfile
import unittest
from pathlib import Path

import audit_cases
import slow_audit
import slow_caches
import slow_gen
from listing_cases import CASES, LIMITS, listed
from make_example import (
    FILE_HEADER_SIZE,
    NOTES_OFFSET,
    NOTES_SIZE,
    PROGRAM_HEADER_SIZE,
    SEGMENT_OFFSET,
    core_of,
    file_header,
    machine_note,
    page_tables,
    processor_note,
    program_header,
    state_note,
)
from slow_listing import RandomRun
from slow_session import Registers, Session

CRATE = Path(__file__).resolve().parent.parent / "crates" / "rights"
PAGE = CRATE.parents[1] / "docs" / "SHOOTDOWN.md"
RECORDED = CRATE.parents[1] / "examples" / "shootdown"
BUILT = [CRATE / "out" / "rights", CRATE / "out" / "rights.by-rattle"]

USAGE = b"usage: run CORE LOG | check CORE | gen SEED COUNT\n"
# What a run over the example writes.
EXAMPLE_ANSWERS = b"granted 0x6234\ndenied write\ndenied absent 1\ndenied not-canonical\ndenied smap\n"
EXAMPLE_ANSWERS += b"granted 0x5000\ngranted 0x6234\n"
MEBIBYTE = 1 << 20
NOBODY = 65534

# How many random cores and logs are run: of listings, and of points.
RANDOM_RUNS = 60
RANDOM_HISTORIES = 300

# How many pages may be written to.
PAGE_LIMIT = 262_144

# Bits of an entry: present, writes allowed, user accesses allowed, large page, execute-disable.
P, W, U, PS, XD = 1, 2, 4, 1 << 7, 1 << 63

# Spellings of numbers as a log has them, with their values, and words that spell none. Of those that spell a number too
# large, some are 7 once their upper digits or bits are lost.
SPELLINGS = {"7": 7, "007": 7, "0" * 19 + "7": 7, "0x7": 7, "0x" + "0" * 15 + "7": 7, "0x1F": 31, "0x1f": 31}
MISSPELLINGS = ["", "0x", "0X7", "x7", "7x", "0x0x7", "0xg", "1f", "+7", "-7", "-0", " 7", "7 ", "7\n", "7.0", "7e0"]
MISSPELLINGS += ["seven", "\uff17", "0" * 20 + "7", "9" * 20, f"{2**64 + 7}", "0x" + "0" * 16 + "7", f"{2**64 + 7:#x}"]

# The programs to run, and how many runs there were.
programs = []
runs = 0


def segment_core(size, machine=machine_note()):
    """A core of one segment of so many bytes, up to where they begin."""
    notes = machine + processor_note()
    headers = program_header(4, NOTES_OFFSET, NOTES_SIZE) + program_header(1, SEGMENT_OFFSET, size)
    return file_header() + headers + notes


def paged_core(pages, machine=machine_note()):
    """A core whose page tables give each page of the lowest GByte an entry of level 1, from the first page on.

    The top tables stand at 0x1000, 0x2000 and 0x3000, and the tables of level 1 from 0x10000 on.
    """
    tables = -(-len(pages) // 512)
    memory = bytearray(0x10000 + 4096 * tables)
    struct.pack_into("<Q", memory, 0x1000, 0x2000 | U | W | P)
    struct.pack_into("<Q", memory, 0x2000, 0x3000 | U | W | P)
    for table in range(tables):
        struct.pack_into("<Q", memory, 0x3000 + 8 * table, 0x10000 + 4096 * table | U | W | P)
    # A 2-MByte page with a reserved bit, and a table that the core doesn't hold.
    struct.pack_into("<Q", memory, 0x3000 + 8 * 510, 0x2000 | PS | U | W | P)
    struct.pack_into("<Q", memory, 0x3000 + 8 * 511, 0x7F000000 | U | W | P)
    struct.pack_into(f"<{len(pages)}Q", memory, 0x10000, *pages)
    return segment_core(len(memory), machine) + memory


def repeated_core(count, size):
    """A core of so many segments in a row, up to where the bytes begin that each of them has."""
    head = bytearray(file_header(count + 1))
    notes_offset = FILE_HEADER_SIZE + PROGRAM_HEADER_SIZE * (count + 1)
    head += program_header(4, notes_offset, NOTES_SIZE)
    for number in range(count):
        head += program_header(1, notes_offset + NOTES_SIZE, size)
        struct.pack_into("<Q", head, len(head) - PROGRAM_HEADER_SIZE + 24, number * size)
    return bytes(head) + machine_note() + processor_note()


def written_log(flags):
    """Writes to each page that may be written to, in no order: an entry with flags, of the table that maps 0x5000.

    The tables of the example core are left as they are but for entries that their walk of 0x0 doesn't read.
    """
    lines = []
    for number in range(PAGE_LIMIT):
        page = number * 0x2545F % PAGE_LIMIT
        lines.append(b"write 0x%x %02x20000000000000\n" % (page << 12 | 8, flags[page % len(flags)]))
    return lines


# A machine with 52 physical-address bits, and a core with a page at 0 and at each power of 16 from 0x1000 on, then a
# page without writes, one with execute-disable, one of protection key 1, and a supervisor's page.
WIDE = state_note(1, struct.pack("<II", 52, 1))
POWERS = [0] + [16**digits for digits in range(3, 13)]
READ_ONLY, NO_FETCH, KEYED, SUPERVISOR = range(len(POWERS), len(POWERS) + 4)
PAGES = [power | U | W | P for power in POWERS]
PAGES += [0x5000 | U | P, 0x5000 | XD | U | W | P, 0x5000 | 1 << 59 | U | W | P, 0x5000 | W | P]


def granted(digits):
    """An ask, and its line of so many hexadecimal digits: it has 11 bytes more, with its LF."""
    address = 16 ** (digits - 1) if digits > 1 else 7
    page = POWERS.index(address) if address in POWERS else 0
    pointer = page << 12 if address in POWERS else address
    return b"ask 0 ur 0x%x\n" % pointer, b"granted 0x%x\n" % address


def logs_of_the_page():
    """The logs that have sections of docs/SHOOTDOWN.md, and what is written for each over the example core."""
    sections = PAGE.read_text(encoding="utf-8").split("\n### ")[1:]
    blocks = [re.findall(r"(?:^    .+\n)+", section, re.M) for section in sections]
    return [[re.sub("^    ", "", block, flags=re.M).encode() for block in pair] for pair in blocks]


def joined(pairs):
    """The log and the output of lines."""
    return b"".join(line for line, _ in pairs), b"".join(text for _, text in pairs)


# Every answer that an ask can have in four levels: lines of 10 to 24 bytes, all that there are.
ANSWERS = [granted(digits) for digits in range(1, 14)]
ANSWERS += [
    (b"ask 0 uw 0x%x000\n" % READ_ONLY, b"denied write\n"),
    (b"ask 0 sx 0x%x000\n" % NO_FETCH, b"denied xd\n"),
    (b"ask 0 ur 0x%x000\n" % SUPERVISOR, b"denied user\n"),
    (b"ask 0 sr 0x%x000\n" % len(PAGES), b"denied absent 1\n"),
    (b"ask 0 sr 0x3fc00000\n", b"denied reserved 2\n"),
    (b"ask 0 sr 0x3fe00000\n", b"denied unknown 1\n"),
    (b"ask 0 sr 0x800000000000\n", b"denied not-canonical\n"),
    (b"set 0 cr4 0x300020\nask 0 sx 0x0\n", b"denied smep\n"),
    (b"ask 0 sr 0x0\n", b"denied smap\n"),
    (b"set 0 cr4 0x8000020\nask 0 sx 0x0\n", b"denied lass\n"),
    (b"set 0 cr4 0x400020\nset 0 pkru 0x4\nask 0 ur 0x%x000\n" % KEYED, b"denied key\n"),
]


def limited(kind, most):
    """Sets a limit in the program's process. A write past a limit of a file's size then fails and sends no signal."""

    def limit():
        signal.signal(signal.SIGXFSZ, signal.SIG_IGN)
        resource.setrlimit(kind, (most, most))

    return limit


def closed_pipe():
    """A pipe that nobody reads from."""
    reader, writer = os.pipe()
    os.close(reader)
    return os.fdopen(writer, "wb")


def become_nobody():
    """Leaves root, who may read every file, in the program's process."""
    os.setgroups([])
    os.setgid(NOBODY)
    os.setuid(NOBODY)


class Program(unittest.TestCase):
    """Runs in a new folder, which holds the files that a test writes."""

    def setUp(self):
        room = tempfile.TemporaryDirectory()
        self.addCleanup(room.cleanup)
        self.room = Path(room.name)

    def write(self, name, start, size=None):
        """Writes a file that begins so, and has zeros up to its size."""
        with open(self.room / name, "wb") as file:
            file.write(start)
            if size is not None:
                file.truncate(size)

    def write_example(self):
        for name in ("example.core", "example.log"):
            self.write(name, (CRATE / "data" / name).read_bytes())

    def run_case(self, case):
        with self.subTest(case.name):
            self.write("core", case.core())
            self.write("log", case.log.encode())
            self.ends(["run", "core", "log"], case.status, case.text.encode())

    def run_one(self, program, words, output, limit=None):
        global runs
        runs += 1
        words = [program, *words]
        return subprocess.run(
            words,
            cwd=self.room,
            stdin=subprocess.DEVNULL,
            stdout=output,
            stderr=subprocess.PIPE,
            preexec_fn=limit,
            timeout=100,
            check=False,
        )

    def ends(self, words, status, text=b"", limit=None):
        """Each program ends with a status, and writes a text to a pipe."""
        for program in programs:
            done = self.run_one(program, words, subprocess.PIPE, limit)
            self.same(program, words, done, status, done.stdout, text)

    def ends_in(self, opened, words, status, text=b"", limit=None):
        """Each program ends with a status, and writes a text to what is opened for it; a name is of a new file."""
        for program in programs:
            with open(self.room / opened, "wb") if isinstance(opened, str) else opened() as output:
                done = self.run_one(program, words, output, limit)
            written = (self.room / opened).read_bytes() if isinstance(opened, str) else b""
            self.same(program, words, done, status, written, text)

    def same(self, program, words, done, status, written, text):
        what = f"{program} {words}"
        self.assertEqual(done.returncode, status, f"the exit status of {what}; {describe(written, text)}")
        self.assertEqual(done.stderr, b"", f"standard error of {what}")
        self.assertTrue(written == text, f"the output of {what}: {describe(written, text)}")


def describe(written, text):
    """Where what was written is another text."""
    if written == text:
        return "the output is as it must be"
    at = next((at for at, (one, other) in enumerate(zip(written, text)) if one != other), min(len(written), len(text)))
    pieces = f"{written[at : at + 40]!r} and not {text[at : at + 40]!r}"
    return f"{len(written)} bytes and not {len(text)}; from byte {at} on {pieces}"


class Statuses(Program):
    def test_0_the_example(self):
        self.write_example()
        self.ends(["run", "example.core", "example.log"], 0, EXAMPLE_ANSWERS)

    def test_0_the_stored_run(self):
        words = (CRATE / "args").read_text().split()
        self.ends(words, 0, (CRATE / "stdout").read_bytes())

    def test_0_a_log_without_asks(self):
        self.write_example()
        self.write("log", b"# nothing\n\nset 0 ac 1")
        self.ends(["run", "example.core", "log"], 0)

    def test_0_writes(self):
        self.write_example()
        core = (self.room / "example.core").read_bytes()
        # A whole page table, and then one byte of its last entry.
        write = b"write 0x4000 " + b"0760000000000000" * 511 + b"07A0000000000000\n"
        asks = b"ask 0 uw 0x0\nask 0 uw 0x1ff234\nask 0 uw 0x200000\n"
        self.write("log", write + asks + b"write 20472 01\nask 0 uw 0x1ff234\n")
        text = b"granted 0x6000\ngranted 0xa234\ndenied absent 2\ndenied user\n"
        self.ends(["run", "example.core", "log"], 0, text)
        self.assertEqual((self.room / "example.core").read_bytes(), core)

    def test_0_lists(self):
        self.write_example()
        self.write("log", b"list 0\nwrite 0x4008 0760000000000000\nlist 0\n")
        text = b"areas 2\n0x0 0xfff 0x5000 rwxrwxrw\n0x1000 0x1fff 0x6000 r-xr-xr-\n"
        self.ends(["run", "example.core", "log"], 0, text + b"areas 1\n0x0 0x1fff 0x5000 rwxrwxrw\n")

    def test_1_a_stale_translation(self):
        self.write_example()
        self.write("shootdown.log", (CRATE / "data" / "shootdown.log").read_bytes())
        text = b"point no 1\ncpu 1 pcid 0 page 0x0 frame 0x5000 rwxrwxrw\npoint yes\n"
        self.ends(["run", "example.core", "shootdown.log"], 1, text)

    def test_1_the_logs_of_the_page(self):
        self.write_example()
        cases = logs_of_the_page()
        self.assertEqual(len(cases), 4)
        for log, text in cases:
            self.write("log", log)
            self.ends(["run", "example.core", "log"], 1, text)

    def test_1_and_0_the_recorded_guests(self):
        found = b"point no 1\ncpu 1 pcid 0 page 0x400000 frame 0x109000 ---rwxrw\n"
        for name, status, text in (("forgets", 1, found), ("tells", 0, b"point yes\n")):
            self.ends(["run", RECORDED / f"{name}.core", RECORDED / f"{name}.log"], status, text)

    def test_2_words_of_no_form(self):
        self.write_example()
        core, log = "example.core", "example.log"
        for words in (
            [],
            ["run"],
            ["run", core],
            ["walk", core, log],
            ["", core, log],
            ["run", core, log, ""],
            ["run", core, log, log],
            ["run", core, log, log, log],
            ["check"],
            ["check", core, log],
            ["check", core, ""],
            ["Check", core],
            ["gen"],
            ["gen", "7"],
            ["gen", "7", "3", "3"],
            ["gen", "7", "3", ""],
            ["Gen", "7", "3"],
        ):
            self.ends(words, 2, USAGE)

    def test_3_a_refused_core(self):
        core = segment_core(65536) + page_tables()
        self.write("log", b"ask 0 ur 0x0\n")
        for start, why in (
            (b"", b"short"),
            (core[:63], b"short"),
            (b"\x7fELG" + core[4:], b"not elf"),
            (core[:-1], b"segment range 1"),
        ):
            self.write("core", start)
            self.ends(["run", "core", "log"], 3, b"core refused: " + why + b"\n")
            self.ends(["run", "core", "no log"], 3, b"core refused: " + why + b"\n")

    def test_4_a_refused_line(self):
        self.write_example()
        for log, text in (
            (b"ask 0 ur 0x0\npoint current\npoint\n", b"granted 0x5000\npoint yes\nline 3 refused: syntax\n"),
            (
                b"write 0x4000 0000000000000000\npoint current\nask 7 ur 0x0\n",
                b"point no 1\ncpu 0 pcid 0 page 0x0 frame 0x5000 rwxrwxrw\nline 3 refused: no processor 7\n",
            ),
            (b"invlpg 0 0x0\ninvpcid 0 4 0 0x0\n", b"line 2 refused: bad type\n"),
            (b"ask 7 ur 0x0\n", b"line 1 refused: no processor 7\n"),
            (b"write 0x0 00\nwrite 0x1fff 0000\nask 0 ur 0x0\n", b"line 2 refused: crosses 0x2000\n"),
            (b"ask 0 ur 0x0\nwrite 0xffff 0000\n", b"granted 0x5000\nline 2 refused: unknown 0x10000\n"),
            (b"ask 0 ur 0x0\nask 0 ur  0x0", b"granted 0x5000\nline 2 refused: syntax\n"),
            (b"#" * 8301, b"line 1 refused: too long\n"),
        ):
            self.write("log", log)
            self.ends(["run", "example.core", "log"], 4, text)

    def test_4_a_refused_write(self):
        end = 1 << 52
        lower = page_tables()
        # One segment touches the first, with a hole of one byte before the next; one ends where memory does.
        segments = [
            (0, lower),
            (0x10000, b"\1" * 0x1800),
            (0x11801, b"\2" * 0x3000),
            (end - 4, b"\3" * 4),
        ]
        self.write("core", core_of(segments, machine_note() + processor_note()))
        ends = b"write 0xffffffffffffc 01020304\nwrite 0xffffffffffffe 0102\nwrite 0xfffffffffffff 01\n"
        whole = b"write 0x4000 " + b"00" * 4096 + b"\n"
        seam = b"write 0x4000 0760000000000000\nwrite 0xffff 00\nwrite 0x10000 00\n"
        for log, text in (
            (ends + b"write 0xfffffffffffff 0102\n", b"line 4 refused: unknown 0x10000000000000\n"),
            (b"write 0x10000000000000 01\n", b"line 1 refused: unknown 0x10000000000000\n"),
            (b"write 0xfffffffffffff000 " + b"00" * 4096, b"line 1 refused: unknown 0xfffffffffffff000\n"),
            (b"write 0xffffffffffffffff 00\n", b"line 1 refused: unknown 0xffffffffffffffff\n"),
            (b"write 0xffffffffffffffff 0000\n", b"line 1 refused: unknown 0xffffffffffffffff\n"),
            (whole + b"write 0x4001 " + b"00" * 4096, b"line 2 refused: crosses 0x5000\n"),
            (b"write 0x4fff 0000\n", b"line 1 refused: crosses 0x5000\n"),
            # The segments touch where the pages do, so their seam is no hole, but the write is of two pages.
            (seam + b"write 0xffff 0000\n", b"line 4 refused: crosses 0x10000\n"),
            (b"write 0x117ff 0000\n", b"line 1 refused: unknown 0x11800\n"),
            (b"write 0x117ff 00\nwrite 0x11801 00\nwrite 0x11800 00\n", b"line 3 refused: unknown 0x11800\n"),
            (b"write 0x10fff 00\nwrite 0x10800 " + b"00" * 4096, b"line 2 refused: crosses 0x11000\n"),
            (b"write 0x13fff 00\nwrite 0x13fff 0000\n", b"line 2 refused: crosses 0x14000\n"),
            (b"write 0x14800 0000\n", b"line 1 refused: unknown 0x14801\n"),
            (b"write 0x14800 " + b"00" * 4096, b"line 1 refused: unknown 0x14801\n"),
        ):
            self.write("log", log)
            self.ends(["run", "core", "log"], 4, text)

    def test_4_one_page_too_many(self):
        size = 16 * MEBIBYTE
        start = repeated_core(65, size)
        self.write("core", start + page_tables(), len(start) + size)
        # Every page is a top table then. What is written to it says what is granted.
        answers = {7: b"granted 0x5000\n", 3: b"denied user\n", 6: b"denied absent 4\n"}
        flags = list(answers)
        log, text = written_log(flags), []
        for page in range(0, PAGE_LIMIT, 61):
            log += [b"set 0 cr3 0x%x\n" % (page << 12), b"ask 0 ur 0x8000000000\n"]
            text.append(answers[flags[page % len(flags)]])
        # A page that was written to may be so again.
        log += [b"write 0x3ffff008 07\n", b"write 0x40000000 00\n"]
        text.append(b"line %d refused: overlay full\n" % len(log))
        self.write("log", b"".join(log))
        self.ends(["run", "core", "log"], 4, b"".join(text))

    def test_5_no_such_file(self):
        self.write_example()
        self.ends(["run", "no core", "example.log"], 5)
        self.ends(["run", "example.core", "no log"], 5)
        self.ends(["run", "example.core", "example.log/"], 5)
        self.ends(["run", "", "example.log"], 5)

    def test_5_a_folder(self):
        self.write_example()
        self.ends(["run", ".", "example.log"], 5)
        self.ends(["run", "example.core", "."], 5)

    def test_5_a_file_without_leave(self):
        self.write_example()
        limit = None
        if os.geteuid() == 0:
            # Root may read every file, so the program runs as nobody, from a copy that nobody can reach.
            limit = become_nobody
            self.room.chmod(0o755)
        for number, program in enumerate(programs):
            copy = self.room / f"program-{number}"
            copy.write_bytes(program.read_bytes())
            copy.chmod(0o755)
            for closed in ("example.core", "example.log"):
                (self.room / closed).chmod(0)
                try:
                    done = self.run_one(copy, ["run", "example.core", "example.log"], subprocess.PIPE, limit)
                except (subprocess.SubprocessError, PermissionError) as error:
                    self.skipTest(f"this root can't run a program as nobody: {error}")
                (self.room / closed).chmod(0o644)
                self.same(copy, closed, done, 5, done.stdout, b"")

    def test_6_a_full_device(self):
        self.write_example()
        self.write("many", b"ask 0 ur 0x0\n" * 30_000)
        self.write("bad", b"ask\n")
        full = lambda: open("/dev/full", "wb")
        self.ends_in(full, ["run", "example.core", "example.log"], 6)
        self.ends_in(full, ["run", "example.core", "many"], 6)
        self.ends_in(full, ["run", "example.core", "bad"], 6)
        self.ends_in(full, ["run", "example.log", "bad"], 6)
        self.ends_in(full, [], 6)
        # Nothing is written where nothing is asked, or no file is read.
        self.write("log", b"")
        self.ends_in(full, ["run", "example.core", "log"], 0)
        self.ends_in(full, ["run", "no core", "log"], 5)

    def test_6_a_closed_pipe(self):
        self.write_example()
        self.write("many", b"ask 0 ur 0x0\n" * 30_000)
        self.ends_in(closed_pipe, ["run", "example.core", "example.log"], 6)
        self.ends_in(closed_pipe, ["run", "example.core", "many"], 6)
        self.ends_in(closed_pipe, [], 6)

    def test_6_a_file_that_takes_a_part(self):
        self.write("core", paged_core(PAGES, WIDE))
        # 4,096 lines of 16 bytes are written at once, and the last two by the flush.
        log, text = joined([granted(5)] * 4098)
        self.write("log", log)
        for most in (0, 1, 16, 65_535, 65_536, 65_537, 65_552, 65_567):
            limit = limited(resource.RLIMIT_FSIZE, most)
            self.ends_in("output", ["run", "core", "log"], 6, text[:most], limit)
        limit = limited(resource.RLIMIT_FSIZE, len(text))
        self.ends_in("output", ["run", "core", "log"], 0, text, limit)

    def test_7_out_of_memory(self):
        self.write_example()
        size = 256 * MEBIBYTE
        self.write("core", segment_core(size - SEGMENT_OFFSET), size)
        self.write("log", b"ask 0 ur 0x0\n", size)
        limit = limited(resource.RLIMIT_AS, 64 * MEBIBYTE)
        self.ends(["run", "core", "example.log"], 7, limit=limit)
        # A log isn't held, however long it is.
        text = b"granted 0x5000\nline 2 refused: too long\n"
        self.ends(["run", "example.core", "log"], 4, text, limit)
        self.ends(["run", "example.core", "example.log"], 0, EXAMPLE_ANSWERS, limit)
        # Each page that is written to takes memory.
        size = 16 * MEBIBYTE
        start = repeated_core(64, size)
        self.write("core", start + page_tables(), len(start) + size)
        self.write("log", b"ask 0 ur 0x0\n" + b"".join(written_log([7])) + b"ask 0 ur 0x0\n")
        self.ends(["run", "core", "log"], 7, b"granted 0x5000\n", limit)

    def test_9_arguments_that_are_no_text(self):
        self.write_example()
        self.ends([b"run", b"example.core", b"\xff"], 9)
        self.ends([b"\xc3"], 9)


class Files(Program):
    def test_every_place_of_a_large_core_and_log(self):
        count = 1 << 18
        frames = [(index * 0x5851F42D + 12345) % (1 << 28) for index in range(count)]
        core = paged_core([frame << 12 | U | W | P for frame in frames])
        lines, text = [], []
        # Each page once, in no order, by each kind of access; no two lines are the same, and no two frames.
        for number in range(count - 2 * 512):
            page = number * 0x2545F % (count - 2 * 512)
            offset = number * 7919 % 4096
            kind = (b"ur", b"uw", b"ux", b"sr", b"sw", b"sx", b"ir", b"iw")[number % 8]
            lines.append(b"ask 0 %b 0x%x\n" % (kind, page << 12 | offset))
            text.append(b"granted 0x%x\n" % (frames[page] << 12 | offset))
        log = b"".join(lines)
        self.assertGreater(min(len(core), len(log)), 2 * MEBIBYTE)
        self.assertEqual(len(set(lines)), len(lines))
        # The names have one length, and then they are each other's.
        self.write("a.bin", core)
        self.write("b.bin", log)
        self.ends(["run", "a.bin", "b.bin"], 0, b"".join(text))
        self.write("a.bin", log)
        self.write("b.bin", core)
        self.ends(["run", "b.bin", "a.bin"], 0, b"".join(text))
        self.ends(["run", "a.bin", "b.bin"], 3, b"core refused: not elf\n")

    def test_files_that_end_beside_a_buffer(self):
        self.write("core", paged_core(PAGES, WIDE))
        for size in (65_535, 65_536, 65_537, 131_072, 262_143, 262_144, 262_145, 524_288):
            ask, answer = granted(13)
            comments = (b"#" * 63 + b"\n") * (size // 64 + 1)
            self.write("log", comments[: size - len(ask) - 1] + b"\n" + ask)
            self.assertEqual((self.room / "log").stat().st_size, size)
            self.ends(["run", "core", "log"], 0, answer)

    def test_the_example_is_the_tools(self):
        tool = Path(__file__).with_name("make_example.py")
        subprocess.run([sys.executable, "-B", tool, self.room / "core"], check=True)
        self.assertEqual((self.room / "core").read_bytes(), (CRATE / "data" / "example.core").read_bytes())


class Lists(Program):
    def test_cases_by_hand(self):
        for case in CASES:
            self.run_case(case)

    def test_cases_by_hand_are_those_of_the_slow_session(self):
        for case in CASES:
            if "too large" not in case.text:
                with self.subTest(case.name):
                    session = Session(case.segments, {0: case.registers}, (case.width, case.big))
                    self.assertEqual(session.run(case.log), case.text)

    def test_as_many_tables_and_pages_as_there_may_be(self):
        for case in LIMITS:
            self.run_case(case)

    def test_random_tables(self):
        listings = 0
        for seed in range(RANDOM_RUNS):
            core, log, text, count = RandomRun(seed).make()
            self.write("core", core)
            self.write("log", log)
            with self.subTest(seed=seed):
                self.ends(["run", "core", "log"], 0, text)
            listings += count
        self.assertGreater(listings, 10 * RANDOM_RUNS)

    def test_lists_of_several_processors(self):
        # The second one has five levels, of which the example's tables are the lower four; its first allows no writes.
        notes = machine_note() + processor_note() + processor_note(cr3=0x7000, cr4=0x1020, number=5)
        tables = bytearray(page_tables())
        struct.pack_into("<Q", tables, 0x7000, 0x1000 | U | P)
        self.write("core", core_of([(0, bytes(tables))], notes))
        log = b"list 0\nlist 5\nwrite 0x4008 0760000000000000\nlist 5\nlist 0\nset 5 cr0 0x80000001\nlist 5\n"
        self.write("log", log)
        text = (
            listed("0x0 0xfff 0x5000 rwxrwxrw", "0x1000 0x1fff 0x6000 r-xr-xr-")
            + listed("0x0 0x1fff 0x5000 r-xr-xr-") * 2
            + listed("0x0 0x1fff 0x5000 rwxrwxrw")
            + listed("0x0 0x1fff 0x5000 r-xrwxrw")
        )
        self.ends(["run", "core", "log"], 0, text.encode())


class Points(Program):
    def test_cases_by_hand(self):
        for case in audit_cases.CASES:
            self.run_case(case)

    def test_cases_by_hand_are_those_of_the_slow_session(self):
        for case in audit_cases.CASES:
            with self.subTest(case.name):
                session = slow_caches.Audit(case.segments, {0: case.registers}, (case.width, case.big))
                self.assertEqual(session.run(case.log), case.text)
                self.assertEqual(session.status, case.status)

    def test_random_histories(self):
        seen = collections.Counter()
        for seed, (core, log, text, status), cases in slow_audit.histories(RANDOM_HISTORIES):
            self.write("core", core)
            self.write("log", log)
            with self.subTest(seed=seed):
                self.ends(["run", "core", "log"], status, text)
            seen += cases
        for scope in ("current", "all"):
            self.assertGreater(seen[f"points {scope}: no"], RANDOM_HISTORIES)
            self.assertGreater(seen[f"points {scope}: yes"], RANDOM_HISTORIES)
        for case in slow_caches.CASES_OF_FINDINGS:
            self.assertGreater(seen[case], RANDOM_HISTORIES // 10, case)


class Checks(Program):
    def says(self, core, text):
        self.write("core", core)
        self.ends(["check", "core"], 0, b"core ok: " + text + b"\n")

    def refuses(self, core, why):
        self.write("core", core)
        self.ends(["check", "core"], 3, b"core refused: " + why + b"\n")

    def test_0_a_core_that_states_all(self):
        self.write_example()
        self.ends(["check", "example.core"], 0, b"core ok: segments 1, processors 1, machine 40 1\n")
        memory = [(0, page_tables())]
        self.says(core_of(memory, machine_note(32, 0) + processor_note()), b"segments 1, processors 1, machine 32 0")
        # Two segments that overlap are two, and processors have any numbers.
        notes = processor_note(number=7) + processor_note(number=0xFFFFFFFF) + processor_note(number=0)
        self.says(core_of(memory * 2, machine_note() + notes), b"segments 2, processors 3, machine 40 1")
        self.says(core_of(memory, notes), b"segments 1, processors 3, machine 52 1")

    def test_0_a_core_without_notes(self):
        self.says(core_of([(0, page_tables())], b""), b"segments 1, processors 0, machine 52 1")
        self.says(file_header(0), b"segments 0, processors 0, machine 52 1")
        # Notes of other owners state nothing.
        other = struct.pack("<III", 5, 8, 1) + b"CORE\0\0\0\0" + bytes(8)
        self.says(core_of([(0, page_tables())], other), b"segments 1, processors 0, machine 52 1")

    def test_0_segments_that_count_none(self):
        start = file_header(5) + program_header(1, 344, 8, 0x1000)
        start += program_header(1, 1 << 63, 0) + program_header(1, 344, 8, (1 << 64) - 1) + program_header(2, 344, 8)
        self.says(start + program_header(1, 344, 8) + bytes(8), b"segments 2, processors 0, machine 52 1")

    def test_0_as_many_as_there_may_be(self):
        notes = b"".join(processor_note(number=number) for number in range(65))
        self.says(core_of([], notes[: 64 * 88]), b"segments 0, processors 64, machine 52 1")
        self.refuses(core_of([], notes), b"note state 0 too many")
        core = repeated_core(0xFFFE - 1, 1) + bytes(1)
        self.says(core, b"segments 65533, processors 1, machine 40 1")

    def test_3_a_refused_core(self):
        self.write_example()
        core = (self.room / "example.core").read_bytes()
        for size, why in ((0, b"short"), (63, b"short"), (100, b"header range"), (65_831, b"segment range 1")):
            self.refuses(core[:size], why)
        self.refuses(b"\x7fELG" + core[4:], b"not elf")
        self.refuses(core_of([], machine_note() * 2), b"note state 0 twice")
        self.refuses(core_of([], machine_note() + processor_note(cr3=1 << 40)), b"note state 0 cr3-reserved")

    def test_3_a_core_that_is_too_long(self):
        # The file has a hole, and takes no room.
        self.write("core", segment_core(65536) + page_tables(), (1 << 31) + 1)
        self.ends(["check", "core"], 3, b"core refused: too long\n")

    def test_5_no_file(self):
        for name in ("no core", "", "."):
            self.ends(["check", name], 5)

    def test_6_output_that_fails(self):
        self.write_example()
        text = b"core ok: segments 1, processors 1, machine 40 1\n"
        words = ["check", "example.core"]
        self.ends_in(lambda: open("/dev/full", "wb"), words, 6)
        self.ends_in(closed_pipe, words, 6)
        self.ends_in(closed_pipe, ["check", "no core"], 5)
        for most in (0, 1, len(text) - 1):
            self.ends_in("output", words, 6, text[:most], limited(resource.RLIMIT_FSIZE, most))
        self.ends_in("output", words, 0, text, limited(resource.RLIMIT_FSIZE, len(text)))

    def test_7_out_of_memory(self):
        size = 256 * MEBIBYTE
        self.write("core", segment_core(size - SEGMENT_OFFSET), size)
        self.ends(["check", "core"], 7, limit=limited(resource.RLIMIT_AS, 64 * MEBIBYTE))

    def test_9_a_name_that_is_no_text(self):
        self.ends([b"check", b"\xff"], 9)


class Generated(Program):
    """`gen` beside `run` over the files of tools/slow_gen.py."""

    def is_the_run(self, seed, count, words=None):
        """What `gen` prints is counted from what `run` answers over the same core and log, and so is its status."""
        self.write("generated.core", slow_gen.core())
        self.write("generated.log", slow_gen.log(seed, count))
        words = ["gen", *(words or [str(seed), str(count)])]
        for program in programs:
            run = self.run_one(program, ["run", "generated.core", "generated.log"], subprocess.PIPE)
            self.assertIn(run.returncode, (0, 1), f"{words}: a line is refused")
            text = slow_gen.summary_of(slow_gen.lines(seed, count), run.stdout)
            done = self.run_one(program, words, subprocess.PIPE)
            self.same(program, words, done, run.returncode, done.stdout, text)

    def test_0_three_lines(self):
        text = b"events 3\nwrites 0\nsets 0\ninvalidations 3\ngranted 0\ndenied 0\nareas 0\n"
        text += b"points yes 0\npoints no 0\n"
        self.ends(["gen", "7", "3"], 0, text)
        self.assertEqual(list(self.room.iterdir()), [])
        self.is_the_run(7, 3)

    def test_1_a_thousand_lines_twice(self):
        text = b"events 1000\nwrites 494\nsets 102\ninvalidations 131\ngranted 268\ndenied 3\nareas 313\n"
        text += b"points yes 0\npoints no 1\n"
        for _ in range(2):
            self.ends(["gen", "7", "1000"], 1, text)
        self.is_the_run(7, 1000)

    def test_1_as_many_lines_as_there_may_be(self):
        # Each run takes about 0.1 s.
        self.is_the_run(7, 100_000)

    def test_other_seeds(self):
        for seed in (0, 1, 6, 22, 65_535, 65_536, 2**30, 2**31 - 1):
            for count in (1, 2, 499, 500, 501, 999, 1002, 3000):
                with self.subTest(seed=seed, count=count):
                    self.is_the_run(seed, count)

    def test_the_slow_session_answers_so(self):
        # It knows no points.
        log = slow_gen.log(7, 1000).replace(b"point current\n", b"")
        processors = {number: Registers() for number in range(2)}
        text = Session([(0, slow_gen.memory())], processors, (40, 1)).run(log.decode())
        self.write("core", slow_gen.core())
        self.write("log", log)
        self.ends(["run", "core", "log"], 0, text.encode())
        self.ends(["check", "core"], 0, b"core ok: segments 1, processors 2, machine 40 1\n")

    def test_spellings_of_numbers(self):
        for word, value in SPELLINGS.items():
            with self.subTest(word):
                self.is_the_run(value, value, [word, word])

    def test_the_ranges(self):
        greatest = 2**31 - 1
        for word in (f"{greatest}", f"{greatest:#x}", "0x7FFFFFFF"):
            self.is_the_run(greatest, 5, [word, "5"])
        for word in ("0", "0x0", "00"):
            self.is_the_run(0, 5, [word, "5"])
        for word in ("1", "0x1"):
            self.is_the_run(7, 1, ["7", word])
        for word in ("100000", "0x186a0", "0x186A0", "0000100000"):
            self.is_the_run(7, 100_000, ["7", word])

    def test_2_past_the_ranges(self):
        for seed in (2**31, 2**32, 2**32 + 7, 2**63, 2**64 - 1):
            for word in (f"{seed}", f"{seed:#x}"):
                self.ends(["gen", word, "3"], 2, USAGE)
        for count in (0, 100_001, 2**17, 2**31, 2**32, 2**32 + 3, 2**64 - 1):
            for word in (f"{count}", f"{count:#x}", f"00{count}"):
                self.ends(["gen", "7", word], 2, USAGE)

    def test_2_words_that_are_no_numbers(self):
        for word in MISSPELLINGS:
            with self.subTest(word):
                self.ends(["gen", word, "3"], 2, USAGE)
                self.ends(["gen", "7", word], 2, USAGE)
                self.ends(["gen", word, word], 2, USAGE)

    def test_6_output_that_fails(self):
        text = b"events 3\nwrites 0\nsets 0\ninvalidations 3\ngranted 0\ndenied 0\nareas 0\n"
        text += b"points yes 0\npoints no 0\n"
        for words in (["gen", "7", "3"], ["gen", "7", "1000"], ["gen", "7", "0"]):
            self.ends_in(lambda: open("/dev/full", "wb"), words, 6)
            self.ends_in(closed_pipe, words, 6)
        words = ["gen", "7", "3"]
        for most in (0, 1, 9, len(text) - 1):
            self.ends_in("output", words, 6, text[:most], limited(resource.RLIMIT_FSIZE, most))
        self.ends_in("output", words, 0, text, limited(resource.RLIMIT_FSIZE, len(text)))

    def test_7_out_of_memory(self):
        self.write_example()
        for program in programs:
            # The least whole number of MBytes with which the program starts and reads the example: less than one is
            # left then, and the core alone takes more.
            for size in range(1, 64):
                limit = limited(resource.RLIMIT_AS, size * MEBIBYTE)
                if self.run_one(program, ["check", "example.core"], subprocess.PIPE, limit).returncode == 0:
                    break
            words = ["gen", "7", "3"]
            done = self.run_one(program, words, subprocess.PIPE, limit)
            self.same(program, words, done, 7, done.stdout, b"")

    def test_9_a_word_that_is_no_text(self):
        self.ends([b"gen", b"7", b"\xff"], 9)


class Output(Program):
    def test_lines_of_every_length(self):
        self.write("core", paged_core(PAGES, WIDE))
        self.assertEqual({len(text) for _, text in ANSWERS}, set(range(10, 25)))
        log, text = joined(ANSWERS)
        self.write("log", log)
        self.ends(["run", "core", "log"], 0, text)
        # Many times over, so that each length stands at the end of a buffer somewhere.
        log, text = joined((ANSWERS + [(b"set 0 cr4 0x20\n", b"")]) * 5000)
        self.write("log", log)
        self.ends(["run", "core", "log"], 0, text)

    def test_outputs_about_as_long_as_a_buffer(self):
        self.write("core", paged_core(PAGES, WIDE))
        for size in (65_535, 65_536, 65_537, 131_071, 131_072, 131_073):
            rest = size - 16 * (size // 16 - 2)
            pairs = [granted(5)] * (size // 16 - 2) + [granted(rest // 2 - 11), granted(rest - rest // 2 - 11)]
            log, text = joined(pairs)
            self.assertEqual(len(text), size)
            self.write("log", log)
            self.ends(["run", "core", "log"], 0, text)
            self.ends_in("output", ["run", "core", "log"], 0, text)


def say(text):
    print(f"test_program: {text}", file=sys.stderr)


def main():
    named = [Path(word).resolve() for word in sys.argv[1:]]
    programs.extend(named or [it for it in BUILT if it == BUILT[0] or it.exists()])
    for program in programs:
        if not os.access(program, os.X_OK) or not program.is_file():
            say(f"there is no program {program}: `rt ci` builds it, and `./rights` does")
            return 1
    tests = unittest.defaultTestLoader.loadTestsFromModule(sys.modules[__name__])
    result = unittest.TextTestRunner(verbosity=1).run(tests)
    for test, why in result.skipped:
        say(f"skipped {test}: {why}")
    if not result.wasSuccessful() or runs == 0:
        return 1
    say(f"{runs} runs of {' and '.join(it.name for it in programs)} ended as they must")
    return 0


if __name__ == "__main__":
    sys.exit(main())
