#!/usr/bin/env python3
"""Tests of qemu-record, without QEMU: fake_qemu.py stands for it. The code is what GNU's assembler made."""
import contextlib
import io
import os
import random
import signal
import socket
import struct
import subprocess
import sys
import tempfile
import threading
import time
import unittest
from pathlib import Path
from unittest import mock

import fake_qemu
import in_process
from fake_qemu import CR3, CR4, END, INVLPG, INVPCID, IRETQ, POINT, START
from fake_qemu import PAGE, TABLE, TEXT, TOP, Stop, elf_file, paging
from qemu_record import Refusal
from qemu_record.core_file import Core, GuestMemory, Range, write_core
from qemu_record.elf_text import Image, stops_in
from qemu_record.gdb_stub import GuestEnded, Stub
from qemu_record.instructions import LONGEST, Memory, address_of, decode
from qemu_record.recorder import HEADING, Recorder, Settings
from qemu_record.tables import Root, TableWatch, Write, changes, referenced, translate

TOOL = Path(__file__).with_name("qemu-record")
FAKE = Path(__file__).with_name("fake_qemu.py")
COMPARER = Path(__file__).parent.parent / "bench" / "guest_pages.py"
tool = in_process.load(TOOL)

# Registers with values that no two sums share.
REGISTERS = {name: 0x1111 << 8 + number for number, name in enumerate(fake_qemu.GENERAL)}
REGISTERS |= {"rip": 0x400000, "fs_base": 0x7F0000000000, "gs_base": 0xFFFF888000000000}
R = REGISTERS

# The bytes of an instruction, its kind, its register, and the address of its operand in memory.
FORMS = [
    ("0f0138", "invlpg", "rdi", R["rax"]),
    ("0f013c2500004000", "invlpg", "rdi", 0x400000),
    ("0f013d10000000", "invlpg", "rdi", 0x400017),
    ("0f017c8df8", "invlpg", "rdi", R["rbp"] + 4 * R["rcx"] - 8),
    ("410f017d00", "invlpg", "rdi", R["r13"]),
    ("410f013c24", "invlpg", "rdi", R["r12"]),
    ("0f013c24", "invlpg", "rdi", R["rsp"]),
    ("420f013ce500100000", "invlpg", "rdi", 8 * R["r12"] + 0x1000),
    ("430f01bc7978563412", "invlpg", "rdi", R["r9"] + 2 * R["r15"] + 0x12345678),
    ("650f013f", "invlpg", "rdi", R["gs_base"] + R["rdi"]),
    ("640f013c2528000000", "invlpg", "rdi", R["fs_base"] + 0x28),
    ("670f017810", "invlpg", "rdi", R["rax"] + 0x10),
    ("67410f017c0bf0", "invlpg", "rdi", (R["r11"] + R["rcx"] - 0x10) & 0xFFFFFFFF),
    ("670f01b800000080", "invlpg", "rdi", R["rax"] + (1 << 31)),
    ("0f01bd00000080", "invlpg", "rdi", (R["rbp"] - (1 << 31)) % (1 << 64)),
    ("660f388207", "invpcid", "rax", R["rdi"]),
    ("66440f38824c2408", "invpcid", "r9", R["rsp"] + 8),
    ("0f22c0", "cr0", "rax", None),
    ("0f22df", "cr3", "rdi", None),
    ("410f22da", "cr3", "r10", None),
    ("410f22e0", "cr4", "r8", None),
    ("6687c9", "start", None, None),
    ("6687db", "point", None, None),
    ("6687d2", "end", None, None),
    ("48cf", "return", None, None),
    ("480f07", "return", None, None),
    ("0f07", "return", None, None),
]
# SWAPGS, RDTSCP, LIDT, MOV to CR2 and CR8, MOV from CR3, a no-operation, exchanges, IRET, MOVBE, INVPCID of a register.
OTHERS = ["0f01f8", "0f01f9", "0f0118", "0f22d0", "440f22c0", "0f20d8", "6690", "6687cb", "664587c9", "87c9", "cf"]
OTHERS += ["660f38f000", "0f388207", "f30f388207", "66f20f388207", "660f3882c7", ""]


class Instructions(unittest.TestCase):
    def test_forms(self):
        for digits, kind, register, address in FORMS:
            with self.subTest(digits):
                code = bytes.fromhex(digits)
                found = decode(code + b"\xff" * 8)
                self.assertEqual((found.kind, found.length, found.register), (kind, len(code), register))
                if address is None:
                    self.assertIsNone(found.memory)
                else:
                    self.assertEqual(address_of(found, REGISTERS), address)

    def test_what_is_none_of_them(self):
        for digits in OTHERS:
            self.assertIsNone(decode(bytes.fromhex(digits) + b"\0" * 8), digits)

    def test_code_that_ends(self):
        for digits, _, _, _ in FORMS:
            code = bytes.fromhex(digits)
            for size in range(len(code)):
                self.assertIsNone(decode(code[:size]), digits)

    def test_an_index_of_the_stack_pointers_number_is_none(self):
        self.assertEqual(decode(bytes.fromhex("0f013c24")).memory, Memory("rsp", None, 1, 0, None, False))
        self.assertEqual(decode(bytes.fromhex("420f013c24")).memory.index, "r12")


class Scan(unittest.TestCase):
    def test_every_instruction_is_found_where_it_begins(self):
        code, begins = b"", {}
        for digits, kind, _, _ in FORMS:
            begins[len(code)] = kind
            code += bytes.fromhex(digits)
        self.assertEqual(begins.items() & stops_in(code).items(), begins.items())

    def test_the_same_as_a_look_at_every_byte(self):
        draw = random.Random(19)
        pieces = [bytes.fromhex(form[0]) for form in FORMS] + [bytes([byte]) for byte in range(256)]
        pieces += [bytes([byte]) for byte in b"\x66\x67\xf3\x48\x4c\x0f\x01\x22\x38\x82\x87\xcf"] * 20
        for _ in range(60):
            code = b"".join(draw.choices(pieces, k=200))
            looked = {at: found.kind for at in range(len(code)) if (found := decode(code[at : at + LONGEST]))}
            self.assertEqual(stops_in(code), looked)

    def test_prefixes_without_an_end(self):
        self.assertEqual(stops_in(b"\x66" * 40 + b"\x0f\x01\x38"), {at: "invlpg" for at in range(28, 41)})


class Images(unittest.TestCase):
    def test_code_of_sections_and_of_segments(self):
        for sections in (True, False):
            image = Image(elf_file(sections=sections))
            self.assertEqual(list(image.code()), [(TEXT, fake_qemu.CODE)])
            self.assertEqual(image.stops()[INVPCID], "invpcid")

    def test_symbols(self):
        image = Image(elf_file(symbols={"unmap": TEXT + 2, "done": TEXT + 9}))
        self.assertEqual(image.address("done"), TEXT + 9)
        self.assertEqual(image.address("0x1F"), 31)
        for address, place in ((TEXT + 2, "unmap"), (TEXT + 8, "unmap+0x6"), (TEXT + 9, "done"), (1, "0x1")):
            self.assertEqual(image.place(address), place)
        self.assertEqual(image.place(TEXT + (2 << 20)), hex(TEXT + (2 << 20)))
        with self.assertRaisesRegex(Refusal, "^it has no symbol nowhere$"):
            image.address("nowhere")

    def test_names_that_do_not_fit_into_a_line(self):
        image = Image(elf_file(symbols={"a\nwrite 0x0 00": TEXT, "b" * 9000: TEXT + 1, "\u00e9": TEXT + 5}))
        places = [image.place(TEXT + at) for at in (0, 1, 2, 5)]
        self.assertEqual(places, [hex(TEXT), "b" * 200, "b" * 200 + "+0x1", "\u00e9"])

    def test_what_is_no_such_file(self):
        whole = elf_file()
        for data in (b"", b"\x7fELF", b"\x7fELF\x01" + whole[5:], whole[:18] + b"\x03" + whole[19:], bytes(100)):
            with self.assertRaises(Refusal):
                Image(data)

    def test_a_file_that_was_cut_or_changed(self):
        whole = elf_file(symbols={"a": TEXT})
        for size in range(len(whole)):
            with contextlib.suppress(Refusal):
                Image(whole[:size]).stops()
        draw = random.Random(19)
        for _ in range(2000):
            data = bytearray(whole)
            data[draw.randrange(len(data))] = draw.choice([0, 1, 0x7F, 0xFF])
            with contextlib.suppress(Refusal):
                Image(bytes(data)).stops()
        longer = bytearray(whole)
        # The size of the code's section.
        struct.pack_into("<Q", longer, struct.unpack_from("<Q", whole, 40)[0] + 64 + 32, len(whole))
        for data in (whole[:-1], bytes(longer)):
            with self.assertRaisesRegex(Refusal, "^the ELF file ends before what it names$"):
                Image(data).stops()


def frame_of(*entries):
    """A frame with entries from its start on."""
    return struct.pack("<512Q", *entries, *[0] * (512 - len(entries)))


class Tables(unittest.TestCase):
    def setUp(self):
        self.frames = {0x1000: frame_of(0x2007), 0x2000: frame_of(0x3007), 0x3000: frame_of(0x4007)}
        self.frames[0x4000] = frame_of(0x5007, 0x6007)
        self.core = dict(self.frames)
        self.watch = TableWatch(self.frames.get, self.core.get)

    def compared(self, *roots):
        return self.watch.compare(roots or [Root(0x1000, 4)])

    def test_what_entries_reference(self):
        # Absent, a large page, and tables; XD and bits above 51 are no part of an address.
        contents = frame_of(0x2006, 0x200083, 0x3003, 1 << 63 | 0xFFFFFFFFF001, 0x3007)
        self.assertEqual(referenced(contents, 2), {0x3000, 0xFFFFFFFFF000})
        self.assertEqual(referenced(contents, 1), set())

    def test_rows_of_changes(self):
        before = frame_of(*range(1 << 12, 513 << 12, 1 << 12))
        now = bytearray(before)
        for number in (0, 5, 6, 7, 511):
            now[8 * number] = 0x80 + number % 8
        written = list(changes(before, bytes(now), 0x7000))
        self.assertEqual([(it.address, len(it.data)) for it in written], [(0x7000, 8), (0x7028, 24), (0x7FF8, 8)])
        for it in written:
            self.assertEqual(it.data, bytes(now[it.address - 0x7000 :][: len(it.data)]))
        self.assertEqual(list(changes(before, before, 0x7000)), [])
        self.assertEqual(list(changes(bytes(4096), b"\x01" * 4096, 0)), [Write(0, b"\x01" * 4096)])

    def test_a_and_d_alone_are_no_change(self):
        self.assertEqual(list(changes(frame_of(0x5007), frame_of(0x5067), 0)), [])
        fewer = [Write(0, (0x5045).to_bytes(8, "little"))]
        self.assertEqual(list(changes(frame_of(0x5067), frame_of(0x5045), 0)), fewer)

    def test_nothing_changed(self):
        self.assertEqual(self.compared(), [])
        self.assertEqual(self.compared(), [])
        self.assertEqual(set(self.watch.said), {0x1000, 0x2000, 0x3000, 0x4000})

    def test_each_change_is_said_once(self):
        self.compared()
        self.frames[0x4000] = frame_of(0, 0x6007)
        self.assertEqual(self.compared(), [Write(0x4000, bytes(8))])
        self.assertEqual(self.compared(), [])

    def test_changes_in_several_tables_are_in_order(self):
        self.compared()
        self.frames[0x4000], self.frames[0x2000] = frame_of(), frame_of(0x3007, 0x3007)
        self.frames[0x3000] = frame_of(0x4005)
        self.assertEqual([it.address for it in self.compared()], [0x2008, 0x3000, 0x4000])

    def test_a_page_is_no_table(self):
        self.compared()
        self.frames[0x5000] = frame_of(1)
        self.assertEqual(self.compared(), [])

    def test_first_new_tables_then_those_in_use_then_those_left(self):
        self.core[0x9000] = self.frames[0x9000] = b"\xee" * 4096
        self.compared()
        # The page table's place in the directory goes to a table at 0x9000, and its frame to something else.
        self.frames[0x9000] = frame_of(0x5007)
        self.frames[0x3000] = frame_of(0x9007)
        self.frames[0x4000] = frame_of(0x1234567, 0x6007)
        written = self.compared()
        self.assertEqual([it.address for it in written], [0x9000, 0x3000, 0x4000])
        self.assertEqual(written[0].data, frame_of(0x5007))
        # A table that comes back is new again.
        self.frames[0x4000] = frame_of(0x5007)
        self.frames[0x3000] = frame_of(0x4007)
        self.assertEqual([it.address for it in self.compared()], [0x4000, 0x3000])

    def test_a_frame_that_was_a_table_is_watched_for_good(self):
        self.compared()
        self.frames[0x3000] = frame_of(0)
        self.assertEqual([it.address for it in self.compared()], [0x3000])
        self.frames[0x4000] = frame_of(0x7007, 0x6007)
        self.assertEqual([it.address for it in self.compared()], [0x4000])

    def test_levels_and_several_roots(self):
        self.frames[0x8000] = self.core[0x8000] = frame_of(0x1007)
        self.compared(Root(0x8000, 5), Root(0x1000, 4))
        self.assertEqual(set(self.watch.said), {0x1000, 0x2000, 0x3000, 0x4000, 0x8000})
        self.watch = TableWatch(self.frames.get, self.core.get)
        # Read with four levels, the walk ends one level before the page table.
        self.compared(Root(0x8000, 4))
        self.assertEqual(set(self.watch.said), {0x8000, 0x1000, 0x2000, 0x3000})

    def test_a_frame_at_two_levels(self):
        self.frames |= {0x8000: frame_of(0x9007), 0x9000: frame_of(0x4007), 0x5000: frame_of(), 0x6000: frame_of()}
        self.core |= self.frames
        self.compared()
        self.compared(Root(0x1000, 4), Root(0x8000, 4))
        self.assertEqual(self.watch.said.keys() & {0x5000, 0x6000}, {0x5000, 0x6000})

    def test_tables_that_reference_themselves(self):
        self.frames[0x1000] = self.core[0x1000] = frame_of(0x2007, 0x1007)
        self.assertEqual(self.compared(), [])

    def test_an_entry_that_names_what_is_no_memory(self):
        self.frames[0x3000] = self.core[0x3000] = frame_of(0x4007, 0xFFFF000007)
        self.assertEqual(self.compared(), [])

    def test_a_table_that_the_core_leaves_out(self):
        self.compared()
        self.frames[0x9000] = frame_of(0x5007)
        self.frames[0x3000] = frame_of(0x4007, 0x9007)
        with self.assertRaisesRegex(Refusal, "^there is a page table at 0x9000, which the core leaves out$"):
            self.compared()

    def test_translations(self):
        root = Root(0x1000, 4)
        self.assertEqual(translate(self.frames.get, root, 0x1234), 0x6234)
        self.assertIsNone(translate(self.frames.get, root, 0x2000))
        self.frames[0x3000] = frame_of(0x4007, 0x1400083)
        self.assertEqual(translate(self.frames.get, root, 0x345678), 0x1545678)
        self.frames[0x3000] = frame_of(0xFFFF000007)
        self.assertIsNone(translate(self.frames.get, root, 0x1234))
        self.frames[0x7000] = frame_of(*[0] * 256, 0x1007)
        self.assertEqual(translate({**self.frames, 0x3000: frame_of(0x4007)}.get, Root(0x7000, 5), 1 << 56), 0x5000)


class Packets(unittest.TestCase):
    def setUp(self):
        ours, self.other = socket.socketpair()
        self.addCleanup(ours.close)
        self.addCleanup(self.other.close)
        self.stub = Stub(ours, patience=0.2)

    def says(self, data):
        self.other.sendall(data)

    def test_a_request_and_its_answer(self):
        self.says(b"+$OK#9a")
        self.assertEqual(self.stub.ask("Z0,1000,1"), "OK")
        self.assertEqual(self.other.recv(100), b"$Z0,1000,1#d4+")

    def test_an_answer_in_pieces_and_two_at_once(self):
        def say():
            for byte in b"+$OK#9a$E14#aa":
                time.sleep(0.002)
                self.says(bytes([byte]))

        thread = threading.Thread(target=say)
        thread.start()
        self.assertEqual([self.stub.ask("?"), self.stub.receive(time.monotonic() + 1)], ["OK", "E14"])
        thread.join()

    def test_escapes(self):
        self.says(b"+$a}\x03}\x04}]z#%02x" % (sum(b"a}\x03}\x04}]z") & 0xFF))
        self.assertEqual(self.stub.ask("?"), "a#$}z")

    def refuses(self, why, request, *arguments):
        with self.assertRaises(Refusal) as caught:
            request(*arguments)
        self.assertEqual(str(caught.exception), why)

    def test_a_wrong_sum(self):
        self.says(b"+$OK#9b")
        self.refuses("a packet of QEMU's gdb stub has a wrong sum", self.stub.ask, "?")

    def test_no_answer(self):
        self.refuses("QEMU's gdb stub doesn't answer `?`", self.stub.ask, "?")

    def test_a_stub_that_closes(self):
        self.other.close()
        for request in (lambda: self.stub.ask("?"), self.stub.interrupt, self.stub.go_on):
            self.refuses("QEMU's gdb stub closed the connection", request)

    def test_answers_that_are_others(self):
        sentence = "QEMU's gdb stub "
        for answer, why, request in (
            ("E01", "answers `Z0,1,1` with `E01`", lambda: self.stub.insert_breakpoint(1)),
            ("", "doesn't list the processors", self.stub.processors),
            ("l", "doesn't list the processors", self.stub.processors),
            ("", "doesn't describe its registers", lambda: self.stub.registers(0)),
            ("S05", "answers a stop with `S05`", lambda: self.stub.stopped(time.monotonic() + 1)),
        ):
            self.says(b"+$%s#%02x" % (answer.encode(), sum(answer.encode()) & 0xFF))
            self.refuses(sentence + why, request)

    def test_registers_that_are_missing(self):
        self.stub.layout = [("rip", 8)]
        self.says(b"+$OK#9a+$0000000000000000#00")
        self.refuses("QEMU's gdb stub doesn't show all registers that are needed", self.stub.registers, 0)
        self.stub.layout = fake_qemu.LAYOUT
        self.says(b"+$OK#9a+$E01#a6")
        self.refuses("QEMU's gdb stub doesn't show all registers that are needed", self.stub.registers, 0)

    def test_stops(self):
        for text, processor in (("T05thread:01;", 0), ("T02core:1;thread:p01.0a;", 9), ("T05thread:40;watch:1;", 63)):
            self.says(b"$%s#%02x" % (text.encode(), sum(text.encode()) & 0xFF))
            self.assertEqual(self.stub.stopped(time.monotonic() + 1), processor)
        self.assertIsNone(self.stub.stopped(time.monotonic() + 0.01))
        self.says(b"$W00#b7")
        with self.assertRaises(GuestEnded):
            self.stub.stopped(time.monotonic() + 1)

    def test_another_processor_steps(self):
        self.says(b"$T05thread:02;#08")
        self.refuses("processor 0 doesn't take a step", self.stub.step, 0)
        self.assertEqual(self.other.recv(100), b"$vCont;s:1#23+")

    def test_a_guest_that_does_not_stop(self):
        self.refuses("the guest doesn't stop", self.stub.interrupt)


class Fake:
    """A fake stub in a thread, and a recorder that is connected to it."""

    def __init__(self, test, script, first=None, ending="exit", patch=None, **settings):
        ours, other = socket.socketpair()
        self.folder = tempfile.TemporaryDirectory()
        test.addCleanup(self.folder.cleanup)
        path = Path(self.folder.name, "memory")
        path.write_bytes(fake_qemu.first_memory())
        file = open(path, "rb+", buffering=0)
        test.addCleanup(file.close)
        memory = fake_qemu.MappedFile(file)
        for address, data in (patch or {}).items():
            memory[address : address + len(data)] = data
        self.fake = fake_qemu.FakeStub(other, memory, first or [paging(), paging()], script, ending)
        thread = threading.Thread(target=self.fake.serve)
        thread.start()
        test.addCleanup(thread.join)
        test.addCleanup(other.close)
        test.addCleanup(ours.close)
        image = Image(elf_file(symbols=settings.pop("symbols", None)))
        stops = settings.pop("stops", image.stops())
        settings = {"named": {}, "ranges": [Range(0, fake_qemu.SIZE)], "timeout": 5.0, **settings}
        self.log = io.StringIO()
        guest = GuestMemory(path, fake_qemu.SIZE)
        self.recorder = Recorder(Stub(ours, 5.0), guest, image, Settings(stops=stops, **settings), self.log)

    def run(self):
        self.recorder.run_to_start()
        self.core_path = Path(self.folder.name, "core")
        with open(self.core_path, "wb+") as file:
            self.recorder.take_core(file, (40, True))
        self.is_there = self.recorder.record()
        return self.log.getvalue()


class Records(unittest.TestCase):
    def recorded(self, script, **settings):
        """The lines of a log, without its heading and without the comments on places."""
        self.fake = Fake(self, [Stop(0, START), *script], **settings)
        text = self.fake.run()
        self.assertTrue(text.startswith(HEADING))
        return [line for line in text[len(HEADING) :].splitlines() if not line.startswith("# Processor")]

    def refused(self, why, script, **settings):
        with self.assertRaises(Refusal) as caught:
            self.recorded(script, **settings)
        self.assertEqual(str(caught.exception), why)

    def test_a_whole_log(self):
        fake = Fake(self, fake_qemu.SCRIPT, symbols={"first": TEXT, "unmap": INVLPG - 1})
        text = fake.run()
        places = ["# Processor 0 at unmap+0x1.", "# Processor 1 at unmap+0x1.", "# Processor 0 at unmap+0x4."]
        events = ["write 0x4088 0000000000000000\ninvlpg 0 0x11000", "invlpg 1 0x11000", "point current"]
        self.assertEqual(text, HEADING + "".join(f"{at}\n{line}\n" for at, line in zip(places, events)))
        self.assertEqual(fake.fake.breakpoints, {INVLPG, POINT, CR3, CR4, INVPCID, END})
        self.assertEqual(
            fake.recorder.summary(), "processors 2, writes 1, sets 0, invalidations 2, points 1"
        )

    def test_the_core(self):
        fake = Fake(self, fake_qemu.SCRIPT, first=[paging(eflags=0x40246), paging(cr3=TOP | 8)])
        fake.run()
        data = fake.core_path.read_bytes()
        self.assertEqual(data[:6] + data[16:20], b"\x7fELF\x02\x01\x04\0\x3e\0")
        notes, memory = (struct.unpack_from("<IIQQQQ", data, at) for at in (64, 120))
        self.assertEqual((notes[0], notes[2], notes[5]), (4, 176, 32 + 2 * 88))
        self.assertEqual((memory[0], memory[4], memory[5]), (1, 0, fake_qemu.SIZE))
        self.assertEqual(data[memory[2] :], bytes(fake_qemu.first_memory()))
        self.assertEqual(struct.unpack_from("<II", data, 176 + 24), (40, 1))
        first = struct.unpack_from("<II5QIIQ", data, 208 + 24)
        self.assertEqual(first, (0, 0, 0x80010011, TOP, 0x20, 0xD00, 0x40246, 0, 0, 0))
        self.assertEqual(struct.unpack_from("<II5QIIQ", data, 296 + 24)[3], TOP | 8)

    def test_a_core_of_ranges(self):
        ranges = [Range(0x1000, 0x3000), Range(0x3000, 0x8000)]
        self.assertEqual(self.recorded([Stop(0, POINT), Stop(0, END)], ranges=ranges), ["point current"])
        data = self.fake.core_path.read_bytes()
        headers = [struct.unpack_from("<IIQQQQ", data, 64 + 56 * number) for number in range(3)]
        self.assertEqual([(it[4], it[5]) for it in headers[1:]], [(0x1000, 0x2000), (0x3000, 0x5000)])
        self.assertEqual(data[headers[1][2] :], bytes(fake_qemu.first_memory()[0x1000:0x8000]))
        why = "there is a page table at 0x4000, which the core leaves out"
        self.refused(why, [], ranges=[Range(0x1000, 0x4000), Range(0x5000, 0x6000)])

    def test_moves_to_control_registers(self):
        script = [
            Stop(1, CR3, registers={"rax": 0x1008}, after={"cr3": 0x1008}),
            Stop(1, CR4, registers={"rax": 0xA0}, after={"cr4": 0xA0}),
            Stop(0, END),
        ]
        self.assertEqual(self.recorded(script), ["set 1 cr3 0x1008", "set 1 cr4 0xa0"])

    def test_a_move_that_keeps_translations(self):
        pcids = paging(cr4=0x20020)
        moved = {"rax": 1 << 63 | 0x1002}
        script = [Stop(0, CR3, registers=moved, after={"cr3": 0x1002}), Stop(0, END)]
        self.assertEqual(self.recorded(script, first=[pcids]), ["set 0 cr3 0x8000000000001002"])
        # Without PCIDs bit 63 is no part of the event.
        self.assertEqual(self.recorded(script, first=[paging()]), ["set 0 cr3 0x1002"])

    def test_the_tables_of_a_new_root_come_before_the_move(self):
        top = {0x9000: (0x2007).to_bytes(8, "little")}
        script = [Stop(0, CR3, registers={"rax": 0x9000}, memory=top, after={"cr3": 0x9000}), Stop(0, END)]
        self.assertEqual(self.recorded(script), ["write 0x9000 0720000000000000", "set 0 cr3 0x9000"])

    def test_invpcid(self):
        descriptor = {fake_qemu.PAGE_FRAME: struct.pack("<QQ", 7, 0x1234000)}
        script = [Stop(1, INVPCID, 5, descriptor, {"rax": 1, "rdi": PAGE}), Stop(0, END)]
        self.assertEqual(self.recorded(script), ["invpcid 1 1 7 0x1234000"])
        # A descriptor that isn't mapped: the instruction faults.
        script = [Stop(1, INVPCID, registers={"rdi": 0x99000}, after={"rip": 0x100}), Stop(0, END)]
        self.assertEqual(self.recorded(script), [])

    def test_an_instruction_that_faults_is_no_event(self):
        fault = {"rip": TEXT + 0x800}
        script = [Stop(0, CR3, after=fault), Stop(0, INVLPG, registers={"rax": PAGE}, after=fault), Stop(0, END)]
        self.assertEqual(self.recorded(script), [])

    def test_registers_that_change_elsewhere(self):
        script = [
            Stop(0, POINT, others={1: {"efer": 0x500, "eflags": 0x40002, "cr0": 0x80000011}}),
            Stop(1, INVLPG, registers={"rax": PAGE, "cr3": 0x1010}),
            Stop(0, END, others={0: {"eflags": 0x40}}),
        ]
        lines = ["set 1 cr0 0x80000011", "set 1 efer 0x500", "set 1 ac 0x1", "point current", "set 1 cr3 0x1010"]
        self.assertEqual(self.recorded(script), [*lines, "invlpg 1 0x11000"])
        comments = [line for line in self.fake.log.getvalue().splitlines() if "wasn't stopped" in line]
        sentence = "# Processor 1 changed {} where it wasn't stopped."
        self.assertEqual(comments, [sentence.format("CR0"), sentence.format("CR3")])

    def test_an_unseen_change_of_cr3_is_no_flush_under_pcids(self):
        script = [Stop(0, POINT, registers={"cr3": 0x1001}), Stop(0, END)]
        lines = ["set 0 cr3 0x8000000000001001", "point current"]
        self.assertEqual(self.recorded(script, first=[paging(cr4=0x20020)]), lines)

    def test_a_point_of_all_and_other_places(self):
        script = [Stop(0, POINT), Stop(0, CR4, after={"cr4": 0x20}), Stop(1, IRETQ), Stop(0, POINT)]
        named = {CR4: {"point"}, IRETQ: {"end"}}
        lines = ["point all", "point all", "set 0 cr4 0x20"]
        self.assertEqual(self.recorded(script, named=named, scope="all"), lines)

    def test_returns_to_user_mode(self):
        script = fake_qemu.RETURNS[1:]
        self.assertEqual(self.recorded(script), ["point current"])
        lines = ["write 0x4000 0700000000000000", "write 0x4000 0000000000000000", "point current"]
        self.assertEqual(self.recorded(script, returns=True), lines)
        self.assertEqual(self.recorded(script, named={IRETQ: {"stop"}}), lines)

    def test_a_processor_that_is_not_stated(self):
        low = {"cr0": 0x10, "cr3": TOP, "cr4": 0, "efer": 0, "eflags": 2}
        script = [Stop(1, CR3, registers={"rax": 0x1000}, after={"cr3": 0x1000}), Stop(0, POINT), Stop(0, END)]
        self.assertEqual(self.recorded(script, first=[paging(), low]), ["point current"])
        why = "processor 1 came to 64-bit mode after the start, and no line can state it by then: "
        why += "the start has to be later"
        self.refused(why, [Stop(0, POINT, others={1: paging()})], first=[paging(), low])
        with self.assertRaisesRegex(Refusal, "^no processor is in 64-bit mode at the start$"):
            Fake(self, [], first=[low], start_after=0.05, ending="hang").run()
        for left in ({"cr0": 0x11}, {"efer": 0x100}, {"cr4": 0}):
            self.refused("processor 1 left 64-bit mode", [Stop(0, POINT, others={1: left})])

    def test_text_is_read_as_the_stopped_processor_has_it(self):
        # The other processor's tables map nothing.
        script = [fake_qemu.unmapping(), Stop(0, END)]
        lines = ["write 0x4088 0000000000000000", "invlpg 0 0x11000"]
        self.assertEqual(self.recorded(script, first=[paging(), paging(cr3=0x8000)]), lines)

    def test_an_instruction_at_the_end_of_what_is_mapped(self):
        # After it the page is that of the script, which is unmapped by then.
        last = TEXT + 0xFFD
        change = {fake_qemu.CODE_FRAME + 0xFFD: b"\x0f\x01\x38"}
        unmapped = {TABLE + 8 * 0x11: bytes(8)}
        script = [Stop(0, last, memory=unmapped, registers={"rax": PAGE}), Stop(0, END)]
        self.assertEqual(self.recorded(script, patch=change), ["write 0x4088 0000000000000000", "invlpg 0 0x11000"])

    def test_five_levels(self):
        top = {0x8000: (TOP | 7).to_bytes(8, "little")}
        lines = ["write 0x4088 0000000000000000", "invlpg 0 0x11000"]
        first = [paging(cr3=0x8000, cr4=0x1020)]
        self.assertEqual(self.recorded([fake_qemu.unmapping(), Stop(0, END)], first=first, patch=top), lines)

    def test_text_that_was_changed(self):
        # In memory an INVLPG has become something else, and an INVLPG stands where the file has none.
        patch = {fake_qemu.CODE_FRAME + 3: b"\x0f\x1f\x00", fake_qemu.CODE_FRAME + 0x100: b"\x0f\x01\x38"}
        script = [Stop(0, INVLPG), Stop(0, TEXT + 0x100, registers={"rax": PAGE}), Stop(0, END)]
        fake = Fake(self, [Stop(0, START, memory=patch), *script])
        self.assertIn("\ninvlpg 0 0x11000\n", fake.run())
        self.assertEqual(fake.recorder.counts["invlpg"], 1)
        self.assertEqual(fake.recorder.settings.stops[TEXT + 0x100], "invlpg")

    def test_text_that_is_not_mapped(self):
        fake = Fake(self, [], start_after=0.05, seconds=0.05, ending="hang", patch={TABLE + 8 * 0x10: bytes(8)})
        comment = "# Pages of the text that no processor maps at the start: 1.\n"
        comment += "# There it was stopped at what the ELF file has.\n"
        self.assertEqual(fake.run(), HEADING + comment)

    def test_a_place_of_the_start_that_is_passed_by(self):
        # Another processor's text stands there until it is changed.
        nothing = {fake_qemu.CODE_FRAME: b"\x66\x90\x90"}
        back = {fake_qemu.CODE_FRAME: fake_qemu.CODE[:3]}
        fake = Fake(self, [Stop(1, START, memory=nothing), Stop(0, START, memory=back), Stop(0, POINT), Stop(0, END)])
        self.assertTrue(fake.run().endswith("point current\n"))
        self.assertEqual(fake.fake.requests.count("vCont;s:2"), 1)

    def test_the_ends(self):
        self.assertEqual(self.recorded([Stop(0, POINT)]), ["point current", "# The guest ended."])
        self.assertFalse(self.fake.is_there)
        self.assertEqual(self.recorded([Stop(0, POINT), Stop(0, END)]), ["point current"])
        self.assertTrue(self.fake.is_there)
        self.refused("the guest reached no end in 0.1 seconds", [], timeout=0.1, ending="hang")
        lines = self.recorded([Stop(0, POINT)], seconds=0.1, ending="hang")
        self.assertEqual((lines, self.fake.is_there), (["point current"], True))
        self.refused("QEMU's gdb stub closed the connection", [Stop(0, POINT)], ending="close")

    def test_the_last_writes_when_the_time_is_over(self):
        script = [Stop(0, TEXT + 0x500, memory={TABLE: b"\x07"})]
        lines = self.recorded(script, seconds=0.1, ending="hang")
        self.assertEqual(lines, ["# The time is over.", "write 0x4000 0700000000000000"])

    def test_a_start_after_a_time(self):
        fake = Fake(self, [Stop(0, END)], start_after=0.05, ending="hang", seconds=0.05)
        self.assertEqual(fake.run(), HEADING)
        self.assertIn("\x03", fake.fake.requests)

    def test_no_start(self):
        with self.assertRaisesRegex(Refusal, "^the guest reached no start in 0.1 seconds$"):
            Fake(self, [], timeout=0.1, ending="hang").run()
        with self.assertRaises(GuestEnded):
            Fake(self, []).run()


class Tool(unittest.TestCase):
    """Runs of the tool in a new folder, with a program that stands for QEMU."""

    def setUp(self):
        room = tempfile.TemporaryDirectory()
        self.addCleanup(room.cleanup)
        self.room = Path(room.name)
        (self.room / "temporary").mkdir()
        self.write_guest(elf_file(symbols={"unmap": INVLPG}))

    def write_guest(self, data):
        (self.room / "guest").write_bytes(data)

    def started(self, *words, **more):
        # What this process ignores, as after nohup, its children would ignore too.
        for number in tool.SIGNALS:
            if signal.getsignal(number) == signal.SIG_IGN:
                signal.signal(number, signal.SIG_DFL)
                self.addCleanup(signal.signal, number, signal.SIG_IGN)
        environment = {**os.environ, "FAKE_QEMU_PID": str(self.room / "pid"), "TMPDIR": str(self.room / "temporary")}
        return subprocess.Popen(
            # Without the modules of the site, which the tool needs none of: it starts faster.
            [sys.executable, "-B", "-S", TOOL, *words],
            **{"stdin": subprocess.DEVNULL, "stdout": subprocess.PIPE, "stderr": subprocess.PIPE, **more},
            cwd=self.room,
            env=environment,
        )

    def words(self, mode="works", options=()):
        return "core", "log", "guest", "--qemu", str(FAKE), "--memory", "2", *options, "--", mode

    def run_alone(self, *words, **more):
        """A run as a process of its own."""
        with self.started(*words, **more) as process:
            output, complaints = process.communicate(timeout=30)
        self.nothing_is_left()
        return process.returncode, (output or b"").decode(), complaints.decode()

    def run_tool(self, *words, mode="works", options=()):
        handlers = {number: signal.getsignal(number) for number in tool.SIGNALS}
        with (
            contextlib.chdir(self.room),
            mock.patch.dict(os.environ, {"FAKE_QEMU_PID": str(self.room / "pid")}),
            mock.patch.object(tempfile, "tempdir", str(self.room / "temporary")),
        ):
            done = in_process.run(tool, *(words or self.words(mode, options)))
        for number, handler in handlers.items():
            signal.signal(number, handler)
        self.nothing_is_left()
        return done.returncode, done.stdout.decode(), done.stderr.decode()

    def nothing_is_left(self):
        """The guest has ended, and no file of a record that was broken off is there."""
        self.assertEqual(list((self.room / "temporary").iterdir()), [])
        self.assertEqual(list(self.room.glob("*.part")), [])
        if (self.room / "pid").exists():
            with self.assertRaises(ProcessLookupError):
                os.kill(int((self.room / "pid").read_text()), 0)

    def refused(self, why, *words, **more):
        status, output, complaints = self.run_tool(*words, **more)
        self.assertEqual((status, output, complaints), (1, "", f"qemu-record: {why}\n"))
        self.assertFalse(any((self.room / name).is_file() for name in ("core", "log", "pages")))

    def test_a_record(self):
        status, output, complaints = self.run_alone(*self.words())
        self.assertEqual((status, complaints), (0, ""))
        self.assertEqual(output, "processors 2, writes 1, sets 0, invalidations 2, points 1\n")
        events = [line for line in (self.room / "log").read_text().splitlines() if not line.startswith("#")]
        self.assertEqual(
            events, ["write 0x4088 0000000000000000", "invlpg 0 0x11000", "invlpg 1 0x11000", "point current"]
        )
        core = (self.room / "core").read_bytes()
        # Memory without the part below 1 MByte where devices are; the machine is that of QMP.
        self.assertEqual(len(core), 64 + 3 * 56 + 32 + 2 * 88 + 0xA0000 + (1 << 20))
        self.assertEqual(struct.unpack_from("<II", core, 64 + 3 * 56 + 24), (40, 0))

    def test_an_older_record_is_replaced_or_stays(self):
        (self.room / "log").write_text("older")
        self.assertEqual(self.run_tool(mode="closes")[0], 1)
        self.assertEqual((self.room / "log").read_text(), "older")
        self.assertEqual(self.run_tool()[0], 0)
        self.assertTrue((self.room / "log").read_text().startswith(HEADING))

    def test_options(self):
        places = ("--start", "unmap", "--point", hex(CR3), "--end", hex(POINT), "--range", "0x0-0x7fff", "--all")
        status, output, complaints = self.run_tool(options=places)
        self.assertEqual((status, complaints), (0, ""))
        self.assertIn("point all\n", (self.room / "log").read_text())
        self.assertIn("points 1", output)
        self.assertEqual(len((self.room / "core").read_bytes()), 64 + 2 * 56 + 32 + 2 * 88 + 0x8000)
        quick = ("--start-after", "0.1", "--seconds", "0.1")
        self.assertEqual(self.run_tool(mode="never", options=quick)[0], 0)
        for options, writes in ((), 0), (("--returns",), 2), (("--stop", hex(IRETQ)), 2):
            self.assertIn(f" writes {writes},", self.run_tool(mode="returns", options=options)[1])

    def test_pages(self):
        def shown(number):
            page = f"{PAGE + 0x1000 * number:016x}: {fake_qemu.PAGE_FRAME:016x} X------UW\n"
            head = f"(qemu) cpu {number}\n(qemu) info registers\n\nCPU#{number}\nRAX={number:016x}\n"
            return f"{head}(qemu) info tlb\n{page}{page}"

        for mode, text in (("works", shown(0) + shown(1)), ("one-paging", shown(0))):
            status, _, complaints = self.run_tool(mode=mode, options=("--pages", "pages"))
            self.assertEqual((status, complaints), (0, ""))
            self.assertEqual((self.room / "pages").read_bytes().decode(), text)
        page = (PAGE, fake_qemu.PAGE_FRAME, "X------UW")
        self.assertEqual(in_process.load(COMPARER).monitor_pages(text), {0: [page, page]})

    def test_pages_that_are_not_shown(self):
        for mode, why in (
            ("ends-late", "the guest ended by itself, so that QEMU can't list its pages"),
            ("no-monitor", "QEMU answers human-monitor-command with: there is no monitor"),
            ("no-text", "QEMU's monitor doesn't answer `info registers` for processor 0"),
            ("no-pages", "QEMU's monitor doesn't answer `info registers` for processor 0"),
        ):
            self.refused(why, mode=mode, options=("--pages", "pages"))
        self.assertEqual(self.run_tool(mode="ends-late")[0], 0)

    def test_a_guest_that_does_not_start(self):
        self.refused("the guest doesn't start: fake_qemu: there is no such machine", mode="refuses")
        self.refused("the guest doesn't start: it says nothing", mode="silent")
        self.refused("the guest ended before its start: it says nothing", mode="ends-early")
        self.refused("the guest reached no start in 0.2 seconds", mode="never", options=("--timeout", "0.2"))
        self.refused("QEMU made no file for the guest's memory", mode="no-memory")
        self.refused("QEMU answers qom-get with: there is no such property", mode="no-width")
        self.refused("QEMU doesn't describe its first processor", mode="no-processor")
        self.refused("QEMU's first processor has 53 physical-address bits, and not 32 to 52", mode="wide")

    def test_a_guest_that_does_not_end(self):
        self.refused("the guest reached no end in 0.2 seconds", mode="hangs", options=("--timeout", "0.2"))
        self.refused("QEMU's gdb stub closed the connection", mode="closes")

    def test_no_qemu(self):
        words = ("core", "log", "guest", "--qemu")
        self.refused("/nowhere/at/all: No such file or directory", *words, "/nowhere/at/all", "--", "x")
        self.refused("/dev: Permission denied", *words, "/dev")

    def test_a_guest_that_is_none(self):
        self.write_guest(b"hello")
        self.refused("guest: it isn't a 64-bit ELF file of x86-64")
        self.write_guest(elf_file()[:-1])
        self.refused("guest: the ELF file ends before what it names")
        for path, why in (("missing", "No such file or directory"), (".", "Is a directory")):
            self.refused(f"{path}: {why}", "core", "log", path)

    def test_a_guest_without_markers(self):
        self.write_guest(elf_file(fake_qemu.CODE.replace(bytes.fromhex("6687db"), b"\x90" * 3)))
        self.refused("guest: it has no point: no xchg %bx,%bx in its text, and no --point")
        self.write_guest(elf_file(fake_qemu.CODE.replace(bytes.fromhex("6687c9"), b"\x90" * 3)))
        why = "guest: it has no start: no xchg %cx,%cx in its text, and no --start and no --start-after"
        self.refused(why)
        self.refused("guest: it has no symbol nowhere", options=("--end", "nowhere"))

    def test_ranges_past_the_memory(self):
        why = "guest: the range 0x0-0x200fff goes past the guest's 2 MBytes"
        self.refused(why, options=("--range", "0x0-0x200fff"))

    def test_files_that_can_not_be_written(self):
        self.refused("CORE and LOG are the same file", "core", "./core", "guest")
        self.refused("no/core: No such file or directory", "no/core", "log", "guest")
        self.refused("temporary: it isn't a regular file", "temporary", "log", "guest")
        self.refused("/dev/null: it isn't a regular file", "core", "/dev/null", "guest")
        # An empty name is that of the folder.
        self.refused(".: it isn't a regular file", "", "log", "guest")
        self.refused("no/pages: No such file or directory", options=("--pages", "no/pages"))
        for name in ("core", "log", "./core"):
            self.refused("the file of --pages is CORE or LOG", options=("--pages", name))

    def test_a_signal(self):
        for number in (signal.SIGINT, signal.SIGTERM, signal.SIGHUP):
            with self.started(*self.words("hangs")) as process:
                deadline = time.monotonic() + 20
                # With the core the start is reached; then the guest hangs.
                core = self.room / "core.part"
                while time.monotonic() < deadline and not (core.exists() and core.stat().st_size > 1 << 20):
                    time.sleep(0.01)
                process.send_signal(number)
                output, complaints = process.communicate(timeout=20)
            self.assertEqual((process.returncode, output), (130, b""))
            self.assertEqual(complaints, b"qemu-record: interrupted: nothing is kept\n")
            self.nothing_is_left()
            self.assertFalse((self.room / "core").exists() or (self.room / "log").exists())

    def test_output_that_nobody_reads(self):
        reader, writer = os.pipe()
        os.close(reader)
        status, _, complaints = self.run_alone(*self.words(), stdout=writer)
        os.close(writer)
        self.assertEqual((status, complaints), (1, "qemu-record: standard output: Broken pipe\n"))

    def test_words_of_no_form(self):
        for words in (
            [],
            ["core", "log"],
            ["core", "log", "guest", "more"],
            ["core", "log", "guest", "--memory", "1"],
            ["core", "log", "guest", "--memory", "2048"],
            ["core", "log", "guest", "--timeout", "0"],
            ["core", "log", "guest", "--seconds", "soon"],
            ["core", "log", "guest", "--range", "0x0-0x1000"],
            ["core", "log", "guest", "--range", "0x1000"],
            ["core", "log", "guest", "--range", "0x2000-0x1fff"],
        ):
            # Without words those of a whole run would stand in their place.
            run = self.run_tool if words else self.run_alone
            status, output, complaints = run(*words)
            self.assertEqual((status, output), (2, ""), words)
            self.assertTrue(complaints.startswith("usage: qemu-record CORE LOG ELF"), words)

    def test_help(self):
        status, output, complaints = self.run_alone("--help")
        self.assertEqual((status, complaints), (0, ""))
        for text in ("usage: qemu-record CORE LOG ELF", "isn't known", "isn't seen", "xchg %bx,%bx"):
            self.assertIn(text, output)


if __name__ == "__main__":
    unittest.main()
