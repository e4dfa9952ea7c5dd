#!/usr/bin/env python3
"""Tests of core-cpus, over small cores that are made here. The note of a processor is one that QEMU 7.2.22 wrote."""
import contextlib
import io
import os
import pathlib
import struct
import subprocess
import sys
import tempfile
import unittest
from unittest import mock

import in_process
from make_example import core_of, machine_note

TOOL = pathlib.Path(__file__).with_name("core-cpus")

# Processor 1 of a guest with five levels, in user mode under Linux, with protection keys on. Of its 440 bytes the
# last eight are the kernel's GS base, which older versions of QEMU don't write.
QEMU_NOTE = bytes.fromhex(
    "01000000b801000006000000000000000100000000000000656164790000000001000000000000000100000000000000b0914a0000000000"
    "70ecffffff7f0000b0264a00000000000f0000000000000040ebffffff7f00000000000000000000000000000000000038eeffffff7f0000"
    "010000000000000001000000000000000200000000000000d715400000000000060200000000000033000000ffffffff00fbaf0000000000"
    "0000000000000000000000000000000000000000000000000000000000000000000000000000000000000000000000000000000000000000"
    "0000000000000000000000000000000080f34a00000000000000000000000000000000000000000000000000000000002b000000ffffffff"
    "00f3cf0000000000000000000000000000000000000000000082000000000000000000000000000040000000874000000389000000000000"
    "00e0030000feffff000000007f000000000000000000000000c0030000feffff00000000ff0f000000000000000000000000000000feffff"
    "330005800000000000000000000000000040fff7ff7f000000002a0500000000a01e7500000000000000301f000011ff"
)
# Where fields of it stand, and with which format.
VERSION, SIZE, RFLAGS, CODE_FLAGS = (0, "<I"), (4, "<I"), (144, "<Q"), (160, "<I")
CR0, CR2, CR3, CR4 = (392, "<Q"), (408, "<Q"), (416, "<Q"), (424, "<Q")
# The flags of a code segment of 32-bit code, as QEMU wrote them for a 32-bit program under the same Linux.
CODE_32 = 0xCFFB00

MACHINE = """# machine: a width of 52 is assumed, which grants more (--width M)
# machine: 1-GByte pages are assumed, which grants more (--no-1g)
machine 52 1
"""
FROM_QEMU = "# From notes of QEMU, without EFER: LME and LMA are 1, as CR0, CR4 and CS are those of 64-bit mode.\n"
TWO_PROCESSORS = f"""{FROM_QEMU}{MACHINE}\
# processor 0: NXE 1 in EFER is assumed, which grants more (--no-nxe 0)
# processor 0: PKRU 0x0 is assumed, which denies nothing (--pkru 0=VALUE)
cpu 0 0x80050033 0x462a000 0x751ea0 0xd00 0x40206 0x0 0x0
# processor 1: NXE 1 in EFER is assumed, which grants more (--no-nxe 1)
# processor 1: PKRU 0x0 is assumed, which denies nothing (--pkru 1=VALUE)
cpu 1 0x80050033 0x52a0000 0x751ea0 0xd00 0x206 0x0 0x0
"""

KERNEL = """OSRELEASE=6.1.0-57-cloud-amd64
PAGESIZE=4096
SYMBOL(init_uts_ns)=ffffffff82a19440
SYMBOL(swapper_pg_dir)=ffffffff82a10000
NUMBER(phys_base)=16777216
NUMBER(pgtable_l5_enabled)=0
KERNELOFFSET=0
"""
KERNEL_LINES = f"""\
# From VMCOREINFO: the kernel's page tables, with assumed registers, which are those of no processor.
# processor 0: CR0 without WP is assumed, which grants more (`set 0 cr0 0x80010001`)
# processor 0: CR4 without SMEP, SMAP, PKE, PKS and LASS is assumed, which grants more (`set 0 cr4 VALUE`)
{MACHINE}# processor 0: NXE 1 in EFER is assumed, which grants more (--no-nxe 0)
cpu 0 0x80000001 0x3a10000 0x20 0xd00 0x2 0x0 0x0
"""


tool = in_process.load(TOOL)


def note(owner, kind, description):
    """A note whose owner's name ends with a zero byte. Name and description are filled up to multiples of 4."""
    name = owner + b"\0"
    head = struct.pack("<III", len(name), len(description), kind)
    return head + name + bytes(-len(name) % 4) + description + bytes(-len(description) % 4)


def changed(data, *fields):
    """The bytes with other values in fields: each an offset, a format and the value."""
    data = bytearray(data)
    for (offset, form), value in fields:
        struct.pack_into(form, data, offset, value)
    return bytes(data)


def qemu_note(*fields):
    return note(b"QEMU", 0, changed(QEMU_NOTE, *fields))


def status_note(process):
    """A processor's NT_PRSTATUS, of 336 bytes."""
    return note(b"CORE", 1, changed(bytes(336), ((32, "<i"), process)))


FIRST = qemu_note((CR3, 0x462A000), (RFLAGS, 0x40206))
SECOND = qemu_note()
BOTH = status_note(1) + status_note(2) + FIRST + SECOND
INFO = note(b"VMCOREINFO", 0, KERNEL.encode())


def core(notes):
    return core_of([(0, bytes(4096))], notes)


class Core(unittest.TestCase):
    def setUp(self):
        folder = tempfile.TemporaryDirectory()
        self.addCleanup(folder.cleanup)
        self.path = os.path.join(folder.name, "guest.core")

    def run_tool(self, data, *words):
        """Its status, and what it wrote to standard output and to standard error, over a core of these bytes."""
        if data is not None:
            pathlib.Path(self.path).write_bytes(data)
        out, err = io.StringIO(), io.StringIO()
        with mock.patch.object(sys, "argv", ["core-cpus", self.path, *words]):
            with contextlib.redirect_stdout(out), contextlib.redirect_stderr(err):
                try:
                    tool.main()
                    status = 0
                except SystemExit as end:
                    status = end.code
        if isinstance(status, str):
            err.write(status + "\n")
            status = 1
        return status, out.getvalue(), err.getvalue()

    def written(self, notes, *words):
        status, out, err = self.run_tool(core(notes), *words)
        self.assertEqual(status, 0, err)
        return out

    def lines(self, notes, *words):
        """What is written without the comments."""
        return [line for line in self.written(notes, *words).splitlines() if not line.startswith("#")]

    def refused(self, data, why, *words):
        self.assertEqual(self.run_tool(data, *words), (1, "", f"core-cpus: {self.path}: {why}\n"))


class Qemu(Core):
    def test_a_line_for_each_processor(self):
        self.assertEqual(self.written(BOTH), TWO_PROCESSORS)

    def test_the_notes_may_stand_in_any_order_and_without_the_others(self):
        self.assertEqual(self.written(FIRST + note(b"LINUX", 0x202, b"xsave") + SECOND), TWO_PROCESSORS)
        self.assertEqual(self.written(FIRST + SECOND + INFO + status_note(1) + status_note(2)), TWO_PROCESSORS)

    def test_other_notes_of_the_owner_are_skipped(self):
        self.assertEqual(self.written(note(b"QEMU", 1, b"") + BOTH), TWO_PROCESSORS)

    def test_a_note_without_the_last_field(self):
        older = note(b"QEMU", 0, changed(QEMU_NOTE[:432], (SIZE, 432)))
        self.assertEqual(self.lines(older)[1], "cpu 0 0x80050033 0x52a0000 0x751ea0 0xd00 0x206 0x0 0x0")

    def test_a_number_that_is_missing_among_those_of_qemu(self):
        lines = self.lines(status_note(1) + status_note(4) + FIRST + SECOND)
        self.assertEqual([line.split()[1] for line in lines[1:]], ["0", "3"])

    def test_numbers_that_are_none_of_qemus(self):
        for first, second in ((7, 7), (0, 1), (-1, 2)):
            lines = self.lines(status_note(first) + status_note(second) + FIRST + SECOND)
            self.assertEqual([line.split()[1] for line in lines[1:]], ["0", "1"])

    def test_the_machine(self):
        text = self.written(BOTH, "--width", "40", "--no-1g")
        self.assertTrue(text.startswith(FROM_QEMU + "machine 40 0\n# processor 0: "), text)
        self.assertIn("(--no-1g)\nmachine 52 1\n", self.written(BOTH, "--width", "52"))
        self.assertNotIn("--width", self.written(BOTH, "--width", "52"))

    def test_key_registers_by_options(self):
        text = self.written(BOTH, "--pkru", "0=0x55555558", "--pkrs", "1=4", "--pkru", "1=0xffffffff")
        self.assertIn(" 0x40206 0x55555558 0x0\n", text)
        self.assertTrue(text.endswith(" 0x206 0xffffffff 0x4\n"), text)
        self.assertNotIn("is assumed, which denies", text)

    def test_key_registers_that_are_off(self):
        text = self.written(qemu_note((CR4, 0x351EA0)))
        self.assertNotIn("PKR", text)
        self.assertIn("PKRS 0x0 is assumed, which denies nothing (--pkrs 0=", self.written(qemu_note((CR4, 0x1351EA0))))

    def test_warnings_are_those_of_qemu_cpus(self):
        _, _, err = self.run_tool(core(BOTH), "--pkru", "0=0")
        self.assertEqual(
            err,
            f"core-cpus: {self.path}: warning: processor 1 has CR4.PKE on and no --pkru: PKRU 0x0 is taken, which "
            "denies nothing, so accesses may be granted that the processor denies\n",
        )

    def test_no_execute_disable(self):
        text = self.written(BOTH, "--no-nxe", "1")
        self.assertIn("cpu 0 0x80050033 0x462a000 0x751ea0 0xd00 ", text)
        self.assertIn("cpu 1 0x80050033 0x52a0000 0x751ea0 0x500 ", text)
        self.assertNotIn("--no-nxe 1", text)

    def test_a_processor_is_left_out(self):
        self.assertEqual(self.written(BOTH, "--skip", "1"), TWO_PROCESSORS[: TWO_PROCESSORS.index("# processor 1")])
        self.assertEqual(self.lines(BOTH, "--skip", "0")[1:], [TWO_PROCESSORS.splitlines()[-1]])

    def test_memory_and_a_second_header_of_notes(self):
        """Sixteen GBytes of memory stand between the two, which the file has as a hole."""
        memory, last = 1 << 34, 64 + 3 * 56 + len(FIRST)
        headers = core_of([(0, b""), (0, b"")], FIRST)[: 64 + 3 * 56]
        headers = changed(headers, ((64 + 56 + 32, "<Q"), memory))
        headers = changed(headers, ((176, "<I"), 4), ((176 + 8, "<Q"), last + memory), ((176 + 32, "<Q"), len(SECOND)))
        with open(self.path, "wb") as file:
            file.write(headers + FIRST)
            file.seek(last + memory)
            file.write(SECOND)
        self.assertEqual(self.run_tool(None)[1], TWO_PROCESSORS)


class Modes(Core):
    def not_64_bit(self, why, *fields):
        sentence = (
            f"processor 1 isn't in 64-bit mode, as {why}: let the guest go on and take the core again, "
            "or leave out all that aren't by --skip 1"
        )
        notes = FIRST + qemu_note(*fields)
        self.refused(core(notes), sentence)
        self.assertEqual(len(self.lines(notes, "--skip", "1")), 2)

    def test_paging_off(self):
        self.not_64_bit("paging is off (CR0.PG)", (CR0, 0x11))

    def test_no_pae(self):
        self.not_64_bit("CR4.PAE is 0", (CR4, 0x751E80))

    def test_code_of_32_bits(self):
        self.not_64_bit("its code segment isn't one of 64-bit code", (CODE_FLAGS, CODE_32))

    def test_all_such_processors_are_named(self):
        status, _, err = self.run_tool(core(FIRST + qemu_note((CR0, 0x11)) + SECOND + qemu_note((CR4, 0))))
        self.assertEqual((status, err.split(" by ")[1]), (1, "--skip 1 --skip 3\n"))


class Kernel(Core):
    def test_the_kernels_tables(self):
        self.assertEqual(self.written(status_note(4711) + INFO), KERNEL_LINES)

    def test_five_levels(self):
        info = note(b"VMCOREINFO", 0, KERNEL.replace("l5_enabled)=0", "l5_enabled)=1").encode())
        self.assertEqual(self.lines(info)[1], "cpu 0 0x80000001 0x3a10000 0x1020 0xd00 0x2 0x0 0x0")

    def test_a_kernel_below_its_linked_address(self):
        info = note(b"VMCOREINFO", 0, KERNEL.replace("=16777216", "=-16777216").encode())
        self.assertEqual(self.lines(info)[1], "cpu 0 0x80000001 0x1a10000 0x20 0xd00 0x2 0x0 0x0")

    def test_the_machine_and_no_execute_disable(self):
        lines = self.lines(INFO, "--width", "46", "--no-1g", "--no-nxe", "0")
        self.assertEqual(lines, ["machine 46 0", "cpu 0 0x80000001 0x3a10000 0x20 0x500 0x2 0x0 0x0"])

    def test_a_field_is_missing(self):
        for name in ("SYMBOL(swapper_pg_dir)", "NUMBER(phys_base)", "NUMBER(pgtable_l5_enabled)"):
            for text in (KERNEL.replace(name, "NUMBER(other)"), KERNEL.replace(f"{name}=", f"{name}=x")):
                self.refused(core(note(b"VMCOREINFO", 0, text.encode())), f"its VMCOREINFO has no {name}")
        self.refused(core(note(b"VMCOREINFO", 0, b"")), "its VMCOREINFO has no SYMBOL(swapper_pg_dir)")

    def test_a_table_where_none_can_be(self):
        for base, where in ((8, "0x2a10008"), (1 << 52, "0x10000002a10000"), (-(1 << 26), "0xfffffffffea10000")):
            info = note(b"VMCOREINFO", 0, KERNEL.replace("=16777216", f"={base}").encode())
            why = f"its VMCOREINFO has the kernel's top table at the physical address {where}, where none can be"
            self.refused(core(info), why)

    def test_options_of_processors(self):
        for words in (["--skip", "0"], ["--pkru", "0=1"], ["--pkrs", "0=1"]):
            why = f"{words[0]} is for a core by QEMU, and this one only has the kernel's page tables"
            self.refused(core(INFO), why, *words)
        self.refused(core(INFO), "--no-nxe names processor 1, which isn't in the core", "--no-nxe", "1")


class Refusals(Core):
    def test_a_file_of_another_kind(self):
        for data in (b"", b"\x7fEL", b"KDUMP   " + bytes(100), b"hello\n"):
            self.refused(data, "it isn't an ELF file")

    def test_a_header_that_is_cut(self):
        self.refused(core(BOTH)[:63], "its file header is cut")

    def test_fields_of_the_file_header(self):
        machine = "its machine isn't x86-64 (QEMU writes another one until processor 0 is in 64-bit mode)"
        for offset, value, why in (
            (4, 1, "it isn't an ELF file of the 64-bit class"),
            (5, 2, "it isn't little-endian"),
            (16, 2, "it isn't a core"),
            (18, 3, machine),
            (54, 64, "its program headers don't have 56 bytes each"),
        ):
            self.refused(changed(core(BOTH), ((offset, "<B"), value)), why)

    def test_headers_past_the_end(self):
        data = core(BOTH)
        for broken in (data[:100], changed(data, ((32, "<Q"), len(data) - 111)), changed(data, ((56, "<H"), 999))):
            self.refused(broken, "its program headers pass the end of the file")

    def test_notes_past_the_end(self):
        self.refused(core(BOTH)[:1000], "the notes of program header 0 pass the end of the file")

    def test_a_note_past_the_end_of_its_notes(self):
        why = "a note of program header 0 passes the end of its notes"
        cut = changed(core(BOTH), ((64 + 32, "<Q"), len(BOTH) - 1))
        self.refused(cut, why)
        for offset in (0, 4):
            self.refused(core(changed(BOTH, ((offset, "<I"), 0xFFFFFFFF))), why)
        for last in (struct.pack("<III", 6, 0, 0) + b"LINUX", struct.pack("<III", 1, 0, 0)):
            self.refused(core(BOTH + last), why)

    def test_a_processors_note_that_is_cut(self):
        whole = note(b"QEMU", 0, QEMU_NOTE)
        for description in (b"", QEMU_NOTE[:7], QEMU_NOTE[:8], QEMU_NOTE[:439], changed(QEMU_NOTE, (SIZE, 431))):
            self.refused(core(whole + note(b"QEMU", 0, description)), "the note of processor 1 is cut")

    def test_another_version(self):
        for version in (0, 2):
            why = f"the note of processor 1 has version {version}, and only version 1 is known"
            self.refused(core(FIRST + qemu_note((VERSION, version))), why)

    def test_no_such_notes(self):
        why = "it has no notes of QEMU and no VMCOREINFO, so the processors have to be stated by hand"
        for notes in (b"", status_note(1), note(b"QEMU", 1, QEMU_NOTE), note(b"QEMUX", 0, QEMU_NOTE)):
            self.refused(core(notes), why)
        self.refused(changed(core(BOTH), ((56, "<H"), 0)), why)

    def test_notes_of_our_own(self):
        why = "its own notes state processors or the machine, so it takes no lines that state others"
        self.refused(core(machine_note() + BOTH), why)

    def test_too_much_to_read(self):
        data = changed(core(b""), ((64 + 32, "<Q"), 1 << 24 | 1))
        pathlib.Path(self.path).write_bytes(data)
        os.truncate(self.path, 1 << 25)
        self.refused(None, "it has more than 16777216 bytes of notes")
        elsewhere = changed(data, ((40, "<Q"), 64), ((56, "<H"), 0xFFFF), ((108, "<I"), 1 << 21))
        pathlib.Path(self.path).write_bytes(elsewhere)
        os.truncate(self.path, 1 << 28)
        self.refused(None, "it has more than 1048576 program headers")

    def test_options(self):
        for words, why in (
            (["--skip", "2"], "--skip names processor 2, which isn't in the core"),
            (["--pkru", "2=0"], "--pkru names processor 2, which isn't in the core"),
            (["--pkrs", "2=0"], "--pkrs names processor 2, which isn't in the core"),
            (["--no-nxe", "2"], "--no-nxe names processor 2, which isn't in the core"),
            (["--skip", "1", "--pkru", "1=0"], "--pkru names processor 1, which --skip leaves out"),
            (["--skip", "1", "--no-nxe", "1"], "--no-nxe names processor 1, which --skip leaves out"),
            (["--skip", "1", "--skip", "0"], "--skip leaves no processor"),
        ):
            self.refused(core(BOTH), why, *words)

    def test_words_of_no_form(self):
        for words in (
            ["--width", "53"],
            ["--width", "31"],
            ["--width", "x"],
            ["--pkru", "5"],
            ["--pkrs", "0=0x100000000"],
            ["--skip", "-1"],
            ["--skip", "9999999999"],
            ["--no-nxe", "x"],
            ["other.core"],
            ["--other"],
        ):
            status, out, err = self.run_tool(core(BOTH), *words)
            self.assertEqual((status, out), (2, ""))
            self.assertTrue(err.startswith("usage: core-cpus "), err)

    def test_no_regular_file(self):
        self.refused(None, "No such file or directory")
        os.mkfifo(self.path)
        self.refused(None, "it isn't a regular file")
        os.remove(self.path)
        os.mkdir(self.path)
        self.refused(None, "it isn't a regular file")
        os.rmdir(self.path)

    def test_a_core_that_is_cut_anywhere(self):
        """No cut gives lines but one in the memory. Each other gives a sentence."""
        data = core_of([(0, b"memory")], FIRST)
        whole = self.run_tool(data)[:2]
        for length in range(len(data)):
            status, out, err = self.run_tool(data[:length])
            self.assertEqual((status, out), whole if length >= len(data) - len(b"memory") else (1, ""), length)
            self.assertEqual(err.count("\n"), 1)

    def test_a_byte_that_is_changed_anywhere(self):
        """Whatever is broken, there is a sentence or there are lines."""
        data = core_of([(0, b"memory")], FIRST + INFO)
        for offset in range(len(data)):
            status, out, err = self.run_tool(changed(data, ((offset, "<B"), data[offset] ^ 0xFF)))
            self.assertIn((status, out == "", err == ""), ((0, False, True), (0, False, False), (1, True, False)))


class Header(Core):
    def test_a_header_of_notes_without_bytes_may_lie_anywhere(self):
        data = core_of([(0, b"")], BOTH)
        self.assertEqual(self.run_tool(changed(data, ((120, "<I"), 4), ((120 + 8, "<Q"), 1 << 40)))[1], TWO_PROCESSORS)

    def test_a_count_of_headers_that_stands_elsewhere(self):
        data = core(BOTH)
        section = changed(bytes(64), ((44, "<I"), 2))
        elsewhere = changed(data + section, ((56, "<H"), 0xFFFF), ((40, "<Q"), len(data)))
        self.assertEqual(self.run_tool(elsewhere)[1], TWO_PROCESSORS)
        why = "the section header that has the number of its program headers isn't in the file"
        self.refused(elsewhere[:-1], why)
        self.refused(changed(elsewhere, ((40, "<Q"), 0)), why)

    def test_a_last_note_that_isnt_filled_up(self):
        self.assertEqual(self.written(BOTH + struct.pack("<III", 5, 0, 0) + b"LINUX"), TWO_PROCESSORS)
        self.assertEqual(self.written(BOTH + b"\xff" * 11), TWO_PROCESSORS)


class Command(Core):
    def run_command(self, *words, **settings):
        # With this variable nothing is left in a buffer after a failed write.
        environment = {name: value for name, value in os.environ.items() if name != "PYTHONUNBUFFERED"}
        return subprocess.run([TOOL, *words], env=environment, stderr=subprocess.PIPE, check=False, **settings)

    def test_usage(self):
        done = self.run_command("--help", stdout=subprocess.PIPE)
        self.assertEqual((done.returncode, done.stderr), (0, b""))
        self.assertTrue(done.stdout.startswith(b"usage: core-cpus "))
        done = self.run_command(stdout=subprocess.PIPE)
        self.assertEqual((done.returncode, done.stdout), (2, b""))
        self.assertTrue(done.stderr.startswith(b"usage: core-cpus "))

    def test_output_that_takes_nothing(self):
        pathlib.Path(self.path).write_bytes(core(INFO))
        reader, writer = os.pipe()
        os.close(reader)
        with open("/dev/full", "wb") as full, open(writer, "wb") as closed:
            for output, why in ((full, "No space left on device"), (closed, "Broken pipe")):
                done = self.run_command(self.path, stdout=output)
                sentence = f"core-cpus: {self.path}: standard output: {why}\n"
                self.assertEqual((done.returncode, done.stderr.decode()), (1, sentence))

    def test_output_that_is_closed(self):
        pathlib.Path(self.path).write_bytes(core(INFO))
        done = self.run_command(self.path, preexec_fn=lambda: os.close(1))
        sentence = f"core-cpus: {self.path}: standard output is closed\n"
        self.assertEqual((done.returncode, done.stderr.decode()), (1, sentence))


if __name__ == "__main__":
    unittest.main()
