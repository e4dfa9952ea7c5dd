#!/usr/bin/env python3
"""Tests of qemu-cpus. The texts are excerpts of what QEMU 7.2.22 wrote: bench/qemu_core.sh takes such a text."""
import os
import pathlib
import subprocess
import tempfile
import unittest

TOOL = pathlib.Path(__file__).with_name("qemu-cpus")

BANNER = "QEMU 7.2.22 monitor - type 'help' for more information\n(qemu) s\x1b[K\x1b[Dst\x1b[Kop\n"

# Two processors in user mode under Linux, with protection keys on. Lines of other registers are left out.
FIRST = """
CPU#0
RAX=0000000000000006 RBX=0000000000000001 RCX=0000000000438ed0 RDX=0000000000000001
RSI=0000000000000001 RDI=00000000004a91b0 RBP=00000000004a26b0 RSP=00007fffffffec70
R8 =000000000000000f R9 =00007fffffffeb40 R10=0000000000000000 R11=0000000000000202
R12=00007fffffffee38 R13=0000000000000001 R14=0000000000000001 R15=0000000000000002
RIP=00000000004015d7 RFL=00000206 [-----P-] CPL=3 II=0 A20=1 SMM=0 HLT=0
ES =0000 0000000000000000 00000000 00000000
CS =0033 0000000000000000 ffffffff 00affb00 DPL=3 CS64 [-RA]
SS =002b 0000000000000000 ffffffff 00cff300 DPL=3 DS   [-WA]
DS =0000 0000000000000000 00000000 00000000
FS =0000 00000000004af380 00000000 00000000
GS =0000 0000000000000000 00000000 00000000
LDT=0000 0000000000000000 00000000 00008200 DPL=0 LDT
TR =0040 fffffe0000003000 00004087 00008900 DPL=0 TSS64-avl
GDT=     fffffe0000001000 0000007f
IDT=     fffffe0000000000 00000fff
CR0=80050033 CR2=00007ffff7ff4000 CR3=000000000552c000 CR4=00750eb0
EFER=0000000000000d01
FCW=037f FSW=0000 [ST=0] FTW=00 MXCSR=00001f80
FPR0=0000000000000000 0000 FPR1=0000000000000000 0000
"""
SECOND = """
CPU#1
RIP=00000000004015d7 RFL=00000206 [-----P-] CPL=3 II=0 A20=1 SMM=0 HLT=0
CR0=80050033 CR2=00007ffff7ff4000 CR3=000000000552a000 CR4=00750ea0
EFER=0000000000000d01
"""
BOTH = FIRST + SECOND

# A processor that is still in the firmware.
FIRMWARE = """
CPU#0
EAX=00000000 EBX=00000000 ECX=0000b79d EDX=00000000
ESI=0000b79d EDI=00000000 EBP=0000b79d ESP=00006f94
EIP=0000b7b9 EFL=00000246 [---Z-P-] CPL=0 II=0 A20=1 SMM=0 HLT=1
CR0=00000010 CR2=00000000 CR3=00000000 CR4=00000000
EFER=0000000000000000
"""

LINES = """machine 52 1
cpu 0 0x80050033 0x552c000 0x750eb0 0xd01 0x206 0x0 0x0
cpu 1 0x80050033 0x552a000 0x750ea0 0xd01 0x206 0x0 0x0
"""


def run(text, *words):
    return subprocess.run([TOOL, *words], input=text.encode(), capture_output=True, check=False)


class Lines(unittest.TestCase):
    def written(self, text, *words):
        done = run(text, *words)
        self.assertEqual(done.returncode, 0, done.stderr)
        return done.stdout.decode()

    def test_a_line_for_each_processor(self):
        self.assertEqual(self.written(BOTH), LINES)

    def test_a_whole_session_with_the_monitor(self):
        text = BANNER + "(qemu) info registers -a\n" + BOTH + "(qemu) info mem\n0000000000401000-0000000000411000 ur-\n"
        self.assertEqual(self.written(text.replace("\n", "\r\n")), LINES)

    def test_a_file(self):
        with tempfile.NamedTemporaryFile() as file:
            file.write(BOTH.encode())
            file.flush()
            self.assertEqual(self.written("", file.name), LINES)

    def test_the_machine(self):
        self.assertTrue(self.written(BOTH, "--width", "40", "--no-1g").startswith("machine 40 0\n"))

    def test_key_registers_by_options(self):
        lines = self.written(BOTH, "--pkru", "0=0x55555558", "--pkrs", "1=4", "--pkru", "1=0xffffffff").splitlines()
        self.assertTrue(lines[1].endswith(" 0x55555558 0x0"))
        self.assertTrue(lines[2].endswith(" 0xffffffff 0x4"))

    def test_a_shown_key_register_yields_to_an_option(self):
        text = FIRST + "PKRU=55555554\n"
        self.assertTrue(self.written(text).endswith(" 0x55555554 0x0\n"))
        self.assertTrue(self.written(text, "--pkru", "0=0").endswith(" 0x0 0x0\n"))

    def test_a_processor_is_left_out(self):
        text = FIRST + SECOND.replace("CPU#1", "CPU#4") + FIRMWARE.replace("CPU#0", "CPU#2")
        lines = self.written(text, "--skip", "0", "--skip", "2").splitlines()
        self.assertEqual(lines, ["machine 52 1", LINES.splitlines()[2].replace("cpu 1", "cpu 4")])

    def test_bits_above_32(self):
        text = FIRST.replace("CR3=000000000552c000", "CR3=400000ff0552c00f").replace("RFL=00000206", "RFL=00040206")
        self.assertIn("cpu 0 0x80050033 0x400000ff0552c00f 0x750eb0 0xd01 0x40206 ", self.written(text))


class Warnings(unittest.TestCase):
    def warned(self, text, *words):
        done = run(text, *words)
        self.assertEqual(done.returncode, 0)
        return [line.split(": ")[2] for line in done.stderr.decode().splitlines()]

    def test_keys_on_and_no_value(self):
        self.assertEqual(
            self.warned(BOTH),
            ["processor 0 has CR4.PKE on and no --pkru", "processor 1 has CR4.PKE on and no --pkru"],
        )
        both_keys = FIRST.replace("CR4=00750eb0", "CR4=01750eb0")
        self.assertEqual(self.warned(both_keys, "--pkru", "0=0"), ["processor 0 has CR4.PKS on and no --pkrs"])

    def test_the_direction_is_named(self):
        self.assertIn(b"may be granted that the processor denies", run(FIRST).stderr)

    def test_values_given_or_keys_off(self):
        self.assertEqual(self.warned(BOTH, "--pkru", "0=0", "--pkru", "1=0"), [])
        self.assertEqual(self.warned(FIRST.replace("CR4=00750eb0", "CR4=00350eb0")), [])


class Refusals(unittest.TestCase):
    def refused(self, text, why, *words):
        done = run(text, *words)
        self.assertEqual((done.returncode, done.stdout), (1, b""))
        self.assertEqual(done.stderr.decode(), f"qemu-cpus: {why}\n")

    def test_no_processor(self):
        for text in ("", "hello\n", BANNER, FIRST.replace("CPU#0", "CPU")):
            self.refused(text, "no line CPU#N: this isn't the answer to `info registers -a`")

    def test_a_missing_register(self):
        for name in ("RIP", "RFL", "CR0", "CR3", "CR4", "EFER"):
            self.refused(FIRST + SECOND.replace(f"{name}=", f"{name} "), f"processor 1 shows no {name}")

    def test_a_text_that_was_cut(self):
        self.refused(FIRST[: FIRST.index("EFER=")], "processor 0 shows no EFER")
        self.refused(FIRST[: FIRST.index("d01")], "processor 0 shows no EFER")

    def test_a_processor_outside_64_bit_mode(self):
        self.refused(FIRMWARE, "processor 0 isn't in 64-bit mode: EIP is shown, not RIP")
        self.refused(SECOND + FIRMWARE, "processor 0 isn't in 64-bit mode: EIP is shown, not RIP")

    def test_the_answer_twice(self):
        self.refused(BOTH + BOTH, "processor 0 is shown twice")
        self.refused(FIRST + "CR3=0000000000001000\n", "processor 0 shows CR3 twice")

    def test_an_option_for_no_processor(self):
        self.refused(FIRST, "--pkrs names processor 2, which isn't shown", "--pkrs", "2=0")
        self.refused(FIRST, "--skip names processor 1, which isn't shown", "--skip", "1")
        self.refused(BOTH, "--pkru names processor 1, which --skip leaves out", "--skip", "1", "--pkru", "1=0")
        self.refused(FIRST, "--skip leaves no processor", "--skip", "0")

    def test_output_that_takes_nothing(self):
        with open("/dev/full", "wb") as full:
            done = subprocess.run([TOOL], input=BOTH.encode(), stdout=full, stderr=subprocess.PIPE, check=False)
        self.assertEqual(done.returncode, 1)
        self.assertTrue(done.stderr.endswith(b"qemu-cpus: standard output: No space left on device\n"))

    def test_input_that_is_closed(self):
        done = subprocess.run([TOOL], preexec_fn=lambda: os.close(0), capture_output=True, check=False)
        self.assertEqual((done.returncode, done.stderr), (1, b"qemu-cpus: standard input is closed\n"))

    def test_no_file(self):
        self.refused("", "/nowhere/at/all: No such file or directory", "/nowhere/at/all")

    def test_words_of_no_form(self):
        for words in (["--width", "53"], ["--width", "x"], ["--pkru", "5"], ["--pkru", "0=0x100000000"], ["a", "b"]):
            done = run(FIRST, *words)
            self.assertEqual((done.returncode, done.stdout), (2, b""))


if __name__ == "__main__":
    unittest.main()
