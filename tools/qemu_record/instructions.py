"""What an instruction at which the recorder stops is, and what its operands say.

The forms are those of 64-bit mode, of Intel's Software Developer's Manual, volume 2: prefixes, an opcode and, where it
has one, ModRM with SIB and displacement.
"""
from dataclasses import dataclass

LONGEST = 15
# Prefixes that may stand before an opcode: of operands, addresses and segments, LOCK and the REPs. REX comes after.
LEGACY_PREFIXES = frozenset(b"\x66\x67\x26\x2e\x36\x3e\x64\x65\xf0\xf2\xf3")
REX_PREFIXES = range(0x40, 0x50)

# General registers in the order of their numbers, as QEMU's stub names them.
GENERAL = ("rax", "rcx", "rdx", "rbx", "rsp", "rbp", "rsi", "rdi", *(f"r{number}" for number in range(8, 16)))
SEGMENT_BASES = {0x64: "fs_base", 0x65: "gs_base"}
CONTROL = {0: "cr0", 3: "cr3", 4: "cr4"}
# Exchanges of a register with itself, which do nothing and which no compiler makes.
MARKERS = {0xC9: "start", 0xDB: "point", 0xD2: "end"}

MASK_32 = (1 << 32) - 1
MASK_64 = (1 << 64) - 1


@dataclass(frozen=True)
class Memory:
    """An operand in memory: names of registers, or none, and the rest of the sum."""

    base: str | None
    index: str | None
    scale: int
    displacement: int
    segment: str | None
    short: bool


@dataclass(frozen=True)
class Instruction:
    """`kind` is invlpg, invpcid, cr0, cr3, cr4, return, or the name of a marker."""

    kind: str
    length: int
    register: str | None = None
    memory: Memory | None = None


@dataclass(frozen=True)
class Prefixes:
    length: int
    legacy: bytes
    rex: int

    def register(self, bit, low):
        """The number of a register: its low three bits, and one of REX."""
        return GENERAL[(self.rex >> bit & 1) << 3 | low]


def prefixes_of(code):
    length = 0
    while length < len(code) and code[length] in LEGACY_PREFIXES:
        length += 1
    legacy = code[:length]
    rex = code[length] if length < len(code) and code[length] in REX_PREFIXES else 0
    return Prefixes(length + (rex != 0), legacy, rex)


def decode(code):
    """The instruction with which the bytes begin, or None where it is none of ours."""
    prefixes = prefixes_of(code)
    rest = code[prefixes.length : LONGEST]
    if rest[:1] == b"\xcf" and prefixes.rex & 8 or rest[:2] == b"\x0f\x07":
        return Instruction("return", prefixes.length + (1 if rest[0] == 0xCF else 2))
    if rest[:1] == b"\x87" and prefixes == Prefixes(1, b"\x66", 0) and rest[1:2] and rest[1] in MARKERS:
        return Instruction(MARKERS[rest[1]], 3)
    if rest[:2] == b"\x0f\x22" and len(rest) > 2:
        return control_move(prefixes, rest[2])
    if rest[:2] == b"\x0f\x01" and len(rest) > 2 and rest[2] >> 3 & 7 == 7:
        return with_memory("invlpg", prefixes, rest, 2)
    if rest[:3] == b"\x0f\x38\x82" and 0x66 in prefixes.legacy and not {0xF2, 0xF3} & set(prefixes.legacy):
        return with_memory("invpcid", prefixes, rest, 3)
    return None


def control_move(prefixes, modrm):
    """MOV to a control register. Whatever its mod is, the operand is a register."""
    number = (prefixes.rex & 4) << 1 | modrm >> 3 & 7
    if number not in CONTROL:
        return None
    return Instruction(CONTROL[number], prefixes.length + 3, prefixes.register(0, modrm & 7))


def with_memory(kind, prefixes, rest, opcode_length):
    found = memory_operand(prefixes, rest[opcode_length:])
    if found is None:
        return None
    memory, length = found
    register = prefixes.register(2, rest[opcode_length] >> 3 & 7)
    return Instruction(kind, prefixes.length + opcode_length + length, register, memory)


def memory_operand(prefixes, code):
    """The operand of ModRM and what follows it, with their length; None where it is a register, or the bytes end."""
    if not code or code[0] >> 6 == 3:
        return None
    mode, low = code[0] >> 6, code[0] & 7
    base, index, scale, at = prefixes.register(0, low), None, 1, 1
    if low == 4:
        if len(code) < 2:
            return None
        low, at, scale = code[1] & 7, 2, 1 << (code[1] >> 6)
        base = prefixes.register(0, low)
        number = prefixes.register(1, code[1] >> 3 & 7)
        # The stack pointer is no index: its number says that there is none.
        index = None if number == "rsp" else number
    size = {0: 0, 1: 1, 2: 4}[mode]
    if mode == 0 and low == 5:
        # Without SIB the base is the next instruction, and with one there is none.
        base, size = "rip" if at == 1 else None, 4
    if len(code) < at + size:
        return None
    displacement = int.from_bytes(code[at : at + size], "little", signed=True)
    segments = [SEGMENT_BASES[prefix] for prefix in prefixes.legacy if prefix in SEGMENT_BASES]
    memory = Memory(base, index, scale, displacement, segments[-1] if segments else None, 0x67 in prefixes.legacy)
    return memory, at + size


def address_of(instruction, registers):
    """The linear address of the operand in memory, before the instruction is executed."""
    memory = instruction.memory
    total = memory.displacement
    if memory.base == "rip":
        total += registers["rip"] + instruction.length
    elif memory.base is not None:
        total += registers[memory.base]
    if memory.index is not None:
        total += registers[memory.index] * memory.scale
    total &= MASK_32 if memory.short else MASK_64
    if memory.segment is not None:
        total += registers[memory.segment]
    return total & MASK_64
