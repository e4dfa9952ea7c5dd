"""The core that is taken at the start: the guest's memory, and notes of the machine and its processors."""
import mmap
from dataclasses import dataclass

from make_example import (
    FILE_HEADER_SIZE,
    PROGRAM_HEADER_SIZE,
    file_header,
    machine_note,
    processor_note,
    program_header,
)
from qemu_record import Refusal
from qemu_record.tables import FRAME

MEBIBYTE = 1 << 20
PIECE = 1 << 20
# From here to 1 MByte are devices and the firmware: what the memory's file has there isn't what a processor reads.
DEVICES = 0xA0000


@dataclass(frozen=True)
class Range:
    """Physical addresses: the first, and the one after the last."""

    first: int
    end: int


def whole_memory(size):
    return [Range(0, DEVICES), Range(MEBIBYTE, size)]


class GuestMemory:
    """The file that is the guest's memory. The guest goes on writing to it."""

    def __init__(self, path, size):
        try:
            with open(path, "rb") as file:
                self.bytes = mmap.mmap(file.fileno(), size, access=mmap.ACCESS_READ)
        except (OSError, ValueError):
            raise Refusal("QEMU made no file for the guest's memory") from None

    def frame(self, address):
        if address + FRAME > len(self.bytes) or DEVICES <= address < MEBIBYTE:
            return None
        return self.bytes[address : address + FRAME]


class Core:
    """What a core's file holds, by physical address."""

    def __init__(self, file, ranges, offset):
        self.bytes = mmap.mmap(file.fileno(), 0, access=mmap.ACCESS_READ)
        self.places = []
        for each in ranges:
            self.places.append((each, offset))
            offset += each.end - each.first

    def frame(self, address):
        for each, offset in self.places:
            if each.first <= address < each.end:
                start = offset + address - each.first
                return self.bytes[start : start + FRAME]
        return None


def write_core(file, memory, ranges, machine, processors):
    """Writes a core of the ranges, with a note for the machine and one for each processor, and returns it."""
    notes = machine_note(machine[0], int(machine[1]))
    for number, registers in processors.items():
        notes += processor_note(number=number, **registers)
    offset = FILE_HEADER_SIZE + PROGRAM_HEADER_SIZE * (len(ranges) + 1)
    file.write(file_header(len(ranges) + 1))
    file.write(program_header(4, offset, len(notes)))
    offset += len(notes)
    start = offset
    for each in ranges:
        file.write(program_header(1, offset, each.end - each.first, each.first))
        offset += each.end - each.first
    file.write(notes)
    for each in ranges:
        for at in range(each.first, each.end, PIECE):
            file.write(memory.bytes[at : min(at + PIECE, each.end)])
    file.flush()
    return Core(file, ranges, start)
