"""The notes of an ELF core. Its memory isn't read, so the size of a core doesn't matter.

docs/FORMATS.md, "The core", has the layout. In one thing more cores are read here than a run takes: those whose number
of program headers stands in a section header.
"""
import os
import stat
import struct
from collections.abc import Iterator
from dataclasses import dataclass
from typing import BinaryIO

from processors import Refusal

FILE_HEADER_SIZE = 64
PROGRAM_HEADER_SIZE = 56
SECTION_HEADER_SIZE = 64
# e_phnum where the number of program headers stands in the field sh_info of the first section header.
COUNT_ELSEWHERE = 0xFFFF
PT_NOTE = 4

# What no writer of cores comes near to. They bound the memory that a broken file makes the reader take.
MOST_HEADERS = 1 << 20
MOST_NOTE_BYTES = 1 << 24

# Fields of the file header: offset, format, the value that it must have, and what another one says.
CHECKED_FIELDS = (
    (4, "B", 2, "it isn't an ELF file of the 64-bit class"),
    (5, "B", 1, "it isn't little-endian"),
    (16, "<H", 4, "it isn't a core"),
    (18, "<H", 62, "its machine isn't x86-64 (QEMU writes another one until processor 0 is in 64-bit mode)"),
    (54, "<H", PROGRAM_HEADER_SIZE, f"its program headers don't have {PROGRAM_HEADER_SIZE} bytes each"),
)


@dataclass(frozen=True)
class Note:
    """A note by its owner's name, without the zero byte at its end, its type and what it holds."""

    owner: bytes
    kind: int
    description: bytes


def notes_of(path: str) -> list[Note]:
    """The notes of a core, in the order of the file."""
    # A named pipe would wait for a writer.
    if not stat.S_ISREG(os.stat(path).st_mode):
        raise Refusal("it isn't a regular file")
    with open(path, "rb") as file:
        size = os.fstat(file.fileno()).st_size
        notes, read = [], 0
        for index, (kind, offset, length) in enumerate(program_headers(file, size)):
            if kind != PT_NOTE or length == 0:
                continue
            if offset + length > size:
                raise Refusal(f"the notes of program header {index} pass the end of the file")
            read += length
            if read > MOST_NOTE_BYTES:
                raise Refusal(f"it has more than {MOST_NOTE_BYTES} bytes of notes")
            notes += notes_in(piece(file, offset, length), index)
    return notes


def piece(file: BinaryIO, offset: int, length: int) -> bytes:
    file.seek(offset)
    data = file.read(length)
    if len(data) != length:
        raise Refusal("the file became shorter while it was read")
    return data


def program_headers(file: BinaryIO, size: int) -> Iterator[tuple[int, int, int]]:
    """Of each program header its type, and where its bytes begin in the file and how many they are."""
    head = file.read(FILE_HEADER_SIZE)
    if not head.startswith(b"\x7fELF"):
        raise Refusal("it isn't an ELF file")
    if len(head) < FILE_HEADER_SIZE:
        raise Refusal("its file header is cut")
    for offset, form, value, otherwise in CHECKED_FIELDS:
        if struct.unpack_from(form, head, offset)[0] != value:
            raise Refusal(otherwise)
    start = struct.unpack_from("<Q", head, 32)[0]
    count = header_count(file, head, size)
    if start + PROGRAM_HEADER_SIZE * count > size:
        raise Refusal("its program headers pass the end of the file")
    if count > MOST_HEADERS:
        raise Refusal(f"it has more than {MOST_HEADERS} program headers")
    data = piece(file, start, PROGRAM_HEADER_SIZE * count)
    return struct.iter_unpack("<I4xQ16xQ16x", data)


def header_count(file: BinaryIO, head: bytes, size: int) -> int:
    count = struct.unpack_from("<H", head, 56)[0]
    if count != COUNT_ELSEWHERE:
        return count
    start = struct.unpack_from("<Q", head, 40)[0]
    if start == 0 or start + SECTION_HEADER_SIZE > size:
        raise Refusal("the section header that has the number of its program headers isn't in the file")
    return struct.unpack_from("<I", piece(file, start, SECTION_HEADER_SIZE), 44)[0]


def notes_in(data: bytes, index: int) -> list[Note]:
    """The notes in the bytes of the program header with this index."""
    notes, start = [], 0
    while start + 12 <= len(data):
        name_size, description_size, kind = struct.unpack_from("<III", data, start)
        name = start + 12
        description = upper_multiple_of_4(name + name_size)
        end = description + description_size
        # Bytes that only fill up the last name may be missing.
        if name + name_size > len(data) or description_size and end > len(data):
            raise Refusal(f"a note of program header {index} passes the end of its notes")
        notes.append(Note(data[name : name + name_size].removesuffix(b"\0"), kind, data[description:end]))
        start = upper_multiple_of_4(end)
    return notes


def upper_multiple_of_4(number: int) -> int:
    return (number + 3) // 4 * 4
