#!/usr/bin/env python3
"""Writes the example core.

    make_example.py PATH [--segment-bytes COUNT]

The core has two program headers. The first is for 120 bytes of notes: the machine (40 physical address bits, 1-GByte
pages) and processor 0. The second is for one segment of memory that begins at physical address 0. The segment holds
page tables of four levels that map two pages:

    linear address 0x0      to physical address 0x5000, with writes
    linear address 0x1000   to physical address 0x6000, without writes

Without an option the segment has 65,536 bytes, and the file 65,832. A greater COUNT makes the segment longer: after
its first 65,536 bytes stand the bytes 0 to 255 again and again. They are no part of the page tables.
"""
import argparse
import struct

FILE_HEADER_SIZE = 64
PROGRAM_HEADER_SIZE = 56
NOTES_OFFSET = FILE_HEADER_SIZE + 2 * PROGRAM_HEADER_SIZE
NOTES_SIZE = 120
SEGMENT_OFFSET = NOTES_OFFSET + NOTES_SIZE
TABLES_SIZE = 65536

# Physical addresses and the entries that stand there: PML4E, PDPTE, PDE and two PTEs. Bit 0 is present, bit 1 allows
# writes, bit 2 allows user accesses.
ENTRIES = {0x1000: 0x2007, 0x2000: 0x3007, 0x3000: 0x4007, 0x4000: 0x5007, 0x4008: 0x6005}


def file_header(count=2):
    """A little-endian core of a 64-bit x86-64 machine with program headers; fields that aren't read are 0."""
    head = bytearray(FILE_HEADER_SIZE)
    head[0:6] = b"\x7fELF" + bytes([2, 1])
    struct.pack_into("<HH", head, 16, 4, 62)
    struct.pack_into("<Q", head, 32, FILE_HEADER_SIZE)
    struct.pack_into("<HH", head, 54, PROGRAM_HEADER_SIZE, count)
    return bytes(head)


def program_header(kind, offset, file_size, address=0):
    """A program header at a physical address; fields that aren't read are 0."""
    return struct.pack("<IIQQQQQQ", kind, 0, offset, 0, address, file_size, 0, 0)


def state_note(kind, description):
    """A note of the owner X86RIGHTS. Its name of ten bytes is filled up to a multiple of 4."""
    return struct.pack("<III", 10, len(description), kind) + b"X86RIGHTS\0" + bytes(2) + description


def machine_note(width=40, big=1):
    return state_note(1, struct.pack("<II", width, big))


def processor_note(cr0=0x80010001, cr3=0x1000, cr4=0x20, efer=0xD00, rflags=0x2, pkru=0, pkrs=0, number=0):
    """A processor; if nothing else is said, with paging on, four levels, a top table at 0x1000, and execute-disable."""
    return state_note(2, struct.pack("<II5QIIQ", number, 0, cr0, cr3, cr4, efer, rflags, pkru, pkrs, 0))


def core_of(segments, notes):
    """A core of notes and of segments, each by its physical address and its bytes."""
    offset = FILE_HEADER_SIZE + PROGRAM_HEADER_SIZE * (len(segments) + 1)
    headers = program_header(4, offset, len(notes))
    offset += len(notes)
    for address, data in segments:
        headers += program_header(1, offset, len(data), address)
        offset += len(data)
    return file_header(len(segments) + 1) + headers + notes + b"".join(data for _, data in segments)


def page_tables():
    memory = bytearray(TABLES_SIZE)
    for address, entry in ENTRIES.items():
        struct.pack_into("<Q", memory, address, entry)
    return bytes(memory)


def write_filling(file, count):
    """Writes COUNT bytes that count up from 0 to 255 again and again."""
    piece = bytes(range(256)) * 4096
    while count > 0:
        file.write(piece[:count])
        count -= len(piece)


def main():
    parser = argparse.ArgumentParser(description="Writes the example core.")
    parser.add_argument("path", metavar="PATH", help="the file to write")
    parser.add_argument(
        "--segment-bytes",
        metavar="COUNT",
        type=int,
        default=TABLES_SIZE,
        help=f"the bytes of the one segment, at least {TABLES_SIZE} (default: {TABLES_SIZE})",
    )
    words = parser.parse_args()
    if words.segment_bytes < TABLES_SIZE:
        parser.error(f"the segment has at least {TABLES_SIZE} bytes")
    notes = machine_note() + processor_note()
    assert len(notes) == NOTES_SIZE
    with open(words.path, "wb") as file:
        file.write(file_header())
        file.write(program_header(4, NOTES_OFFSET, NOTES_SIZE))
        file.write(program_header(1, SEGMENT_OFFSET, words.segment_bytes))
        file.write(notes)
        file.write(page_tables())
        write_filling(file, words.segment_bytes - TABLES_SIZE)


if __name__ == "__main__":
    main()
