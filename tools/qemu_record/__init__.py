"""The parts of tools/qemu-record, each with one concern.

    elf_text      the code and the symbols of the guest's ELF file, and where in the code the recorder stops
    instructions  what one of these instructions is, and what its operands say
    gdb_stub      the protocol of QEMU's gdb stub
    guest         QEMU's process: its arguments, sockets and end
    tables        the page tables in the guest's memory, and what of them changed
    core_file     the core that is taken at the start
    recorder      from stop to stop: what is written of each
"""


class Refusal(Exception):
    """Why no record is made: one sentence."""
