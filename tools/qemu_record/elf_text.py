"""The guest's ELF file: its code, its symbols, and where in the code there may be an instruction to stop at."""
import bisect
import re
import struct

from qemu_record import Refusal
from qemu_record.instructions import LEGACY_PREFIXES, LONGEST, REX_PREFIXES, decode

SYMBOLS, NO_BYTES = 2, 8
EXECUTABLE = 4
LOAD, EXECUTE = 1, 1
# A line of a log has a limit, for comments too.
LONGEST_NAME = 200

# The opcodes, without their prefixes. They are looked for at every byte, so that none is missed. A place that is found
# inside of another instruction does no harm: QEMU's emulation stops where an instruction begins, and changes no code.
OPCODE = re.compile(
    rb"(?=\x0f\x01[\x38-\x3f\x78-\x7f\xb8-\xbf]"
    rb"|\x0f\x22[\x00-\x07\x18-\x27\x40-\x47\x58-\x67\x80-\x87\x98-\xa7\xc0-\xc7\xd8-\xe7]"
    rb"|\x0f\x38\x82|\x0f\x07|\xcf|\x87[\xc9\xd2\xdb])",
    re.DOTALL,
)


def stops_in(code):
    """The offsets in code at which one of our instructions may begin, with its kind."""
    found = {}
    for match in OPCODE.finditer(code):
        start = match.start()
        while True:
            instruction = decode(code[start : start + LONGEST])
            if instruction is not None:
                found[start] = instruction.kind
            # The byte before may be a prefix, or the end of another instruction. Both places are taken.
            start -= 1
            if start < 0 or match.start() - start >= LONGEST:
                break
            if code[start] not in LEGACY_PREFIXES and code[start] not in REX_PREFIXES:
                break
    return found


class Image:
    """A 64-bit ELF file of x86-64, by its bytes."""

    def __init__(self, data):
        self.data = data
        if data[:6] != b"\x7fELF\x02\x01" or self.number("<H", 18) != 62:
            raise Refusal("it isn't a 64-bit ELF file of x86-64")
        self.sections = list(self.headers("<IIQQQQIIQQ", self.number("<Q", 40), 58))
        self.symbols = self.read_symbols()
        named = sorted((address, name) for name, address in self.symbols.items())
        self.addresses = [address for address, _ in named]
        self.names = [name for _, name in named]

    def number(self, form, offset):
        return self.fields(form, offset)[0]

    def fields(self, form, offset):
        try:
            return struct.unpack_from(form, self.data, offset)
        except (struct.error, OverflowError):
            raise Refusal("the ELF file ends before what it names") from None

    def piece(self, offset, size):
        if offset + size > len(self.data):
            raise Refusal("the ELF file ends before what it names")
        return self.data[offset : offset + size]

    def headers(self, form, offset, place):
        """The headers of a table whose header size and count stand in the file header from a place on."""
        size, count = self.fields("<HH", place)
        for number in range(count):
            yield self.fields(form, offset + number * size)

    def read_symbols(self):
        found = {}
        for _, kind, _, _, offset, size, link, _, _, _ in self.sections:
            if kind != SYMBOLS:
                continue
            if link >= len(self.sections):
                raise Refusal("the ELF file's symbols have no names")
            names = self.piece(*self.sections[link][4:6])
            for at in range(offset, offset + size - 23, 24):
                name, _, _, section, value, _ = self.fields("<IBBHQQ", at)
                text = names[name : max(names.find(b"\0", name), name)].decode(errors="replace")
                # Section 0 is what another file defines, and from 0xff00 on they aren't addresses of this one.
                if 0 < section < 0xFF00 and text and text.isprintable():
                    found.setdefault(text, value)
        return found

    def code(self):
        """Pieces of code, each by its linear address: of executable sections, or, without sections, of segments."""
        if self.sections:
            for _, kind, flags, address, offset, size, _, _, _, _ in self.sections:
                if flags & EXECUTABLE and kind != NO_BYTES:
                    yield address, self.piece(offset, size)
            return
        for kind, flags, offset, address, _, size, _, _ in self.headers("<IIQQQQQQ", self.number("<Q", 32), 54):
            if kind == LOAD and flags & EXECUTE:
                yield address, self.piece(offset, size)

    def stops(self):
        """The linear addresses at which one of our instructions may begin, with its kind."""
        return {address + at: kind for address, code in self.code() for at, kind in stops_in(code).items()}

    def address(self, word):
        """What an option names: a symbol, or an address in hexadecimal with 0x."""
        if re.fullmatch(r"0x[0-9A-Fa-f]{1,16}", word):
            return int(word, 16)
        if word not in self.symbols:
            raise Refusal(f"it has no symbol {word}")
        return self.symbols[word]

    def place(self, address):
        """An address for people: the symbol before it, with the distance."""
        at = bisect.bisect_right(self.addresses, address) - 1
        if at < 0 or address - self.addresses[at] >= 1 << 20:
            return f"{address:#x}"
        distance = address - self.addresses[at]
        return self.names[at][:LONGEST_NAME] + (f"+{distance:#x}" if distance else "")
