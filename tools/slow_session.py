"""A plain, slow session: what the lines of a log mean, by the rules of paging alone.

Memory is a list of bytes, each access is one rule after another, and a listing walks the first and the last page of
every leaf from the root down. Nothing is kept from one line of the log to the next but memory and registers. It knows
no `point`: tools/slow_audit.py has what a processor may hold.
"""
import dataclasses
import re
import struct
from typing import NamedTuple

from make_example import processor_note

# Bits of an entry: present, writes allowed, user accesses allowed, large page, global, execute-disable.
P, W, U, PS, G, XD = 1, 2, 4, 1 << 7, 1 << 8, 1 << 63

# Bits of registers.
PE, WP, PG = 1, 1 << 16, 1 << 31
PAE, PGE, LA57, PCIDE, SMEP, SMAP, PKE, PKS, LASS, LAM_SUP = (
    1 << bit for bit in (5, 7, 12, 17, 20, 21, 22, 24, 27, 28)
)
LAM_U57, LAM_U48, KEEP = 1 << 61, 1 << 62, 1 << 63
LME, LMA, NXE = 1 << 8, 1 << 10, 1 << 11
AC = 1 << 18

KINDS = ("ur", "uw", "ux", "sr", "sw", "sx", "ir", "iw")
LETTERS = "rwxrwxrw"

LONGEST_LINE = 8300
MOST_PROCESSORS = 64


class Refused(Exception):
    """A line is refused, with a cause."""


@dataclasses.dataclass
class Registers:
    cr0: int = PG | WP | PE
    cr3: int = 0x1000
    cr4: int = PAE
    efer: int = LME | LMA | NXE
    ac: int = 0
    pkru: int = 0
    pkrs: int = 0

    def note(self, number=0):
        """The state note of a processor with these registers."""
        rflags = 2 | AC * self.ac
        return processor_note(self.cr0, self.cr3, self.cr4, self.efer, rflags, self.pkru, self.pkrs, number)

    def line(self, number=0):
        """The line of the log that states a processor with these registers."""
        values = (self.cr0, self.cr3, self.cr4, self.efer, 2 | AC * self.ac, self.pkru, self.pkrs)
        return f"cpu {number} " + " ".join(f"{value:#x}" for value in values)

    @property
    def pcid(self):
        return self.cr3 & 0xFFF if self.cr4 & PCIDE else 0

    @property
    def top(self):
        return 5 if self.cr4 & LA57 else 4

    def is_canonical(self, address):
        """Whether the bits from the highest that a walk reads on are equal."""
        upper = address >> (56 if self.top == 5 else 47)
        return upper in (0, (1 << (8 if self.top == 5 else 17)) - 1)

    def flaw(self, width):
        """Why a processor can't be stated with these registers, or None."""
        if not (self.cr0 & PE and self.cr0 & PG):
            return "paging-off"
        if not (self.efer & LME and self.efer & LMA):
            return "not-long"
        if not self.cr4 & PAE:
            return "no-pae"
        if self.cr3 & (KEEP | cr3_reserved(width)):
            return "cr3-reserved"
        return None

    def flaw_of_change(self, register, value, width):
        """Why a register can't be given a value, or None."""
        if register == "cr0" and not (value & PE and value & PG):
            return "paging-off"
        if register == "efer" and not (value & LME and value & LMA):
            return "not-long"
        if register == "cr4":
            if not value & PAE:
                return "no-pae"
            if (value ^ self.cr4) & LA57:
                return "la57-changed"
            if value & PCIDE and not self.cr4 & PCIDE and self.cr3 & 0xFFF:
                return "pcid-not-zero"
        if register == "cr3":
            if value & KEEP and not self.cr4 & PCIDE:
                return "keep-bit-without-pcid"
            if value & cr3_reserved(width):
                return "cr3-reserved"
        return None

    def change(self, register, value):
        setattr(self, register, value & ~KEEP if register == "cr3" else value)


def cr3_reserved(width):
    """The bits of CR3 from the physical-address width up to 60."""
    return (1 << 61) - (1 << width)


class Entry(NamedTuple):
    """A present entry without reserved bits: whether it maps a page, its frame, whether it allows writes and user
    accesses, whether it disables fetches, and the key and the global bit of a page."""

    is_leaf: bool
    frame: int
    write: bool
    user: bool
    xd: bool
    key: int
    is_global: bool


class Page(NamedTuple):
    """A mapped page of a level: its frame, whether all entries of its walk allow writes and user accesses, whether one
    of them disables fetches, and the key of the last."""

    frame: int
    level: int
    write: bool
    user: bool
    xd: bool
    key: int


def size_of(level):
    return 1 << (12 + 9 * (level - 1))


class Memory:
    """Bytes of segments (the first that has a byte counts), and of writes."""

    def __init__(self, segments):
        # By page: its bytes, and for each of them 1 where it is known. By table: its numbers, and its slots.
        self.pages = {}
        self.tables = {}
        self.slots = {}
        for start, data in reversed(segments):
            self.put(start, data)

    def put(self, at, data):
        """Makes bytes known, from an address on."""
        while data:
            page, place = divmod(at, 4096)
            part = data[: 4096 - place]
            held, known = self.pages.setdefault(page, (bytearray(4096), bytearray(4096)))
            held[place : place + len(part)] = part
            known[place : place + len(part)] = b"\1" * len(part)
            self.tables.pop(page * 4096, None)
            self.slots.pop(page * 4096, None)
            at, data = at + len(part), data[len(part) :]

    def is_known(self, at, count=1):
        """Whether so many bytes of one page are known."""
        _, known = self.pages.get(at // 4096, (None, bytes(4096)))
        return 0 not in known[at % 4096 : at % 4096 + count]

    def write(self, at, data):
        """Writes bytes that are known, inside one page."""
        for address in range(at, at + len(data)):
            if not self.is_known(address):
                raise Refused(f"unknown {address:#x}")
        if at % 4096 + len(data) > 4096:
            raise Refused(f"crosses {at // 4096 * 4096 + 4096:#x}")
        self.put(at, data)

    def table(self, frame):
        """The 512 numbers of a table; None for each of which a byte isn't known."""
        if frame not in self.tables:
            held, _ = self.pages.get(frame // 4096, (bytes(4096), None))
            numbers = struct.unpack("<512Q", held)
            if not self.is_known(frame, 4096):
                numbers = [
                    number if self.is_known(frame + 8 * index, 8) else None for index, number in enumerate(numbers)
                ]
            self.tables[frame] = numbers
        return self.tables[frame]

    def slots_of(self, frame):
        """The places and the numbers of the slots of a table that are known and aren't 0."""
        if frame not in self.slots:
            self.slots[frame] = [(index, number) for index, number in enumerate(self.table(frame)) if number]
        return self.slots[frame]


class Space:
    """The linear addresses of a processor from a root on: memory, the machine's physical-address width and whether it
    has pages of 1 GByte, and the processor's registers."""

    def __init__(self, memory, width, big, registers, root=None):
        self.memory, self.width, self.big, self.registers = memory, width, big, registers
        self.top = registers.top
        self.root = registers.cr3 & ((1 << width) - 1) & ~0xFFF if root is None else root

    def is_reserved(self, level, value):
        bits = (1 << 52) - (1 << self.width)
        if not self.registers.efer & NXE:
            bits |= XD
        if level >= 4 or (level == 3 and not self.big):
            bits |= PS
        if value & PS and level == 3:
            bits |= (1 << 30) - (1 << 13)
        if value & PS and level == 2:
            bits |= (1 << 21) - (1 << 13)
        return value & bits != 0

    def entry(self, level, value):
        """What the number in a slot of a level says: an entry, or why there is none."""
        if value is None:
            return "unknown"
        if not value & P:
            return "absent"
        if self.is_reserved(level, value):
            return "reserved"
        write, user, xd = value & W != 0, value & U != 0, value & XD != 0
        frame = value & ((1 << 52) - 1) & ~0xFFF
        if level == 1 or value & PS:
            return Entry(True, frame & ~(size_of(level) - 1), write, user, xd, value >> 59 & 15, value & G != 0)
        return Entry(False, frame, write, user, xd, 0, False)

    def walk(self, address):
        """The page of a canonical address, or why there is none."""
        table, write, user, xd = self.root, True, True, False
        for level in range(self.top, 0, -1):
            entry = self.entry(level, self.memory.table(table)[address // size_of(level) % 512])
            if isinstance(entry, str):
                return f"{entry} {level}"
            write, user, xd = write and entry.write, user and entry.user, xd or entry.xd
            if entry.is_leaf:
                frame = entry.frame + address % size_of(level) & ~0xFFF
                return Page(frame, level, write, user, xd, entry.key)
            table = entry.frame
        raise AssertionError("no table is below level 1")

    def aim(self, kind, pointer):
        """The address that an access by a pointer goes to, and why it doesn't get there."""
        registers = self.registers
        high = pointer >> 63
        width = None
        if kind in ("ur", "uw", "sr", "sw"):
            if high and registers.cr4 & LAM_SUP:
                width = 57 if self.top == 5 else 48
            elif not high and registers.cr3 & LAM_U57:
                width = 57
            elif not high and registers.cr3 & LAM_U48:
                width = 48
        address = pointer
        if width:
            if pointer >> (width - 1) & 1 != high:
                return None, "not-canonical"
            low = pointer & ((1 << width) - 1)
            address = low | ((1 << 64) - (1 << width) if high else 0)
        if not registers.is_canonical(address):
            return None, "not-canonical"
        if registers.cr4 & LASS:
            smap = registers.cr4 & SMAP != 0
            if (
                (kind[0] == "u" and high)
                or (kind == "sx" and not high)
                or (kind in ("sr", "sw") and not high and smap and not registers.ac)
                or (kind in ("ir", "iw") and not high and smap)
            ):
                return None, "lass"
        return address, None

    def denial(self, kind, page):
        """The first rule that denies an access to a page."""
        registers = self.registers
        mode, act = kind
        writes_protected = mode == "u" or registers.cr0 & WP != 0
        if mode == "u" and not page.user:
            return "user"
        if kind == "sx" and page.user and registers.cr4 & SMEP:
            return "smep"
        if mode != "u" and act != "x" and page.user and registers.cr4 & SMAP:
            if mode == "i" or not registers.ac:
                return "smap"
        if act == "w" and not page.write and writes_protected:
            return "write"
        if act == "x":
            return "xd" if page.xd else None
        keys = 0
        if page.user and registers.cr4 & PKE:
            keys = registers.pkru
        if not page.user and registers.cr4 & PKS:
            keys = registers.pkrs
        access_disabled, write_disabled = keys >> (2 * page.key) & 1, keys >> (2 * page.key + 1) & 1
        if access_disabled or (act == "w" and write_disabled and writes_protected):
            return "key"
        return None

    def ask(self, kind, pointer):
        address, why = self.aim(kind, pointer)
        if why:
            return f"denied {why}"
        page = self.walk(address)
        if isinstance(page, str):
            return f"denied {page}"
        why = self.denial(kind, page)
        return f"denied {why}" if why else f"granted {page.frame + address % 4096:#x}"

    def rights(self, address, page):
        """Which accesses reach an address by a pointer that is the address itself, and are granted there."""
        return "".join(
            letter if self.aim(kind, address) == (address, None) and not self.denial(kind, page) else "-"
            for kind, letter in zip(KINDS, LETTERS)
        )

    def first_of(self, level, index, prefix):
        """The first address of a slot, in a table whose first address is given."""
        first = prefix + index * size_of(level)
        if level == self.top and index >= 256:
            first += (1 << 64) - 512 * size_of(level)
        return first

    def leaves(self, level, table, prefix, first=0, last=(1 << 64) - 1):
        """The first addresses of the leaves of a table, and their levels, by ascending address: of those that have an
        address from the first to the last."""
        for index, value in self.memory.slots_of(table):
            entry = self.entry(level, value)
            place = self.first_of(level, index, prefix)
            if isinstance(entry, str) or place > last or place + size_of(level) <= first:
                continue
            if entry.is_leaf:
                yield place, level
            else:
                yield from self.leaves(level - 1, entry.frame, place, first, last)

    def areas(self, most=1 << 62):
        """The areas of the space; None where it has more leaves than are wanted."""
        found = []
        count = 0
        for first, level in self.leaves(self.top, self.root, 0):
            count += 1
            if count > most:
                return None
            last = first + size_of(level) - 1
            page, end = self.walk(first), self.walk(last - 4095)
            rights = self.rights(first, page)
            assert page.level == level and end.frame == page.frame + size_of(level) - 4096
            assert rights == self.rights(last - 4095, end)
            if found:
                before = found[-1]
                length = before[1] + 1 - before[0]
                if (before[1] + 1, before[2] + length, before[3]) == (first, page.frame, rights):
                    before[1] = last
                    continue
            found.append([first, last, page.frame, rights])
        return found


def listing(areas):
    """What a list prints that finds areas, without its last LF."""
    lines = [f"areas {len(areas)}"]
    lines += [f"{first:#x} {last:#x} {frame:#x} {rights}" for first, last, frame, rights in areas]
    return "\n".join(lines)


def number_of(word, most=(1 << 64) - 1):
    """The number that a word spells, of those up to one."""
    if re.fullmatch(r"0x[0-9a-fA-F]{1,16}", word):
        number = int(word[2:], 16)
    elif re.fullmatch(r"[0-9]{1,20}", word):
        number = int(word)
    else:
        raise Refused("syntax")
    if number > most:
        raise Refused("syntax")
    return number


def u32_of(word):
    return number_of(word, (1 << 32) - 1)


def event_of(line):
    """The event of a line, by its first word and what follows; None of a line that is skipped."""
    if len(line) > LONGEST_LINE:
        raise Refused("too long")
    if line == "" or line.startswith("#"):
        return None
    match line.split(" "):
        case ["machine", width, big]:
            if not 32 <= number_of(width) <= 52:
                raise Refused("syntax")
            return ("machine", number_of(width), number_of(big, 1))
        case ["cpu", number, cr0, cr3, cr4, efer, rflags, pkru, pkrs]:
            first = [number_of(word) for word in (cr0, cr3, cr4, efer)]
            ac = number_of(rflags) & AC != 0
            return ("cpu", u32_of(number), Registers(*first, int(ac), u32_of(pkru), u32_of(pkrs)))
        case ["write", address, digits]:
            if not re.fullmatch(r"([0-9a-fA-F]{2}){1,4096}", digits):
                raise Refused("syntax")
            return ("write", number_of(address), bytes.fromhex(digits))
        case ["set", number, ("cr0" | "cr3" | "cr4" | "efer") as register, value]:
            return ("set", u32_of(number), register, number_of(value))
        case ["set", number, "ac", value]:
            return ("set", u32_of(number), "ac", number_of(value, 1))
        case ["set", number, ("pkru" | "pkrs") as register, value]:
            return ("set", u32_of(number), register, u32_of(value))
        case ["invlpg", number, address]:
            return ("invlpg", u32_of(number), number_of(address))
        case ["invpcid", number, kind, pcid, address]:
            return ("invpcid", u32_of(number), number_of(kind), number_of(pcid), number_of(address))
        case ["ask", number, kind, pointer] if kind in KINDS:
            return ("ask", u32_of(number), kind, number_of(pointer))
        case ["list", number]:
            return ("list", u32_of(number))
        case ["point", ("current" | "all") as scope]:
            return ("point", scope)
    raise Refused("syntax")


class Session:
    """Memory, a machine, and processors by their numbers."""

    def __init__(self, segments, processors, machine=None):
        self.memory = Memory(segments)
        self.processors = {number: dataclasses.replace(registers) for number, registers in processors.items()}
        self.machine = machine
        # How many events there were, and the exit status of a run that ends here.
        self.time = 0
        self.status = 0

    @property
    def width(self):
        return self.machine[0] if self.machine else 52

    def space(self, number, root=None):
        """The space of a processor, from its own root or from another one."""
        width, big = self.machine or (52, 1)
        return Space(self.memory, width, big, self.processors[number], root)

    def step(self, event):
        """What an event prints, without its last LF; None for nothing."""
        if event[0] in ("machine", "cpu"):
            return self.state(event)
        if event[0] in ("set", "invlpg", "invpcid", "ask", "list") and event[1] not in self.processors:
            raise Refused(f"no processor {event[1]}")
        text = getattr(self, event[0])(*event[1:])
        self.time += 1
        return text

    def state(self, event):
        if self.time > 0 or (event[0] == "machine" and (self.machine or self.processors)):
            raise Refused("late state")
        if event[0] == "machine":
            self.machine = event[1:]
            return
        _, number, registers = event
        if number in self.processors:
            raise Refused(f"double processor {number}")
        if len(self.processors) == MOST_PROCESSORS:
            raise Refused("too many processors")
        if flaw := registers.flaw(self.width):
            raise Refused(f"illegal {flaw}")
        self.processors[number] = dataclasses.replace(registers)

    def write(self, at, data):
        self.memory.write(at, data)

    def set(self, number, register, value):
        registers = self.processors[number]
        if flaw := registers.flaw_of_change(register, value, self.width):
            raise Refused(f"illegal {flaw}")
        registers.change(register, value)

    def invlpg(self, number, address):
        """Is accepted for each address."""

    def invpcid(self, number, kind, pcid, address):
        registers = self.processors[number]
        if kind > 3:
            raise Refused("bad type")
        if pcid > 4095 or (kind < 2 and pcid and not registers.cr4 & PCIDE):
            raise Refused("bad pcid")
        if kind == 0 and not registers.is_canonical(address):
            raise Refused("not canonical")

    def ask(self, number, kind, pointer):
        return self.space(number).ask(kind, pointer)

    def list(self, number):
        return listing(self.space(number).areas())

    def answer(self, number, line):
        """What a line of the log prints; one that is refused sets the status to 4."""
        try:
            event = event_of(line)
            text = self.step(event) if event else None
        except Refused as cause:
            self.status = 4
            text = f"line {number} refused: {cause}"
        return "" if text is None else text + "\n"

    def run(self, log):
        """What a log prints."""
        said = ""
        for number, line in enumerate(log.removesuffix("\n").split("\n"), 1):
            said += self.answer(number, line)
            if self.status == 4:
                break
        return said
