"""Cores and logs whose listings were worked out by hand, form by form; tools/test_program.py runs them.

Tables stand where the example core has them: a PML4 at 0x1000, a PDPT at 0x2000, a PD at 0x3000 and a PT at 0x4000. An
entry ends in 7 where it is present, allows writes and allows user accesses; in 5 without writes, in 3 without user
accesses; 80 more are a large page.
"""
import dataclasses
import struct

from make_example import ENTRIES, TABLES_SIZE, core_of, machine_note
from slow_session import LA57, LAM_SUP, LAM_U48, LAM_U57, LASS, PAE, PKE, PKS, SMAP, SMEP, XD, Registers

KEY_1, KEY_2 = 1 << 59, 2 << 59

# The example's listing, and its entries without the second page.
EXAMPLE = "areas 2\n0x0 0xfff 0x5000 rwxrwxrw\n0x1000 0x1fff 0x6000 r-xr-xr-\n"
ONE_PAGE = {0x1000: 0x2007, 0x2000: 0x3007, 0x3000: 0x4007, 0x4000: 0x5007}


@dataclasses.dataclass
class Case:
    """Segments of memory, each by its address and its bytes, the registers, a log, what it prints, and its status."""

    name: str
    segments: list
    text: str
    registers: Registers = dataclasses.field(default_factory=Registers)
    log: str = "list 0\n"
    width: int = 40
    big: int = 1
    status: int = 0

    def core(self):
        return core_of(self.segments, machine_note(self.width, self.big) + self.registers.note())


def memory(entries, size=TABLES_SIZE):
    """The bytes of memory that is 0 but for entries."""
    data = bytearray(size)
    for at, value in entries.items():
        struct.pack_into("<Q", data, at, value)
    return bytes(data)


def case(name, entries, text, *, log="list 0\n", width=40, big=1, **registers):
    """A case of one segment from address 0 on."""
    return Case(name, [(0, memory(entries))], text, Registers(**registers), log, width, big)


def put(at, entry):
    """The line that writes an entry."""
    return f"write {at:#x} {entry.to_bytes(8, 'little').hex()}\n"


def listed(*areas):
    """The text of a listing."""
    return "".join(line + "\n" for line in (f"areas {len(areas)}", *areas))


# Where the halves of the canonical addresses end.
RIMS = [
    case(
        "four levels: the pages at both rims of the hole",
        # The last slot of each table down to 0xa000, and the first slots from slot 256 on down to 0xb000.
        {
            **{0x17F8: 0x2007, 0x2FF8: 0x3007, 0x3FF8: 0x4007, 0x4FF8: 0xA007},
            **{0x1800: 0x5007, 0x5000: 0x6007, 0x6000: 0x7007, 0x7000: 0xB007},
        },
        "areas 2\n"
        "0x7ffffffff000 0x7fffffffffff 0xa000 rwxrwxrw\n"
        "0xffff800000000000 0xffff800000000fff 0xb000 rwxrwxrw\n"
        "granted 0xafff\n"
        "denied not-canonical\n"
        "denied not-canonical\n"
        "granted 0xb000\n",
        log="list 0\n"
        "ask 0 ur 0x7fffffffffff\n"
        "ask 0 ur 0x800000000000\n"
        "ask 0 ur 0xffff7fffffffffff\n"
        "ask 0 ur 0xffff800000000000\n",
    ),
    case(
        "five levels: the pages at both rims of the hole",
        {
            **{0x87F8: 0x9007, 0x9FF8: 0x2007, 0x2FF8: 0x3007, 0x3FF8: 0x4007, 0x4FF8: 0xA007},
            **{0x8800: 0x1007, 0x1000: 0x5007, 0x5000: 0x6007, 0x6000: 0x7007, 0x7000: 0xB007},
        },
        "areas 2\n"
        "0xfffffffffff000 0xffffffffffffff 0xa000 rwxrwxrw\n"
        "0xff00000000000000 0xff00000000000fff 0xb000 rwxrwxrw\n"
        "granted 0xafff\n"
        "denied not-canonical\n"
        "denied not-canonical\n"
        "granted 0xb000\n",
        log="list 0\n"
        "ask 0 ur 0xffffffffffffff\n"
        "ask 0 ur 0x100000000000000\n"
        "ask 0 ur 0xfeffffffffffffff\n"
        "ask 0 ur 0xff00000000000000\n",
        cr3=0x8000,
        cr4=PAE | LA57,
    ),
    case(
        "four levels: the first page and the last, whose frame goes before that of the first",
        {
            **{0x1000: 0x2007, 0x2000: 0x3007, 0x3000: 0x4007, 0x4000: 0xB007},
            **{0x1FF8: 0x5007, 0x5FF8: 0x6007, 0x6FF8: 0x7007, 0x7FF8: 0xA007},
        },
        listed("0x0 0xfff 0xb000 rwxrwxrw", "0xfffffffffffff000 0xffffffffffffffff 0xa000 rwxrwxrw"),
    ),
    case(
        "five levels: the last page",
        {0x8FF8: 0x1007, 0x1FF8: 0x5007, 0x5FF8: 0x6007, 0x6FF8: 0x7007, 0x7FF8: 0xA007},
        listed("0xfffffffffffff000 0xffffffffffffffff 0xa000 rwxrwxrw"),
        cr3=0x8000,
        cr4=PAE | LA57,
    ),
    case(
        "the last page is one of 2 MBytes, then one of 1 GByte",
        {0x1FF8: 0x2007, 0x2FF8: 0x3007, 0x3FF8: 0x400087},
        listed("0xffffffffffe00000 0xffffffffffffffff 0x400000 rwxrwxrw")
        + listed("0xffffffffc0000000 0xffffffffffffffff 0x40000000 rwxrwxrw"),
        log="list 0\n" + put(0x2FF8, 0x40000087) + "list 0\n",
    ),
    case(
        "the last frame, and a page after it whose frame is the first",
        {**ONE_PAGE, 0x4000: 0xFFFFFFFFFF007, 0x4008: 0x7},
        listed("0x0 0xfff 0xffffffffff000 rwxrwxrw", "0x1000 0x1fff 0x0 rwxrwxrw"),
        width=52,
    ),
    case(
        "the last frames are those of a page of 1 GByte",
        {0x1000: 0x2007, 0x2000: 0xFFFFFC0000087, 0x2008: 0x87},
        listed("0x0 0x3fffffff 0xfffffc0000000 rwxrwxrw", "0x40000000 0x7fffffff 0x0 rwxrwxrw"),
        width=52,
    ),
]

# A page of 4 KBytes, one of 2 MBytes, one of 1 GByte, and then one of 2 MBytes and one of 4 KBytes again.
EACH_SIZE = {
    **{0x1000: 0x2007, 0x2000: 0x3007, 0x2008: 0x40000087, 0x2010: 0x6007},
    **{0x3FF0: 0x4007, 0x3FF8: 0x3FE00087, 0x4FF8: 0x3FDFF007},
    **{0x6000: 0x80000087, 0x6008: 0x7007, 0x7000: 0x80200007},
}

SIZES = [
    case(
        "a large page, and two small ones that go on from it",
        {0x1000: 0x2007, 0x2000: 0x3007, 0x3000: 0x400087, 0x3008: 0x4007, 0x4000: 0x600007, 0x4008: 0x601007},
        listed("0x0 0x201fff 0x400000 rwxrwxrw"),
    ),
    case(
        "two small pages, and a large one that goes on from them",
        {0x1000: 0x2007, 0x2000: 0x3007, 0x3000: 0x4007, 0x4FF0: 0x5FE007, 0x4FF8: 0x5FF007, 0x3008: 0x600087},
        listed("0x1fe000 0x3fffff 0x5fe000 rwxrwxrw"),
    ),
    case(
        "pages of each size that go on from each other; then the second has other rights, then the third another frame",
        EACH_SIZE,
        listed("0x3fdff000 0x80200fff 0x3fdff000 rwxrwxrw")
        + listed(
            "0x3fdff000 0x3fdfffff 0x3fdff000 rwxrwxrw",
            "0x3fe00000 0x3fffffff 0x3fe00000 r-xr-xr-",
            "0x40000000 0x80200fff 0x40000000 rwxrwxrw",
        )
        + listed(
            "0x3fdff000 0x3fffffff 0x3fdff000 rwxrwxrw",
            "0x40000000 0x7fffffff 0x80000000 rwxrwxrw",
            "0x80000000 0x80200fff 0x80000000 rwxrwxrw",
        ),
        log="list 0\n"
        + put(0x3FF8, 0x3FE00085)
        + "list 0\n"
        + put(0x3FF8, 0x3FE00087)
        + put(0x2008, 0x80000087)
        + "list 0\n",
    ),
    case(
        "pages with a gap between them, and pages whose frames don't follow one another",
        {**ONE_PAGE, 0x4010: 0x7007, 0x4018: 0x9007, 0x4020: 0x8007},
        listed(
            "0x0 0xfff 0x5000 rwxrwxrw",
            "0x2000 0x2fff 0x7000 rwxrwxrw",
            "0x3000 0x3fff 0x9000 rwxrwxrw",
            "0x4000 0x4fff 0x8000 rwxrwxrw",
        ),
    ),
    case(
        "bits that aren't looked at",
        # PAT is bit 7 in the small page and bit 12 in the large ones.
        {
            **{0x1000: 0x7FF0000000002F7F, 0x2000: 0x7FF0000000003F7F, 0x3000: 0x7FF0000000004F7F},
            **{0x4FF0: 0x1FE007, 0x4FF8: 0x07F00000001FFFFF, 0x3008: 0x201087, 0x3010: 0x07F0000000400FFF},
        },
        listed("0x1fe000 0x5fffff 0x1fe000 rwxrwxrw"),
    ),
]

# The first entry of each table under five levels, and the frame that it holds.
FIRST_ENTRIES = [(0x7000, 0x1000), (0x1000, 0x2000), (0x2000, 0x3000), (0x3000, 0x4000), (0x4000, 0x5000)]

RIGHTS = [
    case(
        "a right that one entry alone refuses, at each level in turn",
        {0x7000: 0x1007, **ONE_PAGE},
        (
            listed("0x0 0xfff 0x5000 r-xr-xr-")
            + listed("0x0 0xfff 0x5000 ---rwxrw")
            + listed("0x0 0xfff 0x5000 rw-rw-rw")
            + listed("0x0 0xfff 0x5000 rwxrwxrw")
        )
        * 5,
        log="".join(
            "".join(put(at, frame | flags) + "list 0\n" for flags in (5, 3, XD | 7, 7)) for at, frame in FIRST_ENTRIES
        ),
        cr3=0x7000,
        cr4=PAE | LA57,
    ),
    case(
        "rights that entries of three levels refuse, each another one",
        {0x1000: 0x2005, 0x2000: 0x3003, 0x3000: XD | 0x4007, 0x4000: 0x5007, 0x4008: 0x6007},
        listed("0x0 0x1fff 0x5000 ---r--r-"),
    ),
    case(
        "a table under two entries of other rights",
        {**ONE_PAGE, 0x3008: 0x4005, 0x3010: 0x4003},
        listed(
            "0x0 0xfff 0x5000 rwxrwxrw",
            "0x200000 0x200fff 0x5000 r-xr-xr-",
            "0x400000 0x400fff 0x5000 ---rwxrw",
        ),
    ),
    case(
        "a supervisor page under user tables, and a user page under a supervisor table, with SMEP and SMAP",
        {**ONE_PAGE, 0x4008: 0x6003, 0x3008: 0x8003, 0x8000: 0x9007},
        "".join(
            listed(f"0x0 0xfff 0x5000 {user}", "0x1000 0x1fff 0x6000 ---rwxrw", "0x200000 0x200fff 0x9000 ---rwxrw")
            for user in ("rwx-----", "rwxrw---", "rwxrw-rw", "rwxrwx--", "rwx--x--", "rwxrwxrw")
        ),
        log=f"set 0 cr4 {PAE | SMEP | SMAP:#x}\nlist 0\nset 0 ac 1\nlist 0\n"
        f"set 0 cr4 {PAE | SMEP:#x}\nlist 0\nset 0 cr4 {PAE | SMAP:#x}\nlist 0\nset 0 ac 0\nlist 0\n"
        f"set 0 cr4 {PAE:#x}\nlist 0\n",
    ),
    case(
        "a page without writes, with WP and without",
        {**ONE_PAGE, 0x4000: 0x5005, 0x4008: 0x6001},
        listed("0x0 0xfff 0x5000 r-xr-xr-", "0x1000 0x1fff 0x6000 ---r-xr-")
        + listed("0x0 0xfff 0x5000 r-xrwxrw", "0x1000 0x1fff 0x6000 ---rwxrw"),
        log="list 0\nset 0 cr0 0x80000001\nlist 0\n",
    ),
]

# Two supervisor pages, of which PKRS disables accesses to the one and writes to the other; then a user page.
SUPERVISOR_KEYS = {**ONE_PAGE, 0x4000: KEY_1 | 0x5003, 0x4008: KEY_2 | 0x6003, 0x4010: KEY_1 | 0x7007}

KEYS = [
    case(
        "supervisor pages by PKRS, with WP and without; then without PKS",
        SUPERVISOR_KEYS,
        listed("0x0 0xfff 0x5000 -----x--", "0x1000 0x1fff 0x6000 ---r-xr-", "0x2000 0x2fff 0x7000 rwxrwxrw")
        + listed("0x0 0xfff 0x5000 -----x--", "0x1000 0x1fff 0x6000 ---rwxrw", "0x2000 0x2fff 0x7000 rwxrwxrw")
        + listed("0x0 0x1fff 0x5000 ---rwxrw", "0x2000 0x2fff 0x7000 rwxrwxrw"),
        log=f"list 0\nset 0 cr0 0x80000001\nlist 0\nset 0 cr4 {PAE | PKE:#x}\nlist 0\n",
        cr4=PAE | PKS,
        pkrs=0x24,
    ),
    case(
        "user pages by PKRU, with WP and without; then without PKE",
        {**ONE_PAGE, 0x4000: KEY_1 | 0x5007, 0x4008: KEY_2 | 0x6007, 0x4010: KEY_1 | 0x7003},
        listed("0x0 0xfff 0x5000 --x--x--", "0x1000 0x1fff 0x6000 r-xr-xr-", "0x2000 0x2fff 0x7000 ---rwxrw")
        + listed("0x0 0xfff 0x5000 --x--x--", "0x1000 0x1fff 0x6000 r-xrwxrw", "0x2000 0x2fff 0x7000 ---rwxrw")
        + listed("0x0 0x1fff 0x5000 rwxrwxrw", "0x2000 0x2fff 0x7000 ---rwxrw"),
        log=f"list 0\nset 0 cr0 0x80000001\nlist 0\nset 0 cr4 {PAE | PKS:#x}\nlist 0\n",
        cr4=PAE | PKE,
        pkru=0x24,
    ),
    case(
        "the last key, of pages of each size, and the keys of tables, which aren't looked at",
        {
            **{0x1000: 1 << 62 | 0x2007, 0x2000: 1 << 62 | 0x3007, 0x3000: 1 << 62 | 0x4007, 0x4000: 0x5007},
            **{0x4008: 15 << 59 | 0x7007, 0x3008: 15 << 59 | 0x400087, 0x2008: 15 << 59 | 0x80000087},
        },
        listed(
            "0x0 0xfff 0x5000 rwxrwxrw",
            "0x1000 0x1fff 0x7000 --x--x--",
            "0x200000 0x3fffff 0x400000 --x--x--",
            "0x40000000 0x7fffffff 0x80000000 --x--x--",
        ),
        cr4=PAE | PKE,
        # Accesses are disabled for the keys 8 and 15.
        pkru=1 << 16 | 1 << 30,
    ),
    case(
        "two keys with equal rights are one area, then two",
        {**ONE_PAGE, 0x4000: KEY_1 | 0x5007, 0x4008: KEY_2 | 0x6007},
        listed("0x0 0x1fff 0x5000 rwxrwxrw")
        + listed("0x0 0x1fff 0x5000 --x--x--")
        + listed("0x0 0xfff 0x5000 r-xr-xr-", "0x1000 0x1fff 0x6000 --x--x--"),
        log="list 0\nset 0 pkru 0x14\nlist 0\nset 0 pkru 0x18\nlist 0\n",
        cr4=PAE | PKE,
    ),
    case(
        "a page without writes, and one whose key disables writes, are one area",
        {**ONE_PAGE, 0x4000: 0x5005, 0x4008: KEY_1 | 0x6007},
        listed("0x0 0x1fff 0x5000 r-xr-xr-") + listed("0x0 0x1fff 0x5000 r-xrwxrw"),
        log="list 0\nset 0 cr0 0x80000001\nlist 0\n",
        cr4=PAE | PKE,
        pkru=0x8,
    ),
    case(
        "areas whose rights are empty: a user page and a supervisor page are one, and one with a gap is another",
        {**ONE_PAGE, 0x4000: XD | KEY_1 | 0x5007, 0x4008: XD | KEY_1 | 0x6003, 0x4018: XD | KEY_1 | 0x8003},
        listed("0x0 0x1fff 0x5000 --------", "0x3000 0x3fff 0x8000 --------"),
        cr4=PAE | PKE | PKS,
        pkru=0x4,
        pkrs=0x4,
    ),
]

# Under five levels: pages before and after 2 to the 47, then one at 2 to the 48, and one in the upper half.
ACROSS_THE_MIDDLE = {
    **{0x8000: 0x1007, 0x17F8: 0x2007, 0x2FF8: 0x3007, 0x3FF8: 0x4007, 0x4FF8: 0xA007},
    **{0x1800: 0x5007, 0x5000: 0x6007, 0x6000: 0x7007, 0x7000: 0xB007},
    **{0x8008: 0x9007, 0x9000: 0x5007, 0x8800: 0x9007},
}
WHOLE = listed(
    "0x7ffffffff000 0x800000000fff 0xa000 rwxrwxrw",
    "0x1000000000000 0x1000000000fff 0xb000 rwxrwxrw",
    "0xff00000000000000 0xff00000000000fff 0xb000 rwxrwxrw",
)
SPLIT = listed(
    "0x7ffffffff000 0x7fffffffffff 0xa000 rwxrwxrw",
    "0x800000000000 0x800000000fff 0xb000 --x--xrw",
    "0x1000000000000 0x1000000000fff 0xb000 --x--xrw",
    "0xff00000000000000 0xff00000000000fff 0xb000 rwxrwxrw",
)

# A user page and a supervisor page, in the lower half and in the upper one.
BOTH_HALVES = {**ONE_PAGE, 0x1800: 0x2007, 0x4008: 0x6003}

POINTERS = [
    case(
        "four levels: no masking of pointers has to do with a list",
        {**ENTRIES, 0x1800: 0x2007},
        listed(
            "0x0 0xfff 0x5000 rwxrwxrw",
            "0x1000 0x1fff 0x6000 r-xr-xr-",
            "0xffff800000000000 0xffff800000000fff 0x5000 rwxrwxrw",
            "0xffff800000001000 0xffff800000001fff 0x6000 r-xr-xr-",
        )
        * 5,
        log="list 0\n"
        + f"set 0 cr4 {PAE | LAM_SUP:#x}\nlist 0\n"
        + "".join(f"set 0 cr3 {lam | 0x1000:#x}\nlist 0\n" for lam in (LAM_U57, LAM_U48, LAM_U57 | LAM_U48)),
    ),
    case(
        "five levels: masking to 48 bits splits the list at 2 to the 47, and no other does",
        ACROSS_THE_MIDDLE,
        WHOLE + WHOLE + WHOLE + SPLIT + WHOLE,
        log="list 0\n"
        + f"set 0 cr4 {PAE | LA57 | LAM_SUP:#x}\nlist 0\n"
        + "".join(f"set 0 cr3 {lam | 0x8000:#x}\nlist 0\n" for lam in (LAM_U57, LAM_U48, LAM_U57 | LAM_U48)),
        cr3=0x8000,
        cr4=PAE | LA57,
    ),
    case(
        "five levels: pages of 1 GByte on both sides of 2 to the 47",
        {0x8000: 0x1007, 0x17F8: 0x2007, 0x2FF8: 0x40000087, 0x1800: 0x5007, 0x5000: 0x80000087},
        listed("0x7fffc0000000 0x80003fffffff 0x40000000 rwxrwxrw")
        + listed(
            "0x7fffc0000000 0x7fffffffffff 0x40000000 rwxrwxrw",
            "0x800000000000 0x80003fffffff 0x80000000 --x--xrw",
        ),
        log=f"list 0\nset 0 cr3 {LAM_U48 | 0x8000:#x}\nlist 0\n",
        cr3=0x8000,
        cr4=PAE | LA57,
    ),
    case(
        "LASS alone, then with SMAP, then with AC, which explicit accesses alone heed",
        BOTH_HALVES,
        listed(
            "0x0 0xfff 0x5000 rwxrw-rw",
            "0x1000 0x1fff 0x6000 ---rw-rw",
            "0xffff800000000000 0xffff800000001fff 0x5000 ---rwxrw",
        )
        + listed(
            "0x0 0xfff 0x5000 rwx-----",
            "0x1000 0x1fff 0x6000 --------",
            "0xffff800000000000 0xffff800000000fff 0x5000 -----x--",
            "0xffff800000001000 0xffff800000001fff 0x6000 ---rwxrw",
        )
        + listed(
            "0x0 0xfff 0x5000 rwxrw---",
            "0x1000 0x1fff 0x6000 ---rw---",
            "0xffff800000000000 0xffff800000000fff 0x5000 ---rwx--",
            "0xffff800000001000 0xffff800000001fff 0x6000 ---rwxrw",
        ),
        log=f"set 0 cr4 {PAE | LASS:#x}\nlist 0\nset 0 cr4 {PAE | LASS | SMAP:#x}\nlist 0\nset 0 ac 1\nlist 0\n",
    ),
]

TABLES = [
    case(
        "a table that is its own first entry",
        {0x1000: 0x1007},
        listed("0x0 0xfff 0x1000 rwxrwxrw"),
    ),
    case(
        "five levels: a table that is its own first entry",
        {0x1000: 0x1007},
        listed("0x0 0xfff 0x1000 rwxrwxrw"),
        cr4=PAE | LA57,
    ),
    case(
        "a table that is its own first entry, and another table after it",
        # The second one is a PDPT, a PD and a PT too, and then a page.
        {0x1000: 0x1007, 0x1008: 0x5007, 0x5000: 0x6007},
        listed(
            "0x0 0xfff 0x1000 rwxrwxrw",
            "0x1000 0x1fff 0x5000 rwxrwxrw",
            "0x200000 0x200fff 0x6000 rwxrwxrw",
        ),
    ),
    case(
        "a table that is its own last entry",
        {**ENTRIES, 0x1FF8: 0x1007},
        listed(
            "0x0 0xfff 0x5000 rwxrwxrw",
            "0x1000 0x1fff 0x6000 r-xr-xr-",
            "0xffffff8000000000 0xffffff8000000fff 0x4000 rwxrwxrw",
            "0xffffffffc0000000 0xffffffffc0000fff 0x3000 rwxrwxrw",
            "0xffffffffffe00000 0xffffffffffe00fff 0x2000 rwxrwxrw",
            "0xfffffffffffff000 0xffffffffffffffff 0x1000 rwxrwxrw",
        ),
    ),
    case(
        "two tables that reference each other, the one without writes",
        # 0x1000 is the PML4 and a PD, 0x2000 a PDPT and a PT.
        {0x1000: 0x2007, 0x2000: 0x1005},
        listed("0x0 0xfff 0x1000 r-xr-xr-"),
    ),
    case(
        "a table in unknown memory between two that are known",
        {**ENTRIES, 0x3008: 0x10007, 0x3010: 0x8007, 0x8000: 0x9007},
        listed(
            "0x0 0xfff 0x5000 rwxrwxrw",
            "0x1000 0x1fff 0x6000 r-xr-xr-",
            "0x400000 0x400fff 0x9000 rwxrwxrw",
        )
        + "denied unknown 1\n",
        log="list 0\nask 0 ur 0x200000\n",
    ),
    case("a top table in unknown memory", ENTRIES, "areas 0\n", cr3=0x10000),
    case("no entry", {}, "areas 0\n"),
    case(
        "reserved bits at each level beside pages; then execute-disable is one too",
        {
            **ENTRIES,
            # A large page of level 4, and bits from the physical width on.
            **{0x1008: 0x2087, 0x1010: 0x10000002007, 0x2008: 1 << 51 | 0x3007, 0x4010: 0x10000007007},
            # The lowest bits that a frame of a large page must not have, and the highest.
            **{0x2010: 0x40002087, 0x2018: 0x60000087, 0x3008: 0x402087, 0x3010: 0x500087},
            **{0x4018: 0x8007, 0x4020: XD | 0x9007},
        },
        listed(
            "0x0 0xfff 0x5000 rwxrwxrw",
            "0x1000 0x1fff 0x6000 r-xr-xr-",
            "0x3000 0x3fff 0x8000 rwxrwxrw",
            "0x4000 0x4fff 0x9000 rw-rw-rw",
        )
        + listed(
            "0x0 0xfff 0x5000 rwxrwxrw",
            "0x1000 0x1fff 0x6000 r-xr-xr-",
            "0x3000 0x3fff 0x8000 rwxrwxrw",
        ),
        log="list 0\nset 0 efer 0x500\nlist 0\n",
    ),
    case("five levels: a large page of level 5", {0x1000: 0x1087}, "areas 0\n", cr4=PAE | LA57),
    case(
        "a machine without pages of 1 GByte",
        {**ENTRIES, 0x2008: 0x40000087, 0x3008: 0x200087},
        listed(
            "0x0 0xfff 0x5000 rwxrwxrw",
            "0x1000 0x1fff 0x6000 r-xr-xr-",
            "0x200000 0x3fffff 0x200000 rwxrwxrw",
        ),
        big=0,
    ),
    case(
        "a table that lists too much, and is then written over",
        {0x1000 + 8 * slot: 0x1007 for slot in range(512)},
        "areas too large\ngranted 0x1000\nareas 0\n",
        log="list 0\nask 0 ur 0x0\n" + "write 0x1000 " + "00" * 4096 + "\nlist 0\n",
    ),
]

TABLES_BYTES = memory(ENTRIES)

SEGMENTS = [
    Case("the last table is known in part", [(0, TABLES_BYTES[:0x400C])], listed("0x0 0xfff 0x5000 rwxrwxrw")),
    Case("an entry in two segments", [(0, TABLES_BYTES[:0x4004]), (0x4004, TABLES_BYTES[0x4004:])], EXAMPLE),
    Case(
        "an entry with a hole of one byte",
        [(0, TABLES_BYTES[:0x4001]), (0x4002, TABLES_BYTES[0x4002:])],
        listed("0x1000 0x1fff 0x6000 r-xr-xr-"),
    ),
    Case("segments that begin with a table each", [(at, TABLES_BYTES[at:][:4096]) for at in ENTRIES][:4], EXAMPLE),
    Case("the same ones backwards", [(at, TABLES_BYTES[at:][:4096]) for at in ENTRIES][3::-1], EXAMPLE),
    Case("a later segment over the last table", [(0, TABLES_BYTES), (0x4000, b"\xff" * 4096)], EXAMPLE),
    Case(
        "an earlier segment over an entry; then a write to both",
        [(0x4008, (0x6007).to_bytes(8, "little")), (0, TABLES_BYTES)],
        listed("0x0 0x1fff 0x5000 rwxrwxrw") + listed("0x0 0x1fff 0xa000 r-xr-xr-"),
        log="list 0\nwrite 0x4000 05a000000000000005b0000000000000\nlist 0\n",
    ),
    Case(
        "unknown bytes stay so beside a write",
        [(0, TABLES_BYTES[:0x400C])],
        listed("0x0 0xfff 0xa000 rwxrwxrw"),
        log="write 0x4000 07a000000000000007b00000\nlist 0\n",
    ),
]

CASES = [*RIMS, *SIZES, *RIGHTS, *KEYS, *POINTERS, *TABLES, *SEGMENTS]


def small_pages(count):
    """The entries of a table that maps so many pages, from frame 0 on."""
    return [0x1000 * slot | 7 for slot in range(count)]


def table(at, entries):
    """Entries of a table, from its first slot on."""
    return {at + 8 * slot: entry for slot, entry in enumerate(entries)}


# A PDPT that references one PD 511 times and another one once, and these reference a PT 511 times and as often as said:
# with the PML4, the PDPT and the PDs, 262,144 uses of tables where that is 509 times.
def many_tables(last, pages):
    return {
        0x1000: 0x2007,
        **table(0x2000, [0x3007] * 511 + [0x4007]),
        **table(0x3000, [0x5007] * 511),
        **table(0x4000, [0x5007] * last),
        **table(0x5000, pages),
    }


ONE_OF_EACH = [(gbyte << 30) + (place << 21) for gbyte in range(511) for place in range(511)]
ONE_OF_EACH += [(511 << 30) + (place << 21) for place in range(509)]

# 8 times 512 tables of 512 pages: 2,097,152.
SMALL_ALONE = {
    0x1000: 0x2007,
    **table(0x2000, [0x3007] * 8),
    **table(0x3000, [0x4007] * 512),
    **table(0x4000, small_pages(512)),
}

# 7 times 512 and 511 tables of 512 pages, a page of 2 MBytes, a table of 509 pages, one more page of 2 MBytes, and one
# of 1 GByte: 2,097,152.
MIXED = {
    0x1000: 0x2007,
    **table(0x2000, [0x3007] * 7 + [0x5007, 0x6007, 0x40000087]),
    **table(0x3000, [0x4007] * 512),
    **table(0x4000, small_pages(512)),
    **table(0x5000, [0x4007] * 511 + [0x200087]),
    **table(0x6000, [0x7007, 0x200087]),
    **table(0x7000, small_pages(509)),
}


def of_2_mbytes(count):
    """The areas of so many tables that map the lowest 2 MBytes each."""
    return [f"{place << 21:#x} {((place + 1) << 21) - 1:#x} 0x0 rwxrwxrw" for place in range(count)]


TOO_LARGE = "areas too large\n"

# As many tables and pages as there may be, and one more. The slow session takes too long for these.
LIMITS = [
    case("262,144 tables", many_tables(509, []), "areas 0\n"),
    case("262,145 tables", many_tables(510, []), TOO_LARGE),
    case(
        "262,144 tables with a page each, and then one more table",
        many_tables(509, [7]),
        listed(*(f"{first:#x} {first + 4095:#x} 0x0 rwxrwxrw" for first in ONE_OF_EACH)) + TOO_LARGE,
        log="list 0\n" + put(0x4000 + 8 * 509, 0x5007) + "list 0\n",
    ),
    case("2,097,152 pages of 4 KBytes", SMALL_ALONE, listed(*of_2_mbytes(4096))),
    case(
        "2,097,153 pages of 4 KBytes",
        {**SMALL_ALONE, 0x2040: 0x5007, 0x5000: 0x6007, 0x6000: 0x7},
        TOO_LARGE,
    ),
    case(
        "2,097,152 pages of each size; then one more of 4 KBytes, or of 2 MBytes, or of 1 GByte",
        MIXED,
        # The first page of 2 MBytes goes on from the table before it.
        listed(
            *of_2_mbytes(4094),
            "0x1ffc00000 0x1ffffffff 0x0 rwxrwxrw",
            "0x200000000 0x2001fcfff 0x0 rwxrwxrw",
            "0x200200000 0x2003fffff 0x200000 rwxrwxrw",
            "0x240000000 0x27fffffff 0x40000000 rwxrwxrw",
        )
        + TOO_LARGE * 3,
        log="list 0\n"
        + put(0x7000 + 8 * 509, 0x1FD007)
        + "list 0\n"
        + put(0x7000 + 8 * 509, 0)
        + put(0x6010, 0x400087)
        + "list 0\n"
        + put(0x6010, 0)
        + put(0x2050, 0x80000087)
        + "list 0\n",
    ),
]
