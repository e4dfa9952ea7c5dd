"""Logs with points that were worked out by hand, rule by rule; tools/test_program.py runs them.

If nothing else is said, the core is the example's, with a PML4 at 0x1000, a PDPT at 0x2000, a PD at 0x3000 and a PT at
0x4000, and the log is of processor 0. Of each rule on what an event removes there is a log on which a rule that removes
more gives another verdict, and one for a rule that removes less.
"""
from listing_cases import KEY_1, Case, memory, put
from make_example import ENTRIES, page_tables
from slow_session import KEEP, LA57, LASS, PAE, PCIDE, PGE, PKE, SMAP, SMEP, XD, G, Registers

YES = "point yes\n"

# The example's entries without a page; its PD, and a page of its own for processors to make under an entry of that PD.
NO_PAGES = {at: entry for at, entry in ENTRIES.items() if at < 0x4000}
DROP_TABLE = put(0x3000, 0)
NEW_PAGE = put(0x4010, 0x7007)

# The first page, without its entry in memory or with it; and a page that all processors and PCIDs may use.
DROP_PAGE = put(0x4000, 0)
GLOBAL = {**ENTRIES, 0x4000: 0x5007 | G}

CURRENT, ALL = "point current\n", "point all\n"
TO_0, TO_1 = f"set 0 cr3 {KEEP | 0x1000:#x}\n", f"set 0 cr3 {KEEP | 0x1001:#x}\n"

# A second processor, with the registers of the first.
SECOND = "cpu 1 0x80010001 0x1000 0x20 0xd00 0x2 0x0 0x0\n"


def no(*findings):
    """The text of a point with findings."""
    return f"point no {len(findings)}\n" + "".join(f"{finding}\n" for finding in findings)


def case(name, log, text, status, entries=ENTRIES, big=1, **registers):
    """A case of one segment from address 0 on."""
    return Case(name, [(0, memory(entries))], text, Registers(**registers), log, big=big, status=status)


# What is found after DROP_PAGE where nothing was removed, under each of two PCIDs; and after NEW_PAGE under a table
# entry that is held, of which no walk finds the page.
FIRST = "cpu 0 pcid 0 page 0x0 frame 0x5000 rwxrwxrw"
FIRST_OF_1 = "cpu 0 pcid 1 page 0x0 frame 0x5000 rwxrwxrw"
NEW = "cpu 0 pcid 0 page 0x2000 frame 0x7000 rwxrwxrw"
NEW_OF_1 = "cpu 0 pcid 1 page 0x2000 frame 0x7000 rwxrwxrw"

POINTS = [
    case("nothing happened", CURRENT + ALL, YES + YES, 0),
    case(
        "a page that an invalidation removes",
        DROP_PAGE + CURRENT + "invlpg 0 0x0\n" + CURRENT,
        no(FIRST) + YES,
        1,
    ),
    case(
        "another processor, which holds it still",
        SECOND + DROP_PAGE + CURRENT + "invlpg 0 0x0\n" + CURRENT,
        no(FIRST, "cpu 1 pcid 0 page 0x0 frame 0x5000 rwxrwxrw") + no("cpu 1 pcid 0 page 0x0 frame 0x5000 rwxrwxrw"),
        1,
    ),
    case(
        "a table that is dropped, and one of its two pages is removed",
        DROP_TABLE + "invlpg 0 0x0\n" + CURRENT,
        no("cpu 0 pcid 0 page 0x1000 frame 0x6000 r-xr-xr-"),
        1,
    ),
    case(
        "a page that no walk ever found, of a table under an entry that is held",
        DROP_TABLE + NEW_PAGE + CURRENT + "invlpg 0 0x9000\n" + CURRENT + "invlpg 0 0x2000\n" + CURRENT,
        no(NEW) + no(NEW) + YES,
        1,
        NO_PAGES,
    ),
    case(
        "a global page, which a change of CR3 leaves and one of PGE removes",
        f"set 0 cr4 0xa0\n{put(0x4000, 0x5107)}{DROP_PAGE}set 0 cr3 0x1000\n{CURRENT}set 0 cr4 0x20\n{CURRENT}",
        no(FIRST) + YES,
        1,
    ),
    case("SMEP is turned on", DROP_PAGE + "set 0 cr4 0x100020\n" + CURRENT, YES, 0),
    case(
        "PCIDs that were left, of which each is flushed by itself",
        "set 0 cr4 0x20020\nset 0 cr3 0x1001\nset 0 cr3 0x8000000000008002\n"
        + DROP_PAGE
        + CURRENT
        + ALL
        + "invpcid 0 1 1 0x0\n"
        + ALL
        + "invpcid 0 1 0 0x0\n"
        + ALL,
        YES + no(FIRST, FIRST_OF_1) + no(FIRST) + YES,
        1,
    ),
    case(
        "a point that says no and a last one that says yes end with 1",
        f"{DROP_PAGE}{ALL}set 0 cr3 0x1000\n{ALL}",
        no(FIRST) + YES,
        1,
    ),
    case(
        "processors by number, and PCIDs of each",
        "cpu 7 0x80010001 0x1009 0x20020 0xd00 0x2 0x0 0x0\ncpu 2 0x80010001 0x1000 0x20 0xd00 0x2 0x0 0x0\n"
        + "set 7 cr3 0x8000000000001003\n"
        + DROP_PAGE
        + CURRENT
        + ALL,
        no(FIRST, "cpu 2 pcid 0 page 0x0 frame 0x5000 rwxrwxrw", "cpu 7 pcid 3 page 0x0 frame 0x5000 rwxrwxrw")
        + no(
            FIRST,
            "cpu 2 pcid 0 page 0x0 frame 0x5000 rwxrwxrw",
            "cpu 7 pcid 3 page 0x0 frame 0x5000 rwxrwxrw",
            "cpu 7 pcid 9 page 0x0 frame 0x5000 rwxrwxrw",
        ),
        1,
    ),
    case("a page is new, and one has more rights", NEW_PAGE + put(0x4008, 0x6007) + ALL, YES, 0),
]

REFUSALS = [
    case("a write goes on to the next page", "write 0x1ffc 0102030405060708\n", "line 1 refused: crosses 0x2000\n", 4),
    case("a write goes past memory", "write 0xfffc 0011223344556677\n", "line 1 refused: unknown 0x10000\n", 4),
    case(
        "PCIDs are turned on while one isn't 0",
        "set 0 cr3 0x1008\nset 0 cr4 0x20020\n",
        "line 2 refused: illegal pcid-not-zero\n",
        4,
    ),
    case(
        "a processor comes after an event",
        "ask 0 ur 0x0\ncpu 1 0x80010001 0x1000 0x20 0xd00 0x2 0x0 0x0\n",
        "granted 0x5000\nline 2 refused: late state\n",
        4,
    ),
    case("no such processor", "ask 3 ur 0x0\n", "line 1 refused: no processor 3\n", 4),
    case("no such type", "invpcid 0 4 0 0x0\n", "line 1 refused: bad type\n", 4),
    case("a PCID without PCIDE", "invpcid 0 1 1 0x0\n", "line 1 refused: bad pcid\n", 4),
    case("no canonical address", "invpcid 0 0 0 0x800000000000\n", "line 1 refused: not canonical\n", 4),
    case("two spaces", "ask 0  ur 0x0\n", "line 1 refused: syntax\n", 4),
    case("a comment that is too long", "#" + "a" * 8300 + "\n", "line 1 refused: too long\n", 4),
    case(
        "a point with findings, and then no such scope",
        DROP_PAGE + ALL + "point\n",
        no(FIRST) + "line 3 refused: syntax\n",
        4,
    ),
]


def removal(name, log, *findings, entries=ENTRIES, **registers):
    """A case with one point, which is the last line of its log."""
    return case(name, log, no(*findings) if findings else YES, 1 if findings else 0, entries, **registers)


# Under PCID 1 the processor may hold all that it may under PCID 0, which is the current one again.
BOTH = TO_1 + TO_0
WITH_PCIDS = PAE | PCIDE

INVLPG = [
    removal("any address of the page", DROP_PAGE + "invlpg 0 0xfff\n" + CURRENT),
    removal("the page after it alone", DROP_PAGE + "invlpg 0 0x1000\n" + CURRENT, FIRST),
    removal("any table entry", DROP_TABLE + "invlpg 0 0x40000000\n" + NEW_PAGE + CURRENT, entries=NO_PAGES),
    removal(
        "no page of another PCID",
        BOTH + DROP_PAGE + "invlpg 0 0x0\n" + ALL,
        FIRST_OF_1,
        cr4=WITH_PCIDS,
    ),
    removal(
        "a page of the current PCID, whichever it is",
        TO_1 + DROP_PAGE + "invlpg 0 0x0\n" + ALL,
        FIRST,
        cr4=WITH_PCIDS,
    ),
    removal(
        "no table entry of another PCID",
        BOTH + DROP_TABLE + "invlpg 0 0x0\n" + NEW_PAGE + TO_1 + CURRENT,
        NEW_OF_1,
        entries=NO_PAGES,
        cr4=WITH_PCIDS,
    ),
    removal(
        "a global page of another PCID",
        TO_1 + DROP_PAGE + "invlpg 0 0x0\n" + ALL,
        entries=GLOBAL,
        cr4=WITH_PCIDS | PGE,
    ),
    removal(
        "no global page elsewhere",
        DROP_PAGE + "invlpg 0 0x1000\n" + CURRENT,
        FIRST,
        entries=GLOBAL,
        cr4=PAE | PGE,
    ),
    removal(
        "a large page by any address of it",
        put(0x3000, 0) + "invlpg 0 0x1fffff\n" + CURRENT,
        entries={**ENTRIES, 0x3000: 0x400087},
    ),
    removal("nothing where the address isn't canonical", DROP_PAGE + "invlpg 0 0xffff000000000000\n" + CURRENT, FIRST),
    removal(
        "no table entry where the address isn't canonical",
        DROP_TABLE + "invlpg 0 0x800000000000\n" + NEW_PAGE + CURRENT,
        NEW,
        entries=NO_PAGES,
    ),
    removal(
        "a table entry where the address is canonical under five levels alone",
        DROP_TABLE + "invlpg 0 0x800000000000\n" + NEW_PAGE + CURRENT,
        entries={**NO_PAGES, 0x8000: 0x1007},
        cr3=0x8000,
        cr4=PAE | LA57,
    ),
]

INVPCID_0 = [
    removal("any address of the page", DROP_PAGE + "invpcid 0 0 0 0xfff\n" + CURRENT),
    removal("the page after it alone", DROP_PAGE + "invpcid 0 0 0 0x1000\n" + CURRENT, FIRST),
    removal(
        "a table entry of the address",
        DROP_TABLE + "invpcid 0 0 0 0x2000\n" + NEW_PAGE + CURRENT,
        entries=NO_PAGES,
    ),
    removal(
        "no table entry of another address",
        DROP_TABLE + "invpcid 0 0 0 0x200000\n" + NEW_PAGE + CURRENT,
        NEW,
        entries=NO_PAGES,
    ),
    removal("of PCID 1 alone", BOTH + DROP_PAGE + "invpcid 0 0 1 0x0\n" + ALL, FIRST, cr4=WITH_PCIDS),
    removal("of PCID 0 alone", BOTH + DROP_PAGE + "invpcid 0 0 0 0x0\n" + ALL, FIRST_OF_1, cr4=WITH_PCIDS),
    removal(
        "no table entry of another PCID",
        DROP_TABLE + "invpcid 0 0 1 0x0\n" + NEW_PAGE + CURRENT,
        NEW,
        entries=NO_PAGES,
        cr4=WITH_PCIDS,
    ),
    removal(
        "a table entry of a PCID that isn't current",
        BOTH + DROP_TABLE + "invpcid 0 0 1 0x0\n" + NEW_PAGE + TO_1 + CURRENT,
        entries=NO_PAGES,
        cr4=WITH_PCIDS,
    ),
    removal("no global page", DROP_PAGE + "invpcid 0 0 0 0x0\n" + CURRENT, FIRST, entries=GLOBAL, cr4=PAE | PGE),
]

INVPCID_1 = [
    removal("each page of it, whatever the address", DROP_TABLE + "invpcid 0 1 0 0x40000000\n" + CURRENT),
    removal("an address that isn't canonical", DROP_PAGE + "invpcid 0 1 0 0x800000000000\n" + CURRENT),
    removal("each table entry of it", DROP_TABLE + "invpcid 0 1 0 0x0\n" + NEW_PAGE + CURRENT, entries=NO_PAGES),
    removal("of PCID 1 alone", BOTH + DROP_PAGE + "invpcid 0 1 1 0x0\n" + ALL, FIRST, cr4=WITH_PCIDS),
    removal("of PCID 0 alone", BOTH + DROP_PAGE + "invpcid 0 1 0 0x0\n" + ALL, FIRST_OF_1, cr4=WITH_PCIDS),
    removal(
        "no table entry of another PCID",
        DROP_TABLE + "invpcid 0 1 1 0x0\n" + NEW_PAGE + CURRENT,
        NEW,
        entries=NO_PAGES,
        cr4=WITH_PCIDS,
    ),
    removal(
        "a table entry of a PCID that isn't current",
        BOTH + DROP_TABLE + "invpcid 0 1 1 0x0\n" + NEW_PAGE + TO_1 + CURRENT,
        entries=NO_PAGES,
        cr4=WITH_PCIDS,
    ),
    removal("no global page", DROP_PAGE + "invpcid 0 1 0 0x0\n" + CURRENT, FIRST, entries=GLOBAL, cr4=PAE | PGE),
]

INVPCID_2 = [
    removal("the pages of each PCID", BOTH + DROP_PAGE + "invpcid 0 2 0 0x0\n" + ALL, cr4=WITH_PCIDS),
    removal("a PCID that it names", BOTH + DROP_PAGE + "invpcid 0 2 1 0x5000\n" + ALL, cr4=WITH_PCIDS),
    removal(
        "the table entries of each PCID",
        BOTH + DROP_TABLE + "invpcid 0 2 0 0x0\n" + NEW_PAGE + TO_1 + ALL,
        entries=NO_PAGES,
        cr4=WITH_PCIDS,
    ),
    removal(
        "global pages, of any PCID",
        TO_1 + DROP_PAGE + "invpcid 0 2 0 0x0\n" + ALL,
        entries=GLOBAL,
        cr4=WITH_PCIDS | PGE,
    ),
]

INVPCID_3 = [
    removal("the pages of each PCID", BOTH + DROP_PAGE + "invpcid 0 3 0 0x0\n" + ALL, cr4=WITH_PCIDS),
    removal("a PCID that it names", BOTH + DROP_PAGE + "invpcid 0 3 1 0x5000\n" + ALL, cr4=WITH_PCIDS),
    removal(
        "the table entries of each PCID",
        BOTH + DROP_TABLE + "invpcid 0 3 0 0x0\n" + NEW_PAGE + TO_1 + ALL,
        entries=NO_PAGES,
        cr4=WITH_PCIDS,
    ),
    removal("no global page", DROP_PAGE + "invpcid 0 3 0 0x0\n" + CURRENT, FIRST, entries=GLOBAL, cr4=PAE | PGE),
]

CR3 = [
    removal("without PCIDs, each page", DROP_TABLE + "set 0 cr3 0x1000\n" + CURRENT),
    removal("without PCIDs, whatever its low bits are", DROP_PAGE + "set 0 cr3 0x1018\n" + CURRENT),
    removal(
        "without PCIDs, each table entry",
        DROP_TABLE + "set 0 cr3 0x1000\n" + NEW_PAGE + CURRENT,
        entries=NO_PAGES,
    ),
    removal(
        "without PCIDs, no global page",
        DROP_PAGE + "set 0 cr3 0x1000\n" + CURRENT,
        FIRST,
        entries=GLOBAL,
        cr4=PAE | PGE,
    ),
    removal("the pages of the PCID that it names", TO_1 + DROP_TABLE + "set 0 cr3 0x1000\n" + CURRENT, cr4=WITH_PCIDS),
    removal("no page of the PCID before", DROP_PAGE + "set 0 cr3 0x1001\n" + ALL, FIRST, cr4=WITH_PCIDS),
    removal(
        "no page of a third PCID",
        BOTH + DROP_PAGE + "set 0 cr3 0x1002\n" + ALL,
        FIRST,
        FIRST_OF_1,
        cr4=WITH_PCIDS,
    ),
    removal(
        "the table entries of the PCID that it names",
        TO_1 + DROP_TABLE + "set 0 cr3 0x1000\n" + NEW_PAGE + CURRENT,
        entries=NO_PAGES,
        cr4=WITH_PCIDS,
    ),
    removal(
        "no table entry of the PCID before",
        DROP_TABLE + "set 0 cr3 0x1001\n" + NEW_PAGE + TO_0 + CURRENT,
        NEW,
        entries=NO_PAGES,
        cr4=WITH_PCIDS,
    ),
    removal("no global page", DROP_PAGE + "set 0 cr3 0x1000\n" + CURRENT, FIRST, entries=GLOBAL, cr4=WITH_PCIDS | PGE),
    removal("with bit 63, no page", DROP_PAGE + TO_0 + CURRENT, FIRST, cr4=WITH_PCIDS),
    removal(
        "with bit 63, no table entry",
        DROP_TABLE + TO_0 + NEW_PAGE + CURRENT,
        NEW,
        entries=NO_PAGES,
        cr4=WITH_PCIDS,
    ),
]


def cr4(value):
    return f"set 0 cr4 {value:#x}\n"


SMEP_RIGHTS = "cpu 0 pcid 1 page 0x0 frame 0x5000 rwxrw-rw"
LASS_RIGHTS = "cpu 0 pcid 0 page 0x0 frame 0x5000 rwxrw-rw"

CR4 = [
    removal("PGE is turned on", DROP_TABLE + cr4(PAE | PGE) + CURRENT),
    removal("PGE is turned off, with a global page", DROP_PAGE + cr4(PAE) + CURRENT, entries=GLOBAL, cr4=PAE | PGE),
    removal("PGE is turned on, with other PCIDs", BOTH + DROP_PAGE + cr4(WITH_PCIDS | PGE) + ALL, cr4=WITH_PCIDS),
    removal("PGE is turned off, with other PCIDs", BOTH + DROP_PAGE + cr4(WITH_PCIDS) + ALL, cr4=WITH_PCIDS | PGE),
    removal(
        "PGE is turned on, with table entries",
        BOTH + DROP_TABLE + cr4(WITH_PCIDS | PGE) + NEW_PAGE + TO_1 + ALL,
        entries=NO_PAGES,
        cr4=WITH_PCIDS,
    ),
    removal("PGE stays on", DROP_PAGE + cr4(PAE | PGE) + CURRENT, FIRST, cr4=PAE | PGE),
    removal("PCIDE is turned off", BOTH + DROP_PAGE + cr4(PAE) + ALL, cr4=WITH_PCIDS),
    removal(
        "PCIDE is turned off, with a global page",
        DROP_PAGE + cr4(PAE | PGE) + CURRENT,
        entries=GLOBAL,
        cr4=WITH_PCIDS | PGE,
    ),
    removal(
        "PCIDE is turned off, with table entries",
        DROP_TABLE + cr4(PAE) + NEW_PAGE + CURRENT,
        entries=NO_PAGES,
        cr4=WITH_PCIDS,
    ),
    removal("PCIDE is turned on", DROP_PAGE + cr4(WITH_PCIDS) + CURRENT, FIRST),
    removal(
        "PCIDE is turned on, with a table entry",
        DROP_TABLE + cr4(WITH_PCIDS) + NEW_PAGE + CURRENT,
        NEW,
        entries=NO_PAGES,
    ),
    removal("PCIDE stays on", DROP_PAGE + cr4(WITH_PCIDS) + CURRENT, FIRST, cr4=WITH_PCIDS),
    removal("SMEP is turned on, with another page", DROP_TABLE + cr4(PAE | SMEP) + CURRENT),
    removal(
        "SMEP is turned on, with a global page",
        DROP_PAGE + cr4(PAE | PGE | SMEP) + CURRENT,
        entries=GLOBAL,
        cr4=PAE | PGE,
    ),
    removal(
        "SMEP is turned on, with a table entry",
        DROP_TABLE + cr4(PAE | SMEP) + NEW_PAGE + CURRENT,
        entries=NO_PAGES,
    ),
    removal(
        "SMEP is turned on, with another PCID",
        BOTH + DROP_PAGE + cr4(WITH_PCIDS | SMEP) + ALL,
        SMEP_RIGHTS,
        cr4=WITH_PCIDS,
    ),
    removal(
        "SMEP is turned on, with a table entry of another PCID",
        BOTH + DROP_TABLE + cr4(WITH_PCIDS | SMEP) + NEW_PAGE + TO_1 + CURRENT,
        "cpu 0 pcid 1 page 0x2000 frame 0x7000 rwxrw-rw",
        entries=NO_PAGES,
        cr4=WITH_PCIDS,
    ),
    removal(
        "SMEP is turned on, with a global page of another PCID",
        TO_1 + DROP_PAGE + cr4(WITH_PCIDS | PGE | SMEP) + CURRENT,
        SMEP_RIGHTS,
        entries=GLOBAL,
        cr4=WITH_PCIDS | PGE,
    ),
    removal("SMEP is turned on, and PGE too", BOTH + DROP_PAGE + cr4(WITH_PCIDS | PGE | SMEP) + ALL, cr4=WITH_PCIDS),
    removal("SMEP is turned off", DROP_PAGE + cr4(PAE) + CURRENT, FIRST, cr4=PAE | SMEP),
    removal(
        "SMEP stays on",
        DROP_PAGE + cr4(PAE | SMEP) + CURRENT,
        "cpu 0 pcid 0 page 0x0 frame 0x5000 rwxrw-rw",
        cr4=PAE | SMEP,
    ),
    removal("SMAP is turned on", DROP_PAGE + cr4(PAE | SMAP) + CURRENT, "cpu 0 pcid 0 page 0x0 frame 0x5000 rwx--x--"),
]

OTHERS = [
    case(
        "no other event removes anything",
        DROP_PAGE
        + "set 0 cr0 0x80000001\npoint all\nset 0 efer 0x500\npoint all\n"
        + "set 0 ac 1\npoint all\nset 0 pkru 0x3\npoint all\n"
        + "set 0 pkrs 0x3\npoint all\nask 0 ur 0x0\npoint all\nlist 0\npoint all\n"
        + put(0x4000, 0)
        + "point all\n",
        no(FIRST) * 5
        + "denied absent 1\n"
        + no(FIRST)
        + "areas 1\n0x1000 0x1fff 0x6000 r-xrwxrw\n"
        + no(FIRST)
        + no(FIRST),
        1,
    ),
]

# Each event that removes what is of the first page, on another processor. Its own page is removed there.
ON_ANOTHER = [
    case(f"on another processor: {event}", SECOND + DROP_PAGE + f"{event}\n{CURRENT}", no(FIRST), 1)
    for event in (
        "invlpg 1 0x0",
        "invpcid 1 0 0 0x0",
        "invpcid 1 1 0 0x0",
        "invpcid 1 2 0 0x0",
        "invpcid 1 3 0 0x0",
        "set 1 cr3 0x1000",
        "set 1 cr4 0xa0",
        "set 1 cr4 0x100020",
    )
]

MAKING = [
    removal(
        "nothing is made under a PCID that isn't current",
        "set 0 cr3 0x8001\n" + NEW_PAGE + put(0x4010, 0) + TO_0 + ALL,
        cr4=WITH_PCIDS,
    ),
    removal(
        "a table entry that is held makes nothing while its PCID isn't current",
        DROP_TABLE + TO_1 + NEW_PAGE + put(0x4010, 0) + TO_0 + ALL,
        entries=NO_PAGES,
        cr4=WITH_PCIDS,
    ),
    removal("no page is global without PGE", DROP_PAGE + "set 0 cr3 0x1000\n" + CURRENT, entries=GLOBAL),
    removal(
        "no table entry is global",
        DROP_TABLE + "set 0 cr3 0x1000\n" + NEW_PAGE + CURRENT,
        entries={**NO_PAGES, 0x3000: 0x4007 | G},
        cr4=PAE | PGE,
    ),
    removal(
        "a global page under another PCID, whose tables have none",
        f"set 0 cr3 0x8001\n{CURRENT}",
        FIRST_OF_1,
        entries=GLOBAL,
        cr4=WITH_PCIDS | PGE,
    ),
    removal("a page that isn't global, under another PCID", f"set 0 cr3 0x8001\n{CURRENT}", cr4=WITH_PCIDS | PGE),
    removal("a PCID is judged by the root that it had last", f"set 0 cr3 0x8001\n{ALL}", cr4=WITH_PCIDS),
    removal(
        "a PCID that comes back with another root",
        f"set 0 cr3 {KEEP | 0x8000:#x}\n{CURRENT}",
        FIRST,
        cr4=WITH_PCIDS,
    ),
    removal(
        "a table that maps itself: the page that is dropped was each level's",
        put(0x1800, 0) + CURRENT,
        "cpu 0 pcid 0 page 0xffff800000000000 frame 0x4000 rwxrwxrw",
        entries={**ENTRIES, 0x1800: 0x1007},
    ),
    removal(
        "a write of some bytes of an entry",
        "write 0x4008 000000\n" + CURRENT,
        "cpu 0 pcid 0 page 0x1000 frame 0x6000 r-xr-xr-",
    ),
    Case(
        "nothing is made of an entry that is known in part",
        [(0, page_tables()[:0x400C])],
        YES,
        log="write 0x4008 00\n" + CURRENT,
    ),
    Case(
        "an entry in two segments",
        [(0, page_tables()[:0x4004]), (0x4004, page_tables()[0x4004:])],
        no(FIRST),
        log="write 0x4000 00\n" + CURRENT,
        status=1,
    ),
    removal(
        "no page of 1 GByte is made where the machine has none",
        put(0x2008, 0) + ALL,
        entries={**ENTRIES, 0x2008: 0x40000087},
        big=0,
    ),
    removal(
        "a page of 1 GByte",
        put(0x2008, 0) + ALL,
        "cpu 0 pcid 0 page 0x40000000 frame 0x40000000 rwxrwxrw",
        entries={**ENTRIES, 0x2008: 0x40000087},
    ),
    removal(
        "nothing is made of a large page with a bit of the frame of a small one",
        put(0x2008, 0) + put(0x3008, 0) + ALL,
        entries={**ENTRIES, 0x2008: 0x60000087, 0x3008: 0x402087},
    ),
    removal("the low bits of CR3 are no PCID without PCIDE", DROP_PAGE + ALL, FIRST, cr3=0x1018),
    removal(
        "a PCID under which nothing was made, and a global page",
        f"set 0 cr3 {KEEP | 0x8001:#x}\n{TO_0}{ALL}",
        FIRST_OF_1,
        entries=GLOBAL,
        cr4=WITH_PCIDS | PGE,
    ),
    removal(
        "five levels: a page of the upper half",
        put(0x8FF8, 0) + CURRENT,
        "cpu 0 pcid 0 page 0xffff000000000000 frame 0x5000 rwxrwxrw",
        entries={**ENTRIES, 0x8000: 0x1007, 0x8FF8: 0x1007},
        cr3=0x8000,
        cr4=PAE | LA57,
    ),
    removal(
        "execute-disable is reserved without NXE",
        DROP_PAGE + CURRENT,
        entries={**ENTRIES, 0x4000: XD | 0x5007},
        efer=0x500,
    ),
]

# A table that maps the lowest 2 MBytes to the frames from 0x400000 on.
SAME_FRAMES = {0x8000 + 8 * slot: 0x400000 + 0x1000 * slot | 7 for slot in range(512)}
LARGE = {**ENTRIES, **SAME_FRAMES, 0x3000: 0x400087}

JUDGING = [
    removal("less rights", put(0x4000, 0x5005) + CURRENT, "cpu 0 pcid 0 page 0x0 frame 0x5000 -w--w--w"),
    removal("another frame", put(0x4000, 0x7007) + CURRENT, FIRST),
    removal("fetches of the lower half, which LASS refuses", DROP_PAGE + cr4(PAE | LASS) + CURRENT, LASS_RIGHTS),
    removal(
        "another frame, and less rights before",
        put(0x4000, 0x5005) + put(0x4000, 0x7007) + CURRENT,
        "cpu 0 pcid 0 page 0x0 frame 0x5000 r-xr-xr-",
    ),
    removal(
        "the least frame of several",
        put(0x4000, 0x9007) + put(0x4000, 0x3007) + put(0x4000, 0x8007) + CURRENT,
        "cpu 0 pcid 0 page 0x0 frame 0x3000 rwxrwxrw",
    ),
    removal(
        "a right that an upper entry refuses",
        put(0x2000, 0x3003) + CURRENT,
        "cpu 0 pcid 0 page 0x0 frame 0x5000 rwx-----",
    ),
    removal(
        "rights are joined: one that an upper entry refuses",
        DROP_PAGE + CURRENT,
        "cpu 0 pcid 0 page 0x0 frame 0x5000 ---r-xr-",
        entries={**ENTRIES, 0x3000: 0x4001},
    ),
    removal(
        "the least rights of one frame, of two translations of it",
        put(0x3000, 0x4003) + DROP_PAGE + CURRENT,
        "cpu 0 pcid 0 page 0x0 frame 0x5000 ---r-xr-",
        entries={**ENTRIES, 0x3000: 0x4001},
    ),
    removal(
        "a user page is a supervisor page",
        put(0x4008, 0x6003) + CURRENT,
        "cpu 0 pcid 0 page 0x1000 frame 0x6000 r-x-----",
    ),
    removal("accessed and dirty", put(0x4000, 0x5067) + CURRENT),
    case(
        "the registers of the point: keys, and WP",
        put(0x4000, KEY_1 | 0x5007)
        + CURRENT
        + cr4(PAE | PKE)
        + "set 0 pkru 0x4\n"
        + CURRENT
        + "set 0 pkru 0x8\n"
        + CURRENT
        + "set 0 cr0 0x80000001\n"
        + CURRENT
        + "set 0 pkru 0x0\n"
        + CURRENT,
        YES
        + no("cpu 0 pcid 0 page 0x0 frame 0x5000 rw-rw-rw")
        + no("cpu 0 pcid 0 page 0x0 frame 0x5000 -w--w--w")
        + no("cpu 0 pcid 0 page 0x0 frame 0x5000 -w------")
        + YES,
        1,
    ),
    case(
        "the registers of the point: SMAP, and AC",
        put(0x4000, 0x5003) + CURRENT + cr4(PAE | SMAP) + CURRENT + "set 0 ac 1\n" + CURRENT,
        no("cpu 0 pcid 0 page 0x0 frame 0x5000 rwx-----") * 3,
        1,
    ),
    removal(
        "rights of none: a page that grants nothing, and isn't there",
        put(0x4000, 0) + cr4(PAE | PKE) + "set 0 pkru 0x4\n" + CURRENT,
        "cpu 0 pcid 0 page 0x0 frame 0x5000 --------",
        entries={**ENTRIES, 0x4000: XD | KEY_1 | 0x5007},
    ),
    removal(
        "decoded when it was made: execute-disable, and then it is reserved",
        "set 0 efer 0x500\n" + CURRENT,
        "cpu 0 pcid 0 page 0x0 frame 0x5000 rw-rw-rw",
        entries={**ENTRIES, 0x4000: XD | 0x5007},
    ),
    removal("a large page is split, and nothing changes", put(0x3000, 0x8007) + CURRENT, entries=LARGE),
    removal(
        "a large page is split, and a page of it has another frame",
        put(0x3000, 0x8007) + put(0x8010, 0x9007) + CURRENT,
        "cpu 0 pcid 0 page 0x2000 frame 0x402000 rwxrwxrw",
        entries=LARGE,
    ),
    removal(
        "a large page is split, and its last page is dropped",
        put(0x8FF8, 0) + put(0x3000, 0x8007) + CURRENT,
        "cpu 0 pcid 0 page 0x1ff000 frame 0x5ff000 rwxrwxrw",
        entries=LARGE,
    ),
    removal(
        "small pages become a large one of the same frames",
        put(0x3000, 0x400087) + CURRENT,
        entries={**LARGE, 0x3000: 0x8007},
    ),
    removal(
        "a page of 1 GByte is split into pages of 2 MBytes and of 4 KBytes, of which one has less rights",
        put(0x2008, 0x7007) + CURRENT,
        "cpu 0 pcid 0 page 0x40201000 frame 0x40201000 -w--w--w",
        entries={
            **{**ENTRIES, 0x2008: 0x40000087, 0x7000: 0x40000087, 0x7008: 0x9007},
            **{0x9000: 0x40200007, 0x9008: 0x40201005},
        },
    ),
]

CASES = [
    *POINTS,
    *REFUSALS,
    *INVLPG,
    *INVPCID_0,
    *INVPCID_1,
    *INVPCID_2,
    *INVPCID_3,
    *CR3,
    *CR4,
    *OTHERS,
    *ON_ANOTHER,
    *MAKING,
    *JUDGING,
]
