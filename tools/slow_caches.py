"""A slow session that answers points: what each processor may hold, moment by moment from the beginning.

It goes by sets alone: after each event it has all that a processor may hold, for every address. That is what was there
before and the event didn't remove, and what the processor may make now, of the slots of its tables and of each table
entry that it holds. A point then tries each page at which what is held and what a walk finds may come to differ.
"""
import collections
import dataclasses
from typing import NamedTuple

from slow_session import KEEP, KINDS, PCIDE, PGE, SMEP, Page, Session, size_of

NO_RIGHTS = "-" * len(KINDS)

# What findings are counted by.
CASES_OF_FINDINGS = (
    "findings",
    "findings under a PCID that isn't current",
    "findings of a global translation",
    "findings of a global translation of another PCID",
    "findings of a page of 2 MBytes",
    "findings of a page of 1 GByte",
    "findings inside a large page, after its start",
    "findings under five levels",
    "findings in the upper half",
    "findings of a translation that no walk ever gave",
    "findings without rights",
    "findings of some of the rights",
)


class Held(NamedTuple):
    """What a processor may hold of a slot: the PCID under which it was made, its level and the first address of the
    slot; a translation or a table entry, its frame, the joined bits of its walk, and its key; whether it is global."""

    pcid: int
    level: int
    first: int
    is_leaf: bool
    frame: int
    write: bool
    user: bool
    xd: bool
    key: int
    is_global: bool

    def covers(self, address):
        return self.first <= address < self.first + size_of(self.level)


class Finding(NamedTuple):
    """A stale translation at a page; the least of them comes first."""

    page: int
    frame: int
    excess: int
    rights: str
    held: Held


def removes(event, number, before, held):
    """Whether an event removes what a processor holds, whose registers before it are given."""
    match event:
        case ("invlpg", to, address) if to == number and before.is_canonical(address):
            if held.is_leaf:
                return held.covers(address) and (held.is_global or held.pcid == before.pcid)
            return held.pcid == before.pcid
        case ("invpcid", to, 0, pcid, address) if to == number:
            return held.pcid == pcid and not held.is_global and held.covers(address)
        case ("invpcid", to, 1, pcid, _) if to == number:
            return held.pcid == pcid and not held.is_global
        case ("invpcid", to, 2, _, _) if to == number:
            return True
        case ("invpcid", to, 3, _, _) if to == number:
            return not held.is_global
        case ("set", to, "cr3", value) if to == number:
            if not before.cr4 & PCIDE:
                return held.pcid == 0 and not held.is_global
            return not value & KEEP and held.pcid == value & 0xFFF and not held.is_global
        case ("set", to, "cr4", value) if to == number:
            if (value ^ before.cr4) & PGE or (before.cr4 & PCIDE and not value & PCIDE):
                return True
            return bool(value & SMEP and not before.cr4 & SMEP) and held.pcid == before.pcid
    return False


class Table(NamedTuple):
    """A table that is read at a level: its first address, its frame, and the joined bits of the entries above."""

    first: int
    frame: int
    write: bool
    user: bool
    xd: bool


def table_of(held):
    return Table(held.first, held.frame, held.write, held.user, held.xd)


def made_of(space, level, table):
    """What a processor may make of the slots of a table."""
    registers = space.registers
    has_global = registers.cr4 & PGE != 0
    for index, number in space.memory.slots_of(table.frame):
        entry = space.entry(level, number)
        if isinstance(entry, str):
            continue
        first = space.first_of(level, index, table.first)
        bits = table.write and entry.write, table.user and entry.user, table.xd or entry.xd
        is_global = entry.is_global and has_global
        yield Held(registers.pcid, level, first, entry.is_leaf, entry.frame, *bits, entry.key, is_global)


class Caches:
    """What a processor may hold, the root that each PCID had last, and each translation of a walk from the root."""

    def __init__(self):
        self.held = set()
        self.roots = {}
        self.walked = set()

    def fill(self, space):
        """Adds what the processor may make at a moment, from the top table down: at each level of the slots of all
        tables that it holds an entry for, among which are those that a walk reads."""
        pcid = space.registers.pcid
        self.roots[pcid] = space.root
        tables = reached = {Table(0, space.root, True, True, False)}
        for level in range(space.top, 0, -1):
            walked = set()
            for table in tables:
                made = set(made_of(space, level, table))
                self.held |= made
                walked |= made if table in reached else set()
            self.walked |= {held for held in walked if held.is_leaf}
            reached = {table_of(held) for held in walked if not held.is_leaf}
            tables = {
                table_of(held)
                for held in self.held
                if held.level == level and held.pcid == pcid and not held.is_leaf
            }

    def usable(self, pcid):
        """The translations that may be used under a PCID."""
        return [held for held in self.held if held.is_leaf and (held.pcid == pcid or held.is_global)]


class Present:
    """What the tables of a root map, page by page."""

    def __init__(self, space):
        self.space = space
        self.pages = {}

    def walk(self, page):
        if page not in self.pages:
            self.pages[page] = self.space.walk(page)
        return self.pages[page]

    def first_pages(self, held):
        """The first page of each part of a translation, by ascending address: all of a part is of one page of the
        present tables, or of none."""
        if held.level == 1:
            return [held.first]
        space, last = self.space, held.first + size_of(held.level) - 1
        pages = {held.first}
        for first, level in space.leaves(space.top, space.root, 0, held.first, last):
            pages |= {first, first + size_of(level)}
        return sorted(page for page in pages if held.covers(page))

    def excess(self, held, page):
        """The rights that a translation grants at a page beyond the present ones; None where it isn't stale there."""
        there = self.walk(page)
        same_frame = isinstance(there, Page) and there.frame == held.frame + page - held.first
        if same_frame and there[2:] == (held.write, held.user, held.xd, held.key):
            return None
        grants = self.space.rights(page, held)
        if not same_frame:
            return grants
        present = self.space.rights(page, there)
        rights = "".join("-" if now != "-" else letter for letter, now in zip(grants, present))
        return None if rights == NO_RIGHTS else rights

    def first_stale(self, held):
        """The least page at which a translation is stale, as a finding."""
        for page in self.first_pages(held):
            rights = self.excess(held, page)
            if rights is not None:
                number = sum(1 << place for place, letter in enumerate(rights) if letter != "-")
                return Finding(page, held.frame + page - held.first, number, rights, held)
        return None


class Audit(Session):
    """A session that answers points. It counts which cases came up in them."""

    def __init__(self, segments, processors, machine=None):
        super().__init__(segments, processors, machine)
        self.seen = collections.Counter()
        self.caches = {}
        self.findings = []
        self.start()

    def start(self):
        """Before the first event a processor may hold what it may make then."""
        self.caches = {number: Caches() for number in self.processors}
        for number, caches in self.caches.items():
            caches.fill(self.space(number))

    def step(self, event):
        before = {number: dataclasses.replace(registers) for number, registers in self.processors.items()}
        text = super().step(event)
        if event[0] in ("machine", "cpu"):
            self.start()
        elif event[0] in ("write", "set", "invlpg", "invpcid"):
            # After any other event there is neither less to hold nor more to make.
            for number, caches in self.caches.items():
                caches.held = {held for held in caches.held if not removes(event, number, before[number], held)}
                caches.fill(self.space(number))
        return text

    def point(self, scope):
        self.findings = []
        for number in sorted(self.processors):
            caches = self.caches[number]
            pcids = sorted(caches.roots) if scope == "all" else [self.processors[number].pcid]
            for pcid in pcids:
                present = Present(self.space(number, caches.roots[pcid]))
                stale = [present.first_stale(held) for held in caches.usable(pcid)]
                worst = min(filter(None, stale), default=None)
                if worst:
                    self.findings.append((number, pcid, worst))
        self.count(scope)
        if not self.findings:
            return "point yes"
        self.status = 1
        lines = [
            f"cpu {number} pcid {pcid} page {one.page:#x} frame {one.frame:#x} {one.rights}"
            for number, pcid, one in self.findings
        ]
        return "\n".join([f"point no {len(lines)}", *lines])

    def count(self, scope):
        """Counts a point, and what its findings are."""
        self.seen[f"points {scope}: {'no' if self.findings else 'yes'}"] += 1
        for number, pcid, one in self.findings:
            registers, held = self.processors[number], one.held
            walked = self.caches[number].walked
            grants = self.space(number).rights(one.page, held)
            is_so = (
                True,
                pcid != registers.pcid,
                held.is_global,
                held.pcid != pcid,
                held.level == 2,
                held.level == 3,
                one.page > held.first,
                registers.top == 5,
                one.page >> 63 == 1,
                held not in walked,
                one.rights == NO_RIGHTS,
                one.rights != grants,
            )
            self.seen.update(case for case, holds in zip(CASES_OF_FINDINGS, is_so, strict=True) if holds)

    def size(self):
        """How much all processors may hold."""
        return sum(len(caches.held) for caches in self.caches.values())
