"""From stop to stop: what of the guest is written to the core and to the log."""
import time
from collections import Counter
from dataclasses import dataclass

from qemu_record import Refusal
from qemu_record.core_file import write_core
from qemu_record.elf_text import stops_in
from qemu_record.gdb_stub import GuestEnded
from qemu_record.instructions import LONGEST, address_of, decode
from qemu_record.tables import ADDRESS_BITS, FRAME, Root, TableWatch, translate

HEADING = """\
# Recorded by tools/qemu-record from a guest of QEMU, for the core that was taken at its start.
# Events are what processors did where they were stopped: at each INVLPG, INVPCID, MOV to CR0, CR3 and CR4, and marker
# in the guest's text. No other instruction is one.
# Writes are what such a stop found changed in the frames of page tables since the last one: first in frames that are
# tables since then, then in those that still are, at last in those that are none any more; in each part by address.
# In which order the guest wrote them isn't known, and a value that came and went between two stops isn't seen.
# PKRU and PKRS aren't seen, and stay 0.
"""

# Registers that a log carries, and the bits of theirs that count here.
CONTROL = ("cr0", "cr3", "cr4", "efer")
PE_AND_PG, LME_AND_LMA, PAE, LA57, PCIDE, AC = 1 << 31 | 1, 5 << 8, 1 << 5, 1 << 12, 1 << 17, 1 << 18
# Bit 63 of what is moved to CR3, while PCIDs are on: nothing is invalidated. CR3 itself hasn't it.
KEEP = 1 << 63


@dataclass
class Settings:
    """Where the recorder stops the guest, and for how long it records."""

    # Addresses at which one of our instructions may begin, and those that options name, with what they are.
    stops: dict
    named: dict
    ranges: list
    start_after: float | None = None
    seconds: float | None = None
    timeout: float = 60.0
    scope: str = "current"
    returns: bool = False

    def starts(self):
        return self.addresses({"start"})

    def addresses(self, kinds):
        found = {address for address, kind in self.stops.items() if kind in kinds}
        return found | {address for address, names in self.named.items() if names & kinds}

    def recorded(self):
        kinds = {"invlpg", "invpcid", "cr0", "cr3", "cr4", "point", "end", "stop"}
        return self.addresses(kinds | {"return"} if self.returns else kinds)


def is_paging(registers):
    """Whether a processor is in 64-bit paging, as cores and logs want it."""
    return (
        registers["cr0"] & PE_AND_PG == PE_AND_PG
        and registers["efer"] & LME_AND_LMA == LME_AND_LMA
        and registers["cr4"] & PAE == PAE
    )


def carried(registers):
    """What a log carries of the registers that the stub shows."""
    return {**{name: registers[name] for name in CONTROL}, "ac": int(registers["eflags"] & AC != 0)}


def root_of(cr3, cr4):
    return Root(cr3 & ADDRESS_BITS, 5 if cr4 & LA57 else 4)


class Recorder:
    """Records a guest that waits at its first instruction."""

    def __init__(self, stub, memory, image, settings, log):
        self.stub = stub
        self.memory = memory
        self.image = image
        self.settings = settings
        self.log = log
        self.counts = Counter()
        self.processors = range(stub.processors())
        # Of each processor that the core states, what core and log say of its registers so far.
        self.said = {}
        self.watch = None

    # The start.

    def run_to_start(self):
        settings = self.settings
        if settings.start_after is not None:
            self.stub.go_on()
            if self.stub.stopped(time.monotonic() + settings.start_after) is None:
                self.stub.interrupt()
            return
        starts = settings.starts()
        for address in starts:
            self.stub.insert_breakpoint(address)
        deadline = time.monotonic() + settings.timeout
        while True:
            self.stub.go_on()
            processor = self.stub.stopped(deadline)
            if processor is None:
                raise Refusal(f"the guest reached no start in {settings.timeout:g} seconds")
            registers = self.stub.registers(processor)
            if "start" in self.kinds(registers, self.instruction(registers)):
                break
            self.stub.step(processor)
        for address in starts:
            self.stub.remove_breakpoint(address)

    def take_core(self, file, machine):
        """Writes the core, and states the processors that are in 64-bit mode by then."""
        shown = {number: self.stub.registers(number) for number in self.processors}
        notes = {}
        for number, registers in shown.items():
            if is_paging(registers):
                self.said[number] = carried(registers)
                notes[number] = {**{name: registers[name] for name in CONTROL}, "rflags": registers["eflags"]}
        if not notes:
            raise Refusal("no processor is in 64-bit mode at the start")
        core = write_core(file, self.memory, self.settings.ranges, machine, notes)
        roots = self.roots(shown)
        self.watch = TableWatch(self.memory.frame, core.frame)
        self.watch.compare(roots)
        self.log.write(HEADING)
        self.find_stops(roots)

    def find_stops(self, roots):
        """Looks for instructions in the text as it is in memory by now. Systems change theirs while they start."""
        missing = 0
        for address, code in self.image.code():
            first = address & -FRAME
            pages = [self.page(roots, at) for at in range(first, address + len(code), FRAME)]
            missing += pages.count(None)
            text = b"".join(page or bytes(FRAME) for page in pages)
            self.settings.stops.update({first + at: kind for at, kind in stops_in(text).items()})
        if missing:
            self.log.write(f"# Pages of the text that no processor maps at the start: {missing}.\n")
            self.log.write("# There it was stopped at what the ELF file has.\n")

    def page(self, roots, address):
        """The bytes of a page, as the first root has it that maps it, or None."""
        places = (translate(self.memory.frame, root, address) for root in roots)
        return next((self.memory.frame(place & -FRAME) for place in places if place is not None), None)

    # From stop to stop.

    def record(self):
        """Writes the log up to its end. Whether the guest is still there then, and stopped."""
        for address in self.settings.recorded():
            self.stub.insert_breakpoint(address)
        wait = self.settings.timeout if self.settings.seconds is None else self.settings.seconds
        deadline = time.monotonic() + wait
        try:
            while True:
                self.stub.go_on()
                processor = self.stub.stopped(deadline)
                if processor is None:
                    self.out_of_time()
                    return True
                if self.handle_stop(processor):
                    return True
        except GuestEnded:
            self.log.write("# The guest ended.\n")
            return False

    def out_of_time(self):
        if self.settings.seconds is None:
            raise Refusal(f"the guest reached no end in {self.settings.timeout:g} seconds")
        self.stub.interrupt()
        self.write("# The time is over.", self.changes(self.shown_with(self.processors[0])))

    def handle_stop(self, processor):
        """Writes what a stop of a processor tells; whether the record ends with it."""
        shown = self.shown_with(processor)
        registers = shown[processor]
        instruction = self.instruction(registers)
        kinds = self.kinds(registers, instruction)
        lines = self.changes(shown, self.root_to_come(instruction, registers))
        if "point" in kinds:
            lines.append(f"point {self.settings.scope}")
        place = f"# Processor {processor} at {self.image.place(registers['rip'])}."
        if "end" in kinds:
            self.write(place, lines)
            return True
        # A processor that isn't stated is not in 64-bit mode, and what it does is no event.
        event = self.event(processor, instruction, registers) if processor in self.said else None
        self.stub.step(processor)
        after = self.stub.registers(processor)
        # Where the instruction wasn't completed, the processor is elsewhere: at the handler of a fault.
        if event is not None and after["rip"] == registers["rip"] + instruction.length:
            lines.append(self.completed(processor, instruction, registers, after, event))
        self.write(place, lines)
        return False

    def shown_with(self, processor):
        """The registers of all. Those of one processor come last, so that memory is read as it reads it."""
        others = [number for number in self.processors if number != processor]
        shown = {number: self.stub.registers(number) for number in [*others, processor]}
        for number, registers in shown.items():
            if number in self.said and not is_paging(registers):
                raise Refusal(f"processor {number} left 64-bit mode")
            if number not in self.said and is_paging(registers):
                raise Refusal(
                    f"processor {number} came to 64-bit mode after the start, and no line can state it by then: "
                    "the start has to be later"
                )
        return shown

    def instruction(self, registers):
        """The instruction before which a processor is, or None where it is none of ours.

        It is read from memory: the guest may have changed its text since the file was made.
        """
        address = registers["rip"]
        # Where the next page can't be read, the bytes up to its beginning have to do.
        for count in (LONGEST, min(LONGEST, -address % FRAME)):
            code = self.stub.memory(address, count) if count else None
            if code:
                return decode(code)
        return None

    def kinds(self, registers, instruction):
        """What the place is at which a processor is, by options and by the instruction."""
        named = self.settings.named.get(registers["rip"], set())
        return named | {instruction.kind} if instruction else named

    def roots(self, shown):
        return [root_of(shown[number]["cr3"], shown[number]["cr4"]) for number in self.said]

    def root_to_come(self, instruction, registers):
        """The root of a MOV to CR3: its tables have to be known before the processor uses them."""
        if instruction is None or instruction.kind != "cr3":
            return []
        return [root_of(registers[instruction.register], registers["cr4"])]

    def changes(self, shown, more_roots=()):
        """Lines for what changed in the tables and the registers since the last stop."""
        lines = []
        for write in self.watch.compare([*self.roots(shown), *more_roots]):
            lines.append(f"write {write.address:#x} {write.data.hex()}")
        for number, said in self.said.items():
            now = carried(shown[number])
            for name in now:
                if now[name] != said[name]:
                    lines += self.unseen(number, name, now)
            self.said[number] = now
        return lines

    def unseen(self, number, name, now):
        """Lines for a register that changed where the processor wasn't stopped."""
        value = now[name]
        if name in ("cr0", "cr3", "cr4"):
            yield f"# Processor {number} changed {name.upper()} where it wasn't stopped."
        # Nothing says that a flush came with it.
        if name == "cr3" and now["cr4"] & PCIDE:
            value |= KEEP
        yield f"set {number} {name} {value:#x}"

    def event(self, processor, instruction, registers):
        """The line for an instruction that is about to be executed, or None where it is no event."""
        if instruction is None or instruction.kind not in ("invlpg", "invpcid", "cr0", "cr3", "cr4"):
            return None
        if instruction.kind == "invlpg":
            return f"invlpg {processor} {address_of(instruction, registers):#x}"
        if instruction.kind == "invpcid":
            descriptor = self.stub.memory(address_of(instruction, registers), 16)
            if descriptor is None:
                return None
            pcid, address = (int.from_bytes(descriptor[at : at + 8], "little") for at in (0, 8))
            return f"invpcid {processor} {registers[instruction.register]} {pcid} {address:#x}"
        return f"set {processor} {instruction.kind} {registers[instruction.register]:#x}"

    def completed(self, processor, instruction, registers, after, event):
        """The line for an instruction that was executed."""
        kind = instruction.kind
        if kind not in CONTROL:
            return event
        # The register as it is now: some bits of the operand may have been ignored.
        value = self.said[processor][kind] = after[kind]
        if kind == "cr3" and after["cr4"] & PCIDE:
            value |= registers[instruction.register] & KEEP
        return f"set {processor} {kind} {value:#x}"

    def write(self, place, lines):
        if not lines:
            return
        self.log.write("\n".join([place, *lines]) + "\n")
        self.counts.update(line.split(" ")[0] for line in lines)

    def summary(self):
        counts = self.counts
        invalidations = counts["invlpg"] + counts["invpcid"]
        return (
            f"processors {len(self.said)}, writes {counts['write']}, sets {counts['set']}, "
            f"invalidations {invalidations}, points {counts['point']}"
        )
