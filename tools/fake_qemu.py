#!/usr/bin/env -S python3 -B -S
"""A program that stands for QEMU in the tests of qemu-record, and the parts of it.

    fake_qemu.py WORD..

The words are those that qemu-record gives QEMU. It makes the memory's file, and opens both sockets. The guest that it
shows is a script: what its processors do from stop to stop. The last word says how it goes on at the script's end, or
what it does in place of it.
"""
import json
import os
import re
import socket
import struct
import sys
import threading
import time
from dataclasses import dataclass, field

from qemu_record.gdb_stub import GENERAL
from qemu_record.tables import Root, translate

FRAME, LA57 = 4096, 1 << 12
SIZE = 2 << 20
# The page tables: the page at TEXT is the code, and that at PAGE is what the processors unmap.
TOP, POINTERS, DIRECTORY, TABLE, CODE_FRAME, PAGE_FRAME = 0x1000, 0x2000, 0x3000, 0x4000, 0x5000, 0x6000
TEXT, PAGE = 0x10000, 0x11000
ENTRIES = {TOP: POINTERS | 7, POINTERS: DIRECTORY | 7, DIRECTORY: TABLE | 7}
ENTRIES |= {TABLE + 8 * 0x10: CODE_FRAME | 7, TABLE + 8 * 0x11: PAGE_FRAME | 7}

# At each offset of the code one of our instructions: marks of the start, a point and the end; and what invalidates.
CODE = bytes.fromhex("6687c9 0f0138 6687db 0f22d8 0f22e0 660f388207 48cf 6687d2".replace(" ", ""))
START, INVLPG, POINT, CR3, CR4, INVPCID, IRETQ, END = (TEXT + at for at in (0, 3, 6, 9, 12, 15, 20, 22))

# Two files that describe the registers, as QEMU's do: one names the other, and has registers in a comment.
LAYOUT = [*((name, 8) for name in (*GENERAL, "rip")), ("eflags", 4), ("cs", 4)]
LAYOUT += [(name, 8) for name in ("fs_base", "gs_base", "cr0", "cr2", "cr3", "cr4", "efer")] + [("st0", 10)]
FEATURES = {
    "target.xml": '<?xml version="1.0"?><target><xi:include href="registers.xml"/></target>',
    "registers.xml": '<feature name="$}">\n<!--reg name="cs_base" bitsize="64"/>\n<reg name="x" bitsize="8"/-->\n'
    + "\n".join(f'  <reg name="{name}" bitsize="{size * 8}" type="int"/>' for name, size in LAYOUT)
    + "\n<!-- no more -->\n</feature>",
}


@dataclass
class Stop:
    """A processor comes to a place. Before that, memory and registers change; `after` has them after one more step."""

    processor: int
    rip: int
    length: int = 3
    memory: dict = field(default_factory=dict)
    registers: dict = field(default_factory=dict)
    after: dict = field(default_factory=dict)
    others: dict = field(default_factory=dict)


def paging(**more):
    """The registers of a processor in 64-bit mode."""
    return {"cr0": 0x80010011, "cr3": TOP, "cr4": 0x20, "efer": 0xD00, "eflags": 2, **more}


def elf_file(code=CODE, address=TEXT, symbols=None, sections=True):
    """An ELF file with code at an address, and symbols."""
    names, entries = b"\0", bytes(24)
    for name, value in (symbols or {}).items():
        entries += struct.pack("<IBBHQQ", len(names), 0x12, 0, 1, value, 0)
        names += name.encode() + b"\0"
    code_at = 64 + 56
    entries_at = code_at + len(code)
    names_at = entries_at + len(entries)
    table = bytes(64) + struct.pack("<IIQQQQIIQQ", 0, 1, 6, address, code_at, len(code), 0, 0, 1, 0)
    table += struct.pack("<IIQQQQIIQQ", 0, 2, 0, 0, entries_at, len(entries), 3, 0, 8, 24)
    table += struct.pack("<IIQQQQIIQQ", 0, 3, 0, 0, names_at, len(names), 0, 0, 1, 0)
    head = struct.pack("<4sBBBB8xHHIQQQIHHHHHH", b"\x7fELF", 2, 1, 1, 0, 2, 62, 1, address, 64, names_at + len(names),
                       0, 64, 56, 1, 64, 4 if sections else 0, 0)  # fmt: skip
    segment = struct.pack("<IIQQQQQQ", 1, 5, code_at, address, address, len(code), len(code), 1)
    return head + segment + code + entries + names + (table if sections else b"")


def first_memory(code=CODE):
    memory = bytearray(SIZE)
    for address, entry in ENTRIES.items():
        struct.pack_into("<Q", memory, address, entry)
    memory[CODE_FRAME : CODE_FRAME + len(code)] = code
    return memory


class FakeStub:
    """The stub's side of a connection, over a memory that can be written to."""

    def __init__(self, connection, memory, processors, script, ending="exit"):
        self.connection = connection
        self.memory = memory
        self.processors = [{name: 0 for name, _ in LAYOUT} | registers for registers in processors]
        self.script = list(script)
        self.ending = ending
        self.current = 0
        self.stop = None
        self.breakpoints = set()
        self.requests = []

    def serve(self):
        """Answers until the other side closes the connection."""
        data = b""
        while True:
            try:
                more = self.connection.recv(4096)
            except OSError:
                return
            if not more:
                return
            data += more
            while found := re.match(rb"\+*(?:\$([^#]*)#..|(\x03))", data, re.DOTALL):
                data = data[found.end() :]
                if self.answer("\x03" if found[2] else found[1].decode()) == "close":
                    self.connection.close()
                    return

    def say(self, text):
        escaped = re.sub(r"[#$}*]", lambda it: "}" + chr(ord(it[0]) ^ 0x20), text).encode("latin-1")
        try:
            self.connection.sendall(b"+$%s#%02x" % (escaped, sum(escaped) & 0xFF))
        except OSError:
            pass

    def answer(self, request):
        self.requests.append(request)
        if request == "vCont;c":
            return self.go_on()
        if request.startswith("vCont;s:"):
            return self.step(int(request[8:], 16) - 1)
        if request == "\x03":
            return self.say("T02thread:01;")
        if request[:2] in ("Z0", "z0"):
            change = self.breakpoints.add if request[0] == "Z" else self.breakpoints.discard
            change(int(request.split(",")[1], 16))
            return self.say("OK")
        if request[:2] == "Hg":
            self.current = int(request[2:], 16) - 1
            return self.say("OK")
        if request.startswith("qXfer:features:read:"):
            _, _, _, name, piece = request.split(":")
            offset, length = (int(part, 16) for part in piece.split(","))
            text = FEATURES[name]
            # Less than what is asked for, so that it takes several requests.
            part = text[offset : offset + min(length, 300)]
            return self.say(("l" if offset + len(part) >= len(text) else "m") + part)
        return self.say(self.plain_answer(request))

    def plain_answer(self, request):
        if request == "qfThreadInfo":
            return "m01"
        if request == "qsThreadInfo":
            # One in each answer, and then the end.
            asked = self.requests.count("qsThreadInfo")
            return f"m{asked + 1:02x}" if asked < len(self.processors) else "l"
        if request == "g":
            registers = self.processors[self.current]
            return b"".join(registers[name].to_bytes(size, "little") for name, size in LAYOUT).hex()
        if request[:1] == "m":
            return self.read(*(int(part, 16) for part in request[1:].split(",")))
        return ""

    def read(self, address, count):
        registers = self.processors[self.current]
        found = b""
        for at in range(address, address + count):
            place = translate(self.frame, Root(registers["cr3"] & ~0xFFF, 5 if registers["cr4"] & LA57 else 4), at)
            if place is None:
                return "E14"
            found += self.memory[place : place + 1]
        return found.hex()

    def frame(self, address):
        return bytes(self.memory[address : address + FRAME]) if address < SIZE else None

    def go_on(self):
        """Goes on to the next place of the script at which there is a breakpoint."""
        while self.script:
            self.stop = self.script.pop(0)
            for address, data in self.stop.memory.items():
                self.memory[address : address + len(data)] = data
            self.processors[self.stop.processor].update(self.stop.registers, rip=self.stop.rip)
            for number, registers in self.stop.others.items():
                self.processors[number].update(registers)
            if self.stop.rip in self.breakpoints:
                return self.say(f"T05thread:{self.stop.processor + 1:02x};")
            self.complete()
        if self.ending == "exit":
            self.say("W00")
        return self.ending

    def complete(self):
        self.processors[self.stop.processor].update({"rip": self.stop.rip + self.stop.length, **self.stop.after})

    def step(self, processor):
        assert processor == self.stop.processor
        self.complete()
        return self.say(f"T05thread:{processor + 1:02x};")


def unmapping(processor=0):
    """The first processor's INVLPG of the page, after its entry was cleared."""
    return Stop(processor, INVLPG, memory={TABLE + 8 * 0x11: bytes(8)}, registers={"rax": PAGE})


SCRIPT = [
    Stop(0, START),
    unmapping(),
    Stop(1, INVLPG, registers={"rax": PAGE}),
    Stop(0, POINT),
    Stop(0, END),
]

# An entry that is there at a return to user mode, and gone at the point.
RETURNS = [
    Stop(0, START),
    Stop(0, IRETQ, 2, {TABLE: b"\x07"}),
    Stop(0, POINT, memory={TABLE: b"\0"}),
    Stop(0, END),
]


def monitor_text(command, processor):
    """What the monitor says of a processor, with the ends of lines that QEMU gives it."""
    registers = f"\r\nCPU#{processor}\r\nRAX={processor:016x}\r\n"
    page = f"{PAGE + FRAME * processor:016x}: {PAGE_FRAME:016x} X------UW\r\n"
    return {"info registers": registers, "info tlb": page * 2}[command]


def serve_qmp(listener, mode):
    """One connection after the other."""
    while True:
        connection, _ = listener.accept()
        with connection, connection.makefile("rwb") as lines:
            answer_qmp(lines, mode)


def answer_qmp(lines, mode):
    def say(what):
        lines.write(json.dumps(what).encode() + b"\n")
        lines.flush()

    say({"QMP": {"version": {}}})
    answers = {"phys-bits": 53 if mode == "wide" else 40, "pdpe1gb": False}
    for line in lines:
        request = json.loads(line)
        say({"event": "NOTHING"})
        if request["execute"] == "query-cpus-fast":
            say({"return": [] if mode == "no-processor" else [{"qom-path": "/machine/cpu"}]})
        elif request["execute"] == "qom-get":
            error = {"error": {"desc": "there is no such property"}}
            say(error if mode == "no-width" else {"return": answers[request["arguments"]["property"]]})
        elif request["execute"] == "human-monitor-command":
            text = monitor_text(request["arguments"]["command-line"], request["arguments"]["cpu-index"])
            error = {"error": {"desc": "there is no monitor"}}
            say(error if mode == "no-monitor" else {"return": {"no-text": 0, "no-pages": " "}.get(mode, text)})
        else:
            say({"return": {}})


def listen(path):
    listener = socket.socket(socket.AF_UNIX)
    listener.bind(path)
    listener.listen()
    return listener


def main():
    words = " ".join(sys.argv[1:])
    mode = sys.argv[-1]
    paths = {name: re.search(rf"{name}[= ](?:unix:)?([^ ,]+)", words)[1] for name in ("mem-path", "-gdb", "-qmp")}
    if pid_file := os.environ.get("FAKE_QEMU_PID"):
        with open(pid_file, "w", encoding="ascii") as file:
            file.write(str(os.getpid()))
    if mode == "refuses":
        sys.exit("fake_qemu: warning: this is no QEMU\nfake_qemu: there is no such machine\nAsk for another one.")
    if mode == "silent":
        sys.exit(1)
    with open(paths["mem-path"], "wb+", buffering=0) as file:
        file.write(first_memory() if mode != "no-memory" else b"")
        qmp = listen(paths["-qmp"])
        threading.Thread(target=serve_qmp, args=(qmp, mode), daemon=True).start()
        # As with QEMU, the memory is there when the stub can be reached.
        connection, _ = listen(paths["-gdb"]).accept()
        scripts = {"never": [], "ends-early": [], "closes": SCRIPT[:2], "hangs": SCRIPT[:2], "returns": RETURNS}
        scripts["ends-late"] = SCRIPT[:-1]
        endings = {"never": "hang", "hangs": "hang", "closes": "close"}
        memory = MappedFile(file)
        processors = [paging(), paging(cr0=0x10) if mode == "one-paging" else paging()]
        FakeStub(connection, memory, processors, scripts.get(mode, SCRIPT), endings.get(mode, "exit")).serve()
    if mode in ("never", "hangs"):
        time.sleep(60)


class MappedFile:
    """A file as memory."""

    def __init__(self, file):
        self.file = file

    def __getitem__(self, piece):
        return os.pread(self.file.fileno(), piece.stop - piece.start, piece.start)

    def __setitem__(self, piece, data):
        os.pwrite(self.file.fileno(), data, piece.start)


if __name__ == "__main__":
    main()
