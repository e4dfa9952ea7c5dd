"""The protocol of QEMU's gdb stub: packets, registers, memory, breakpoints and stops.

A packet is `$`, its text, `#` and two digits: the sum of the text's bytes modulo 256. The other side answers `+` where
the sum is right. In a text `}` makes the next byte another one, with bit 5 turned.
"""
import re
import socket
import time

from qemu_record import Refusal
from qemu_record.instructions import GENERAL

NEEDED = {*GENERAL, "rip", "eflags", "cr0", "cr3", "cr4", "efer", "fs_base", "gs_base"}
CLOSED = "QEMU's gdb stub closed the connection"


class GuestEnded(Exception):
    """The guest ended by itself."""


class Stub:
    """A connection to a stub. Processors have the numbers from 0 on; the stub's threads those from 1 on."""

    def __init__(self, connection, patience=30.0):
        self.connection = connection
        self.patience = patience
        self.buffer = bytearray()
        self.layout = None

    # Packets.

    def send(self, text):
        data = text.encode("latin-1")
        try:
            self.connection.sendall(b"$%s#%02x" % (data, sum(data) & 0xFF))
        except OSError:
            raise Refusal(CLOSED) from None

    def receive(self, deadline):
        """The text of the next packet, or None where none comes until the deadline."""
        while True:
            # Of a copy: what is found has to outlast what is taken out of the buffer.
            found = re.match(rb"[^$]*\$([^#]*)#(..)", bytes(self.buffer), re.DOTALL)
            if found:
                break
            if not self.fill(deadline):
                return None
        del self.buffer[: found.end()]
        if f"{sum(found[1]) & 0xFF:02x}".encode() != found[2].lower():
            raise Refusal("a packet of QEMU's gdb stub has a wrong sum")
        try:
            self.connection.sendall(b"+")
        except OSError:
            # The guest's last packet comes without anybody who waits for an answer.
            pass
        return re.sub(rb"}(.)", lambda it: bytes([it[1][0] ^ 0x20]), found[1], flags=re.DOTALL).decode("latin-1")

    def fill(self, deadline):
        left = deadline - time.monotonic()
        if left <= 0:
            return False
        self.connection.settimeout(left)
        try:
            data = self.connection.recv(65536)
        except socket.timeout:
            return False
        except OSError:
            data = b""
        if not data:
            raise Refusal(CLOSED)
        self.buffer += data
        return True

    def ask(self, text):
        """The stub's answer to a request."""
        self.send(text)
        answer = self.receive(time.monotonic() + self.patience)
        if answer is None:
            raise Refusal(f"QEMU's gdb stub doesn't answer `{text}`")
        return answer

    def require(self, text):
        answer = self.ask(text)
        if answer != "OK":
            raise Refusal(f"QEMU's gdb stub answers `{text}` with `{answer}`")

    # Registers and memory.

    def processors(self):
        """How many processors there are."""
        count, answer = 0, self.ask("qfThreadInfo")
        while answer.startswith("m"):
            count += answer.count(",") + 1
            answer = self.ask("qsThreadInfo")
        if answer != "l" or count == 0:
            raise Refusal("QEMU's gdb stub doesn't list the processors")
        return count

    def feature(self, name):
        """The inclusions and registers in a file in which the stub describes its registers, with their attributes."""
        text, answer = "", "m"
        while answer[:1] == "m":
            answer = self.ask(f"qXfer:features:read:{name}:{len(text):x},ffb")
            text += answer[1:]
        if answer[:1] != "l":
            raise Refusal("QEMU's gdb stub doesn't describe its registers")
        # Not read as XML: the file of QEMU 7.2 uses a prefix of names that it doesn't declare.
        text = re.sub(r"<!--.*?-->", "", text, flags=re.DOTALL)
        for kind, attributes in re.findall(r"<(xi:include|reg)\b([^>]*)>", text):
            yield kind, dict(re.findall(r'(\w+)="([^"]*)"', attributes))

    def read_layout(self, name="target.xml"):
        """The registers in the order in which `g` has them, each with its number of bytes."""
        for kind, attributes in self.feature(name):
            if kind == "reg" and {"name", "bitsize"} <= attributes.keys() and attributes["bitsize"].isdecimal():
                yield attributes["name"], int(attributes["bitsize"]) // 8
            elif kind == "xi:include" and attributes.get("href", name) != name:
                yield from self.read_layout(attributes["href"])

    def registers(self, processor):
        """The registers of a processor, by name. The stub reads memory as that processor does from then on."""
        if self.layout is None:
            self.layout = list(self.read_layout())
        self.require(f"Hg{processor + 1:x}")
        data = self.bytes("g") or b""
        values, at = {}, 0
        for name, size in self.layout:
            values[name] = int.from_bytes(data[at : at + size], "little")
            at += size
        if at > len(data) or not NEEDED <= values.keys():
            raise Refusal("QEMU's gdb stub doesn't show all registers that are needed")
        return values

    def bytes(self, request):
        """An answer that is bytes in hexadecimal, or None where it is another one."""
        try:
            return bytes.fromhex(self.ask(request))
        except ValueError:
            return None

    def memory(self, address, count):
        """Bytes from a linear address on, as the processor reads them whose registers were read last; or None."""
        data = self.bytes(f"m{address:x},{count:x}")
        return data if data is not None and len(data) == count else None

    # Stops.

    def insert_breakpoint(self, address):
        self.require(f"Z0,{address:x},1")

    def remove_breakpoint(self, address):
        self.require(f"z0,{address:x},1")

    def go_on(self):
        self.send("vCont;c")

    def step(self, processor):
        """One instruction of one processor, without interrupts. The other processors stay where they are."""
        self.send(f"vCont;s:{processor + 1:x}")
        if self.stopped(time.monotonic() + self.patience) != processor:
            raise Refusal(f"processor {processor} doesn't take a step")

    def interrupt(self):
        try:
            self.connection.sendall(b"\x03")
        except OSError:
            raise Refusal(CLOSED) from None
        if self.stopped(time.monotonic() + self.patience) is None:
            raise Refusal("the guest doesn't stop")

    def stopped(self, deadline):
        """The processor that stopped, or None where none does until the deadline."""
        answer = self.receive(deadline)
        if answer is None:
            return None
        if answer[:1] in ("W", "X"):
            raise GuestEnded
        found = re.match(r"T..(?:[^;]*;)*?thread:(?:p[0-9a-f]+\.)?([0-9a-f]+);", answer)
        if not found:
            raise Refusal(f"QEMU's gdb stub answers a stop with `{answer}`")
        return int(found[1], 16) - 1
