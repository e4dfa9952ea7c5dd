"""QEMU's process: how it is started, the sockets to it, and its end."""
import json
import os
import socket
import subprocess
import time
from pathlib import Path

from qemu_record import Refusal

# So long a socket may take to be there.
PATIENCE = 20.0


class Guest:
    """A guest of QEMU that, once started, waits at its first instruction. Its memory is a file in a folder."""

    def __init__(self, program, words, mebibytes, folder):
        self.folder = Path(folder)
        self.memory = self.folder / "memory"
        self.complaints = self.folder / "stderr"
        self.process = None
        self.command = [
            program,
            # One processor at a time, so that a stop is one moment of all.
            *("-accel", "tcg,thread=single", "-display", "none", "-no-reboot", "-S"),
            *("-m", str(mebibytes), "-machine", "memory-backend=recorded"),
            *("-object", f"memory-backend-file,id=recorded,size={mebibytes}M,mem-path={self.memory},share=on"),
            *("-gdb", f"unix:{self.folder}/gdb,server=on,wait=off"),
            *("-qmp", f"unix:{self.folder}/qmp,server=on,wait=off"),
            *words,
        ]

    def start(self):
        with open(self.complaints, "wb") as complaints:
            try:
                # A session of its own: an interrupt from the terminal is for the recorder, which ends the guest.
                self.process = subprocess.Popen(
                    self.command,
                    stdin=subprocess.DEVNULL,
                    stdout=subprocess.DEVNULL,
                    stderr=complaints,
                    start_new_session=True,
                )
            except OSError as error:
                raise Refusal(f"{self.command[0]}: {error.strerror}") from None

    def kill(self):
        if self.process is not None:
            self.process.kill()
            self.process.wait()

    def complaint(self):
        """What QEMU said first, but for its warnings. After an error it may give advice."""
        lines = self.complaints.read_text(errors="replace").split("\n")
        return next((line.strip() for line in lines if line.strip() and " warning: " not in line), "it says nothing")

    def connect(self, name):
        """A connection to a socket of the guest, once it is there."""
        deadline = time.monotonic() + PATIENCE
        while time.monotonic() < deadline:
            if self.process.poll() is not None:
                raise Refusal(f"the guest doesn't start: {self.complaint()}")
            connection = socket.socket(socket.AF_UNIX)
            try:
                connection.connect(os.fspath(self.folder / name))
                return connection
            except OSError:
                connection.close()
                time.sleep(0.02)
        raise Refusal(f"the guest doesn't start: QEMU opens no socket in {PATIENCE:.0f} seconds")


class Control:
    """A connection to QEMU's own protocol, QMP: a line of JSON for each request and each answer."""

    def __init__(self, connection):
        connection.settimeout(PATIENCE)
        self.lines = connection.makefile("rwb")
        self.answer("QMP")
        self.ask("qmp_capabilities")

    def answer(self, *names):
        """The next answer that has one of the names; events are skipped."""
        while True:
            try:
                line = self.lines.readline()
                answer = json.loads(line)
            except (OSError, ValueError):
                raise Refusal("QEMU's QMP doesn't answer") from None
            for name in names:
                if isinstance(answer, dict) and name in answer:
                    return answer[name]

    def ask(self, command, **arguments):
        request = json.dumps({"execute": command, "arguments": arguments})
        try:
            self.lines.write(request.encode() + b"\n")
            self.lines.flush()
        except OSError:
            raise Refusal("QEMU's QMP doesn't answer") from None
        answer = self.answer("return", "error")
        if isinstance(answer, dict) and "desc" in answer:
            raise Refusal(f"QEMU answers {command} with: {answer['desc']}")
        return answer

    def machine(self):
        """The physical-address width of the guest's first processor, and whether it has 1-GByte pages."""
        try:
            path = self.ask("query-cpus-fast")[0]["qom-path"]
            width = int(self.ask("qom-get", path=path, property="phys-bits"))
            big = bool(self.ask("qom-get", path=path, property="pdpe1gb"))
        except (LookupError, TypeError, ValueError):
            raise Refusal("QEMU doesn't describe its first processor") from None
        if not 32 <= width <= 52:
            raise Refusal(f"QEMU's first processor has {width} physical-address bits, and not 32 to 52")
        return width, big

    def pages(self, processors):
        """What QEMU's monitor says of the registers and the pages of processors, as in a session with it."""
        lines = []
        for number in processors:
            lines.append(f"(qemu) cpu {number}")
            for command in ("info registers", "info tlb"):
                text = self.ask("human-monitor-command", **{"command-line": command, "cpu-index": number})
                if not isinstance(text, str) or not text.strip():
                    raise Refusal(f"QEMU's monitor doesn't answer `{command}` for processor {number}")
                lines += [f"(qemu) {command}", *text.splitlines()]
        return "".join(line + "\n" for line in lines)
