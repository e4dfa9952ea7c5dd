#!/usr/bin/env python3
"""Refuses memory to a run of the program, at each of its allocations in turn, and checks how the run ends.

    refuse_memory.py [--every COUNT] PROGRAM [CORE LOG]

First the run is done with all the memory that it asks for, and its allocations are counted. Then it is done again for
each allocation, twice: once that one alone is refused, and once it and all after it. Each of these runs has to end in
one of these ways:

- with status 7, and whole lines that the full output begins with;
- with the status of the full run and all of its output, where the program can do without that memory;
- with status 9 and no output, where it didn't get to its files.

Every other end is printed: another status, a signal, another output. The script ends with 1 then, and where the program
allocated nothing that can be refused: the program has to take its memory from a shared C library. --every says to try
each COUNTth allocation only, for a run that has many.

Without CORE and LOG they are made: a core of 2 MBytes, and a log that writes to half of its pages and to the page
tables, and asks in between.

Wants gcc. It isn't part of the merge gate.
"""
import argparse
import collections
import concurrent.futures
import os
import subprocess
import sys
import tempfile
from pathlib import Path

import make_example

TOOLS = Path(__file__).resolve().parent
OUT_OF_MEMORY, NO_ARGUMENTS = 7, 9
SECONDS = 100


def say(text):
    print(f"refuse_memory: {text}", flush=True)


def run(program, core, log, shim, first=0, last=0, count=None):
    """The status of a run and its output, with the allocations from the first to the last one refused."""
    names = {"LD_PRELOAD": shim, "REFUSE_FROM": first, "REFUSE_TO": last, **({"REFUSE_COUNT": count} if count else {})}
    done = subprocess.run(
        [program, "run", core, log],
        env={**os.environ, **{name: str(value) for name, value in names.items()}},
        stdin=subprocess.DEVNULL,
        stdout=subprocess.PIPE,
        stderr=subprocess.PIPE,
        timeout=SECONDS,
        check=False,
    )
    return done.returncode, done.stdout, done.stderr


def way_of(ended, full):
    """Which way a run ended, in words; None for one that it mustn't end in."""
    status, output, error = ended
    if error:
        return None
    if (status, output) == full[:2]:
        return f"status {status} and all of the output"
    if (status, output) == (NO_ARGUMENTS, b""):
        return f"status {NO_ARGUMENTS} and no output"
    if status == OUT_OF_MEMORY and full[1].startswith(output) and (output == b"" or output.endswith(b"\n")):
        return f"status {OUT_OF_MEMORY} and " + ("some lines" if output else "no lines")
    return None


def make_core(path):
    """A core of 512 pages: that of the example, and zeros after it."""
    subprocess.run(
        [sys.executable, "-B", TOOLS / "make_example.py", path, "--segment-bytes", str(512 * 4096)],
        check=True,
    )


def make_log(path):
    """Writes to 256 pages above the page tables, and beside that maps pages and asks for them before and after."""
    lines = []
    for number in range(256):
        lines.append(f"write {(number * 77 % 256 + 256) * 4096 + number * 8:#x} {number:016x}")
        if number % 4 == 0:
            lines.append(f"write {(number + 256) * 4096:#x} {'5a' * 4096}")
        if number % 8 == 0:
            page = 2 + number // 8
            entry = (0x100000 + page * 4096 | 0x7).to_bytes(8, "little")
            ask = f"ask 0 uw {page * 4096 + number:#x}"
            lines += [ask, f"write {0x4000 + 8 * page:#x} {entry.hex()}", ask]
    path.write_text("\n".join(lines) + "\n", encoding="ascii")


def try_all(arguments, core, log, room):
    shim, count = room / "refuse_memory.so", room / "count"
    subprocess.run(
        ["gcc", "-O2", "-Wall", "-Wextra", "-shared", "-fPIC", "-o", shim, TOOLS / "refuse_memory.c"],
        check=True,
    )
    full = run(arguments.program, core, log, shim, count=count)
    calls = int(count.read_text(encoding="ascii")) if count.exists() else 0
    say(f"with all its memory: {calls} allocations, status {full[0]}, {len(full[1].splitlines())} lines")
    if calls == 0:
        say("there is nothing to refuse")
        return 1

    def attempt(span):
        return span, run(arguments.program, core, log, shim, *span)

    numbers = range(1, calls + 1, arguments.every)
    spans = [span for number in numbers for span in ((number, number), (number, 2**64 - 1))]
    ways = collections.Counter()
    wrong = 0
    with concurrent.futures.ThreadPoolExecutor(os.cpu_count()) as pool:
        for (first, last), ended in pool.map(attempt, spans):
            way = way_of(ended, full)
            ways[way or "another end"] += 1
            if way is None:
                wrong += 1
                what = f"allocation {first}" + ("" if first == last else " and all after it")
                say(f"{what}: status {ended[0]}, {len(ended[1])} bytes of output, {len(ended[2])} bytes of error")
    for way, number in sorted(ways.items()):
        say(f"{number} runs ended with {way}")
    return 1 if wrong else 0


def main():
    parser = argparse.ArgumentParser(usage=__doc__)
    parser.add_argument("--every", type=int, default=1)
    parser.add_argument("program", type=Path)
    parser.add_argument("files", type=Path, nargs="*")
    arguments = parser.parse_args()
    if len(arguments.files) not in (0, 2) or arguments.every < 1:
        parser.error("not PROGRAM [CORE LOG]")
    arguments.program = arguments.program.resolve()
    with tempfile.TemporaryDirectory() as name:
        room = Path(name)
        core, log = arguments.files or (room / "core", room / "log")
        if not arguments.files:
            make_core(core)
            make_log(log)
        return try_all(arguments, core, log, room)


if __name__ == "__main__":
    sys.exit(main())
