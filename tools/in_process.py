"""Runs a tool within the process of its tests. To start Python for each run would take most of their time.

The tool has standard input, output and error as files of its own, by their numbers too. How it meets a closed pipe or a
signal is for tests that start it.
"""
import contextlib
import importlib.machinery
import importlib.util
import os
import subprocess
import sys
import warnings
from pathlib import Path
from types import ModuleType
from unittest import mock


def load(path: Path) -> ModuleType:
    """A program as a module. A tool's file has no suffix."""
    loader = importlib.machinery.SourceFileLoader(path.name, str(path))
    module = importlib.util.module_from_spec(importlib.util.spec_from_loader(path.name, loader))
    loader.exec_module(module)
    return module


@contextlib.contextmanager
def replaced(number: int, file):
    """While it lasts, a file stands for a descriptor."""
    kept = os.dup(number)
    try:
        os.dup2(file.fileno(), number)
        yield
    finally:
        os.dup2(kept, number)
        os.close(kept)


def status_of(tool: ModuleType) -> int:
    """Runs it to its end. Any exception but that end is a defect, and goes on to the test."""
    try:
        tool.main()
    except SystemExit as end:
        if isinstance(end.code, str):
            print(end.code, file=sys.stderr)
        return 1 if isinstance(end.code, str) else end.code or 0
    return 0


def run(tool: ModuleType, *words, data: bytes = b"") -> subprocess.CompletedProcess:
    """What a run with these words came to, where standard input has the data."""
    command = [tool.__file__, *map(os.fspath, words)]
    with contextlib.ExitStack() as stack:
        files = [stack.enter_context(open(os.memfd_create("run"), "wb+")) for _ in range(3)]
        files[0].write(data)
        files[0].seek(0)
        with contextlib.ExitStack() as inner:
            inner.enter_context(mock.patch.object(sys, "argv", command))
            # They are unittest's, and what a process leaves open its end closes.
            inner.enter_context(warnings.catch_warnings(action="ignore", category=ResourceWarning))
            for number, (name, file) in enumerate(zip(("stdin", "stdout", "stderr"), files)):
                inner.enter_context(replaced(number, file))
                # Closed first, and so written out.
                text = open(number, "w" if number else "r", encoding="utf-8", closefd=False)
                inner.enter_context(mock.patch.object(sys, name, inner.enter_context(text)))
            status = status_of(tool)
        written = []
        for file in files[1:]:
            file.seek(0)
            written.append(file.read())
    return subprocess.CompletedProcess(command, status, *written)
