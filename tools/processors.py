"""What the tools that state processors share: options, warnings, and the lines that they write.

A processor is its number in the lines, and its registers by name: those of REGISTERS, and those of KEY_REGISTERS that
are known. docs/FORMATS.md, "The log", has the lines.
"""
import argparse
import os
import re
import sys
from collections.abc import Iterable, Iterator
from typing import TypeVar

Registers = dict[str, int]
Found = TypeVar("Found")

# The machine with the fewest reserved bits: what the true machine grants is granted with this one too.
ASSUMED_WIDTH = 52
# What a `cpu` line has first, in its order. RFL is QEMU's name of RFLAGS.
REGISTERS = ("CR0", "CR3", "CR4", "EFER", "RFL")
# Key registers by the bit of CR4 that turns them on, and the option that gives one. A `cpu` line has them last.
KEY_REGISTERS = {"PKRU": ("PKE", 22, "--pkru"), "PKRS": ("PKS", 24, "--pkrs")}


class Refusal(Exception):
    """Why no lines can be written, in one sentence."""


def width_option(word: str) -> int:
    if not word.isdecimal() or not 32 <= int(word) <= 52:
        raise argparse.ArgumentTypeError(f"{word} isn't a width from 32 to 52")
    return int(word)


def number_option(word: str) -> int:
    if not re.fullmatch(r"[0-9]{1,9}", word):
        raise argparse.ArgumentTypeError(f"{word} isn't the number of a processor")
    return int(word)


def key_option(word: str) -> tuple[int, int]:
    """P=VALUE: a processor's number, and a number of 32 bits in decimal or with 0x."""
    match = re.fullmatch(r"([0-9]+)=([0-9]+|0x[0-9A-Fa-f]+)", word)
    value = int(match[2], 16 if match[2].startswith("0x") else 10) if match else 1 << 32
    if value >= 1 << 32:
        raise argparse.ArgumentTypeError(f"{word} isn't P=VALUE with a value of 32 bits")
    return int(match[1]), value


def add_options(parser: argparse.ArgumentParser) -> None:
    """The options that each of the tools has."""
    parser.add_argument(
        "--width",
        metavar="M",
        type=width_option,
        help=f"the physical-address width, from 32 to 52 (default: {ASSUMED_WIDTH})",
    )
    parser.add_argument("--no-1g", action="store_true", help="there are no 1-GByte pages")
    for name, (flag, _, option) in KEY_REGISTERS.items():
        parser.add_argument(
            option,
            metavar="P=VALUE",
            type=key_option,
            action="append",
            default=[],
            help=f"{name} of processor P, where CR4.{flag} is on (default: 0x0, which denies nothing)",
        )
    add_numbers(parser, "--skip", "leaves out processor P, such as one that isn't in 64-bit mode")


def add_numbers(parser: argparse.ArgumentParser, option: str, text: str) -> None:
    """An option that names a processor, and may be given for several."""
    parser.add_argument(option, metavar="P", type=number_option, action="append", default=[], help=text)


def given_keys(words: argparse.Namespace) -> dict[str, dict[int, int]]:
    """The values that options give, for a key register's name and a processor's number."""
    return {"PKRU": dict(words.pkru), "PKRS": dict(words.pkrs)}


def without_skipped(found: dict[int, Found], words: argparse.Namespace, absent: str, *more: str) -> dict[int, Found]:
    """The processors that are stated. An option that names another one is refused.

    ABSENT says what is wrong with a number that isn't among those found; MORE are options of one tool alone.
    """
    named = [("--skip", words.skip)]
    named += [(KEY_REGISTERS[name][2], values) for name, values in given_keys(words).items()]
    named += [(option, getattr(words, option.strip("-").replace("-", "_"))) for option in more]
    for option, numbers in named:
        for number in numbers:
            if number not in found:
                raise Refusal(f"{option} names processor {number}, which {absent}")
            if option != "--skip" and number in words.skip:
                raise Refusal(f"{option} names processor {number}, which --skip leaves out")
    kept = {number: state for number, state in found.items() if number not in words.skip}
    if not kept:
        raise Refusal("--skip leaves no processor")
    return kept


def add_keys(found: dict[int, Registers], words: argparse.Namespace) -> None:
    """Puts the values that options give in the place of those that were found."""
    for name, values in given_keys(words).items():
        for number, value in values.items():
            found[number][name] = value


def assumed_keys(values: Registers) -> Iterator[str]:
    """The key registers that are on and have no value."""
    return (name for name, (_, bit, _) in KEY_REGISTERS.items() if values["CR4"] >> bit & 1 and name not in values)


def warn(program: str, found: dict[int, Registers]) -> None:
    """A line on standard error for each key register that is on and has no value."""
    for number, values in found.items():
        for name in assumed_keys(values):
            flag, _, option = KEY_REGISTERS[name]
            if sys.stderr is not None:
                print(
                    f"{program}: warning: processor {number} has CR4.{flag} on and no {option}: {name} 0x0 is taken, "
                    "which denies nothing, so accesses may be granted that the processor denies",
                    file=sys.stderr,
                )


def machine_line(words: argparse.Namespace) -> str:
    return f"machine {words.width or ASSUMED_WIDTH} {0 if words.no_1g else 1}"


def cpu_line(number: int, values: Registers) -> str:
    numbers = [values[name] for name in REGISTERS] + [values.get(name, 0) for name in KEY_REGISTERS]
    return " ".join(["cpu", str(number), *map(hex, numbers)])


def write_lines(program: str, lines: Iterable[str]) -> None:
    """Writes all lines to standard output, or ends with a sentence where it doesn't take them."""
    text = "".join(line + "\n" for line in lines)
    if sys.stdout is None:
        sys.exit(f"{program}: standard output is closed")
    try:
        sys.stdout.write(text)
        sys.stdout.flush()
    except OSError as error:
        # Python flushes once more at its end. What is left in the buffer then goes nowhere.
        os.dup2(os.open(os.devnull, os.O_WRONLY), sys.stdout.fileno())
        sys.exit(f"{program}: standard output: {error.strerror}")
