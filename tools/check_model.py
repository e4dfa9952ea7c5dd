#!/usr/bin/env python3
"""Checks that docs/MODEL.md and the definitions lead to each other.

Each section of docs/MODEL.md names definitions and links their files, and its index leads back. This script sees that
each name that a section gives stands in a file that the section links, that each link is one, that the index has every
file of definitions with every public name in it, and that the page's laws are those that are proved. With --write it
writes the index anew.

The files of definitions are those of the model's two crates, and of others those that say what a core states, what a
log is, what a session stands for, what it keeps of the past, what is written for them, how a run ends, what an event
costs, and which core and log are generated.
"""

import re
import sys
from pathlib import Path

ROOT = Path(__file__).resolve().parent.parent
PAGE = ROOT / "docs" / "MODEL.md"
# The crates with definitions of the model, and which files: all of them, where none is named.
CRATES = {
    "paging_model": (),
    "history_model": (),
    "history_laws": ("Costs",),
    "elf_core": ("Cores", "Fields", "FileHeader", "Notes", "ProgramHeaders", "StateNotes"),
    "edit_log": ("Log", "LogLine", "Numbers"),
    "audit_core": ("Standing", "Remembering"),
    "version_store": ("Changes", "WrittenChanges"),
    "cache_rules": ("Standing",),
    "image_gen": ("Accepted", "GeneratedCore", "GeneratedLog", "GeneratedTables", "LineTexts", "StatedCore"),
    "rights_report": (),
    "rights": ("Arguments", "HandledLines", "Jobs", "LineByLine", "Outcome", "Run", "Statuses", "Summaries"),
}
HEADING = "## Where each definition stands"
DEFINED = re.compile(r"^ *(?:(?:abbrev|unfoldable) pub|pub (?:data|record|unfoldable|abbrev)) (\w+)", re.M)
LINK = re.compile(r"\[\w+\]\(\.\./(crates/\w+/specs/\w+\.antt)\)")


def definitions():
    """The public names of each file of definitions, but for worked cases."""
    for crate, stems in CRATES.items():
        specs = ROOT / "crates" / crate / "specs"
        for stem in stems:
            if not (specs / f"{stem}.antt").exists():
                raise SystemExit(f"{crate}: there is no {stem} among its definitions")
        for path in sorted(specs.glob("*.antt")):
            if path.stem in stems or not stems and path.stem != "Lib" and not path.stem.startswith("Worked"):
                yield path, DEFINED.findall(path.read_text(encoding="utf-8"))


def sections(text):
    """The sections that have definitions: heading and text."""
    for part in re.split(r"^(?=##+ )", text.split(HEADING)[0], flags=re.M):
        if part.startswith("### "):
            heading, _, body = part.removeprefix("### ").partition("\n")
            yield heading.strip(), body


def anchor(heading):
    return heading.lower().replace(" ", "-")


def index(text):
    """The index: each file with its section and its names."""
    place = {}
    for heading, body in sections(text):
        for link in LINK.findall(body):
            place.setdefault(link, heading)
    lines = ["| File | Section | Names |", "|---|---|---|"]
    for path, names in definitions():
        link = path.relative_to(ROOT).as_posix()
        if link not in place:
            raise SystemExit(f"{link}: no section of docs/MODEL.md links it")
        heading = place[link]
        listed = ", ".join(f"`{name}`" for name in names)
        lines.append(f"| [{path.stem}](../{link}) | [{heading}](#{anchor(heading)}) | {listed} |")
    return "\n".join(lines) + "\n"


def check_names(text):
    """Each name that a section gives after "Definitions" stands in a file that it links there."""
    known = {path.relative_to(ROOT).as_posix(): names for path, names in definitions()}
    for heading, body in sections(text):
        given = body.partition("*Definitions*")[2]
        if not given:
            raise SystemExit(f"{heading}: the section names no definitions")
        names = {name for link in LINK.findall(given) for name in known.get(link, ())}
        for link in LINK.findall(given):
            if link not in known:
                raise SystemExit(f"{heading}: {link} isn't a file of definitions")
        for name in re.findall(r"`(\w+)`", given):
            if name not in names:
                raise SystemExit(f"{heading}: {name} isn't defined in a file that the section links")


def check_laws(text):
    """The functions of the crates of laws, and of other crates' modules of laws, are those of the tables of laws."""
    proved = set()
    laws = ("paging_laws", "kept_laws", "page_laws", "patch_laws", "plan_laws", "history_laws", "audit_laws")
    patterns = [f"{crate}/src/*.rt" for crate in laws]
    for pattern in (*patterns, "image_gen/src/laws.rt", "rights/src/laws.rt"):
        for path in (ROOT / "crates").glob(pattern):
            proved |= set(re.findall(r"^pub fn (\w+)", path.read_text(encoding="utf-8"), re.M))
    part = text.split("\n## Laws\n")[1].split("\n## ")[0]
    listed = {name for row in re.findall(r"^\|.*\|(.*)\|$", part, re.M) for name in re.findall(r"`(\w+)`", row)}
    for name in sorted(listed ^ proved):
        why = "it is listed as a law and isn't one" if name in listed else "the page doesn't list this law"
        raise SystemExit(f"{name}: {why}")


def main():
    text = PAGE.read_text(encoding="utf-8")
    check_names(text)
    check_laws(text)
    before, heading, rest = text.partition(HEADING)
    wanted = f"{before}{HEADING}\n\n{index(text)}"
    if sys.argv[1:] == ["--write"]:
        PAGE.write_text(wanted, encoding="utf-8")
    elif text != wanted:
        why = "the index isn't that of the definitions: tools/check_model.py --write makes it"
        raise SystemExit(f"docs/MODEL.md: {why}")


if __name__ == "__main__":
    main()
