#!/usr/bin/env python3
"""Checks that the crates look alike, and that the words of the documents and the comments are the field's.

Usage: tools/check_look.py [CRATE ...]; without names, every crate and the documents. It prints one line for each thing
that is out of line, and ends with 1 where there is one.

- A source file begins with its module's `//!`, and a file of definitions or lemmas with a `--` line.
- An item's comment is `///`; `//` stands inside functions and contracts.
- A line of a contract has at most 100 columns, any other line of a source file at most 120.
- No definition or function is named by a participle alone, and no public definition's name stands in two files.
- Words that have a standard term aren't used in its place.
- No two modules of a crate import each other, and no crate hands on what another one declares.
- Documents are named in upper case.
"""

import re
import sys
from pathlib import Path

ROOT = Path(__file__).resolve().parent.parent

# A word of our own, and the term of the field that stands for it.
TERMS = {
    r"want(s|ed)? of memory|memory (was|is) wanted|wants? memory": "out of memory",
    r"a front of|leading lines": "a prefix of",
    r"behind": "after",
    r"ahead of": "before",
    r"rising|by rising": "ascending",
    r"falling": "descending",
    r"lends?|lent": "borrows",
    r"takes? (it|them|the \w+) over|takes over": "takes ownership of",
    r"passed over|passes over": "skipped",
    r"gathers?|gathered": "buffered",
    r"told|tells of|doesn't tell|untold": "known",
    r"mend(s|ed)?": "updates",
    r"unput": "a failed put",
}
TERM = re.compile(r"(?<![\w'])(" + "|".join(TERMS) + r")(?![\w'])", re.I)
PART = re.compile(r"(?:^|_)(behind|front|fronts|lent|lend|gather|gathered|unput|mended|told|untold)(?:_|$)")
PARTICIPLE = re.compile(r"^([a-z]+ed|made|been|held|lent|written|home|kept|known)$")
NOT_PARTICIPLES = {"need", "seed", "speed", "feed", "embed", "home"}
ITEM = re.compile(r"^\s*(pub(\([a-z]+\))? )?(const fn|fn|struct|enum|trait|const|static|type|union)\b")
DEFINED = re.compile(r"^ *(?:(?:abbrev|unfoldable) pub|pub (?:data|record|unfoldable|abbrev)) (\w+)", re.M)
FUNCTION = re.compile(r"^\s*(?:pub(?:\([a-z]+\))? )?(?:const )?fn (\w+)", re.M)


def comments(path, text):
    """The comments of a file, with their line numbers."""
    for number, line in enumerate(text.split("\n"), 1):
        found = re.search(r"(?:^|\s)(?:--|//[/!]?)\s(.*)$", line)
        if path.suffix == ".md":
            yield number, line
        elif found:
            yield number, found.group(1)


def contract_lines(lines):
    """The numbers of the lines that belong to a contract."""
    depth = 0
    for number, line in enumerate(lines, 1):
        starts = re.match(r"\s*(ensures|requires|ghost use|ghost)\b", line)
        if depth > 0 or starts:
            if not re.match(r"\s*ghost use", line):
                yield number
            depth += line.count("{") - line.count("}")
            depth = max(depth, 0)
        if re.match(r"\s*ghost use", line):
            depth = 0


def check_source(path, text):
    lines = text.split("\n")
    if not text.startswith("//!"):
        yield 1, "the file begins without `//!`"
    in_contract = set(contract_lines(lines))
    for number, line in enumerate(lines, 1):
        limit = 100 if number in in_contract else 120
        if len(line) > limit and not re.match(r"\s*(ghost )?use |\s*#\[tactic", line):
            yield number, f"{len(line)} columns"
        if ITEM.match(line):
            above = number - 2
            while above >= 0 and re.match(r"\s*#\[", lines[above]):
                above -= 1
            if above >= 0 and re.match(r"\s*// ", lines[above]):
                yield above + 1, "an item's comment is `///`"
    for name in FUNCTION.findall(text):
        if PARTICIPLE.match(name) and name not in NOT_PARTICIPLES:
            yield 1, f"the function {name} is named by a participle"
        if PART.search(name):
            yield 1, f"the function {name} has a word of ours in its name"


def check_definitions(path, text):
    if not text.startswith("--") and path.parent.name in ("specs", "proofs") and path.stem != "Lib":
        yield 1, "the file begins without `--`"
    for number, line in enumerate(text.split("\n"), 1):
        found = re.match(r" *(?:abbrev|unfoldable) (?:pub )?(\w+)|^pub (\w+) :", line)
        name = found and (found.group(1) or found.group(2))
        if name and PARTICIPLE.match(name) and name not in NOT_PARTICIPLES:
            yield number, f"the definition {name} is named by a participle"
        if name and PART.search(name):
            yield number, f"the definition {name} has a word of ours in its name"


def check_terms(path, text):
    for number, comment in comments(path, text):
        for found in TERM.finditer(comment):
            word = found.group(0).lower()
            term = next(value for key, value in TERMS.items() if re.fullmatch(key, word, re.I))
            yield number, f"`{found.group(0)}`: the term is `{term}`"


def check_names_are_single(crates):
    places = {}
    for crate in crates:
        for path in sorted((ROOT / "crates" / crate / "specs").glob("*.antt")):
            for name in DEFINED.findall(path.read_text(encoding="utf-8")):
                places.setdefault(name, []).append(f"{crate}/{path.stem}")
    for name, where in sorted(places.items()):
        if len(where) > 1:
            yield f"{name}: defined in {', '.join(where)}"


def check_modules(crate, crates):
    """Modules that import each other, and what is handed on from another crate."""
    uses = {}
    for path in sorted((ROOT / "crates" / crate / "src").rglob("*.rt")):
        text = path.read_text(encoding="utf-8")
        if "tests" not in path.parts and path.stem != "tests":
            uses[path.stem] = set(re.findall(r"^use crate::(\w+)", text, re.M))
        for other in re.findall(r"^\s*pub use (\w+)::", text, re.M):
            if other in crates:
                yield f"{path.relative_to(ROOT)}: hands on what {other} declares"
    for module, others in sorted(uses.items()):
        for other in sorted(others):
            if module < other and module in uses.get(other, ()):
                yield f"crates/{crate}: {module} and {other} import each other"


def files(crate):
    folder = ROOT / "crates" / crate
    for part in ("src", "specs", "proofs"):
        yield from sorted((folder / part).rglob("*.rt"))
        yield from sorted((folder / part).rglob("*.antt"))


def main():
    names = sys.argv[1:]
    crates = names or sorted(path.name for path in (ROOT / "crates").iterdir() if path.is_dir())
    found = []
    for crate in crates:
        for path in files(crate):
            text = path.read_text(encoding="utf-8")
            checks = [check_terms(path, text)]
            checks.append(check_source(path, text) if path.suffix == ".rt" else check_definitions(path, text))
            for check in checks:
                found += [f"{path.relative_to(ROOT)}:{number}: {what}" for number, what in check]
    everything = {path.name for path in (ROOT / "crates").iterdir() if path.is_dir()}
    for crate in crates:
        found += check_modules(crate, everything)
    found += check_names_are_single(sorted(path.name for path in (ROOT / "crates").iterdir() if path.is_dir()))
    if not names:
        for path in [ROOT / "README.md", *sorted((ROOT / "docs").glob("*.md")), ROOT / "bench" / "README.md"]:
            if path.stem != path.stem.upper():
                found.append(f"{path.relative_to(ROOT)}: documents are named in upper case")
            text = path.read_text(encoding="utf-8")
            found += [f"{path.relative_to(ROOT)}:{number}: {what}" for number, what in check_terms(path, text)]
    print("\n".join(found))
    return 1 if found else 0


if __name__ == "__main__":
    sys.exit(main())
