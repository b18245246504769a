#!/usr/bin/env python3
"""Counts the functions of specs/ and proofs/ that split on nearly all cases of an enum: what one more case of it asks for.

    docs/fanout.py            a row an enum
    docs/fanout.py NAME       the files of that enum
    docs/fanout.py --write    writes the rows into docs/CHANGING.md
    docs/fanout.py --check    says whether the rows there are current, and exits with 1 if they aren't
"""
import collections
import pathlib
import re
import sys

from sources import CRATES, TOP

PAGE = TOP / "docs/CHANGING.md"
HEAD = "| enum | cases | functions | files | crates |\n|---|---|---|---|---|\n"

# Where each enum is declared, and how many of its cases a function may leave to a catch-all and still count.
ENUMS = {
    "DriverRow": ("drv_table", 2),
    "Cmd": ("usb_base", 1),
    "Command": ("drv_table", 1),
    "ControllerRow": ("hc_core", 1),
    "WalkRow": ("async_walk", 1),
    "HcStep": ("hc_core", 1),
}


def cases(name, crate):
    """The cases of an enum, as its file declares them."""
    for path in sorted((CRATES / crate / "src").rglob("*.rt")):
        if found := re.search(rf"pub enum {name} \{{(.*?)\n\}}", path.read_text(), re.S):
            return re.findall(r"(?m)^    (\w+)(?:\(|,| \{|$)", found[1])
    return []


def splitting(path, name, variants, spare):
    """The functions of a file with equations for at least all cases but so many."""
    text = path.read_text()
    aliases = re.findall(rf"\b{name}\.TheVariants as (\w+)", text)
    opened = re.search(rf"\b{name}\.TheVariants\.\{{", text)
    if not aliases and not opened:
        return []
    found = collections.defaultdict(set)
    for line in text.split("\n"):
        if equation := re.match(r"\s*(\w+) (.*?) =(?: |$)", line):
            for variant in variants:
                if any(re.search(rf"\b{it}\.{variant}\b", equation[2]) for it in aliases) or (opened and re.search(rf"(?<![\w.]){variant}\b", equation[2])):
                    found[equation[1]].add(variant)
    return [it for it, had in found.items() if len(had) >= len(variants) - spare]


def rows(wanted):
    """The table, with the files of the enum that is wanted."""
    said = HEAD
    files = [it for it in sorted(CRATES.glob("*/*/**/*.antt")) if it.relative_to(CRATES).parts[1] in ("specs", "proofs")]
    for name, (crate, spare) in ENUMS.items():
        variants = cases(name, crate)
        if not variants or (wanted and name not in wanted):
            continue
        hits = {path: found for path in files if (found := splitting(path, name, variants, spare))}
        crates_hit = {path.relative_to(CRATES).parts[0] for path in hits}
        said += f"| `{name}` of {crate} | {len(variants)} | {sum(map(len, hits.values()))} | {len(hits)} | {len(crates_hit)} |\n"
        if wanted:
            said += "".join(f"    {path.relative_to(CRATES)}: {', '.join(found)}\n" for path, found in hits.items())
    return said


def main():
    wanted = [it for it in sys.argv[1:] if not it.startswith("--")]
    if not {"--write", "--check"} & {*sys.argv[1:]}:
        print(rows(wanted), end="")
        return 0
    page = PAGE.read_text()
    before, _, behind = page.partition(HEAD)
    there = re.match(r"(?:\|.*\n)*", behind)[0]
    current = before + rows([]) + behind[len(there):]
    if "--write" in sys.argv[1:]:
        PAGE.write_text(current)
    elif current != page:
        print("docs/CHANGING.md counts other functions than there are: docs/fanout.py --write")
        return 1
    return 0


if __name__ == "__main__":
    sys.exit(main())
