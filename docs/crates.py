#!/usr/bin/env python3
"""Writes docs/CRATES.md: each crate of crates.txt, by kind, with the first sentence of its root file and how many crates stand on it.

    docs/crates.py            writes the page
    docs/crates.py --check    says whether the page is current, and exits with 1 if it isn't
"""
import re
import sys

from sources import CRATES, TOP, crates, head, kind, written

KINDS = {
    "": ("The machine", "Definitions of the standards' rules and of this program's own, and code that is proved to meet them. Lowest first."),
    "claims_": ("What is said", "The definitions that clauses of the top call cite beside the machine."),
    "law_": ("Why it holds", "Invariants, laws and their proofs; without code."),
    "worked_": ("Worked values", "Laws and definitions computed at concrete values."),
    "gate_": ("Programs of the gate", "Each runs rows whose results were worked out by hand, and its output is compared."),
    "example_": ("Examples", "Code that calls the machine."),
    "test_": ("Tests", "Of public calls, a module for each crate."),
    "bench_": ("Measures", "Programs that docs/SPEED.md tells of; the gate builds and proves them."),
}


def above(everything):
    """How many crates stand on each: all that a change of it proves again."""
    found = {it: set() for it in everything}
    for crate in reversed(list(everything)):
        for below in everything[crate]:
            if below in found:
                found[below] |= {crate} | found[crate]
    return {it: len(its) for it, its in found.items()}


def sentence(crate):
    """The first sentence of the first paragraph of a crate's root file."""
    root = next(it for it in ("lib.rt", "main.rt") if (CRATES / crate / "src" / it).is_file())
    lines = []
    for line in head(CRATES / crate / "src" / root, "//!"):
        if not line or line.startswith("- "):
            break
        lines.append(line)
    return re.split(r"(?<=\.) (?=[A-Z`])", " ".join(lines))[0].replace("|", "\\|")


def page():
    out = ["# Crates\n\nWritten by docs/crates.py from crates.txt and the head of each crate's root file. The prefix of a name says what kind of crate it is; "
           "[ARCHITECTURE.md](ARCHITECTURE.md) says how they belong together. Behind each stands the number of crates above it: those that a change of its contracts or definitions proves again."]
    everything = crates()
    standing = above(everything)
    for prefix, (title, says) in KINDS.items():
        mine = [it for it in everything if kind(it) == prefix]
        if mine:
            out.append(f"\n## {title}\n\n{says}\n\n| crate | what it is | above it |\n|---|---|---|")
            out += [f"| {it} | {sentence(it)} | {standing[it]} |" for it in mine]
    before = (it.split(" ", 1) for it in (TOP / "docs/names_before.txt").read_text().split("\n") if it and not it.startswith("#"))
    out.append("\n## Names before\n\nWhat stands in another crate than an older text says (docs/names_before.txt):\n\n| before | now |\n|---|---|")
    out += [f"| {old} | {now} |" for old, now in before]
    return "\n".join(out) + "\n"


if __name__ == "__main__":
    sys.exit(written(TOP / "docs/CRATES.md", page(), "--check" in sys.argv[1:], "docs/crates.py"))
