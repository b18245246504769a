#!/usr/bin/env python3
"""Checks what the hand-written documents name, quote and show: links and paths, code that is quoted, reports that are shown, and the number of words.

A line of a block ```rust of README.md stands in crates/example_driver/src. The lines behind `$ ./ehci run < examples/NAME.ehci` are those of
its report, cut as the command cuts them.
"""
import re
import sys

from sources import CRATES, TOP

WRITTEN = ("THEOREM.md", "LAWS.md", "CRATES.md")
PAGES = [TOP / "README.md"] + [it for it in sorted((TOP / "docs").glob("*.md")) if it.name not in WRITTEN]
MOST_WORDS = {"README.md": 1400, "NOT_PROVED.md": 1800, "ARCHITECTURE.md": 1800}
MOST_IN_ALL = 25000
PATH = re.compile(r"`((?:crates|docs|examples|edits|bench|tools)/[\w./-]+)`|(?<![\w`/])((?:crates|docs|examples|edits)/[\w./-]*\w)")
SHOWN = re.compile(r"\$ \./ehci run < (examples/[\w-]+)\.ehci(?: \| cut -c1-(\d+))?$")


def names(page, text):
    for link in re.findall(r"\]\(([^)#]+)\)", text):
        if "://" not in link and not (page.parent / link).exists():
            yield f"a link to {link}, which isn't there"
    for a, b in PATH.findall(text):
        path = (a or b).rstrip(".")
        if not re.search(r"\b(CRATE|NAME)\b", path) and not (TOP / path).exists():
            yield f"{path} isn't there"
    modules = {it.stem for it in CRATES.glob("*/src/**/*.rt")} | {it.name for it in CRATES.iterdir()}
    for name in re.findall(r"`([a-z]\w*)::", text):
        if name not in modules:
            yield f"no crate or module {name}"


def quoted(text):
    sources = {line.strip() for path in (CRATES / "example_driver/src").glob("*.rt") for line in path.read_text().split("\n")}
    for block in re.findall(r"```rust\n(.*?)```", text, re.S):
        for line in block.split("\n"):
            if line.strip() and line.strip() not in sources:
                yield f"a quoted line isn't in crates/example_driver/src: {line.strip()}"


def shown(text):
    lines = text.split("\n")
    for number, line in enumerate(lines):
        command = SHOWN.match(line.strip())
        if not command:
            continue
        report = (TOP / f"{command[1]}.report").read_text().rstrip("\n").split("\n")
        report = [it[:int(command[2])] if command[2] else it for it in report]
        told = [it.strip() for it in lines[number + 1:number + 1 + len(report)]]
        if told != [it.strip() for it in report]:
            yield f"not the report of {command[1]}"


def main():
    wrong, words = 0, 0
    for page in PAGES:
        text = page.read_text()
        count = sum(1 for it in text.split() if re.search(r"\w", it))
        words += count
        found = [*names(page, text), *quoted(text), *shown(text)]
        if count > MOST_WORDS.get(page.name, MOST_IN_ALL):
            found.append(f"{count} words, and at most {MOST_WORDS[page.name]} are read")
        for it in found:
            wrong += 1
            print(f"{page.relative_to(TOP)}: {it}")
    if words > MOST_IN_ALL:
        wrong += 1
        print(f"the documents that are written by hand have {words} words, and at most {MOST_IN_ALL} are read")
    if "--words" in sys.argv[1:]:
        print(f"{words} words")
    return 1 if wrong else 0


if __name__ == "__main__":
    sys.exit(main())
