#!/usr/bin/env python3
"""Checks that every name in docs/RULES.md exists: files, definitions, functions and edits. Run it anywhere in the repository.

    docs/check_rules.py          says which names don't exist, and exits with 1 if one doesn't
    docs/check_rules.py --mend   first follows definitions and functions that stand in another file of the same crate now

A row is: rule | section | definition | code | worked | edit. In "definition" and "code" a word with a slash is a file below crates/, and the
words after it stand in that file, in "code" as functions. A worked row is a function of the row's first crate, or of the crate before its
name. An edit is a file of that crate's must-fail/, or of edits/CRATE, or `crate/name`. Names stand between backticks.
"""
import re
import sys

from sources import CRATES, TOP

PAGE = TOP / "docs/RULES.md"
COLUMNS = 6
DEFINED = r"(?<![\w-])%s(?![\w-])"
DEFINES = r"(?m)^\s*(?:(?:abbrev|unfoldable|pub|rec|opaque|record|data)\s+)+%s(?![\w'-])"
FUNCTION = r"\bfn %s\b"


def names_in(cell):
    """The files of a cell, each with the names behind it."""
    found = []
    for word in re.findall(r"`([^`]+)`", cell):
        if "/" in word:
            found.append((word, []))
        elif found:
            found[-1][1].append(word)
    return found


def missing(cell, pattern):
    """Faults of a cell of files and names, where a name stands in its file as this pattern has it."""
    for file, names in names_in(cell):
        path = CRATES / file
        if not path.is_file():
            yield f"no file crates/{file}"
            continue
        text = path.read_text()
        for name in names:
            if not re.search(pattern % re.escape(name), text):
                yield f"{name} isn't in {file}"


def mended(cell, pattern, begins):
    """The cell with each name behind the file of the same crate that has it, where there is one alone."""
    files = {}
    for file, names in names_in(cell):
        here = (CRATES / file).read_text() if (CRATES / file).is_file() else ""
        folder = CRATES.joinpath(*file.split("/")[:2])
        for name in names or [""]:
            home = file
            if name and not re.search(pattern % re.escape(name), here):
                others = [it for it in sorted(folder.rglob("*")) if it.suffix in (".antt", ".rt") and re.search(begins % re.escape(name), it.read_text())]
                home = str(others[0].relative_to(CRATES)) if len(others) == 1 else file
            files.setdefault(home, [])
            if name:
                files[home].append(name)
    return " ".join(" ".join(f"`{it}`" for it in (file, *names)) for file, names in files.items())


def faults(cells, texts):
    _, _, definition, code, worked, edit = cells
    yield from missing(definition, DEFINED)
    yield from missing(code, FUNCTION)
    first = re.search(r"`([^`/]+)/", definition)
    if not first:
        yield "no definition"
        return
    crate = first[1]
    for word in re.findall(r"`([^`]+)`", worked):
        parts = word.split("::")
        home = parts[0] if (CRATES / parts[0]).is_dir() else crate
        if home not in texts:
            texts[home] = "\n".join(it.read_text() for it in sorted((CRATES / home / "src").rglob("*.rt")))
        if not re.search(FUNCTION % re.escape(parts[-1]), texts[home]):
            yield f"no function {parts[-1]} in {home}"
    for word in re.findall(r"`([^`]+)`", edit):
        home, _, name = word.rpartition("/")
        home = home or crate
        if not any((it / f"{name}.edit").is_file() for it in (CRATES / home / "must-fail", TOP / "edits" / home)):
            yield f"no edit {word}"


def cells_of(line):
    """The cells of a row; None for a line that is no row of a rule."""
    if not line.startswith("| ") or line.startswith("| rule ") or set(line) <= set("|- "):
        return None
    return [it.strip() for it in re.split(r" \|(?= |$)", line.strip()[1:])][:-1]


def mend():
    lines = PAGE.read_text().split("\n")
    for number, line in enumerate(lines):
        cells = cells_of(line)
        if cells and len(cells) == COLUMNS:
            new = [*cells[:2], mended(cells[2], DEFINED, DEFINES), mended(cells[3], FUNCTION, FUNCTION), *cells[4:]]
            if new != cells:
                lines[number] = "|" + "".join(f" {it} |" if it else " |" for it in new)
    PAGE.write_text("\n".join(lines))


def main():
    if "--mend" in sys.argv[1:]:
        mend()
    texts, rows, wrong = {}, 0, 0
    for number, line in enumerate(PAGE.read_text().split("\n"), 1):
        cells = cells_of(line)
        if cells is None:
            continue
        rows += 1
        found = faults(cells, texts) if len(cells) == COLUMNS else [f"{len(cells)} cells, and not {COLUMNS}"]
        for it in found:
            wrong += 1
            print(f"docs/RULES.md:{number}: {cells[0]}: {it}")
    if wrong:
        print(f"docs/RULES.md: {wrong} names of {rows} rules don't exist")
    return 1 if wrong else 0


if __name__ == "__main__":
    sys.exit(main())
