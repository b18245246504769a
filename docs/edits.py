#!/usr/bin/env python3
"""Says which edits no longer apply, and exits with 1 if there are any: those of crates/CRATE/must-fail, which the gate tries, and of edits/CRATE.

An edit has a line `file: PATH` and pairs of lines `old: TEXT` and `new: TEXT`; each TEXT stands exactly once in the file, as the pairs before
it leave that. Whether the prover refuses an edit is seen only by trying it (edits/try.sh).
"""
import re
import sys

from sources import CRATES, TOP, crates

PARTS = ("src/", "specs/", "proofs/")


def why_not(text, folder):
    """Why an edit can't be applied to the crate in a folder, or "" if it can."""
    path = old = None
    texts, pairs = {}, 0
    for line in text.split("\n"):
        mark, _, rest = line.partition(": ") if ": " in line else line.partition(":")
        if not line.strip() or line.startswith(("#", "--", "//")):
            continue
        if mark == "file" and ": " in line:
            path = rest.strip()
            if not path.startswith(PARTS) or ".." in path.split("/"):
                return f"{path} is no file of src/, specs/ or proofs/"
            if not (folder / path).is_file():
                return f"there is no file {path}"
        elif mark == "old" and rest:
            old = rest
        elif mark == "new":
            if not path or not old:
                return "a line `new:` stands before `file:` or `old:`"
            now = texts.get(path) or (folder / path).read_text(encoding="utf-8")
            if now.count(old) != 1:
                return f"{path} has its `old:` {now.count(old)} times: {old.strip()[:80]}"
            texts[path], old, pairs = now.replace(old, rest), None, pairs + 1
        else:
            return f"this line isn't read: {line.strip()[:80]}"
    if old:
        return "an `old:` has no `new:`"
    if all(text == (folder / path).read_text(encoding="utf-8") for path, text in texts.items()):
        return "it changes nothing"
    return ""


def main():
    wrong, seen, known = [], 0, crates()
    for path in [*CRATES.glob("*/must-fail/*"), *(TOP / "edits").glob("*/*")]:
        crate = path.parent.name if path.parent.parent.name == "edits" else path.parent.parent.name
        if path.suffix == ".md":
            continue
        seen += 1
        if not re.fullmatch(r"[A-Za-z0-9_-][A-Za-z0-9_.-]*\.edit", path.name):
            wrong.append((path, "its name isn't that of an edit"))
        elif crate not in known:
            wrong.append((path, f"there is no crate {crate}"))
        elif why := why_not(path.read_text(encoding="utf-8"), CRATES / crate):
            wrong.append((path, why))
    for path, why in sorted(wrong):
        print(f"{path.relative_to(TOP)}: {why}")
    print(f"edits: {seen} read, {len(wrong)} don't apply")
    return int(bool(wrong))


if __name__ == "__main__":
    sys.exit(main())
