#!/usr/bin/env python3
"""Writes docs/LAWS.md: each public function that has a contract, with the sentence of its comment and its statement.

    docs/laws.py            writes the page
    docs/laws.py --check    says whether the page is current, and exits with 1 if it isn't
"""
import re
import sys

from sources import CRATES, TOP, crates, functions, head, written

INTRODUCTION = """# Laws and calls

Written by docs/laws.py from the comments of the sources; the checks of `.ci/run` compare it with them. It is for searching, not for reading: each public function that has a contract stands here with its crate, its sentence, and its statement, or the names of its clauses. A **law** is a function with an empty body; its contract is a theorem. Laws of crates `law_` say why the clauses of [THEOREM.md](THEOREM.md) hold; those of `worked_` and modules `worked` compute a definition at concrete values.
"""


def statement(function):
    """The one definition that a law states, or the names of its clauses."""
    ensures = [it for it in function.clauses if it[0] == "ensures"]
    if len(ensures) == 1 and re.fullmatch(r"[A-Z]\w*", ensures[0][2]):
        return f"`{ensures[0][2]}`"
    return ", ".join(name for _, name, _ in ensures if name) or "one clause"


def told(crate):
    """The rows of a crate, in the order of its files."""
    for path in sorted((CRATES / crate / "src").rglob("*.rt")):
        module = path.relative_to(CRATES / crate / "src").with_suffix("")
        for it in functions(path):
            if it.public and any(kind == "ensures" for kind, _, _ in it.clauses):
                says = it.sentence.replace("|", "\\|") or "-"
                yield f"| `{module}::{it.name}` | {says} | {statement(it)} |"


def page():
    out = [INTRODUCTION]
    for crate in crates():
        rows = list(told(crate))
        if rows:
            root = next(it for it in ("lib.rt", "main.rt") if (CRATES / crate / "src" / it).is_file())
            says = " ".join(head(CRATES / crate / "src" / root, "//!")).strip()
            out.append(f"## {crate}\n\n{first_sentences(says)}\n\n| law or call | what | statement or clauses |\n|---|---|---|")
            out += [*rows, ""]
    return "\n".join(out)


def first_sentences(text):
    """The sentences of a text that begin within its first 300 letters."""
    told = ""
    for sentence in re.split(r"(?<=[.]) ", text):
        if len(told) > 300:
            break
        told += sentence + " "
    return told.strip()


if __name__ == "__main__":
    sys.exit(written(TOP / "docs/LAWS.md", page(), "--check" in sys.argv[1:], "docs/laws.py"))
