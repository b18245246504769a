#!/usr/bin/env python3
"""Checks that what is said stands apart from why it holds, in both directions. Run it anywhere in the repository.

- Each definition that the clauses of `ehci_cli::ehci` reach stands in a `claims_` crate or in the machine: in no `law_`, `gate_`,
  `worked_`, `bench_`, `test_` or `example_` crate, nor in `ehci_cli`.
- Each definition of a `claims_` crate is reached from these clauses. The sample values of worked rows, in a file Samples.antt, aren't asked.
- A `claims_` crate stands on `claims_` crates and the machine alone, and has no code: the body of each function there is empty.

It reads names, and isn't the compiler: a definition is reached where a definition that is reached has its name, as its file's imports tell
it, outside comments, and not as a bound name or a field.
"""
import pathlib
import re
import sys

TOP = pathlib.Path(__file__).resolve().parent.parent
CRATES = TOP / "crates"
BESIDE = re.compile(r"(law|gate|worked|bench|test|example)_|ehci_cli$")
NAME = r"[A-Za-z_][A-Za-z_0-9']*"
BEGINS = re.compile(rf"((?:(?:abbrev|unfoldable|pub|rec|opaque)\s+)*(?:(?:record|data)\s+)?)({NAME})\s*(.*)")
LIST = re.compile(r"(?:pub |ghost )?use ([\w.]+)\.\{([^}]*)\};?$", re.M)
ALIAS = re.compile(r"(?:pub |ghost )?use ([\w.]+) as (\w+);?$", re.M)


def without_comments(text):
    return re.sub(r"(^|\s)--(\s.*)?$", r"\1", text, flags=re.M)


def imports(text):
    """By the name in the file: a module and the name there; and the modules that have a short name."""
    names = {}
    for module, listed in LIST.findall(text):
        for it in filter(None, (it.strip() for it in listed.split(","))):
            there, _, here = it.partition(" as ")
            names[here.strip() or there] = (module, there)
    return names, {here: module for module, here in ALIAS.findall(text)}


def blocks(text):
    """The definitions of a file: name, words before it, lines."""
    found = []
    for line in without_comments(text).split("\n"):
        begins = BEGINS.match(line) if line and not line.startswith(("use ", "pub use ", "pub mod ", " ")) else None
        if begins and (begins[1].strip() or not found or (begins[2] != found[-1][0] and begins[3].startswith(":"))):
            found.append((begins[2], begins[1], []))
        if found and line.strip() and not line.startswith(("use ", "pub use ", "pub mod ")):
            found[-1][2].append(line)
    return found


def constructors(words, lines):
    if not words.strip().endswith("data"):
        return []
    found = (re.match(rf"  ({NAME}(?:\s+{NAME})*)\s*(?::|$)", it) for it in lines[1:])
    return [name for it in found if it for name in it[1].split()]


def bound(name, words, text):
    """The names of a definition that stand for its own values: fields, arguments, and what a type or a function binds."""
    found = set(re.findall(rf"^\s+pub ({NAME})\s*(?=\(|:|$)", text, re.M)) if words.strip().endswith("record") else set()
    for it in re.findall(rf"[({{]\s*((?:{NAME}\s+)*{NAME})\s*:", text) + re.findall(r"λ\s*([^.]*)\.", text):
        found |= set(re.findall(NAME, it))
    for it in re.findall(rf"^{re.escape(name)}(?![\w'])(?!\s*:)(.*?)\s=(?:\s|$)", text, re.M):
        found |= set(re.findall(rf"(?<![\w.'])({NAME})(?![\w.'])", it))
    return {it for it in found if it[0].islower()}


def used(name, words, text):
    """The names that a definition has of others, and those that it has by the short name of a module."""
    plain, dotted = set(), set()
    for it in re.finditer(rf"(?<![\w'.])({NAME})(?:\.({NAME}))?", text):
        if it[2]:
            dotted.add((it[1], it[2]))
        elif re.match(r"\s*=(?!=)", text[it.end():]) and text[:it.start()].rstrip().endswith(("{", ";", ",")):
            continue
        plain.add(it[1])
    return plain - bound(name, words, text), dotted


class Specs:
    """All definitions below specs/, and where each name leads."""

    def __init__(self):
        self.defs, self.home, self.imports = {}, {}, {}
        for path in sorted(CRATES.glob("*/specs/**/*.antt")):
            module = "Rattle." + ".".join(path.relative_to(CRATES).with_suffix("").parts)
            text = path.read_text()
            self.imports[module] = imports(text)
            for name, words, lines in blocks(text):
                self.defs[module, name] = (words, "\n".join(lines))
                for it in [name, *constructors(words, lines)]:
                    self.home[module, it] = (module, name)
            for there, listed in re.findall(r"^pub use ([\w.]+)\.\{([^}]*)\}$", text, re.M):
                for it in listed.split(","):
                    self.home.setdefault((module, it.strip()), (there, it.strip()))

    def definition(self, module, name):
        at = self.home.get((module, name))
        if at is None and module.rpartition(".")[::2] in self.defs:
            return module.rpartition(".")[::2]  # a constructor, by the name of its type
        return at if at is None or at in self.defs else self.definition(*at)

    def behind(self, at):
        """The definitions of which a definition has the names."""
        module, name = at
        names, short = self.imports[module]
        plain, dotted = used(name, *self.defs[at])
        for it in plain:
            yield self.definition(*(names[it] if (module, it) not in self.home and it in names else (module, it)))
        for a, it in dotted:
            if a in short:
                yield self.definition(short[a], it)

    def reached(self, roots):
        found, left = set(), list(roots)
        while left:
            at = left.pop()
            if at is not None and at not in found:
                found.add(at)
                left += self.behind(at)
        return found


def clauses():
    """The definitions that the clauses of the top call name."""
    text = (CRATES / "ehci_cli/src/program.rt").read_text()
    names, _ = imports(text)
    head = text.split("pub fn ehci<")[1].split("\n{")[0]
    return [names[it] for clause in re.findall(r"ensures \w+ \{ (.*?) \}(?=\n    ensures|$)", head, re.S) for it in re.findall(NAME, clause) if it in names]


def faults(specs):
    reached = specs.reached(specs.definition(*it) for it in clauses())
    for module, name in sorted(reached):
        if BESIDE.match(module.split(".")[1]):
            yield f"{module}.{name} is reached from the clauses, and stands in no claims_ crate"
    for module, name in sorted(specs.defs):
        if module.split(".")[1].startswith("claims_") and not module.endswith(".Samples") and (module, name) not in reached:
            yield f"{module}.{name} is reached from no clause"
    for line in (TOP / "crates.txt").read_text().split("\n"):
        crate, _, below = line.partition(":")
        for it in below.split() if crate.startswith("claims_") else []:
            if BESIDE.match(it):
                yield f"{crate} stands on {it}"
    for path in sorted(CRATES.glob("claims_*/src/**/*.rt")):
        if re.search(r"^\{$|\) \{$", path.read_text(), re.M):
            yield f"{path.relative_to(TOP)} has code"


def main():
    specs = Specs()
    found = list(faults(specs))
    print("\n".join(found + [f"{len(found)} faults"]))
    return 1 if found else 0


if __name__ == "__main__":
    sys.exit(main())
