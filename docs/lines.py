#!/usr/bin/env python3
"""Says which crate has more source lines over 140 columns than docs/long_lines.txt allows it, and exits with 1 if one does.

    docs/lines.py            compares
    docs/lines.py --write    writes docs/long_lines.txt anew; it should only get shorter

Lines of imports don't count. A row of the file is: crate, part (src, specs or proofs), lines over 140 columns. A crate that has no row has none.
"""
import collections
import sys

from sources import CRATES, TOP, crates

MOST = 140
TABLE = TOP / "docs/long_lines.txt"
IMPORTS = ("use ", "ghost use ", "pub use ", "pub ghost use ")


def counted():
    found = collections.defaultdict(list)
    for crate in crates():
        for part in ("src", "specs", "proofs"):
            for path in sorted((CRATES / crate / part).rglob("*")):
                if path.suffix in (".rt", ".antt"):
                    for number, line in enumerate(path.read_text().split("\n"), 1):
                        if len(line) > MOST and not line.lstrip().startswith(IMPORTS):
                            found[crate, part].append(f"crates/{path.relative_to(CRATES)}:{number}")
    return found


def main():
    found = counted()
    if "--write" in sys.argv[1:]:
        TABLE.write_text("".join(f"{crate} {part} {len(found[crate, part])}\n" for crate, part in found))
        return 0
    rows = (it.split() for it in TABLE.read_text().split("\n") if it)
    allowed = {(crate, part): int(count) for crate, part, count in rows}
    wrong = {it: lines for it, lines in found.items() if len(lines) > allowed.get(it, 0)}
    for (crate, part), lines in wrong.items():
        print(f"{crate}/{part} has {len(lines)} lines over {MOST} columns, and may have {allowed.get((crate, part), 0)}; the last ones are {', '.join(lines[-3:])}")
    return 1 if wrong else 0


if __name__ == "__main__":
    sys.exit(main())
