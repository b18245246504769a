#!/usr/bin/env python3
"""Says what the ways that lead down through crates.txt cost the gate, and exits with 1 if that is more than it has time for.

    docs/ways.py [ROWS]    compares, and prints the ROWS crates that cost most (none: 0)

A crate has one way, and those of each crate on its line. Before its first proof `rt ci` asks what stands below a crate once for each file of
its src/ and for each name that a `ghost use` brings there, and goes each way for it, on one processor: a microsecond a way and question
(read off `rt` of kit 13f, and measured).
"""
import functools
import re
import sys

from sources import CRATES, crates

MOST = 450_000_000


def questions(crate):
    """How often it is asked what stands below a crate: its files of code, and the names of their clauses."""
    found = 0
    for path in (CRATES / crate / "src").rglob("*.rt"):
        found += 1
        for words in re.findall(r"(?m)^[ \t]*ghost use\b([^;]*);", path.read_text()):
            found += sum(1 for it in re.split(r"[{},]", words) if it.strip() and not it.strip().endswith("."))
    return found


def main():
    known = crates()

    @functools.lru_cache(None)
    def ways(crate):
        return 1 + sum(ways(it) for it in known[crate] if it in known)

    cost = {it: ways(it) * questions(it) for it in known}
    for crate in sorted(cost, key=cost.get, reverse=True)[:int((sys.argv[1:] or ["0"])[0])]:
        print(f"{ways(crate):9,} ways, {questions(crate):5,} questions, {cost[crate]:12,} {crate}")
    total = sum(cost.values())
    if total > MOST:
        print(f"{total:,} ways are gone before the first proof, and at most {MOST:,} are in time: a crate of laws that stands on others of its "
              "subject is a module there")
    return int(total > MOST)


if __name__ == "__main__":
    sys.exit(main())
