#!/usr/bin/env python3
"""Writes what follows from the table of crates/law_footprints/specs/Footprint.antt: its picture in docs/ARCHITECTURE.md, and
crates/law_footprints/proofs/Fields.antt, which says it as an equation for each field.

    docs/footprints.py            writes both
    docs/footprints.py --check    says whether both are current, and exits with 1 if one isn't
"""
import re
import sys

from sources import CRATES, TOP, written

TABLE = CRATES / "law_footprints/specs/Footprint.antt"
FIELDS = CRATES / "law_footprints/proofs/Fields.antt"
PAGE = TOP / "docs/ARCHITECTURE.md"
BEGIN, END = "<!-- written by docs/footprints.py -->\n", "<!-- up to here -->\n"

# What each condition of the table asks.
ASKS = {
    "leaves_ring": "an endpoint leaves the ring",
    "leaves_frames": "an endpoint leaves its frames",
    "uses_list": "the command is of the frame list",
    "is_of_descriptors": "the command is of descriptors",
    "is_moved": "a qTD is done",
    "is_ended": "the transfer ended",
    "is_served": "the descriptor is served",
    "is_endpoint": "it is an endpoint",
    "has_queue": "it has a queue head",
    "is_periodic": "it is periodic",
    "is_interrupt": "it is an interrupt endpoint",
}
HEAD = """-- Each field that a row doesn't change, as an equation: for tactics, and for laws over any row whose footprint misses the field.
-- Written by docs/footprints.py.
use Rattle.std.proofs.Common.{◌≡◌, Bool, false, cond, Option, ap, ◌∙◌}
use Rattle.drv_table.specs.declared.content.Command.{Command}
use Rattle.drv_table.specs.declared.rows.DriverRow.{DriverRow}
use Rattle.drv_table.specs.Parts.{Parts}
use Rattle.drv_table.specs.Rows.{after_driver_row}
use Rattle.law_footprints.specs.Footprint.{footprint}
use Rattle.law_footprints.proofs.Frame.{frame}

module _ (row : DriverRow) (p : Parts) (o : Option Command) (is : p.driver.command ≡ o) where
  picked : {X : Type 0} (b : Bool) (new old : X) → b ≡ false → cond b new old ≡ old
  picked b new old e = ap (λ (c : Bool). cond c new old) e
"""


def equations(text):
    """Each equation of the file: the name, its first argument, and its right side on one line."""
    for row in re.finditer(r"(?m)^(\w+) ((?:\([^)]*\)|[\w.]+)?) ?[^=\n:]*=((?: .*|\n)(?:\n? {4}.*|\n? {2}\w+ = .*|\n?\}$)*)", text):
        yield row[1], row[2].strip("()"), " ".join(row[3].split())


def fields(text):
    return re.findall(r"(?m)^  pub (\w+) : Bool$", text)


class Table:
    def __init__(self, text):
        self.fields = fields(text)
        self.named = {}
        self.rows, self.offers = [], []
        for name, first, right in equations(text):
            if name == "footprint":
                self.rows.append((first.split()[0].removeprefix("rows."), right))
            elif name == "offer_footprint":
                self.offers.append((first.split()[0].removeprefix("commands."), right))
            else:
                self.named.setdefault(name, right)

    def footprint(self, right):
        """Of each field what the right side of an equation says: `true`, or a condition; a field that it doesn't change isn't there."""
        record = re.fullmatch(r"record (\w+|\([^)]*\)) \{ ?(.*?);? ?\}", right)
        if not record:
            name = right.split()[0]
            return {} if name in ("nothing", "each_as") else self.footprint(self.named[name])
        found = self.footprint(record[1].strip("()"))
        return found | dict(it.split(" = ") for it in record[2].split("; ") if it)


def asked(condition):
    return " or ".join(ASKS[it.split()[0]] for it in condition.split(" || "))


def line(name, found, order):
    always = [it for it in order if found.get(it) == "true"]
    by_condition = {}
    for it in order:
        if found.get(it, "true") != "true":
            by_condition.setdefault(asked(found[it]), []).append(it)
    also = "; ".join(f"{', '.join(its)}: {condition}" for condition, its in by_condition.items())
    return f"| {name} | {', '.join(always)} | {also} |"


def picture(table):
    yield "| row | changes | and where |\n|---|---|---|"
    for kind, rows in (("", table.rows), (" accepted", table.offers)):
        alike = {}
        for name, right in rows:
            alike.setdefault(right, []).append(f"`{name}`")
        for right, names in alike.items():
            if names != ["`_`"]:
                yield line(", ".join(names) + kind, table.footprint(right), table.fields)


def place(text, field):
    """Where the field stands in the parts that a row changes."""
    for prefix, function in (("driver.periodic.", "merged_periodic"), ("driver.", "merged_driver"), ("", "merged")):
        body = text.split(f"\n{function} f old new = record {{")[1].split("\n}")[0]
        if found := re.search(rf"(?m)^  (\w+) = if f\.{field} then", body):
            return prefix + found[1]
    sys.exit(f"docs/footprints.py: no function merges the field {field}")


def told(text):
    yield HEAD
    for field in fields(text):
        at = place(text, field)
        yield (f"  pub {field}_stays : (footprint row o).{field} ≡ false\n      → (after_driver_row row p).{at} ≡ p.{at}\n"
               f"  {field}_stays misses =\n      ap (λ (q : Parts). q.{at}) (frame row p o is)\n"
               f"      ∙ picked (footprint row o).{field} (after_driver_row row p).{at} p.{at} misses\n")


def main():
    check = "--check" in sys.argv[1:]
    text = TABLE.read_text()
    before, _, rest = PAGE.read_text().partition(BEGIN)
    after = rest.partition(END)[2]
    page = before + BEGIN + "\n" + "\n".join(picture(Table(text))) + "\n\n" + END + after
    return max(written(PAGE, page, check, "docs/footprints.py"), written(FIELDS, "\n".join(told(text)), check, "docs/footprints.py"))


if __name__ == "__main__":
    sys.exit(main())
