#!/usr/bin/env python3
"""What a run of the gate costs, as the tables of GATE.md.

    docs/gate_cost.py run LOG [FLAG ..]    runs `rt ci FLAG ..` here, and writes LOG: each line of its output behind the seconds
                                           since the begin, then the processor seconds of each crate, by kind
    docs/gate_cost.py table LOG [ROWS]     prints the tables of that LOG, with the ROWS dearest crates (none: 25)

On two processors: `RT_JOBS=2 taskset -c 0,1 docs/gate_cost.py run LOG`.

The kinds are reading (the text of all crates, by rt itself), proofs, tests (their proofs and their build), edits, and programs
(what is built and run beside). Times are read from /proc twice a second, so a process loses half a second at most.
"""
import os
import subprocess
import sys
import threading
import time

KINDS = ["reading", "proofs", "tests", "edits", "programs"]
TICKS = os.sysconf("SC_CLK_TCK")
EVERY = 0.5


def stat_of(pid):
    """The parent of a process, the processor seconds that it took itself, and when it began."""
    with open(f"/proc/{pid}/stat") as it:
        fields = it.read().rpartition(")")[2].split()
    return int(fields[1]), (int(fields[11]) + int(fields[12])) / TICKS, int(fields[19])


def words_of(pid):
    with open(f"/proc/{pid}/cmdline", "rb") as it:
        return it.read().decode(errors="replace").split("\0")


def below(top):
    """Each process from this one down, by its number."""
    found = {}
    for name in os.listdir("/proc"):
        if name.isdigit():
            try:
                found[int(name)] = stat_of(int(name))
            except (OSError, IndexError):
                pass
    inside = {top}
    while True:
        more = {pid for pid, it in found.items() if it[0] in inside} - inside
        if not more:
            return {pid: found[pid] for pid in inside if pid in found}
        inside |= more


def place_of(pid):
    """The crate and the kind that a process works for, by its words and its folder; None where it tells none."""
    words, folder = words_of(pid), os.path.basename(os.readlink(f"/proc/{pid}/cwd"))
    if "--crate-name" not in words:
        return None
    crate = words[words.index("--crate-name") + 1]
    if folder.startswith("rt-edit-"):
        return crate, "edits"
    return crate, "tests" if "--test" in words else "proofs"


class Costs:
    """The processor seconds so far, of each process and of each place."""

    def __init__(self, top):
        self.top, self.places, self.taken = top, {}, {}

    def look(self):
        """Reads the times of all processes once."""
        found = below(self.top)
        for pid, (_, seconds, begun) in found.items():
            # (a number is given again once its process has ended)
            if (pid, begun) not in self.places:
                try:
                    self.places[pid, begun] = place_of(pid)
                except OSError:
                    continue
            self.taken[pid, begun] = (self.place(pid, found), seconds)

    def place(self, pid, found):
        """The place of the nearest process above that tells one: rt itself reads, and what it starts for no crate is a program."""
        at = pid
        while at in found and at != self.top:
            told = self.places.get((at, found[at][2]))
            if told:
                return told
            at = found[at][0]
        return "", "reading" if pid == self.top else "programs"

    def sums(self):
        sums = {}
        for place, seconds in self.taken.values():
            sums[place] = sums.get(place, 0) + seconds
        return sums


def run(log, flags):
    begin = time.monotonic()
    gate = subprocess.Popen(["rt", "ci", *flags], stdout=subprocess.PIPE, stderr=subprocess.STDOUT, errors="replace", text=True)
    costs = Costs(gate.pid)
    with open(log, "w") as to:

        def copy():
            for line in gate.stdout:
                print(line, end="", flush=True)
                print(f"{time.monotonic() - begin:.1f}\t{line}", end="", file=to, flush=True)

        reader = threading.Thread(target=copy)
        reader.start()
        while gate.poll() is None:
            costs.look()
            time.sleep(EVERY)
        reader.join()
        print(f"wall\t{time.monotonic() - begin:.1f}\t{len(os.sched_getaffinity(0))}", file=to)
        for (crate, kind), seconds in sorted(costs.sums().items()):
            print(f"cost\t{crate}\t{kind}\t{seconds:.1f}", file=to)
    return gate.returncode


def minutes(seconds):
    return f"{seconds / 60:.1f}" if seconds else "-"


def table(log, rows):
    wall, processors, ended, costs = 0, 0, "", {}
    for line in open(log):
        fields = line.rstrip("\n").split("\t")
        if fields[0] == "wall":
            wall, processors = float(fields[1]), int(fields[2])
        elif fields[0] == "cost":
            costs.setdefault(fields[1], {})[fields[2]] = float(fields[3])
        elif len(fields) > 1 and " passed, " in fields[1]:
            ended = fields[1]
    whole = {kind: sum(it.get(kind, 0) for it in costs.values()) for kind in KINDS}
    print(f"{ended}; {minutes(wall)} minutes on {processors} processors.\n")
    print("| processor minutes | " + " | ".join(KINDS) + " | all |")
    print("|---|" + "---|" * (len(KINDS) + 1))
    print("| all crates | " + " | ".join(minutes(whole[kind]) for kind in KINDS) + f" | {minutes(sum(whole.values()))} |")
    dearest = sorted((it for it in costs if it), key=lambda it: -sum(costs[it].values()))
    for crate in dearest[:rows]:
        own = costs[crate]
        print(f"| {crate} | " + " | ".join(minutes(own.get(kind, 0)) for kind in KINDS) + f" | {minutes(sum(own.values()))} |")
    rest = dearest[rows:]
    if rest:
        own = {kind: sum(costs[it].get(kind, 0) for it in rest) for kind in KINDS}
        print(f"| the other {len(rest)} | " + " | ".join(minutes(own[kind]) for kind in KINDS) + f" | {minutes(sum(own.values()))} |")
    return 0


def main(words):
    if len(words) >= 2 and words[0] == "run":
        return run(words[1], words[2:])
    if len(words) in (2, 3) and words[0] == "table":
        return table(words[1], int(words[2]) if len(words) == 3 else 25)
    print(__doc__, file=sys.stderr)
    return 2


if __name__ == "__main__":
    sys.exit(main(sys.argv[1:]))
