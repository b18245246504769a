#!/usr/bin/env python3
"""Says in words what a line of the program means: a fault of a script or an image, or a refused command.

    explain.py SCRIPT SAID [SCHEDULE]

SCRIPT is the input that the program read, SAID what it wrote (a fault, a report or a trace), SCHEDULE what `ehci-trace --schedule` writes
for the same input. Line and cause are the program's; this script only looks for the word that they are about, and says what is allowed
there.
The lines go to standard output, one for each fault and for each refused command; docs/FORMATS.md has the rules.
"""
import re
import sys

ANY = 4294967295


def number(what, low, high):
    return ("number", what, low, high)


def word(*words):
    return ("word", " or ".join(f"`{it}`" for it in words), words)


HEX = ("hex", "bytes, which are an even number of the digits 0-9 and a-f, or `-` for none")
SETUP = ("setup", "the 8 bytes of SETUP, which are one word of 16 digits 0-9 and a-f")
WAY = word("in", "out", "ctl")
EP = [number("address", 0, ANY), number("endpoint number", 0, ANY), WAY]
NEW_EP = [number("address", 0, ANY), number("endpoint number", 1, 15), WAY]
ADDRESS = number("address", 1, 127)
MAX, PERIOD, MULTI = (number(it, 0, ANY) for it in ("packet size", "period", "number of packets"))
BY = [word("by"), number("number of bytes of a descriptor", 1, 20480)]
COUNT = number("number of descriptors", 1, 8)
SEED = number("first byte", 0, 255)
BYTES = number("number of bytes", 0, 65535)
FORMS = {
    "mem": [[number("number of words", 2048, 262144)]],
    "hub": [[ADDRESS, number("number of ports", 1, 15)]],
    "dev": [[ADDRESS, word("high")]]
    + [[ADDRESS, word(it), number("hub", 0, ANY), number("port", 0, ANY)] for it in ("full", "low")],
    "ep": [[EP[0], number("endpoint number", 0, 0), word("ctl"), word("control"), MAX], NEW_EP + [word("bulk"), MAX]]
    + [NEW_EP + [word(it), MAX, PERIOD, MULTI] for it in ("interrupt", "iso")],
    "reply": [
        EP + [word("data"), HEX],
        EP + [word("fill"), number("number of bytes", 0, 65536), SEED],
        EP + [word("nak"), number("number of NAKs", 1, 1000000)],
        EP + [word("nyet")],
        EP + [word("stall")],
        EP + [word("request"), SETUP, HEX],
    ],
    "fate": [EP + [word("high", "down"), number("packet number", 0, ANY), word("lost", "damaged")]],
    "hold": [[number("microframe", 1, ANY), number("microframe", 1, ANY)]],
    "open": [EP],
    "cancel": [EP],
    "get": [EP + [BYTES], EP + [BYTES] + BY],
    "put": [EP + [HEX], EP + [HEX] + BY, EP + [word("fill"), BYTES, SEED], EP + [word("fill"), BYTES, SEED] + BY],
    "control": [[EP[0], SETUP], [EP[0], SETUP, HEX]],
    "iso": [EP[:2] + [word("in"), COUNT], EP[:2] + [word("out"), COUNT, number("number of bytes", 0, 3072), SEED]],
    "order": [[word(it), number("number of " + ("microframes" if it == "m" else "steps"), 0, ANY)] for it in "dcm"],
}
WORLD = ("hub", "dev", "ep", "stuff", "reply", "epoch", "fate", "hold")
# what version 2 has beside that
SECOND = {
    "hub": FORMS["hub"] + [FORMS["hub"][0] + [word("multi")]],
    "stuff": [EP + [number("number of stuffed bytes in 36", 0, 6)]],
    "epoch": [EP],
    "clear": [EP],
}
# what version 2 names and isn't built (docs/FORMATS.md)
PLANNED = ("frames", "park", "root", "classic", "disk", "plug", "unplug", "reset", "give", "read", "write", "revive")
ACTIONS = ("open", "cancel", "clear", "get", "put", "control", "iso", "order")
SIZES = {
    "control": {"high": (64,), "full": (8, 16, 32, 64), "low": (8,)},
    "bulk": {"high": (512,), "full": (8, 16, 32, 64), "low": ()},
    "interrupt": {"high": range(1, 1025), "full": range(1, 65), "low": range(1, 9)},
    "iso": {"high": range(1, 1025), "full": range(1, 1024), "low": ()},
}
CLOSED = {
    "stall": "its device answered STALL",
    "error": "three errors halted it",
    "babble": "a packet was longer than what was asked for",
    "miss": "a complete-split was missed",
    "cancel": "it was cancelled",
}


def is_number(text):
    return re.fullmatch(r"0|[1-9][0-9]*", text) is not None and int(text) <= ANY


def hex_bytes(text):
    if text == "-":
        return []
    return [int(text[i : i + 2], 16) for i in range(0, len(text), 2)]


def fits(slot, text):
    if slot[0] == "number":
        return is_number(text)
    if slot[0] == "word":
        return text in slot[2]
    if slot[0] == "hex":
        return text == "-" or re.fullmatch(r"([0-9a-f]{2})+", text) is not None
    return re.fullmatch(r"[0-9a-f]{16}", text) is not None


def wanted(slot):
    if slot[0] == "number":
        return f"{'an' if slot[1][0] in 'aeiou' else 'a'} {slot[1]} in decimal digits without sign or leading zeros"
    return slot[1]


def among(sizes):
    if isinstance(sizes, range):
        return f"{sizes[0]} to {sizes[-1]}"
    return ", ".join(map(str, sizes[:-1])) + (" or " if len(sizes) > 1 else "") + str(sizes[-1])


class Draft:
    """What the lines before a faulty one declare."""

    def __init__(self, lines):
        self.lines, self.hubs, self.devices, self.endpoints = lines, {}, {}, {}
        self.first_action = self.first_world = None
        for at, text in enumerate(lines, 1):
            words = text.split(" ")
            if at > 1 and text and not text.startswith("#"):
                self.take(at, words)

    def take(self, at, words):
        if words[0] in ACTIONS and self.first_action is None:
            self.first_action = at
        if words[0] in WORLD and self.first_world is None:
            self.first_world = at
        if words[0] == "hub":
            self.hubs[int(words[1])] = (int(words[2]), at)
            self.endpoints[(int(words[1]), 0, "ctl")] = ("control", 64, 0, 1, at)
        elif words[0] == "dev":
            below = tuple(map(int, words[3:5]))
            self.devices[int(words[1])] = (words[2], below, at)
        elif words[0] == "ep":
            more = [int(it) for it in words[6:8]] or [0, 1]
            self.endpoints[(int(words[1]), int(words[2]), words[3])] = (words[4], int(words[5]), *more, at)

    def speed(self, address):
        return self.devices[address][0] if address in self.devices else None


def name_of(words):
    """The endpoint that a line names behind its first word."""
    if words[0] == "control":
        return (int(words[1]), 0, "ctl")
    return (int(words[1]), int(words[2]), words[3])


def shown(name):
    return ".".join(map(str, name))


# ---- faults. Each answers with the place of a word, from 0 at the first one of the line, and what is wrong with it.


def why_word(words, is_second):
    first = words[0]
    if first in FORMS:
        yield from why_slot(words)
    elif is_second and first in PLANNED:
        yield 0, f"`{first}` is a word of version 2 that isn't built"
    elif first in SECOND:
        yield 0, f"`{first}` is of version 2: line 1 is `ehci 2` then"
    else:
        yield 0, f"`{first}` begins no line: {', '.join(FORMS)}"


def why_slot(words):
    """The first word that fits no form with so many words: it stands where the furthest form ends."""
    reach, slots = -1, []
    for form in FORMS[words[0]]:
        if len(form) == len(words) - 1:
            k = 0
            while k < len(form) and fits(form[k], words[k + 1]):
                k += 1
            if k < len(form) and k >= reach:
                slots = (slots if k == reach else []) + [form[k]]
                reach = k
    if slots:
        named = [f"`{word}`" for it in slots if it[0] == "word" for word in it[2]]
        choices = dict.fromkeys([*named, *(wanted(it) for it in slots if it[0] != "word")])
        yield reach + 1, f"`{words[reach + 1]}` stands in the place of {' or '.join(choices)}"


def why_count(words, is_second):
    counts = sorted({len(it) for it in FORMS[words[0]]})
    is_new = not is_second and len(words) - 1 in {len(it) for it in SECOND.get(words[0], [])}
    if words[0] == "control" and len(words) > 4:
        yield 2, "the 8 bytes of SETUP are one word of 16 digits, without spaces"
    else:
        yield 0, f"`{words[0]}` has {among(counts)} words behind it, not {len(words) - 1}" + (", which is of version 2" if is_new else "")


def form_of(words):
    for form in FORMS[words[0]]:
        if len(form) == len(words) - 1 and all(map(fits, form, words[1:])):
            return form
    return []


def why_range(draft, words):
    for at, (slot, text) in enumerate(zip(form_of(words), words[1:]), 1):
        if slot[0] == "number" and not slot[2] <= int(text) <= slot[3]:
            yield at, f"{text} is no {slot[1]}: {slot[2]}" + ("" if slot[2] == slot[3] else f" to {slot[3]}")
            return
    rule = {"mem": mem_range, "ep": ep_range, "stuff": stuff_range, "epoch": epoch_range, "reply": reply_range, "hold": hold_range, "control": control_range, "iso": iso_range}
    yield from rule.get(words[0], by_range)(draft, words)


def mem_range(draft, words):
    yield 1, f"{words[1]} is no number of words: a multiple of 1024"


def ep_range(draft, words):
    kind, size, speed = words[4], int(words[5]), draft.speed(int(words[1]))
    speeds = [speed] if speed else ["high", "full", "low"]
    at_speed = f" at {speed} speed" if speed else ""
    if words[3] == "ctl" and kind != "control":
        yield 3, f"`ctl` is no way of a {kind} endpoint: `in` or `out`"
    elif not any(SIZES[kind][it] for it in speeds):
        yield 4, f"no {kind} endpoint{at_speed}"
    elif not any(size in SIZES[kind][it] for it in speeds):
        sizes = [among(SIZES[kind][it]) + ("" if speed else f" at {it} speed") for it in speeds if SIZES[kind][it]]
        yield 5, f"{size} is no packet size of {'an' if kind[0] == 'i' else 'a'} {kind} endpoint{at_speed}: {', '.join(sizes)}"
    elif kind in ("interrupt", "iso"):
        yield from rate_range(speed, int(words[6]), int(words[7]))


def rate_range(speed, period, multi):
    low, most, where = (8, 1, " behind a hub") if speed in ("full", "low") else (1, 3, "")
    if period not in [1 << k for k in range(14)] or period < low:
        yield 6, f"{period} is no period{where}: a power of two from {low} to 8192"
    else:
        yield 7, f"{multi} packets a microframe aren't allowed{where}: 1" + (" to 3" if most == 3 else "")


def reply_range(draft, words):
    name, what = name_of(words), words[4]
    known = draft.endpoints.get(name)
    if known and name[0] in draft.hubs:
        yield 1, f"{name[0]} is a hub, which answers by itself"
    elif what in ("data", "fill") and name[2] != "in":
        yield 3, f"`{what}` is of an IN endpoint: `in`"
    elif what == "data":
        yield 5, f"{len(hex_bytes(words[5]))} bytes are more than a packet of {shown(name)}: at most {known[1] if known else 1024}"
    elif what == "request":
        yield 3, "`request` is of a control endpoint: `ctl`"
    elif what == "nyet" and name[2] != "out":
        yield 3, "`nyet` is of a bulk or interrupt OUT endpoint: `out`"
    else:
        kind = f", and {shown(name)} is {'an' if known[0][0] == 'i' else 'a'} {known[0]} endpoint" if known else ""
        yield 4, f"`{what}` is of {'another kind than iso' if what == 'nak' else 'a bulk or interrupt endpoint'}{kind}"


def stuff_range(draft, words):
    where = "the control endpoint of a hub" if int(words[1]) in draft.hubs else "of a high-speed device"
    yield 1, f"{shown(name_of(words))} is {where}, and stuffed bits count behind a hub alone"


def epoch_range(draft, words):
    yield 1, f"{shown(name_of(words))} is no bulk or interrupt endpoint, and epochs are of these alone"


def hold_range(draft, words):
    yield 2, f"{words[2]} is before {words[1]}: the last held microframe, from the first on"


def control_range(draft, words):
    setup = hex_bytes(words[2])
    length = setup[6] + 256 * setup[7]
    if setup[0] >= 128:
        yield 3, "this SETUP reads data (bit 7 of its first byte is 1), so none stand behind it"
    elif length and len(words) == 3:
        yield 2, f"this SETUP writes {length} bytes (wLength, its last two), which must stand behind it"
    elif not length:
        yield 3, "this SETUP has no data (wLength, its last two bytes, is 0), so none stand behind it"
    else:
        yield 3, f"{len(hex_bytes(words[3]))} bytes, but wLength, the last two bytes of SETUP, is {length}"


def iso_range(draft, words):
    known = draft.endpoints[name_of(words)]
    yield 5, f"{words[5]} bytes a microframe are more than {shown(name_of(words))} has: at most {known[1]} times {known[3]}"


def by_range(draft, words):
    known = draft.endpoints.get(name_of(words))
    yield len(words) - 1, f"{words[-1]} is no multiple of the packet size" + (f", {known[1]}" if known else "")


def why_unknown(draft, words):
    if words[0] == "dev":
        hub = int(words[3])
        if hub not in draft.hubs:
            yield 3, f"no line before this one declares hub {hub}"
        else:
            yield 4, f"hub {hub} has no port {words[4]}: 1 to {draft.hubs[hub][0]}"
    elif words[0] == "ep":
        yield 1, f"no line before this one declares a device {words[1]}" + (", which is a hub" if int(words[1]) in draft.hubs else "")
    else:
        name = name_of(words)
        own = [shown(it) for it in draft.endpoints if it[0] == name[0]]
        there = f"; of address {name[0]} there is {', '.join(own)}" if own else ""
        yield 1, f"no line before this one declares endpoint {shown(name)}{there}"


def why_twice(draft, words):
    def before(test):
        return next((at for at, text in enumerate(draft.lines, 1) if test(text.split(" "))), None)

    if words[0] == "mem":
        line = before(lambda it: it[0] == "mem")
    elif words[0] in ("hub", "dev"):
        address = int(words[1])
        line = before(lambda it: it[0] in ("hub", "dev") and it[1] == words[1])
        if line is None:
            line = before(lambda it: it[0] == "dev" and it[3:] == words[3:])
            yield 4, f"port {words[4]} of hub {words[3]} has a device already, by line {line}"
            return
        yield 1, f"address {address} is taken already, by line {line}"
        return
    else:
        same = 4 if words[0] in ("ep", "stuff") else 6
        line = before(lambda it: it[:same] == words[:same])
    yield 0, f"line {line} says so already"


def why_limit(draft, words):
    most = {
        "hub": "a script has at most 8 hubs",
        "dev": "a script has at most 127 devices",
        "ep": "a script has at most 256 endpoints",
        "fate": "a script has at most 4096 fates",
        "hold": "a script has at most 256 holds",
        "epoch": "an endpoint has at most 16 lines `epoch`",
        "reply": "the replies, puts and requests of a script have at most 4194304 bytes",
        "order": "a script orders at most 16384 microframes, 1000000 steps in a line and 4000000 in all",
    }
    yield 0, most.get(words[0], "a script has at most 4096 commands, asks for at most 4194304 bytes and sends as many")


def why_late(draft, words):
    if draft.first_action is not None:
        yield 0, f"lines that say what stands on the bus come before the first command or order, which is line {draft.first_action}"
    else:
        yield 0, f"`mem` comes before all other lines that say what stands on the bus, and line {draft.first_world} is one"


def why_byte(text):
    at = next(k for k, byte in enumerate(text) if not 32 <= byte <= 126)
    names = {13: "a carriage return: a line ends with a line feed alone", 9: "a tab: words are separated by one space"}
    yield at + 1, f"byte {text[at]:02x}h is " + names.get(text[at], "in no line: 20h to 7Eh")


def why_spaces(text):
    """A space too many, by its column."""
    at = 0 if text.startswith(" ") else text.find("  ") + 1 if "  " in text else len(text) - 1
    yield at + 1, "a space too many: one between two words, and none at either end"


def fault(raw, line, cause):
    """Columns and explanations of a fault, the column 0 for a line as a whole."""
    lines = raw.split(b"\n")
    if line == 0 or line > len(lines):
        return [(0, f"the text has {len(raw)} bytes or more: at most 1048576")]
    text = lines[line - 1]
    if cause == "long":
        return [(0, f"the line has {len(text)} bytes: at most 65535")]
    if cause == "byte":
        return list(why_byte(text))
    text = text.decode("ascii")
    if cause == "version":
        return [(1, f"`{text[:40]}` is no version: line 1 is `ehci 1` or `ehci 2`")]
    is_second = lines[0] == b"ehci 2"
    if is_second:
        FORMS.update(SECOND)
    words = text.split(" ")
    if cause == "word" and "" in words:
        return list(why_spaces(text))
    draft = Draft([it.decode("ascii") for it in lines[: line - 1]])
    rules = {
        "word": lambda: why_word(words, is_second),
        "number": lambda: why_slot(words),
        "hex": lambda: why_slot(words),
        "count": lambda: why_count(words, is_second),
        "range": lambda: why_range(draft, words),
        "unknown": lambda: why_unknown(draft, words),
        "twice": lambda: why_twice(draft, words),
        "limit": lambda: why_limit(draft, words),
        "late": lambda: why_late(draft, words),
    }
    starts = [sum(len(it) + 1 for it in words[:k]) + 1 for k in range(len(words))]
    return [(starts[at], what) for at, what in rules[cause]()]


def offset_fault(raw, offset, cause):
    second = int.from_bytes(raw[4:8], "little") == 2
    fields = {8: "FRINDEX", 12: "PERIODICLISTBASE", 16: "ASYNCLISTADDR", 20: "the first word's address" if second else "the number of words"}
    words = "a multiple of 4096, with words that end below 4 GiB" if second else "a multiple of 1024 from 1024 to 262144"
    rules = {8: "at most 3fffh", 12: "a multiple of 4096", 16: "a multiple of 32", 20: words}
    if cause == "magic":
        return f"an image begins with the bytes `EHCI`, and this with {raw[:4].hex(' ')}"
    if cause == "version":
        return f"version {int.from_bytes(raw[4:8], 'little')} is none: 1 or 2"
    if cause == "length" and len(raw) < 24:
        return f"the header has 24 bytes, and there are {len(raw)}"
    if cause == "length" and second:
        return f"words have a multiple of 4096 bytes from 4096 to 1048576, and there are {len(raw) - 24} behind the header"
    if cause == "length":
        return f"the header says {24 + 4 * int.from_bytes(raw[20:24], 'little')} bytes, and there are {len(raw)}"
    return f"{fields[offset]} is {int.from_bytes(raw[offset : offset + 4], 'little'):08x}h: {rules[offset]}"


# ---- refused commands


def breaches(schedule, line):
    """The lines that the schedule has on a refused open."""
    found, under = [], False
    for text in schedule.split("\n"):
        if text.startswith("refused on line "):
            under = text.startswith(f"refused on line {line}:")
        elif under and text.startswith("  "):
            found.append(text.strip())
    return found


def over(text):
    """By how much a sum is above its budget."""
    found = re.search(r": (.+) (\d+) (below the hub )?of (\d+)(?:, [0-9.]+%)?$", text)
    if not found:
        return text
    what, total, hub, budget = found[1], int(found[2]), found[3] or "", int(found[4])
    unit = "byte-times" if what.startswith("byte") else "ps"
    share = f"{total * 1000 // budget / 10}%"
    return f"{text[: found.start()]}: {what} {hub}would be {total} of {budget} {unit}, {total - budget} too many ({share})"


def ends(lines, said, name, line):
    """Where a report says that the endpoint has ended."""
    for text in said.split("\n"):
        if re.match(rf"(halt|miss|cancel) {re.escape(shown(name))}( |$)", text):
            return f" (`{' '.join(text.split(' ')[:3])}`)"
    return ""


def accepted_before(lines, refused, line, first):
    """The last accepted command before a line that begins so, with its number."""
    for at in range(line - 1, 0, -1):
        words = lines[at - 1].split(" ")
        if at not in refused and words[0] in ACTIONS and words[0] != "order" and lines[at - 1].startswith(first):
            return at, lines[at - 1]
    return None, ""


def refusal(lines, said, schedule, refused, line):
    why, text = refused[line], lines[line - 1]
    words, name = text.split(" "), name_of(text.split(" ")) if text.split(" ")[0] != "iso" else None
    if words[0] == "iso":
        name = (int(words[1]), int(words[2]), words[3])
    cause = why.split(" ")[0]
    if cause == "busy":
        at, before = accepted_before(lines, refused, line, "")
        return f"the driver is still at work on line {at} (`{before}`); give it steps before this line, such as `order m 1`"
    if cause == "no-endpoint":
        at, _ = accepted_before(lines, refused, line, f"open {name[0]} {name[1]} {name[2]}")
        return f"`{words[0]}` doesn't suit the kind of {shown(name)}" if at else f"no open of {shown(name)} was accepted before"
    if cause == "closed":
        return f"{shown(name)} has ended: {CLOSED.get(why.split(' ')[1], why)}{ends(lines, said, name, line)}"
    if cause == "not-ended":
        return f"{shown(name)} hasn't ended, so it has no halt to clear"
    if cause == "hub-closed":
        return f"the control endpoint of the hub of {shown(name)} isn't open, has ended, or has a request that isn't reported"
    if cause == "already-open":
        return f"{shown(name)} is open since line {accepted_before(lines, refused, line, f'open {name[0]} {name[1]} {name[2]}')[0]}"
    if cause == "too-long":
        return "more than a transfer may have, 20480 bytes; of isochronous descriptors more than eight outstanding, or than frames to stand in"
    if cause == "no-blocks":
        _, need, largest = why.split(" ")
        return f"{need} free blocks of 32 bytes on end are needed in a page, the longest run has {largest}; `mem` gives more"
    if cause == "no-placement":
        found = breaches(schedule, line)
        if not found:
            return f"no placement of {shown(name)} keeps all budgets; `ehci-trace --schedule` tells which are full"
        return "the first budget that each placement breaks:" + "".join(f"\n    {over(it)}" for it in found)
    return why


def main(script, said, schedule=None):
    raw = open(script, "rb").read()
    said = open(said, "rb").read().decode("ascii", "replace")
    schedule = open(schedule, encoding="ascii").read() if schedule else ""
    found = re.fullmatch(r"line (\d+): (\w+)\n", said)
    if found:
        for column, what in fault(raw, int(found[1]), found[2]):
            print(f"line {found[1]}" + (f", column {column}" if column else "") + f": {what}")
        return
    found = re.fullmatch(r"offset (\d+): (\w+)\n", said)
    if found:
        print(f"offset {found[1]}: {offset_fault(raw, int(found[1]), found[2])}")
        return
    refused = {int(it[0]): it[1] for it in re.findall(r"^line (\d+): refused (.+)$", said, re.M)}
    refused |= {int(it[0]): it[1] for it in re.findall(r" command of line (\d+) refused (.+)$", said, re.M)}
    lines = raw.decode("ascii").split("\n") if refused else []
    for line in sorted(refused):
        print(f"line {line}: {refused[line]}: {refusal(lines, said, schedule, refused, line)}")


if __name__ == "__main__":
    main(*sys.argv[1:])
