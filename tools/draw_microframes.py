#!/usr/bin/env python3
"""Draws microframes to scale, from the lines of `ehci-trace` for a script, and from what `ehci-trace --schedule` says of it.

    draw_microframes.py TRACE SCHEDULE SCRIPT

A row is a frame of 8 microframes. Above stand the transactions on the high-speed bus, each from where it begins and as wide as its price;
the dashed line of a microframe is the 80 per cent that periodic transactions may use of it. Below stands the bus of each hub: what a
translator moved there in a microframe, as wide as the bytes of its packets at the speed of the device, gaps and stuffed bits left out; the
dashed line is the 90 per cent of a frame. Then comes a line for each periodic endpoint, with S where its S-mask has the microframe, and C
for its C-mask. Pointing at a box shows its packets.
"""
import re
import sys

from svg import COLOURS, box, line, picture, text

LEFT, CELL, LANE = 96, 136, 30
MICROFRAME = 125_000_000
LINE = re.compile(r"(\d+) (\d+)\.(\d) controller (.*)")
TRANSACT = re.compile(r"transact (\w+) ([\w.]+): (.*); heard (.*); price (\d+); left (\d+)")
BELOW = re.compile(r"; below ([\w.]+) packets from (\d+) to before (\d+), unheard (\d+)")


class Trace:
    """What the lines tell: transactions and packets below by microframe, and where each endpoint stands."""

    def __init__(self, lines):
        self.moments, self.made, self.below, self.held, self.hub, self.last = {}, {}, {}, set(), {}, {}
        for text_line in lines:
            found = LINE.match(text_line)
            if found:
                self.take(int(found[1]), int(found[2]), int(found[3]), found[4])

    def take(self, microframe, frame, within, what):
        self.moments[microframe] = (frame, within)
        if what.startswith("begin"):
            if what.startswith("begin held"):
                self.held.add(microframe)
            for name, first, end, unheard in BELOW.findall(what):
                self.below.setdefault(microframe - 1, []).append((name, int(first), int(end), int(unheard)))
        found = TRANSACT.match(what)
        if found:
            split = re.match(r"(start|complete)-split (\d+)\.(\d+) ", found[3])
            if split:
                self.hub[found[2]] = int(split[2])
            sizes = re.findall(r"(?:data0|data1|data2|mdata) (\d+)", found[3])
            if sizes:
                self.last.setdefault(found[2], []).append((microframe, int(sizes[-1])))
            start = MICROFRAME - int(found[5]) - int(found[6])
            what = f"{found[2]}: {found[3]}; heard {found[4]}"
            self.made.setdefault(microframe, []).append((found[2], start, int(found[5]), what))

    def bytes_of(self, name, microframe, packets):
        """The bytes of so many packets below: token, data and handshake, the data's number that of the split next to it. Two packets of
        an IN are its token and a handshake."""
        near = min(self.last.get(name, []), key=lambda it: abs(it[0] - microframe), default=(0, 0))[1]
        if packets == 2 and name.endswith(".in"):
            return 4 + 2
        return sum((4, near + 4, 2)[k % 3] for k in range(packets))


class Schedule:
    """The classes of frames with the letters of their endpoints."""

    def __init__(self, lines):
        self.placed, self.hub = [], {}
        every = first = None
        for text_line in lines:
            found = re.match(r"every (\d+) frames from frame (\d+)", text_line)
            if found:
                every, first = int(found[1]), int(found[2])
            found = re.match(r"  ([SC.]{8}) (\d+\.\d+\.\w+)(?: hub (\d+))?$", text_line)
            if found and every:
                self.placed.append((found[2], every, first, found[1]))
                if found[3]:
                    self.hub[found[2]] = int(found[3])


def draw_row(trace, schedule, frame, microframes, hubs, colour, slow, top):
    shapes = [text(8, top + 16, f"frame {frame}"), text(8, top + 36, "high speed", 11)]
    lanes = {None: top + 20} | {hub: top + 20 + (LANE + 8) * (k + 1) for k, hub in enumerate(hubs)}
    for hub in hubs:
        shapes.append(text(8, lanes[hub] + 18, f"below hub {hub}", 11))
    for at in microframes:
        within = trace.moments[at][1]
        x = LEFT + CELL * within
        shapes.append(text(x + 2, top + 14, f"{at}" + (" held" if at in trace.held else ""), 11, "#666"))
        for lane in lanes.values():
            shapes.append(box(x, lane, CELL, LANE, "#eeeeee" if at in trace.held else "#fafafa", "", "#bbbbbb"))
        shapes.append(line(x + 0.8 * CELL, top + 20, x + 0.8 * CELL, top + 20 + LANE, "#b8504c", "4 3"))
        for name, start, price, what in trace.made.get(at, []):
            left, width = x + CELL * start / MICROFRAME, CELL * price / MICROFRAME
            shapes.append(box(left, top + 24, width, LANE - 8, colour[name], f"microframe {at}, {what}"))
        used = dict.fromkeys(hubs, 0.0)
        for name, first, end, unheard in trace.below.get(at, []):
            hub = trace.hub.get(name, schedule.hub.get(name))
            if hub in lanes:
                share = trace.bytes_of(name, at, end - first) * (8 if name.split(".")[0] in slow else 1) / 187.5
                what = f"microframe {at}, {name}: packets {first} to {end - 1} below the hub, {unheard} of them unheard"
                shapes.append(box(x + CELL * used[hub], lanes[hub] + 4, CELL * min(share, 1 - used[hub]), LANE - 8, colour[name], what))
                used[hub] = min(1.0, used[hub] + share)
    shown = {trace.moments[at][1] for at in microframes}
    for hub in hubs if 7 in shown else ():
        shapes.append(line(LEFT + 7.2 * CELL, lanes[hub], LEFT + 7.2 * CELL, lanes[hub] + LANE, "#b8504c", "4 3"))
    y = top + 20 + (LANE + 8) * (len(hubs) + 1)
    for name, every, first, letters in schedule.placed:
        if frame % every == first:
            shapes.append(text(8, y + 11, name, 11, colour[name]))
            for within, letter in enumerate(letters):
                if letter != "." and within in shown:
                    shapes.append(text(LEFT + CELL * within + 4, y + 11, letter, 11, colour[name]))
            y += 14
    return shapes, y + 14


def draw(trace, schedule, slow):
    told = [*trace.made.values(), schedule.placed, *trace.below.values()]
    names = list(dict.fromkeys(it[0] for some in told for it in some))
    colour = {name: COLOURS[k % len(COLOURS)] for k, name in enumerate(names)}
    hubs = sorted(set(trace.hub.values()) | set(schedule.hub.values()))
    frames = {}
    for at, (frame, _) in sorted(trace.moments.items()):
        frames.setdefault((frame, at - trace.moments[at][1]), []).append(at)
    shapes, top = [], 8
    for k, name in enumerate(names):
        x, y = LEFT + 110 * (k % 10), top + 18 * (k // 10)
        shapes += [box(x, y, 12, 12, colour[name]), text(x + 16, y + 10, name)]
    top += 18 * ((len(names) + 9) // 10) + 10
    for (frame, _), microframes in frames.items():
        more, top = draw_row(trace, schedule, frame, microframes, hubs, colour, slow, top)
        shapes += more
    return picture(LEFT + 8 * CELL + 16, top, shapes)


def main(trace, schedule, script):
    with open(trace, encoding="ascii") as lines:
        trace = Trace(lines)
    with open(schedule, encoding="ascii") as lines:
        schedule = Schedule(lines)
    with open(script, encoding="ascii") as lines:
        slow = {it.split(" ")[1] for it in lines if it.startswith("dev ") and it.split(" ")[2] == "low"}
    sys.stdout.write(draw(trace, schedule, slow))


if __name__ == "__main__":
    main(*sys.argv[1:])
