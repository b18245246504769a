#!/usr/bin/env python3
"""Draws the frame list and the ring, from what `ehci dump` writes.

    draw_structures.py < DUMP

On the left stand the frames, those with the same chain together; a chain leads to the right, and chains that come to the same structure
join there (EHCI 1.0, 4.6). Below stands the ring of the asynchronous list (EHCI 1.0, 4.8), with the qTDs of each queue head.
"""
import re
import sys

from svg import COLOURS, arrow, box, line, picture, text

WIDTH, HEIGHT, STEP_X, STEP_Y = 150, 40, 180, 58
ENDS = ("end", "ring", "outside", "loop", "fstn", "bad", "kind")


class Dump:
    """The chain of each frame and the ring, as addresses; what each structure is, and the qTDs below it."""

    def __init__(self, lines):
        self.frames, self.next, self.ring, self.what, self.queues, self.end = {}, {}, [], {}, {}, ""
        frame = last = None
        for raw in lines:
            words = raw.split()
            if not words or words[0] == "frindex":
                continue
            if words[0] in ("frame", "async"):
                frame, last = (int(words[1]) if words[0] == "frame" else "ring"), None
            elif words[0] == "qtd":
                self.queues.setdefault(last, []).append(f"{words[2]} total {words[4]}")
            elif words[0] in ENDS:
                self.end = " ".join(words) if frame == "ring" else self.end
            else:
                address = words[1]
                if words[0] != "seen":
                    self.what[address] = self.label(words)
                self.add(frame, last, address)
                last = address

    def add(self, frame, last, address):
        if frame == "ring":
            self.ring.append(address)
        elif last is None:
            self.frames.setdefault(address, []).append(frame)
        else:
            self.next[last] = address

    @staticmethod
    def label(words):
        masks = re.search(r"s (\w\w) c (\w\w)", " ".join(words))
        more = f"S {masks[1]} C {masks[2]}" if masks and masks[0] != "s 00 c 00" else " ".join(words[3:6])
        return words[0], words[2], more


def frames_text(numbers):
    if len(numbers) == 1:
        return f"frame {numbers[0]}"
    steps = {b - a for a, b in zip(numbers, numbers[1:])}
    if len(steps) == 1 and steps != {1}:
        return f"frames {numbers[0]}, {numbers[1]} .. {numbers[-1]}"
    return f"frames {numbers[0]} to {numbers[-1]}" if steps == {1} else f"{len(numbers)} frames from {numbers[0]}"


def structure(dump, address, x, y):
    kind, name, more = dump.what.get(address, ("?", address, ""))
    colour = COLOURS[{"qh": 0, "itd": 1, "sitd": 2}.get(kind, 7)]
    return [
        box(x, y, WIDTH, HEIGHT, "#ffffff", f"{kind} {address}", colour),
        text(x + 6, y + 16, f"{kind} {address}", 12, colour),
        text(x + 6, y + 32, f"{name}  {more}", 11),
    ]


def frame_tree(dump, top):
    """Each structure stands as far from the right as its chain is long; the frames that begin there stand left of it."""
    depth = {}

    def depth_of(address):
        if address not in depth:
            depth[address] = 0
            depth[address] = 1 + depth_of(dump.next[address]) if address in dump.next else 0
        return depth[address]

    nodes = [it for it in dump.what if it in dump.frames or it in dump.next or it in dump.next.values()]
    most = max(map(depth_of, nodes), default=-1)
    place, rows = {}, {}
    shapes = [text(8, top, "frame list", 13)] if nodes else []
    for address in sorted(nodes, key=lambda it: (-depth_of(it), it)):
        row = rows.get(depth_of(address), 0)
        rows[depth_of(address)] = row + 1
        place[address] = (STEP_X * (1 + most - depth_of(address)) + 8, top + 12 + STEP_Y * row)
    bottom = top + 12 + STEP_Y * max(rows.values(), default=0)
    for address, (x, y) in place.items():
        shapes += structure(dump, address, x, y)
        if address in dump.next and dump.next[address] in place:
            to = place[dump.next[address]]
            shapes.append(arrow([(x + WIDTH, y + HEIGHT / 2), (to[0], to[1] + HEIGHT / 2)]))
    y = top + 12
    for address, numbers in sorted(dump.frames.items(), key=lambda it: place[it[0]]):
        to = place[address]
        beside = to[0] == STEP_X + 8
        y = to[1] if beside else max(y, bottom)
        shapes.append(box(8, y, WIDTH, HEIGHT, "#f4f4f4", "", "#888888"))
        shapes += [text(14, y + 18, frames_text(numbers), 11), text(14, y + 33, f"{len(numbers)} of 1024", 10, "#666")]
        start, end, bend = (8 + WIDTH, y + HEIGHT / 2), (to[0], to[1] + HEIGHT / 2), to[0] - 16
        shapes.append(arrow([start, end] if beside else [start, (bend, start[1]), (bend, end[1]), end]))
        y += STEP_Y
    return shapes, max(bottom, y) + 12, STEP_X * (most + 2)


def ring(dump, top):
    shapes, x, y, deepest = [text(8, top, "ring", 13)], 8, top + 12, 0
    for k, address in enumerate(dump.ring):
        if k and k % 6 == 0:
            y += HEIGHT + 24 + 14 * deepest
            deepest = 0
        x = 8 + STEP_X * (k % 6)
        shapes += structure(dump, address, x, y)
        for n, qtd in enumerate(dump.queues.get(address, [])):
            shapes.append(text(x + 6, y + HEIGHT + 14 + 14 * n, f"qtd {qtd}", 11, "#666"))
        deepest = max(deepest, len(dump.queues.get(address, [])))
        if k + 1 < len(dump.ring) and (k + 1) % 6:
            shapes.append(arrow([(x + WIDTH, y + HEIGHT / 2), (x + STEP_X, y + HEIGHT / 2)]))
    bottom = y + HEIGHT + 14 * deepest + 16
    if dump.end == "ring" and dump.ring:
        last, first, right = y + HEIGHT / 2, top + 12 + HEIGHT / 2, x + WIDTH + 12
        shapes.append(arrow([(x + WIDTH, last), (right, last), (right, bottom), (2, bottom), (2, first), (8, first)]))
    elif dump.ring:
        shapes.append(text(x + WIDTH + 6, y + HEIGHT / 2 + 4, dump.end, 11, "#b8504c"))
    return shapes, bottom + 12, 8 + STEP_X * min(len(dump.ring), 6)


def main():
    dump = Dump(sys.stdin)
    first, top, wide = frame_tree(dump, 20)
    second, bottom, wider = ring(dump, top + 12)
    sys.stdout.write(picture(max(wide, wider) + 16, int(bottom), [*first, line(0, top, max(wide, wider) + 16, top, "#dddddd"), *second]))


if __name__ == "__main__":
    main()
