#!/usr/bin/env python3
"""How fast images are shown: a fan of 2,048 queue heads that all lead to one queue of 2,048 descriptors.

    bench/dump_fan.py PROGRAM

PROGRAM is the built `ehci`. Its `dump` is given the image (1 MiB of memory, 4.2 million lines of text), and the
megabytes of text per second are printed.
"""
import struct
import subprocess
import sys
import time

HEADS = 2048
DESCRIPTORS = 2048
WORDS = 262144
RING = 0x1000
QUEUE = RING + 64 * HEADS


def image():
    words = [0] * WORDS
    words[:1024] = [1] * 1024
    for k in range(HEADS):
        at = RING + 64 * k
        after = RING + 64 * ((k + 1) % HEADS)
        words[at // 4] = after | 2
        words[at // 4 + 1] = 0x2000 | k % 128
        words[at // 4 + 4] = QUEUE
        words[at // 4 + 5] = 1
    for k in range(DESCRIPTORS):
        at = QUEUE + 32 * k
        words[at // 4] = at + 32 if k + 1 < DESCRIPTORS else 1
        words[at // 4 + 1] = 1
        words[at // 4 + 2] = 0x2000D80 + (k % 8 << 16)
    return b"EHCI" + struct.pack("<5I", 1, 0, 0, RING, WORDS) + struct.pack(f"<{WORDS}I", *words)


def main():
    if len(sys.argv) != 2:
        sys.exit(__doc__)
    start = time.monotonic()
    with subprocess.Popen([sys.argv[1], "dump"], stdin=subprocess.PIPE, stdout=subprocess.PIPE) as program:
        program.stdin.write(image())
        program.stdin.close()
        size = lines = 0
        while piece := program.stdout.read(1 << 20):
            size += len(piece)
            lines += piece.count(b"\n")
    seconds = time.monotonic() - start
    print(f"{lines} lines, {size} bytes in {seconds:.2f} s: {size / seconds / 1e6:.0f} MB/s")
    wanted = 1 + 1 + HEADS * (1 + DESCRIPTORS) + 1
    if program.returncode != 0 or lines != wanted:
        sys.exit(f"status {program.returncode}, and {wanted} lines are wanted")


main()
