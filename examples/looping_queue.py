#!/usr/bin/env python3
"""Writes the image of a host whose memory is damaged: frames 2 and 7 join, and a queue of the ring leads into itself.

    looping_queue.py [ADDRESS]

With an address, a multiple of 4,096 in hexadecimal digits, the words begin there, and the image is of the second form.
"""
import struct
import sys

BASE = int(sys.argv[1], 16) if len(sys.argv) > 1 else 0
HEAD = BASE + 0x1000  # the head of the ring
FIRST, SECOND = BASE + 0x1040, BASE + 0x1080  # queue heads of interrupt endpoints
INPUT, OUTPUT = BASE + 0x1100, BASE + 0x1120  # descriptors
QUEUE_HEAD = 2  # the type of a link to a queue head
END = 1  # T=1

words = [0] * 2048
words[:1024] = [END] * 1024  # the frame list


def put(at, *values):
    place = (at - BASE) // 4
    words[place : place + len(values)] = values


put(HEAD, HEAD | QUEUE_HEAD, 0x40A000, 0x40000000, 0, INPUT, END, 0x40)
put(INPUT, OUTPUT, END, 0x02000D80)  # IN, 512 bytes, 3 errors left, active
put(OUTPUT, INPUT, END, 0x00030480)  # OUT, 3 bytes, 1 error left, active

put(BASE + 4 * 2, FIRST | QUEUE_HEAD)
put(BASE + 4 * 7, SECOND | QUEUE_HEAD)
put(FIRST, SECOND | QUEUE_HEAD, 0x82105, 0x1C01, 0, END, END)  # device 5, endpoint 1
put(SECOND, END, 0x400207, 0x4402, 0, END, END)  # device 7, endpoint 2

header = (2, 0, BASE, HEAD, BASE) if len(sys.argv) > 1 else (1, 0, 0, HEAD, len(words))
sys.stdout.buffer.write(b"EHCI" + struct.pack("<5I", *header) + struct.pack("<2048I", *words))
