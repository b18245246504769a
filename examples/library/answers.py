#!/usr/bin/env python3
"""answers.py CAPTURE ANSWERS: the answer to each transaction of a capture (`ehci-trace --pcap`), as compare.c reads them."""
import struct
import sys

OUT, IN, SETUP, PING, SPLIT, SOF = 1, 9, 13, 4, 8, 5
DATA = (3, 11, 7, 15)
HANDSHAKES = (2, 10, 14, 6, 12)


def packets(capture):
    """The packets of the high-speed bus, interface 0 of the capture (pcapng), each as its packet identifier and its bytes."""
    at = 0
    while at < len(capture):
        kind, size, interface = struct.unpack_from("<III", capture, at)
        if kind == 6 and interface == 0:
            length = struct.unpack_from("<I", capture, at + 20)[0]
            packet = capture[at + 28:at + 28 + length]
            yield packet[0] & 15, packet
        at += size


def records(found):
    """A record for each transaction: its token, whether it is split, and what the host heard of it."""
    at, split = 0, 0
    while at < len(found):
        pid, packet = found[at]
        at += 1
        if pid == SPLIT:
            split = 2 if packet[1] & 0x80 else 1
        if pid not in (OUT, IN, SETUP, PING):
            continue
        token = packet[1] | packet[2] << 8
        if pid in (OUT, SETUP) and split != 2:
            at += 1  # the host's data
        kind, heard, data = 0, 0, b""
        if at < len(found) and found[at][0] in DATA + HANDSHAKES:
            heard, answer = found[at]
            kind, data = (2, answer[1:-2]) if heard in DATA else (1, b"")
            at += 1
            if kind == 2 and at < len(found) and found[at][0] == 2:
                at += 1  # the host's ACK
        yield struct.pack("<6BH", pid, token & 0x7f, token >> 7 & 15, split, kind, heard, len(data)) + data
        split = 0


def main():
    with open(sys.argv[1], "rb") as file:
        found = list(packets(file.read()))
    with open(sys.argv[2], "wb") as file:
        file.write(b"".join(records(found)))


main()
