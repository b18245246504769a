#!/usr/bin/env python3
"""Reads a capture that `ehci-trace --pcap` wrote, and prints each packet: its time in nanoseconds, its bus, its PID, its bytes.

    read_capture.py FILE

It exits with 1 where the file isn't as pcapng and USB 2.0 have it: blocks, interfaces, times that go back on the high-speed bus, a packet of no known form.
A damaged packet is told as `damaged`: its check or its PID is wrong.
"""
import struct
import sys

BUSES = {295: "high", 294: "full", 293: "low"}
PIDS = {1: "out", 9: "in", 5: "sof", 13: "setup", 3: "data0", 11: "data1", 7: "data2", 15: "mdata", 2: "ack", 10: "nak", 14: "stall", 6: "nyet"}
PIDS |= {12: "err", 8: "split", 4: "ping"}
BITS = {"split": 19, **dict.fromkeys(("out", "in", "sof", "setup", "ping"), 11)}


class Amiss(Exception):
    """The file is no capture of this form."""


def check(bits, polynomial, width):
    """The remainder of bits, the first of them highest (USB 2.0, 8.3.5)."""
    ones = (1 << width) - 1
    rest = ones
    for bit in bits:
        high = rest >> (width - 1)
        rest = (rest << 1) & ones
        if high != bit:
            rest ^= polynomial
    return rest ^ ones


def bits_of(number, count):
    return [number >> k & 1 for k in range(count)]


def turned(number, width):
    return sum(bit << (width - 1 - k) for k, bit in enumerate(bits_of(number, width)))


def packet(data):
    """What a packet is, and whether it is sound."""
    pid, upper = data[0] & 15, data[0] >> 4
    name = PIDS.get(pid)
    if name is None:
        raise Amiss(f"no packet begins with {data[0]:02x}")
    sound = upper == 15 - pid
    if name in BITS:
        count = BITS[name]
        if len(data) != 1 + (count + 5) // 8:
            raise Amiss(f"{name} with {len(data)} bytes")
        word = int.from_bytes(data[1:], "little")
        return name, sound and turned(word >> count, 5) == check(bits_of(word, count), 0x05, 5)
    if name.startswith(("data", "mdata")):
        if len(data) < 3:
            raise Amiss(f"{name} with {len(data)} bytes")
        bits = [bit for byte in data[1:-2] for bit in bits_of(byte, 8)]
        return name, sound and turned(int.from_bytes(data[-2:], "little"), 16) == check(bits, 0x8005, 16)
    if len(data) != 1:
        raise Amiss(f"{name} with {len(data)} bytes")
    return name, sound


def blocks(data):
    at = 0
    while at < len(data):
        if len(data) < at + 12:
            raise Amiss(f"{len(data) - at} bytes behind the last block")
        kind, length = struct.unpack_from("<II", data, at)
        if length % 4 or length < 12 or len(data) < at + length or struct.unpack_from("<I", data, at + length - 4)[0] != length:
            raise Amiss(f"the block at byte {at} has no length of its own")
        yield kind, data[at + 8 : at + length - 4]
        at += length


def packets(data):
    """Each packet: its bus, its time, its bytes."""
    buses, last = [], 0
    for number, (kind, body) in enumerate(blocks(data)):
        if (kind == 0x0A0D0D0A) != (number == 0):
            raise Amiss(f"block {number} begins no section, or another")
        if number == 0 and struct.unpack("<IHHq", body) != (0x1A2B3C4D, 1, 0, -1):
            raise Amiss("another section header")
        if kind == 1:
            link, _, most, *option = struct.unpack("<HHIHHBxxxHH", body)
            if link not in BUSES or most != 65535 or option != [9, 1, 9, 0, 0]:
                raise Amiss(f"another interface: link type {link}")
            buses.append(BUSES[link])
        elif kind == 6:
            interface, high, low, here, whole = struct.unpack_from("<IIIII", body)
            time = high << 32 | low
            if len(buses) <= interface or here != whole or len(body) != 20 + here + -here % 4 or any(body[20 + here :]):
                raise Amiss(f"block {number} is no whole packet")
            if buses[interface] == "high":
                if time < last:
                    raise Amiss(f"block {number} goes back in time")
                last = time
            yield buses[interface], time, body[20 : 20 + here]
        elif number:
            raise Amiss(f"block {number} is of kind {kind}")


def main():
    with open(sys.argv[1], "rb") as file:
        data = file.read()
    try:
        for bus, time, some in packets(data):
            name, sound = packet(some)
            print(f"{time} {bus} {name} {some.hex()}" + ("" if sound else " damaged"))
    except Amiss as amiss:
        print(f"{sys.argv[1]}: {amiss}", file=sys.stderr)
        return 1
    return 0


if __name__ == "__main__":
    sys.exit(main())
