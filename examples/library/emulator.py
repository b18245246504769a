#!/usr/bin/env python3
"""The emulator of emulator.c by ctypes: emulator.py LIBRARY, where LIBRARY is libehci.so."""
import ctypes
import struct
import sys

U8, U16, U32 = ctypes.c_uint8, ctypes.c_uint16, ctypes.c_uint32
OUT, IN, SETUP, PING, DATA0, DATA1, ACK, NAK, STALL, NYET = 1, 9, 13, 4, 3, 11, 2, 10, 14, 6
HANDSHAKE, DATA = 1, 2
MADE, WANTS_BUS = 1, 2
END, STEP_WANTS_BUS = 7, 8


class Ehci(ctypes.Structure):
    _fields_ = [(name, U32) for name in "command status interrupt_enable frame_index list ring configured cursor".split()]


class Heard(ctypes.Structure):
    _fields_ = [("kind", U8), ("pid", U8), ("len", U16), ("bytes", U8 * 1024)]


class Queue(ctypes.Structure):
    _fields_ = [("at", U32), ("words", U32 * 12), ("settled", U8), ("made", U8), ("moved", U16)]


class Itd(ctypes.Structure):
    _fields_ = [("at", U32), ("words", U32 * 16), ("slot", U32)] + [(it, U8) for it in "number made rest ended".split()] + [("moved", U16), ("spare", U16)]


class Sitd(ctypes.Structure):
    _fields_ = [("at", U32), ("words", U32 * 7), ("settled", U16), ("moved", U16)]


class Hand(ctypes.Structure):
    _fields_ = [("kind", U32), ("queue", Queue), ("itd", Itd), ("sitd", Sitd)]


class Frame(ctypes.Structure):
    _fields_ = [("left", ctypes.c_uint64), ("cursor", U32), ("index", U16), ("got_len", U16), ("hand", Hand), ("heard", Heard), ("got", U8 * 3072)]


class Ring(ctypes.Structure):
    _fields_ = [("left", ctypes.c_uint64), ("cursor", U32)] + [(it, U8) for it in "begun mode first holds".split()] + [("queue", Queue), ("heard", Heard)]


class Whole(ctypes.Structure):
    _fields_ = [("registers", Ehci), ("part", U32), ("frame", Frame), ("ring", Ring)]


class Ask(ctypes.Structure):
    _fields_ = [(name, U8) for name in "pid address endpoint speed kind toggle split hub port part".split()] + [("limit", U16), ("out_len", U16)]


class Answer(ctypes.Structure):
    _fields_ = [("kind", U8), ("pid", U8), ("len", U16), ("start", U32)]


lib = ctypes.CDLL(sys.argv[1])
lib.ehci_interrupts.restype = ctypes.c_bool
lib.ehci_read.restype = lib.ehci_microframe.restype = lib.ehci_step.restype = U32
lib.ehci_step.argtypes = [ctypes.c_void_p, ctypes.c_void_p, ctypes.c_size_t, ctypes.c_void_p, ctypes.c_size_t, ctypes.c_void_p, ctypes.c_size_t,
                          ctypes.c_void_p, ctypes.c_void_p, ctypes.c_size_t]
lib.ehci_microframe.argtypes = [ctypes.c_void_p, ctypes.c_void_p, ctypes.c_size_t, ctypes.c_void_p, ctypes.c_size_t, ctypes.c_void_p,
                                ctypes.c_size_t, ctypes.c_void_p, ctypes.c_void_p, ctypes.c_void_p, ctypes.c_size_t]

ram = (U32 * 8192)()
setup = bytes((0x80, 6, 0, 1, 0, 0, 18, 0))
descriptor = bytes((18, 1, 0, 2, 0, 0, 0, 64, 0x34, 0x12, 0x78, 0x56, 0, 1, 1, 2, 3, 1))


def put(at, data):
    ctypes.memmove(ctypes.addressof(ram) + at, data, len(data))


def got(at, count):
    return ctypes.string_at(ctypes.addressof(ram) + at, count)


def queue_head(at, link, characteristics, capabilities, first):
    put(at, struct.pack("<7I", link, characteristics, capabilities, 0, first, 1, 0x40 if first == 1 else 0))


def qtd(at, after, token, buffer):
    put(at, struct.pack("<5I", after, 1, token, buffer, (buffer & ~0xfff) + 0x1000))


class World:
    """The device with address 3, and the hub with address 2."""

    def __init__(self):
        self.microframe, self.toggles, self.sent, self.taken, self.asked, self.started = 0, {IN: DATA0, OUT: DATA0}, 0, b"", False, 0

    def turn(self, way):
        before = self.toggles[way]
        self.toggles[way] = DATA0 + DATA1 - before
        return before

    def answer(self, ask, out):
        """The kind of an answer, its packet identifier and its bytes."""
        if ask.split:
            return self.translator(ask)
        if ask.address != 3 or ask.endpoint > 2:
            return 0, 0, b""
        return (self.control, self.bulk_in, self.bulk_out)[ask.endpoint](ask, out)

    def control(self, ask, out):
        if ask.pid == SETUP:
            self.asked = out == setup
            return HANDSHAKE, ACK, b""
        if not self.asked:
            return HANDSHAKE, STALL, b""
        if ask.pid != IN:
            return HANDSHAKE, ACK, b""
        return (HANDSHAKE, NAK, b"") if self.microframe < 5 else (DATA, DATA1, descriptor)

    def bulk_in(self, ask, out):
        count = min(600 - self.sent, 512)
        if self.microframe < 3 or count == 0:
            return HANDSHAKE, NAK, b""
        data = bytes(i % 256 for i in range(self.sent, self.sent + count))
        self.sent += count
        return DATA, self.turn(IN), data

    def bulk_out(self, ask, out):
        if ask.pid != PING and ask.toggle == self.toggles[OUT]:
            self.taken += out
            self.turn(OUT)
        return HANDSHAKE, ACK, b""

    def translator(self, ask):
        if (ask.hub, ask.port, ask.address, ask.speed) != (2, 1, 5, 0):
            return 0, 0, b""
        if ask.split == 1:
            self.started = self.microframe
            return 0, 0, b""
        if not self.started or self.microframe < self.started + 3:
            return HANDSHAKE, NYET, b""
        return DATA, DATA0, bytes(range(1, 9))


def microframe(hc, world):
    """Makes one microframe; whether it was made."""
    answers, data, ask, out = [], b"", Ask(), (U8 * 1024)()
    while True:
        events = U32(100_000)
        given = (Answer * (len(answers) + 1))(*answers)
        ran = lib.ehci_microframe(ctypes.byref(hc), ram, len(ram), given, len(answers), data, len(data), ctypes.byref(events),
                                  ctypes.byref(ask), out, len(out))
        if ran != WANTS_BUS:
            return ran == MADE
        kind, pid, more = world.answer(ask, bytes(out[:ask.out_len]))
        answers.append(Answer(kind, pid, len(more), len(data)))
        data += more


def run(hc, world, last, done):
    while world.microframe < last:
        world.microframe += 1
        if not microframe(hc, world):
            return
        for at in 0x1248, 0x1268, 0x1288, 0x12a8:
            if not got(at, 1)[0] & 0x80:
                done.setdefault(at, world.microframe)
        if lib.ehci_interrupts(ctypes.byref(hc)):
            lib.ehci_write(ctypes.byref(hc), 4, lib.ehci_read(ctypes.byref(hc), 4) & 0x3f)


REGISTERS = (0x08, 0x3f), (0x14, 0), (0x18, 0x1000), (0x40, 1), (0x00, 0x00080031)


def write_schedule():
    ctypes.memset(ram, 0, ctypes.sizeof(ram))
    put(0, struct.pack("<I", 0x1102) * 1024)
    queue_head(0x1000, 0x1042, 0x0040a000, 0x40000000, 1)
    queue_head(0x1040, 0x1082, 0x40406003, 0x40000000, 0x1200)
    queue_head(0x1080, 0x10c2, 0x42002103, 0x40000000, 0x1260)
    queue_head(0x10c0, 0x1002, 0x42002203, 0x40000000, 0x1280)
    queue_head(0x1100, 1, 0x00080105, 0x40821c01, 0x12a0)
    qtd(0x1200, 0x1220, 8 << 16 | 0x0e80, 0x1480)
    qtd(0x1220, 0x1240, 0x80000d80 | 18 << 16, 0x1400)
    qtd(0x1240, 1, 0x80008c80, 0)
    qtd(0x1260, 1, 600 << 16 | 0x8d80, 0x2000)
    qtd(0x1280, 1, 700 << 16 | 0x0c80, 0x3000)
    qtd(0x12a0, 1, 8 << 16 | 0x8d80, 0x1440)
    put(0x1480, setup)
    put(0x3000, bytes((200 + i) % 256 for i in range(700)))


def by_events():
    """Makes it all again, an event a call: the words that it ends with."""
    write_schedule()
    hc, world, ask, out, answers, data = Whole(), World(), Ask(), (U8 * 1024)(), [], b""
    lib.ehci_whole_reset(ctypes.byref(hc))
    for at, value in REGISTERS:
        lib.ehci_whole_write(ctypes.byref(hc), at, value)
    world.microframe = 1
    while world.microframe <= 16:
        given = (Answer * 1)(*answers)
        kind = lib.ehci_step(ctypes.byref(hc), ram, len(ram), given, len(answers), data, len(data), ctypes.byref(ask), out, len(out))
        answers, data = [], b""
        if kind == 0 or kind > STEP_WANTS_BUS:
            break
        if kind == STEP_WANTS_BUS:
            how, pid, data = world.answer(ask, bytes(out[:ask.out_len]))
            answers = [Answer(how, pid, len(data), 0)]
        if kind == END:
            world.microframe += 1
            if lib.ehci_interrupts(ctypes.byref(hc.registers)):
                lib.ehci_whole_write(ctypes.byref(hc), 4, lib.ehci_read(ctypes.byref(hc.registers), 4) & 0x3f)
    return bytes(ram)


def copy_of(world):
    copy = World()
    copy.__dict__.update(world.__dict__, toggles=dict(world.toggles))
    return copy


def word(same):
    return "same" if same else "different"


def token(at):
    return struct.unpack("<I", got(at, 4))[0]


def main():
    write_schedule()
    hc, world, done = Ehci(), World(), {}
    lib.ehci_reset(ctypes.byref(hc))
    for at, value in REGISTERS:
        lib.ehci_write(ctypes.byref(hc), at, value)
    run(hc, world, 2, done)
    hc_then, world_then, ram_then = Ehci.from_buffer_copy(hc), copy_of(world), bytes(ram)
    run(hc, world, 16, done)
    print(f"bulk out done in microframe {done[0x1288]}: token {token(0x1288):08x}")
    print(f"bulk in done in microframe {done[0x1268]}: token {token(0x1268):08x}")
    print(f"control done in microframe {done[0x1248]}: {got(0x1400, 18).hex(' ')}")
    print(f"interrupt done in microframe {done[0x12a8]}: {got(0x1440, 8).hex(' ')}")
    came = got(0x2000, 600) == bytes(i % 256 for i in range(600))
    print(f"bytes of both bulk endpoints: {word(came and world.taken == bytes((200 + i) % 256 for i in range(700)))}")
    end = bytes(ram)
    put(0, ram_then)
    run(hc_then, world_then, 16, {})
    print(f"from a snapshot of microframe 2: {word(bytes(ram) == end and bytes(hc) == bytes(hc_then))}")
    print(f"an event a call: {word(by_events() == end)}")
    print(f"FRINDEX {lib.ehci_read(ctypes.byref(hc), 0x0c):04x} USBSTS {lib.ehci_read(ctypes.byref(hc), 4):04x}")


main()
