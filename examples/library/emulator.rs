//! The emulator of emulator.c in Rust, without an unsafe block of its own.
#![allow(dead_code)]

#[path = "../../include/ehci.rs"]
mod ehci;

use ehci::{Ask, Bus, Ehci, Heard, Ran, Stepped, Whole};

const DESCRIPTOR: usize = 0x1400;
const REPORT: usize = 0x1440;
const IN_BUFFER: usize = 0x2000;
const OUT_BUFFER: usize = 0x3000;
const ANSWER: [u8; 18] = [18, 1, 0, 2, 0, 0, 0, 64, 0x34, 0x12, 0x78, 0x56, 0, 1, 1, 2, 3, 1];
const SETUP: [u8; 8] = [0x80, 6, 0, 1, 0, 0, 18, 0];

/// Guest memory of 32 KiB.
#[derive(Clone, PartialEq)]
struct Ram(Vec<u32>);

impl Ram {
    fn set(&mut self, at: usize, words: &[u32]) {
        self.0[at / 4..at / 4 + words.len()].copy_from_slice(words);
    }
    fn get(&self, at: usize) -> u32 {
        self.0[at / 4]
    }
    fn byte(&self, at: usize) -> u8 {
        self.get(at).to_le_bytes()[at % 4]
    }
    fn set_byte(&mut self, at: usize, byte: u8) {
        let mut word = self.get(at).to_le_bytes();
        word[at % 4] = byte;
        self.0[at / 4] = u32::from_le_bytes(word);
    }
    fn bytes(&self, at: usize, len: usize) -> String {
        (at..at + len).map(|it| format!(" {:02x}", self.byte(it))).collect()
    }
    fn queue_head(&mut self, at: usize, link: u32, characteristics: u32, capabilities: u32, first: u32) {
        let token = if first == 1 { 0x40 } else { 0 };
        self.set(at, &[link, characteristics, capabilities, 0, first, 1, token]);
    }
    fn qtd(&mut self, at: usize, next: u32, token: u32, buffer: usize) {
        let buffer = buffer as u32;
        self.set(at, &[next, 1, token, buffer, (buffer & !0xfff) + 0x1000]);
    }
    fn with_schedule() -> Ram {
        let mut ram = Ram(vec![0; 8192]);
        ram.set(0, &[0x1102; 1024]);
        ram.queue_head(0x1000, 0x1042, 0x0040_a000, 0x4000_0000, 1);
        ram.queue_head(0x1040, 0x1082, 0x4040_6003, 0x4000_0000, 0x1200);
        ram.queue_head(0x1080, 0x10c2, 0x4200_2103, 0x4000_0000, 0x1260);
        ram.queue_head(0x10c0, 0x1002, 0x4200_2203, 0x4000_0000, 0x1280);
        ram.queue_head(0x1100, 1, 0x0008_0105, 0x4082_1c01, 0x12a0);
        ram.qtd(0x1200, 0x1220, 8 << 16 | 0x0e80, 0x1480);
        ram.qtd(0x1220, 0x1240, 0x8000_0d80 | 18 << 16, DESCRIPTOR);
        ram.qtd(0x1240, 1, 0x8000_8c80, 0);
        ram.qtd(0x1260, 1, 600 << 16 | 0x8d80, IN_BUFFER);
        ram.qtd(0x1280, 1, 700 << 16 | 0x0c80, OUT_BUFFER);
        ram.qtd(0x12a0, 1, 8 << 16 | 0x8d80, REPORT);
        for (i, byte) in SETUP.iter().enumerate() {
            ram.set_byte(0x1480 + i, *byte);
        }
        for i in 0..700 {
            ram.set_byte(OUT_BUFFER + i, (200 + i) as u8);
        }
        ram
    }
}

#[derive(Clone)]
struct World {
    microframe: u32,
    toggle_in: u8,
    toggle_out: u8,
    sent: usize,
    got: Vec<u8>,
    asked: bool,
    started: u32,
}

fn other(toggle: u8) -> u8 {
    if toggle == ehci::DATA0 { ehci::DATA1 } else { ehci::DATA0 }
}

impl World {
    fn new() -> World {
        World { microframe: 0, toggle_in: ehci::DATA0, toggle_out: ehci::DATA0, sent: 0, got: Vec::new(), asked: false, started: 0 }
    }
    fn control(&mut self, ask: &Ask, out: &[u8]) -> Heard {
        match ask.pid {
            ehci::SETUP => {
                self.asked = out == SETUP;
                Heard::Handshake(ehci::ACK)
            }
            _ if !self.asked => Heard::Handshake(ehci::STALL),
            ehci::IN if self.microframe < 5 => Heard::Handshake(ehci::NAK),
            ehci::IN => Heard::Data(ehci::DATA1, ANSWER.to_vec()),
            _ => Heard::Handshake(ehci::ACK),
        }
    }
    fn bulk_in(&mut self) -> Heard {
        let len = (600 - self.sent).min(512);
        if self.microframe < 3 || len == 0 {
            return Heard::Handshake(ehci::NAK);
        }
        let data = (self.sent..self.sent + len).map(|i| i as u8).collect();
        self.sent += len;
        self.toggle_in = other(self.toggle_in);
        Heard::Data(other(self.toggle_in), data)
    }
    fn bulk_out(&mut self, ask: &Ask, out: &[u8]) -> Heard {
        if ask.pid != ehci::PING && ask.toggle == self.toggle_out {
            self.got.extend_from_slice(out);
            self.toggle_out = other(self.toggle_out);
        }
        Heard::Handshake(ehci::ACK)
    }
    fn translator(&mut self, ask: &Ask) -> Heard {
        if (ask.hub, ask.port, ask.address, ask.speed) != (2, 1, 5, 0) {
            return Heard::Silent;
        }
        if ask.split == ehci::START {
            self.started = self.microframe;
            return Heard::Silent;
        }
        if self.started == 0 || self.microframe < self.started + 3 {
            return Heard::Handshake(ehci::NYET);
        }
        Heard::Data(ehci::DATA0, vec![1, 2, 3, 4, 5, 6, 7, 8])
    }
}

impl Bus for World {
    fn transact(&mut self, ask: &Ask, out: &[u8]) -> Heard {
        match (ask.split, ask.address, ask.endpoint) {
            (ehci::PLAIN, 3, 0) => self.control(ask, out),
            (ehci::PLAIN, 3, 1) => self.bulk_in(),
            (ehci::PLAIN, 3, 2) => self.bulk_out(ask, out),
            (ehci::PLAIN, _, _) => Heard::Silent,
            _ => self.translator(ask),
        }
    }
}

fn run(hc: &mut Ehci, world: &mut World, ram: &mut Ram, last: u32, done: &mut [u32; 4]) {
    while world.microframe < last {
        world.microframe += 1;
        let Ran::Made(_) = hc.microframe(&mut ram.0, world) else {
            return;
        };
        for (at, done) in [0x1248, 0x1268, 0x1288, 0x12a8].into_iter().zip(done.iter_mut()) {
            if *done == 0 && ram.get(at) & 0x80 == 0 {
                *done = world.microframe;
            }
        }
        if hc.interrupts() {
            hc.write(0x04, hc.read(0x04) & 0x3f);
        }
    }
}

fn word(same: bool) -> &'static str {
    if same { "same" } else { "different" }
}

const REGISTERS: [(u32, u32); 5] = [(0x08, 0x3f), (0x14, 0), (0x18, 0x1000), (0x40, 1), (0x00, 0x0008_0031)];

/// Makes it all again, an event a call: the words that it ends with.
fn by_events() -> Ram {
    let mut ram = Ram::with_schedule();
    let mut world = World::new();
    let mut hc = Whole::reset();
    for (at, word) in REGISTERS {
        hc.write(at, word);
    }
    let (mut heard, mut out) = (None, [0; 1024]);
    world.microframe = 1;
    while world.microframe <= 16 {
        match hc.step(&mut ram.0, heard.take(), &mut out) {
            Stepped::WantsBus(ask) => heard = Some(world.transact(&ask, &out[..ask.out_len as usize])),
            Stepped::End => {
                world.microframe += 1;
                if hc.registers.interrupts() {
                    hc.write(0x04, hc.registers.read(0x04) & 0x3f);
                }
            }
            Stepped::Idle | Stepped::Unfit => return ram,
            _ => {}
        }
    }
    ram
}

fn main() {
    let mut ram = Ram::with_schedule();
    let mut world = World::new();
    let mut done = [0; 4];
    let mut hc = Ehci::reset();
    for (at, word) in REGISTERS {
        hc.write(at, word);
    }
    run(&mut hc, &mut world, &mut ram, 2, &mut done);
    let (mut hc_then, mut world_then, mut ram_then) = (hc, world.clone(), ram.clone());
    run(&mut hc, &mut world, &mut ram, 16, &mut done);
    run(&mut hc_then, &mut world_then, &mut ram_then, 16, &mut [1; 4]);
    println!("bulk out done in microframe {}: token {:08x}", done[2], ram.get(0x1288));
    println!("bulk in done in microframe {}: token {:08x}", done[1], ram.get(0x1268));
    println!("control done in microframe {}:{}", done[0], ram.bytes(DESCRIPTOR, 18));
    println!("interrupt done in microframe {}:{}", done[3], ram.bytes(REPORT, 8));
    let came = (0..600).all(|i| ram.byte(IN_BUFFER + i) == i as u8);
    let went = world.got.len() == 700 && world.got.iter().enumerate().all(|(i, it)| *it == (200 + i) as u8);
    println!("bytes of both bulk endpoints: {}", word(came && went));
    println!("from a snapshot of microframe 2: {}", word(hc == hc_then && ram == ram_then));
    println!("an event a call: {}", word(by_events() == ram));
    println!("FRINDEX {:04x} USBSTS {:04x}", hc.read(0x0c), hc.read(0x04));
}
