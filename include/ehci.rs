//! A safe wrapper over libehci.a: `#[path = ".../include/ehci.rs"] mod ehci;`. include/ehci.h says what each call does.
//!
//! All state is plain data, and no call keeps a pointer, so the only unsafe blocks are the calls.

mod c {
    use super::{Answer, Ask, Ehci, Whole};
    unsafe extern "C" {
        pub fn ehci_reset(state: *mut Ehci);
        pub fn ehci_read(state: *const Ehci, offset: u32) -> u32;
        pub fn ehci_write(state: *mut Ehci, offset: u32, word: u32);
        pub fn ehci_interrupts(state: *const Ehci) -> bool;
        pub fn ehci_microframe(
            state: *mut Ehci,
            words: *mut u32,
            n: usize,
            answers: *const Answer,
            count: usize,
            bytes: *const u8,
            len: usize,
            events: *mut u32,
            ask: *mut Ask,
            out: *mut u8,
            room: usize,
        ) -> u32;
        pub fn ehci_whole_reset(whole: *mut Whole);
        pub fn ehci_whole_write(whole: *mut Whole, offset: u32, word: u32);
        pub fn ehci_step(
            whole: *mut Whole,
            words: *mut u32,
            n: usize,
            answers: *const Answer,
            count: usize,
            bytes: *const u8,
            len: usize,
            ask: *mut Ask,
            out: *mut u8,
            room: usize,
        ) -> u32;
        pub fn ehci_run(
            whole: *mut Whole,
            words: *mut u32,
            n: usize,
            answers: *const Answer,
            count: usize,
            bytes: *const u8,
            len: usize,
            events: *mut u32,
            used: *mut usize,
            ask: *mut Ask,
            out: *mut u8,
            room: usize,
        ) -> u32;
    }
}

/// All of a controller between two microframes; a copy is a snapshot.
#[repr(C)]
#[derive(Clone, Copy, Debug, Default, PartialEq, Eq)]
pub struct Ehci {
    pub command: u32,
    pub status: u32,
    pub interrupt_enable: u32,
    pub frame_index: u32,
    pub list: u32,
    pub ring: u32,
    pub configured: u32,
    pub cursor: u32,
}

/// What the last transaction heard; include/ehci.h tells these words.
#[repr(C)]
#[derive(Clone, Copy, Debug, PartialEq, Eq)]
pub struct HeardWords {
    pub kind: u8,
    pub pid: u8,
    pub len: u16,
    pub bytes: [u8; 1024],
}

#[repr(C)]
#[derive(Clone, Copy, Debug, PartialEq, Eq)]
pub struct QueueWords {
    pub at: u32,
    pub words: [u32; 12],
    pub settled: u8,
    pub made: u8,
    pub moved: u16,
}

#[repr(C)]
#[derive(Clone, Copy, Debug, PartialEq, Eq)]
pub struct ItdWords {
    pub at: u32,
    pub words: [u32; 16],
    pub slot: u32,
    pub number: u8,
    pub made: u8,
    pub rest: u8,
    pub ended: u8,
    pub moved: u16,
    pub spare: u16,
}

#[repr(C)]
#[derive(Clone, Copy, Debug, PartialEq, Eq)]
pub struct SitdWords {
    pub at: u32,
    pub words: [u32; 7],
    pub settled: u16,
    pub moved: u16,
}

#[repr(C)]
#[derive(Clone, Copy, Debug, PartialEq, Eq)]
pub struct HandWords {
    pub kind: u32,
    pub queue: QueueWords,
    pub itd: ItdWords,
    pub sitd: SitdWords,
}

#[repr(C)]
#[derive(Clone, Copy, Debug, PartialEq, Eq)]
pub struct FrameWords {
    pub left: u64,
    pub cursor: u32,
    pub index: u16,
    pub got_len: u16,
    pub hand: HandWords,
    pub heard: HeardWords,
    pub got: [u8; 3072],
}

#[repr(C)]
#[derive(Clone, Copy, Debug, PartialEq, Eq)]
pub struct RingWords {
    pub left: u64,
    pub cursor: u32,
    pub begun: u8,
    pub mode: u8,
    pub first: u8,
    pub holds: u8,
    pub queue: QueueWords,
    pub heard: HeardWords,
}

/// All of a controller between two events; a copy is a snapshot.
#[repr(C)]
#[derive(Clone, Copy, Debug, PartialEq, Eq)]
pub struct Whole {
    pub registers: Ehci,
    pub part: u32,
    pub frame: FrameWords,
    pub ring: RingWords,
}

/// One transaction that the controller asks of the bus.
#[repr(C)]
#[derive(Clone, Copy, Debug, Default, PartialEq, Eq)]
pub struct Ask {
    pub pid: u8,
    pub address: u8,
    pub endpoint: u8,
    pub speed: u8,
    pub kind: u8,
    pub toggle: u8,
    pub split: u8,
    pub hub: u8,
    pub port: u8,
    pub part: u8,
    pub limit: u16,
    pub out_len: u16,
}

#[repr(C)]
#[derive(Clone, Copy)]
struct Answer {
    kind: u8,
    pid: u8,
    len: u16,
    start: u32,
}

pub const OUT: u8 = 1;
pub const IN: u8 = 9;
pub const SETUP: u8 = 13;
pub const PING: u8 = 4;
pub const DATA0: u8 = 3;
pub const DATA1: u8 = 11;
pub const ACK: u8 = 2;
pub const NAK: u8 = 10;
pub const STALL: u8 = 14;
pub const NYET: u8 = 6;
pub const PLAIN: u8 = 0;
pub const START: u8 = 1;
pub const COMPLETE: u8 = 2;

/// What the host hears in one transaction.
pub enum Heard {
    /// Nothing that it can use.
    Silent,
    /// A handshake with this packet identifier.
    Handshake(u8),
    /// A data packet with this packet identifier, of at most 1,024 bytes.
    Data(u8, Vec<u8>),
}

/// The bus below the controller.
pub trait Bus {
    /// Makes one transaction that sends `out`.
    fn transact(&mut self, ask: &Ask, out: &[u8]) -> Heard;
}

/// What came of a call; but for `Made` nothing changed.
#[derive(Clone, Copy, Debug, PartialEq, Eq)]
pub enum Ran {
    Halted,
    Made(u32),
    Long,
    Unfit,
    NoMemory,
}

/// The events of a microframe at most.
const MOST: u32 = 100_000;

impl Ehci {
    pub fn reset() -> Ehci {
        let mut state = Ehci::default();
        // SAFETY: a struct as include/ehci.h has it, lent for the call.
        unsafe { c::ehci_reset(&mut state) };
        state
    }

    pub fn read(&self, offset: u32) -> u32 {
        // SAFETY: as above.
        unsafe { c::ehci_read(self, offset) }
    }

    pub fn write(&mut self, offset: u32, word: u32) {
        // SAFETY: as above.
        unsafe { c::ehci_write(self, offset, word) }
    }

    pub fn interrupts(&self) -> bool {
        // SAFETY: as above.
        unsafe { c::ehci_interrupts(self) }
    }

    /// Makes one microframe over these words and this bus, which is asked once for each transaction, in their order.
    pub fn microframe(&mut self, words: &mut [u32], bus: &mut impl Bus) -> Ran {
        let mut answers = Vec::new();
        let mut bytes = Vec::new();
        let (mut ask, mut out) = (Ask::default(), [0u8; 1024]);
        loop {
            let mut events = MOST;
            // SAFETY: each pointer and length is of one slice that is borrowed for the call, and none of them overlaps another.
            let ran = unsafe {
                c::ehci_microframe(
                    self,
                    words.as_mut_ptr(),
                    words.len(),
                    answers.as_ptr(),
                    answers.len(),
                    bytes.as_ptr(),
                    bytes.len(),
                    &mut events,
                    &mut ask,
                    out.as_mut_ptr(),
                    out.len(),
                )
            };
            match ran {
                0 => return Ran::Halted,
                1 => return Ran::Made(events),
                2 => answers.push(answer(bus.transact(&ask, &out[..ask.out_len as usize]), &mut bytes)),
                3 => return Ran::Long,
                4 => return Ran::Unfit,
                _ => return Ran::NoMemory,
            }
        }
    }
}

/// What came of a call for one event.
#[derive(Clone, Copy, Debug, PartialEq, Eq)]
pub enum Stepped {
    Idle,
    Begin,
    Fetch,
    Advance,
    Transact,
    WriteBack,
    Skip,
    End,
    /// Nothing changed: this is asked, with so many bytes of `out`.
    WantsBus(Ask),
    Unfit,
}

impl Whole {
    pub fn reset() -> Whole {
        let mut whole = std::mem::MaybeUninit::<Whole>::zeroed();
        // SAFETY: a struct of numbers as include/ehci.h has it, lent for the call, which fills it.
        unsafe {
            c::ehci_whole_reset(whole.as_mut_ptr());
            whole.assume_init()
        }
    }

    pub fn write(&mut self, offset: u32, word: u32) {
        // SAFETY: as above.
        unsafe { c::ehci_whole_write(self, offset, word) }
    }

    /// Makes one event over these words, with this answer or none.
    pub fn step(&mut self, words: &mut [u32], heard: Option<Heard>, out: &mut [u8; 1024]) -> Stepped {
        let mut bytes = Vec::new();
        let answers: Vec<Answer> = heard.map(|it| answer(it, &mut bytes)).into_iter().collect();
        let mut ask = Ask::default();
        // SAFETY: each pointer and length is of one slice that is borrowed for the call, and none of them overlaps another.
        let stepped = unsafe {
            c::ehci_step(
                self,
                words.as_mut_ptr(),
                words.len(),
                answers.as_ptr(),
                answers.len(),
                bytes.as_ptr(),
                bytes.len(),
                &mut ask,
                out.as_mut_ptr(),
                out.len(),
            )
        };
        match stepped {
            0 => Stepped::Idle,
            1 => Stepped::Begin,
            2 => Stepped::Fetch,
            3 => Stepped::Advance,
            4 => Stepped::Transact,
            5 => Stepped::WriteBack,
            6 => Stepped::Skip,
            7 => Stepped::End,
            8 => Stepped::WantsBus(ask),
            _ => Stepped::Unfit,
        }
    }
}

/// Why a call for several events made no more of them; each tells how many were made, and how many answers they took.
#[derive(Clone, Copy, Debug, PartialEq, Eq)]
pub enum Stopped {
    Idle,
    /// The microframe is over.
    End(u32, usize),
    /// All answers were taken; the next event asks this, with so many bytes of `out`.
    WantsBus(u32, Ask),
    /// As many as were allowed were made, and the microframe isn't over.
    On(u32, usize),
    Unfit,
}

impl Whole {
    /// Makes events over these words, at most `most`, each transaction with its own answer in its turn, to the end of the microframe or to the
    /// first transaction that has none.
    pub fn run(&mut self, words: &mut [u32], heard: Vec<Heard>, most: u32, out: &mut [u8; 1024]) -> Stopped {
        let mut bytes = Vec::new();
        let answers: Vec<Answer> = heard.into_iter().map(|it| answer(it, &mut bytes)).collect();
        let (mut ask, mut events, mut used) = (Ask::default(), most, 0);
        // SAFETY: each pointer and length is of one slice that is borrowed for the call, and none of them overlaps another.
        let stopped = unsafe {
            c::ehci_run(
                self,
                words.as_mut_ptr(),
                words.len(),
                answers.as_ptr(),
                answers.len(),
                bytes.as_ptr(),
                bytes.len(),
                &mut events,
                &mut used,
                &mut ask,
                out.as_mut_ptr(),
                out.len(),
            )
        };
        match stopped {
            0 => Stopped::Idle,
            7 => Stopped::End(events, used),
            8 => Stopped::WantsBus(events, ask),
            10 => Stopped::On(events, used),
            _ => Stopped::Unfit,
        }
    }
}

fn answer(heard: Heard, bytes: &mut Vec<u8>) -> Answer {
    let start = bytes.len() as u32;
    match heard {
        Heard::Silent => Answer { kind: 0, pid: 0, len: 0, start },
        Heard::Handshake(pid) => Answer { kind: 1, pid, len: 0, start },
        Heard::Data(pid, data) => {
            bytes.extend_from_slice(&data);
            Answer { kind: 2, pid, len: data.len().min(u16::MAX as usize) as u16, start }
        }
    }
}
