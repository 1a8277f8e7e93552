//! The port with one answer or one call altered, to see whether the comparison
//! finds it.

use std::cell::Cell;

use crate::board::{Board, Clocks, Counters, Event};
use crate::common::random::Random;
use crate::cpu::Bus;
use crate::map::{place, Place};

macro_rules! faults {
    ($($name:ident $said:literal)*) => {
        /// What is altered, once in a run.
        #[derive(Clone, Copy, PartialEq)]
        pub enum Fault { $($name),* }

        pub const FAULTS: &[(Fault, &str)] = &[$((Fault::$name, $said)),*];
    };
}

faults! {
    ReadRegister "a bit of a register that is read"
    ReadMemory "a bit of a memory that is read"
    NoRegisterWrite "no write to a register"
    NoMemoryWrite "no write to a memory"
    RegisterWrite "a bit written to a register"
    MemoryWrite "a bit written to a memory"
    Refusal "a write refused"
    NoAdvance "no advance"
    NextEvent "last bit of a next time"
    Pending "another pending interrupt"
    LateInterrupt "an interrupt a slice late"
    EventTime "a bit of an event's time"
    EventFrequency "a bit of an event's frequency"
    EventDuty "a bit of an event's duty"
    NoEvent "no event"
    NoKey "no key"
    NoHold "no hold"
    NoPress "no press"
    NoTurbo "no turbo"
    KeysHeld "a bit of the keys held"
    Frames "a frame more"
    FlashWrites "a flash write more"
    Off "power off"
    Day "a second of the day"
    Ticks "a bit of the ticks"
    Alarm "the alarm"
    Ram "a bit in RAM"
    Sram "a bit in SRAM"
    Gpio "a bit in GPIO"
    Framebuffer "a bit in the framebuffer"
    NoPoke "no poke"
    Byte "a bit of a byte that is peeked"
    Block "a bit of a block"
    Whole "a block that is whole or not"
    Screen "a bit of the screen"
}

use Fault::*;

pub struct Altered<B> {
    board: B,
    fault: Fault,
    /// How often the fault's place is passed before.
    left: Cell<usize>,
    /// Whether it has come.
    pub done: Cell<bool>,
    /// Which bit, and which byte of a memory.
    bit: u32,
    byte: usize,
    /// Until the next advance no interrupt is wanted.
    late: Cell<bool>,
    refused: bool,
}

impl<B: Board> Altered<B> {
    pub fn new(board: B, fault: Fault, random: &mut Random) -> Altered<B> {
        let most = random.pick(&[1, 10, 100]);
        Altered {
            board,
            fault,
            left: Cell::new(random.below(most)),
            done: Cell::new(false),
            bit: random.below(32) as u32,
            byte: random.next() as usize >> 1,
            late: Cell::new(false),
            refused: false,
        }
    }

    /// Whether the fault comes now, this being a place for it.
    fn due(&self, fault: Fault) -> bool {
        if self.fault != fault || self.done.get() {
            return false;
        }
        self.done.set(self.left.get() == 0);
        self.left.set(self.left.get().saturating_sub(1));
        self.done.get()
    }

    /// The same for an access: to a register, or to a memory.
    fn due_at(&self, address: u32, register: Fault, memory: Fault) -> bool {
        self.due(if place(address) == Place::Register { register } else { memory })
    }

    fn spoil_memory(&mut self) {
        for (at, fault) in [Ram, Sram, Gpio, Framebuffer].into_iter().enumerate() {
            if self.due(fault) {
                let memory = &mut self.board.memories()[at];
                memory[self.byte % memory.len()] ^= 1 << (self.bit % 8);
            }
        }
    }
}

macro_rules! accesses {
    ($read:ident $write:ident $type:ty) => {
        fn $read(&mut self, address: u32) -> $type {
            let value = self.board.$read(address);
            let altered = self.due_at(address, ReadRegister, ReadMemory);
            value ^ <$type>::from(altered) << (self.bit % <$type>::BITS)
        }

        fn $write(&mut self, address: u32, value: $type) {
            self.refused |= self.due(Refusal);
            if !self.due_at(address, NoRegisterWrite, NoMemoryWrite) {
                let altered = self.due_at(address, RegisterWrite, MemoryWrite);
                let altered = <$type>::from(altered) << (self.bit % <$type>::BITS);
                self.board.$write(address, value ^ altered);
            }
        }
    };
}

impl<B: Board> Bus for Altered<B> {
    accesses!(read8 write8 u8);
    accesses!(read16 write16 u16);
    accesses!(read32 write32 u32);

    fn fetch16(&mut self, address: u32) -> u16 {
        self.board.fetch16(address)
    }

    fn fetch32(&mut self, address: u32) -> u32 {
        self.board.fetch32(address)
    }
}

impl<B: Board> Board for Altered<B> {
    fn advance(&mut self, now: f64) {
        self.late.set(false);
        self.spoil_memory();
        if !self.due(NoAdvance) {
            self.board.advance(now);
        }
    }

    fn next_event(&mut self) -> f64 {
        let time = self.board.next_event();
        f64::from_bits(time.to_bits() ^ u64::from(self.due(NextEvent)))
    }

    fn pending_irq(&self) -> u32 {
        self.board.pending_irq() ^ u32::from(self.due(Pending))
    }

    fn irq_wanted(&self) -> bool {
        let wanted = self.board.irq_wanted();
        if wanted && self.due(LateInterrupt) {
            self.late.set(true);
        }
        wanted && !self.late.get()
    }

    fn take_events(&mut self, taken: &mut Vec<Event>) {
        let before = taken.len();
        self.board.take_events(taken);
        for at in (before..taken.len()).rev() {
            for (place, fault) in [EventTime, EventFrequency, EventDuty].into_iter().enumerate() {
                taken[at][place] ^= u64::from(self.due(fault)) << self.bit;
            }
            if self.due(NoEvent) {
                taken.remove(at);
            }
        }
    }

    fn counters(&self) -> Counters {
        let mut counters = self.board.counters();
        counters.frames += u64::from(self.due(Frames));
        counters.flash_writes += u64::from(self.due(FlashWrites));
        counters.off ^= self.due(Off);
        counters
    }

    fn clocks(&self) -> Clocks {
        let mut clocks = self.board.clocks();
        clocks.day ^= i64::from(self.due(Day));
        clocks.ticks ^= i64::from(self.due(Ticks)) << self.bit;
        if self.due(Alarm) {
            clocks.alarm = clocks.alarm.map_or(Some(0), |_| None);
        }
        clocks
    }

    fn keys_held(&self) -> u32 {
        self.board.keys_held() ^ u32::from(self.due(KeysHeld)) << (self.bit % 3)
    }

    fn live_key(&mut self, key: usize, down: bool) {
        if !self.due(NoKey) {
            self.board.live_key(key, down);
        }
    }

    fn hold_until(&mut self, key: usize, until: f64) {
        if !self.due(NoHold) {
            self.board.hold_until(key, until);
        }
    }

    fn press(&mut self, key: usize, at: f64) {
        if !self.due(NoPress) {
            self.board.press(key, at);
        }
    }

    fn turbo(&mut self, factor: f64) {
        if !self.due(NoTurbo) {
            self.board.turbo(factor);
        }
    }

    fn track(&mut self) {
        self.board.track();
    }

    fn undone(&mut self) -> bool {
        self.board.undone()
    }

    fn stopped(&self) -> bool {
        self.refused || self.board.stopped()
    }

    fn trouble(&self) -> Option<String> {
        let refused = self.refused.then(|| "a write is refused".to_string());
        refused.or(self.board.trouble())
    }

    fn screen(&self) -> Vec<u8> {
        let mut screen = self.board.screen();
        let at = self.byte % screen.len();
        screen[at] ^= u8::from(self.due(Screen)) << (self.bit % 8);
        screen
    }

    fn poke(&mut self, address: u32, bytes: &[u8]) {
        if !self.due(NoPoke) {
            self.board.poke(address, bytes);
        }
    }

    fn move_house(&mut self) {
        self.board.move_house();
    }

    fn stored(&mut self, address: u32) -> u32 {
        self.board.stored(address)
    }

    fn stored_byte(&mut self, address: u32) -> u8 {
        self.board.stored_byte(address) ^ u8::from(self.due(Byte)) << (self.bit % 8)
    }

    fn block(&mut self, address: u32, length: usize) -> (bool, Vec<u8>) {
        let (whole, mut bytes) = self.board.block(address, length);
        let at = self.byte % bytes.len();
        bytes[at] ^= u8::from(self.due(Block)) << (self.bit % 8);
        (whole ^ self.due(Whole), bytes)
    }

    fn memories(&mut self) -> [&mut [u8]; 4] {
        self.board.memories()
    }
}
