//! What a processor's host asks of a bus beside reads and writes: by the Rust
//! device here, by the port in `port.rs`.

use crate::cpu::Bus;
use crate::memories::Memories;
use crate::sys::{Key, System};

/// Bits of a sound event's time, frequency and duty.
pub type Event = [u64; 3];

#[derive(Clone, Copy, Debug, PartialEq)]
pub struct Counters {
    pub frames: u64,
    pub flash_writes: u64,
    pub off: bool,
}

/// Seconds of the day, ticks of the RTC, and the alarm's if one is on.
#[derive(Clone, Copy, Debug, PartialEq)]
pub struct Clocks {
    pub day: i64,
    pub ticks: i64,
    pub alarm: Option<i64>,
}

pub trait Board: Bus {
    fn advance(&mut self, now: f64);
    fn next_event(&mut self) -> f64;
    fn pending_irq(&self) -> u32;
    fn irq_wanted(&self) -> bool;
    fn take_events(&mut self, taken: &mut Vec<Event>);
    fn counters(&self) -> Counters;
    fn clocks(&self) -> Clocks;

    /// Keys are 0 A, 1 B, 2 C; those held are bits.
    fn keys_held(&self) -> u32;
    fn live_key(&mut self, key: usize, down: bool);
    fn hold_until(&mut self, key: usize, until: f64);
    fn press(&mut self, key: usize, at: f64);
    fn turbo(&mut self, factor: f64);

    /// From here on it is kept which words are written, until it is asked
    /// whether they all are as before and no register was written.
    fn track(&mut self);
    fn undone(&mut self) -> bool;

    /// The power is off, or there is something to report.
    fn stopped(&self) -> bool;

    /// What is to be reported.
    fn trouble(&self) -> Option<String> {
        None
    }

    /// How often registers were read and written, if that is counted.
    fn register_accesses(&self) -> u64 {
        0
    }

    /// The state goes to another place in the host's memory, where that can be.
    fn move_house(&mut self) {}

    /// Lays bytes into memories.
    fn poke(&mut self, address: u32, bytes: &[u8]);

    /// The whole screen, and what is stored: a word, a byte, and a block with
    /// whether it lies in one memory.
    fn screen(&self) -> Vec<u8>;
    fn stored(&mut self, address: u32) -> u32;
    fn stored_byte(&mut self, address: u32) -> u8;
    fn block(&mut self, address: u32, length: usize) -> (bool, Vec<u8>);

    fn memories(&mut self) -> [&mut [u8]; 4];
}

/// The Rust device over these memories.
pub fn original(mut memories: Memories) -> System {
    let mut system = crate::fresh(&[]);
    memories.swap(&mut system);
    system
}

impl Board for System {
    fn advance(&mut self, now: f64) {
        System::advance(self, now);
    }

    fn next_event(&mut self) -> f64 {
        System::next_event(self)
    }

    fn pending_irq(&self) -> u32 {
        System::pending_irq(self)
    }

    fn irq_wanted(&self) -> bool {
        System::irq_wanted(self)
    }

    fn take_events(&mut self, taken: &mut Vec<Event>) {
        let bits = |(time, frequency, duty): (f64, f64, f64)| {
            [time.to_bits(), frequency.to_bits(), duty.to_bits()]
        };
        taken.extend(self.sound.events.drain(..).map(bits));
    }

    fn counters(&self) -> Counters {
        let (frames, flash_writes) = (self.lcd.frames, self.flash.writes);
        Counters { frames, flash_writes, off: self.powered_off }
    }

    fn clocks(&self) -> Clocks {
        Clocks {
            day: self.rtc_irq.tod(self.game_time),
            ticks: self.rtc.ticks(self.game_time),
            alarm: self.rtc.alarm_ticks(),
        }
    }

    fn keys_held(&self) -> u32 {
        let held = System::keys_held(self);
        (0..3).map(|key| u32::from(held[key]) << key).sum()
    }

    fn live_key(&mut self, key: usize, down: bool) {
        self.live_keys[key] = down;
    }

    fn hold_until(&mut self, key: usize, until: f64) {
        self.hold_until[key] = until;
    }

    fn press(&mut self, key: usize, at: f64) {
        self.key_script.push((at, Key::all()[key]));
    }

    fn turbo(&mut self, factor: f64) {
        self.turbo = factor;
    }

    fn track(&mut self) {
        self.track_writes();
        self.mmio_writes = 0;
    }

    fn undone(&mut self) -> bool {
        self.writes_undone() && self.mmio_writes == 0
    }

    fn stopped(&self) -> bool {
        self.stop
    }

    fn screen(&self) -> Vec<u8> {
        self.lcd.rgb()
    }

    fn poke(&mut self, address: u32, bytes: &[u8]) {
        System::poke(self, address, bytes);
    }

    fn stored(&mut self, address: u32) -> u32 {
        self.peek32(address)
    }

    fn stored_byte(&mut self, address: u32) -> u8 {
        self.peek8(address)
    }

    fn block(&mut self, address: u32, length: usize) -> (bool, Vec<u8>) {
        let mut bytes = vec![0; length];
        (self.read_block(address, &mut bytes), bytes)
    }

    fn memories(&mut self) -> [&mut [u8]; 4] {
        [&mut self.ram, &mut self.sram, &mut self.gpio, &mut self.lcd.fb]
    }
}
