//! The port by its live entries, as a bus for the processor. This is the part
//! that a host would write: it lends the unit and the memories to each call.

use crate::board::Board;
use crate::common::numbers::*;
use crate::live::*;
use crate::map::{place, Place};
use crate::memories::Memories;

/// Where `ENTRIES` is set every access goes through the port's entries. Else RAM
/// and SRAM are read and written directly, as hosts may.
pub struct Port<const ENTRIES: bool> {
    pub unit: Vec<Unit>,
    pub lent: Lent,
    pub owned: Memories,
    pub records: Vec<Record>,
    /// The first refusal, with what it was about.
    pub refused: Option<String>,
    pub stop: bool,
    pub registers: u64,
    pub track: Track,
}

/// What was written since it was asked to be kept: addresses of words of
/// memories with what they held, and whether a register was.
#[derive(Default)]
pub struct Track {
    pub on: bool,
    pub words: Vec<(u32, u32)>,
    pub register: bool,
}

/// As many words as the Rust device keeps. Beyond them it gives up.
pub const MOST_TRACKED: usize = 4096;

impl<const ENTRIES: bool> Port<ENTRIES> {
    pub fn new(mut owned: Memories) -> Port<ENTRIES> {
        // SAFETY: a unit is as many bytes as the port says, and all of a `Vec` of
        // words is 8-aligned.
        let unit = unsafe {
            let mut unit = vec![0; tg18_unit_bytes() / size_of::<Unit>()];
            tg18_fresh(unit.as_mut_ptr());
            unit
        };
        Port {
            unit,
            lent: Lent::new(&mut owned),
            owned,
            records: vec![Record::default(); SOUND_PLACES],
            refused: None,
            stop: false,
            registers: 0,
            track: Track::default(),
        }
    }

    /// An answer other than 0 is kept, and stops the processor.
    pub fn judge(&mut self, answer: u32, what: &str, about: u32) {
        if answer != 0 && self.refused.is_none() {
            self.refused = Some(format!("{what} {about:#010x} is refused with {answer}"));
            self.stop = true;
        }
    }

    #[inline(never)]
    fn read(&mut self, address: u32, size: u32) -> u32 {
        self.registers += u64::from(place(address) == Place::Register);
        let mut value = 0;
        // SAFETY: unit and memories are there as long as this is.
        let answer =
            unsafe { tg18_read(self.unit.as_mut_ptr(), &self.lent, address, size, &mut value) };
        self.judge(answer, "read at", address);
        value
    }

    #[inline(never)]
    fn write(&mut self, address: u32, size: u32, value: u32) {
        self.registers += u64::from(place(address) == Place::Register);
        // SAFETY: as in `read`.
        let answer =
            unsafe { tg18_write(self.unit.as_mut_ptr(), &self.lent, address, size, value) };
        self.judge(answer, "write at", address);
        if address & !3 == POWER_REG {
            self.stop |= self.counters().off;
        }
    }

    /// The backing bytes of RAM or SRAM, and the place in them.
    #[inline(always)]
    fn direct(&mut self, address: u32) -> Option<(&mut [u8], usize)> {
        if ENTRIES {
            None
        } else if address >> 24 == FLASH_BASE >> 24 {
            Some((&mut self.owned.0[0], (address - FLASH_BASE) as usize))
        } else if (SRAM_BASE..SRAM_END).contains(&address) {
            Some((&mut self.owned.0[1], (address - SRAM_BASE) as usize))
        } else {
            None
        }
    }

    /// What a word of a memory holds.
    pub fn held(&mut self, word: u32) -> u32 {
        match self.direct(word) {
            Some((memory, at)) => u32::from_le_bytes(memory[at..at + 4].try_into().unwrap()),
            None => self.stored(word),
        }
    }

    #[inline(never)]
    fn keep(&mut self, address: u32) {
        if place(address) == Place::Register {
            self.track.register = true;
        } else if self.track.words.len() < MOST_TRACKED {
            let word = address & !3;
            let held = self.held(word);
            self.track.words.push((word, held));
        }
    }
}

macro_rules! accesses {
    ($read:ident $write:ident $type:ty, $size:expr) => {
        #[inline(always)]
        fn $read(&mut self, address: u32) -> $type {
            match self.direct(address) {
                Some((memory, at)) if at + $size <= memory.len() => {
                    <$type>::from_le_bytes(memory[at..at + $size].try_into().unwrap())
                }
                _ => self.read(address, $size) as $type,
            }
        }

        #[inline(always)]
        fn $write(&mut self, address: u32, value: $type) {
            if self.track.on {
                self.keep(address);
            }
            match self.direct(address) {
                Some((memory, at)) if at + $size <= memory.len() => {
                    memory[at..at + $size].copy_from_slice(&value.to_le_bytes())
                }
                _ => self.write(address, $size, value.into()),
            }
        }
    };
}

impl<const ENTRIES: bool> crate::cpu::Bus for Port<ENTRIES> {
    accesses!(read8 write8 u8, 1);
    accesses!(read16 write16 u16, 2);
    accesses!(read32 write32 u32, 4);
}
