//! The steps of a list for the panel, and how document 000 answers them. What
//! the paper adds to document 000, the refusal, is decided here and nowhere
//! else.

use std::mem;

use crate::common::device::fresh;
use crate::common::numbers::*;
use crate::common::step::*;
use crate::counts::Counts;
use crate::cpu::Bus;
use crate::sys::{Lcd, System};

pub const COMMAND: u64 = 0x1;
pub const DATA: u64 = 0x2;
pub const DMA: u64 = 0x3;
pub const PIXEL_RGB: u64 = 0x4;
pub const RGB: u64 = 0x5;
pub const LENT_DATA: u64 = 0x6;
pub const LENT_RGB: u64 = 0x7;

/// The most data bytes of one step.
pub const MOST: usize = 8;

/// For a command and a held half byte: there is none.
pub const NONE: u64 = 0x100;

/// Where the looks at the framebuffer and at the screen begin.
pub const LOOK_FRAMEBUFFER: u64 = 0x10000;
pub const LOOK_SCREEN: u64 = 0x20000;

/// How many bytes such a look shows.
pub const LOOK_BYTES: usize = 24;

/// The device, and the screen that its colours are written to.
pub struct Panel {
    system: System,
    screen: Vec<u8>,
    counts: Counts,
}

impl Device for Panel {
    const KINDS: &'static [u64] =
        &[COMMAND, DATA, DMA, PIXEL_RGB, RGB, LENT_DATA, LENT_RGB, LOOK, PUT];

    fn start() -> Panel {
        Panel { system: fresh(&[]), screen: vec![0; SCREEN_BYTES], counts: Counts::default() }
    }

    fn answer(&mut self, step: Step) -> Answer {
        let Step { kind, address, value } = step;
        let short_framebuffer = address < FRAMEBUFFER_BYTES as u64;
        match kind {
            COMMAND => self.command(value as u32),
            DATA => self.data(last_bytes(&value.to_be_bytes(), address)),
            DMA => self.dma(value as u16),
            PIXEL_RGB => return self.pixel_rgb(address as usize % PIXELS),
            RGB => return self.rgb(),
            LENT_DATA if short_framebuffer => return refused(BAD_MEMORY),
            LENT_DATA => self.data(&[value as u8]),
            LENT_RGB if short_framebuffer || value < SCREEN_BYTES as u64 => {
                return refused(BAD_MEMORY)
            }
            LENT_RGB => return self.rgb(),
            LOOK => return self.look(address),
            PUT => self.put(address, value),
            _ => {}
        }
        DONE
    }

    fn counts(&self) -> Vec<(&'static str, u64)> {
        self.counts.named()
    }
}

fn last_bytes(bytes: &[u8; MOST], count: u64) -> &[u8] {
    &bytes[MOST - count.min(MOST as u64) as usize..]
}

impl Panel {
    pub fn lcd(&self) -> &Lcd {
        &self.system.lcd
    }

    fn send(&mut self, how: u32, word: u32) {
        self.system.write32(LCD_DATA, word);
        self.system.write32(LCD_CONTROL, how);
    }

    /// The device itself takes the last byte.
    fn command(&mut self, word: u32) {
        self.counts.command();
        self.send(SEND_COMMAND, word);
    }

    /// Two bytes at a time, and the last one by itself if it is odd: both
    /// ways to send are used, and a pixel may end within a pair.
    fn data(&mut self, bytes: &[u8]) {
        for some in bytes.chunks(2) {
            self.counts.data(&self.system.lcd, some.len());
            match *some {
                [high, low] => self.send(SEND_TWO, u16::from_be_bytes([high, low]).into()),
                _ => self.send(SEND_BYTE, some[0].into()),
            }
        }
    }

    fn dma(&mut self, first: u16) {
        self.counts.dma();
        for (at, pixel) in self.system.ram[..FRAMEBUFFER_BYTES].chunks_exact_mut(2).enumerate() {
            pixel.copy_from_slice(&first.wrapping_add(at as u16).to_le_bytes());
        }
        self.system.write32(LCD_DMA, FLASH_BASE);
        self.system.write32(LCD_CONTROL, START_DMA);
    }

    /// The device knows only the whole framebuffer. For the time of the call
    /// the one pixel is all of it.
    fn pixel_rgb(&mut self, at: usize) -> Answer {
        let pixel = self.system.lcd.fb[2 * at..2 * at + 2].to_vec();
        let all = mem::replace(&mut self.system.lcd.fb, pixel);
        let rgb = self.system.lcd.rgb();
        self.system.lcd.fb = all;
        words(big_endian(&rgb), 0, 0)
    }

    fn rgb(&mut self) -> Answer {
        self.screen = self.system.lcd.rgb();
        words(checksum(&self.screen), 0, 0)
    }

    fn look(&self, at: u64) -> Answer {
        let lcd = &self.system.lcd;
        match at {
            0 => {
                let ends = [lcd.x0, lcd.x1, lcd.y0, lcd.y1].map(u64::from);
                let position = u64::from(lcd.x) << 16 | u64::from(lcd.y);
                words(ends.into_iter().fold(0, |a, end| a << 16 | end), position, lcd.frames)
            }
            1 => {
                let count = lcd.args.len().min(4);
                let mut arguments = [0; 4];
                arguments[..count].copy_from_slice(&lcd.args[..count]);
                let c = (count as u64) << 32 | big_endian(&arguments);
                words(lcd.cmd.map_or(NONE, u64::from), lcd.half.map_or(NONE, u64::from), c)
            }
            2 => words(checksum(&lcd.fb), checksum(&self.screen), 0),
            LOOK_SCREEN.. => look_memory(&self.screen, at - LOOK_SCREEN),
            LOOK_FRAMEBUFFER.. => look_memory(&lcd.fb, at - LOOK_FRAMEBUFFER),
            _ => DONE,
        }
    }

    fn put(&mut self, at: u64, value: u64) {
        let lcd = &mut self.system.lcd;
        let place = u32::from(value as u16);
        let byte = u8::try_from(value % 512).ok();
        match at {
            0 => lcd.x0 = place,
            1 => lcd.x1 = place,
            2 => lcd.y0 = place,
            3 => lcd.y1 = place,
            4 => lcd.x = place,
            5 => lcd.y = place,
            6 => lcd.frames = value,
            7 => lcd.cmd = byte,
            8 => lcd.half = byte,
            _ => {}
        }
    }
}

fn big_endian(bytes: &[u8]) -> u64 {
    bytes.iter().fold(0, |word, &byte| word << 8 | u64::from(byte))
}

/// Past the memory's end there are zeros.
fn look_memory(memory: &[u8], at: u64) -> Answer {
    let rest = memory.iter().skip(LOOK_BYTES * at as usize).copied();
    let bytes: Vec<u8> = rest.chain([0; LOOK_BYTES]).take(LOOK_BYTES).collect();
    let [a, b, c] = [0, 8, 16].map(|from| big_endian(&bytes[from..from + 8]));
    words(a, b, c)
}

fn checksum(bytes: &[u8]) -> u64 {
    const MODULUS: u64 = (1 << 55) - 55;
    bytes.iter().fold(0, |sum, &byte| (sum * 257 + u64::from(byte) + 1) % MODULUS)
}
