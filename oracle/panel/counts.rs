//! Counts of what a list brings to the panel.

use crate::common::numbers::{COLUMNS, LCD_H, LCD_W, PAINT, ROWS};
use crate::sys::Lcd;

#[derive(Default)]
pub struct Counts {
    commands: u64,
    data_bytes: u64,
    dmas: u64,
    pixels: u64,
    windows: u64,
}

impl Counts {
    pub fn command(&mut self) {
        self.commands += 1;
    }

    pub fn dma(&mut self) {
        self.dmas += 1;
    }

    /// To be called before one or two bytes are sent. Two always end a pixel,
    /// and the pen has not moved before.
    pub fn data(&mut self, lcd: &Lcd, bytes: usize) {
        self.data_bytes += bytes as u64;
        let ends_pixel = bytes == 2 || lcd.half.is_some();
        let on_glass = (lcd.x as usize) < LCD_W && (lcd.y as usize) < LCD_H;
        let sets_ends = lcd.args.len() < 4 && lcd.args.len() + bytes >= 4;
        match lcd.cmd {
            Some(PAINT) => self.pixels += u64::from(ends_pixel && on_glass),
            Some(COLUMNS | ROWS) => self.windows += u64::from(sets_ends),
            _ => {}
        }
    }

    pub fn named(&self) -> Vec<(&'static str, u64)> {
        vec![
            ("commands", self.commands),
            ("data bytes", self.data_bytes),
            ("DMA copies", self.dmas),
            ("pixels written on the glass", self.pixels),
            ("windows set", self.windows),
        ]
    }
}
