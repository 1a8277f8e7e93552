//! A list for the panel being written.

use crate::common::numbers::{COLUMNS, FRAMEBUFFER_BYTES, ROWS, SCREEN_BYTES};
use crate::common::step::Answer;
use crate::common::step_list::StepList;
use crate::steps::*;

/// The places of puts.
pub const X0: u64 = 0;
pub const X1: u64 = 1;
pub const Y0: u64 = 2;
pub const Y1: u64 = 3;
pub const X: u64 = 4;
pub const Y: u64 = 5;
pub const FRAMES: u64 = 6;
pub const CURRENT: u64 = 7;
pub const HALF: u64 = 8;

pub type List = StepList<Panel>;

/// The first and the last of the columns or rows.
pub type Ends = (u16, u16);

impl List {
    pub fn command(&mut self, command: u8) -> Answer {
        self.step(COMMAND, 0, command.into())
    }

    /// Data bytes in as few steps as there can be.
    pub fn data(&mut self, bytes: &[u8]) {
        for some in bytes.chunks(MOST) {
            let value = some.iter().fold(0, |value, &byte| value << 8 | u64::from(byte));
            self.step(DATA, some.len() as u64, value);
        }
    }

    pub fn dma(&mut self, first: u64) -> Answer {
        self.step(DMA, 0, first)
    }

    pub fn pixel_rgb(&mut self, at: usize) -> Answer {
        self.step(PIXEL_RGB, at as u64, 0)
    }

    pub fn rgb(&mut self) -> Answer {
        self.step(RGB, 0, 0)
    }

    pub fn lent_data(&mut self, framebuffer: usize, byte: u8) -> Answer {
        self.step(LENT_DATA, framebuffer as u64, byte.into())
    }

    pub fn lent_rgb(&mut self, framebuffer: usize, screen: usize) -> Answer {
        self.step(LENT_RGB, framebuffer as u64, screen as u64)
    }

    /// Window and pen.
    pub fn look_window(&mut self) -> Answer {
        self.look(0)
    }

    /// Command, half byte and arguments.
    pub fn look_command(&mut self) -> Answer {
        self.look(1)
    }

    pub fn look_checksums(&mut self) -> Answer {
        self.look(2)
    }

    pub fn columns(&mut self, ends: Ends) {
        self.ends(COLUMNS, ends);
    }

    pub fn rows(&mut self, ends: Ends) {
        self.ends(ROWS, ends);
    }

    fn ends(&mut self, command: u8, (first, last): Ends) {
        let ([a, b], [c, d]) = (first.to_be_bytes(), last.to_be_bytes());
        self.command(command);
        self.data(&[a, b, c, d]);
    }

    pub fn window(&mut self, columns: Ends, rows: Ends) {
        self.columns(columns);
        self.rows(rows);
    }

    /// All state in few steps: the memories only by their checksums.
    pub fn look_short(&mut self) {
        self.look_window();
        self.look_command();
        self.look_checksums();
        self.rgb();
        self.look_checksums();
    }

    /// The same, and the whole framebuffer.
    pub fn look_all(&mut self) {
        self.look_short();
        for at in 0..FRAMEBUFFER_BYTES.div_ceil(LOOK_BYTES) {
            self.look(LOOK_FRAMEBUFFER + at as u64);
        }
    }

    pub fn look_screen(&mut self) {
        for at in 0..SCREEN_BYTES / LOOK_BYTES {
            self.look(LOOK_SCREEN + at as u64);
        }
    }
}
