//! Who plays: keys, presses and turbo, as the seed says. A host's own doings are
//! here, too: bytes laid into the block that programs draw from, and the state
//! moved to another place.

use crate::board::Board;
use crate::common::edges::{fraction, TURBOS};
use crate::common::numbers::{KEY_HOLD, KEY_PLACES};
use crate::common::random::Random;
use crate::programs::{SEEDS, SEEDS_BYTES};

pub struct Hand {
    random: Random,
    /// Turns until something is done again.
    rest: usize,
    down: [bool; 3],
    /// When each press that may still have a place is over.
    ends: Vec<f64>,
}

impl Hand {
    pub fn new(seed: u64) -> Hand {
        Hand { random: Random::new(seed), rest: 0, down: [false; 3], ends: Vec::new() }
    }

    pub fn act(&mut self, board: &mut impl Board, now: f64) {
        if self.rest > 0 {
            self.rest -= 1;
            return;
        }
        self.rest = self.random.between(5, 60);
        let key = self.random.below(3);
        match self.random.below(10) {
            0..=2 => {
                self.down[key] = !self.down[key];
                board.live_key(key, self.down[key]);
            }
            3 | 4 => {
                let until = now + self.span();
                board.hold_until(key, until);
            }
            5 | 6 => (0..self.random.between(1, 5)).for_each(|_| self.press(board, now)),
            7 => self.poke(board),
            8 => board.move_house(),
            _ => {
                let between = 0.5 + 100.0 * fraction(&mut self.random);
                let known = self.random.pick(&TURBOS);
                board.turbo(self.random.pick(&[1.0, between, known, known]));
            }
        }
    }

    /// No more than have a place.
    fn press(&mut self, board: &mut impl Board, now: f64) {
        self.ends.retain(|&end| end > now);
        if self.ends.len() < KEY_PLACES {
            let (key, at) = (self.random.below(3), now + self.span());
            self.ends.push(at + KEY_HOLD);
            board.press(key, at);
        }
    }

    fn poke(&mut self, board: &mut impl Board) {
        let at = SEEDS + self.random.below(SEEDS_BYTES) as u32;
        let count = self.random.between(1, 16);
        let bytes: Vec<u8> = (0..count).map(|_| self.random.byte()).collect();
        board.poke(at, &bytes);
    }

    /// Seconds, mostly few.
    fn span(&mut self) -> f64 {
        let most = self.random.pick(&[0.000_1, 0.001, 0.02, 0.3]);
        fraction(&mut self.random) * most
    }
}
