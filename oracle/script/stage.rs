//! Where both sides run one script after the other: each over memories of its
//! own that start alike.

use std::fmt;

use crate::bus::steps::digest;
use crate::bytes::read_answer;
use crate::cases::Case;
use crate::common::numbers::ANSWER_BYTES;
use crate::memories::{Memories, NAMES};
use crate::starts::{picture, put};
use crate::{port, run};

const PAGE: usize = 4096;

/// Bytes behind the slice for the answers, which are not lent.
const BEHIND: usize = 64;

/// One side's memories, what it answered, and what it returned.
struct Side {
    memories: Memories,
    out: Vec<u8>,
    returned: u32,
}

pub struct Stage {
    picture: Memories,
    /// The number and the seed of the picture.
    drawn: (usize, u64),
    rust: Side,
    port: Side,
    pub bytes: u64,
}

/// What both sides agree on.
pub struct Outcome {
    pub returned: u32,
    pub out: Vec<u8>,
}

pub enum Difference {
    Returned(u32, u32),
    Out(usize, Vec<u8>, Vec<u8>),
    Memory(usize, usize, u8, u8),
}

impl Side {
    fn new() -> Side {
        Side { memories: Memories::zero(), out: Vec::new(), returned: 0 }
    }

    fn prepare(&mut self, case: &Case, seed: u64) {
        put(&mut self.memories, &case.puts);
        for (memory, length) in self.memories.0.iter_mut().zip(case.lengths) {
            memory.resize(length, 0xA5);
        }
        let byte = |at: usize| (at as u64).wrapping_mul(37).wrapping_add(seed) as u8;
        self.out = (0..case.out + BEHIND).map(byte).collect();
    }
}

/// The first place at which they differ.
fn first_difference(one: &[u8], other: &[u8]) -> Option<usize> {
    (one != other).then(|| one.iter().zip(other).position(|(a, b)| a != b))?
}

/// Where the two differ, if they do. If not, both become the picture again,
/// page by page where that is another, for most of them have not changed.
fn settle(one: &mut Vec<u8>, other: &mut Vec<u8>, picture: &[u8]) -> Option<usize> {
    for at in (0..one.len()).step_by(PAGE) {
        let page = at..one.len().min(at + PAGE);
        if let Some(place) = first_difference(&one[page.clone()], &other[page.clone()]) {
            return Some(at + place);
        }
        let was = picture.get(page.clone()).unwrap_or(&[]);
        if one.len() == picture.len() && one[page.clone()] != *was {
            one[page.clone()].copy_from_slice(was);
            other[page].copy_from_slice(was);
        }
    }
    if one.len() != picture.len() {
        for memory in [one, other] {
            memory.clear();
            memory.extend(picture);
        }
    }
    None
}

impl Stage {
    pub fn new() -> Stage {
        let (rust, port) = (Side::new(), Side::new());
        Stage { picture: Memories::zero(), drawn: (0, 0), rust, port, bytes: 0 }
    }

    pub fn run(&mut self, case: &Case, seed: u64) -> Result<Outcome, Difference> {
        self.run_both(case, seed);
        self.outcome()
    }

    /// The same, and digests of the memories as the Rust side left them.
    pub fn run_digested(
        &mut self,
        case: &Case,
        seed: u64,
    ) -> Result<(Outcome, [u64; 4]), Difference> {
        self.run_both(case, seed);
        let digests = self.rust.memories.0.each_ref().map(|memory| digest(memory));
        Ok((self.outcome()?, digests))
    }

    fn run_both(&mut self, case: &Case, seed: u64) {
        self.draw((case.picture, case.picture_seed));
        let (lent, script) = (case.out, &case.script);
        for side in [&mut self.rust, &mut self.port] {
            side.prepare(case, seed);
        }
        let (rust, port) = (&mut self.rust, &mut self.port);
        rust.returned = run::run_script(&mut rust.memories, script, &mut rust.out[..lent]);
        port.returned = port::run_script(&mut port.memories, script, &mut port.out[..lent]);
    }

    fn outcome(&mut self) -> Result<Outcome, Difference> {
        self.compare()?;
        Ok(Outcome { returned: self.rust.returned, out: std::mem::take(&mut self.rust.out) })
    }

    fn draw(&mut self, wished: (usize, u64)) {
        if self.drawn == wished {
            return;
        }
        self.drawn = wished;
        self.picture = picture(wished.0, wished.1);
        for side in [&mut self.rust, &mut self.port] {
            for (memory, picture) in side.memories.0.iter_mut().zip(&self.picture.0) {
                memory.copy_from_slice(picture);
            }
        }
    }

    /// All bytes of answers and memories. These are the picture afterwards.
    fn compare(&mut self) -> Result<(), Difference> {
        let (rust, port) = (&mut self.rust, &mut self.port);
        if rust.returned != port.returned {
            return Err(Difference::Returned(rust.returned, port.returned));
        }
        if let Some(at) = first_difference(&rust.out, &port.out) {
            return Err(Difference::Out(at, rust.out.clone(), port.out.clone()));
        }
        self.bytes += rust.out.len() as u64;
        for (number, picture) in self.picture.0.iter().enumerate() {
            let (one, other) = (&mut rust.memories.0[number], &mut port.memories.0[number]);
            self.bytes += one.len() as u64;
            if let Some(at) = settle(one, other, picture) {
                return Err(Difference::Memory(number, at, one[at], other[at]));
            }
        }
        Ok(())
    }
}

impl fmt::Display for Difference {
    fn fmt(&self, f: &mut fmt::Formatter) -> fmt::Result {
        match self {
            Difference::Returned(rust, port) => write!(f, "returned: Rust {rust}, port {port}"),
            Difference::Out(at, rust, port) if *at >= 4 => {
                let answer = (at - 4) / ANSWER_BYTES;
                write!(f, "answer {answer}, byte {at} of all: ")?;
                match (read_answer(rust, answer), read_answer(port, answer)) {
                    (Some(rust), Some(port)) => write!(f, "Rust {rust}, port {port}"),
                    _ => write!(f, "Rust {:02x}, port {:02x}", rust[*at], port[*at]),
                }
            }
            Difference::Out(_, rust, port) => {
                write!(f, "count: Rust {:02x?}, port {:02x?}", &rust[..4], &port[..4])
            }
            Difference::Memory(memory, at, rust, port) => {
                let name = NAMES[*memory];
                write!(f, "{name} byte {at:#x}: Rust {rust:02x}, port {port:02x}")
            }
        }
    }
}
