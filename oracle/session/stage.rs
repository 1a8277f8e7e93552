//! Where both sides run one pair after the other: the Rust device goes on
//! after `timers_resync`, the port in another unit after a save and a resume.

use crate::altered::Alter;
use crate::bus::steps::{digest, Board};
use crate::bytes::read_answer;
use crate::common::numbers::{ANSWER_BYTES, BAD_MEMORY, SAVE_TOO_SHORT};
use crate::common::random::Random;
use crate::common::step::Device;
use crate::layout::{head, memories_in, size, LEAST, MOST};
use crate::memories::{Memories, NAMES};
use crate::pairs::Pair;
use crate::port::{lent, Unit};
use crate::run::continue_script;
use crate::situations::Situations;
use crate::starts::{picture, put};

const PAGE: usize = 4096;

/// Bytes behind a slice that is lent, which are not.
const BEHIND: usize = 64;

/// What stands in the buffer before a session is saved into it.
const BEFORE: u8 = 0xA5;

/// What was tried at the cuts.
#[derive(Default)]
pub struct Tried {
    pub exact: u64,
    pub most: u64,
    pub short: u64,
    pub lengths: u64,
    pub again: u64,
    pub heads: u64,
    pub memories: u64,
}

pub struct Stage {
    picture: Memories,
    /// The number and the seed of the picture.
    drawn: Option<(usize, u64)>,
    rust: Memories,
    pub port: Port,
    pub tried: Tried,
    pub situations: Situations,
    pub bytes: u64,
}

/// The unit that is at work and one that is not, each with its memories, and
/// room for sessions.
pub struct Port {
    pub unit: Box<Unit>,
    pub memories: Memories,
    pub spare: Box<Unit>,
    pub spare_memories: Memories,
    pub saved: Vec<u8>,
    pub length: usize,
    pub again: Vec<u8>,
}

/// What a script came to, the same on both sides, and of all but the last the
/// size and the digest of what comes before the memories in the session.
pub struct Ran {
    pub returned: u32,
    pub out: Vec<u8>,
    pub session: Option<(usize, u64)>,
}

fn first_difference(one: &[u8], other: &[u8]) -> Option<usize> {
    (one != other).then(|| one.iter().zip(other).position(|(a, b)| a != b))?
}

/// Where the two differ, if they do. If not, both become the picture again,
/// page by page where that is another.
fn settle(one: &mut [u8], other: &mut [u8], picture: &[u8]) -> Option<usize> {
    let pages = one.chunks_mut(PAGE).zip(other.chunks_mut(PAGE)).zip(picture.chunks(PAGE));
    for (at, ((one, other), picture)) in pages.enumerate() {
        if let Some(place) = first_difference(one, other) {
            return Some(at * PAGE + place);
        }
        if one != picture {
            one.copy_from_slice(picture);
            other.copy_from_slice(picture);
        }
    }
    None
}

/// Every byte becomes another one than in `of`.
pub fn complement(to: &mut Memories, of: &Memories) {
    for (to, of) in to.0.iter_mut().zip(&of.0) {
        to.iter_mut().zip(of).for_each(|(to, of)| *to = !of);
    }
}

pub fn is_complement(memories: &Memories, of: &Memories) -> bool {
    let pairs = memories.0.iter().zip(&of.0);
    pairs.flat_map(|(one, other)| one.chunks(PAGE).zip(other.chunks(PAGE))).all(|(one, other)| {
        one.iter().zip(other).fold(0xFF, |all, (one, other)| all & (one ^ other)) == 0xFF
    })
}

fn expect<T: PartialEq + std::fmt::Debug>(what: &str, is: T, wished: T) -> Result<(), String> {
    if is == wished {
        return Ok(());
    }
    Err(format!("{what}: {is:?}, not {wished:?}"))
}

impl Port {
    fn new() -> Port {
        let mut random = Random::new(0);
        Port {
            unit: Unit::any(&mut random),
            memories: Memories::zero(),
            spare: Unit::any(&mut random),
            spare_memories: Memories::zero(),
            saved: vec![BEFORE; MOST + BEHIND],
            length: 0,
            again: vec![BEFORE; MOST + BEHIND],
        }
    }

    /// The session that was saved last.
    pub fn session(&self) -> &[u8] {
        &self.saved[..self.length]
    }

    /// Room that is one byte short, or any number of them: nothing is written.
    fn save_short(&mut self, size: usize, random: &mut Random) -> Result<(), String> {
        self.saved.fill(BEFORE);
        let room = [0, LEAST - 1, size - 1, size - 1, size - 1, random.below(size)];
        let room = random.pick(&room);
        let answer = self.unit.save(lent(&mut self.memories), &mut self.saved[..room]);
        expect("saved into too little room", answer, (SAVE_TOO_SHORT.into(), 0))?;
        expect("written though refused", self.saved.iter().all(|&byte| byte == BEFORE), true)
    }

    /// A memory that is shorter, with room or without, and any bytes: 7.
    fn other_lengths(&mut self, random: &mut Random) -> Result<(), String> {
        let (which, before) = (random.below(4), *self.unit.bytes());
        let shorter = random.pick(&[0, 1, self.memories.0[which].len() - 1]);
        let room = random.pick(&[0, MOST]);
        let mut memories = lent(&mut self.memories);
        memories[which] = &mut std::mem::take(&mut memories[which])[..shorter];
        let answer = self.unit.save(memories, &mut self.again[..room]);
        expect("saved over a memory of another length", answer, (BAD_MEMORY.into(), 0))?;
        let mut memories = lent(&mut self.memories);
        memories[which] = &mut std::mem::take(&mut memories[which])[..shorter];
        let saved = random.pick(&[0, self.length]);
        let answer = self.unit.resume(memories, &self.saved[..saved]);
        expect("resumed over a memory of another length", answer, BAD_MEMORY.into())?;
        expect("the unit though refused", *self.unit.bytes() == before, true)
    }

    /// Saves, into exactly as much room as is needed or into the most.
    fn save(&mut self, size: usize, exact: bool) -> Result<(), String> {
        let (before, room) = (*self.unit.bytes(), if exact { size } else { MOST });
        self.saved[size.min(self.length)..].fill(BEFORE);
        let answer = self.unit.save(lent(&mut self.memories), &mut self.saved[..room]);
        expect("saved", answer, (0, size as u64))?;
        self.length = size;
        let behind = self.saved[size..].iter().all(|&byte| byte == BEFORE);
        expect("bytes behind the session are as before", behind, true)?;
        expect("saving leaves the unit", *self.unit.bytes() == before, true)
    }

    /// Resumes into any bytes, over memories of which no byte is right.
    fn resume(&mut self, random: &mut Random) -> Result<(), String> {
        self.spare = Unit::any(random);
        complement(&mut self.spare_memories, &self.memories);
        let saved = &self.saved[..self.length];
        let answer = self.spare.resume(lent(&mut self.spare_memories), saved);
        expect("resumed", answer, 0)?;
        std::mem::swap(&mut self.unit, &mut self.spare);
        std::mem::swap(&mut self.memories, &mut self.spare_memories);
        Ok(())
    }

    /// Writing what was read gives the same bytes.
    fn save_again(&mut self) -> Result<(), String> {
        let (length, saved) = (self.length, &self.saved);
        let answer = self.unit.save(lent(&mut self.memories), &mut self.again[..length]);
        expect("saved again", answer, (0, length as u64))?;
        match first_difference(&saved[..length], &self.again[..length]) {
            None => Ok(()),
            Some(at) => Err(format!("saved again: byte {at} is another")),
        }
    }
}

impl Stage {
    pub fn new() -> Stage {
        Stage {
            picture: Memories::zero(),
            drawn: None,
            rust: Memories::zero(),
            port: Port::new(),
            tried: Tried::default(),
            situations: Situations::default(),
            bytes: 0,
        }
    }

    fn draw(&mut self, wished: (usize, u64)) {
        if self.drawn == Some(wished) {
            return;
        }
        self.picture = picture(wished.0, wished.1);
        for memories in [&mut self.rust, &mut self.port.memories] {
            for (memory, picture) in memories.0.iter_mut().zip(&self.picture.0) {
                memory.copy_from_slice(picture);
            }
        }
        self.drawn = Some(wished);
    }

    /// Both sides run the pair. With an alteration the Rust's side is altered
    /// at each cut, and the session's bytes are not looked at: only what is
    /// answered and left can tell.
    pub fn run(&mut self, pair: &Pair, alter: Option<&mut Alter>) -> Result<Vec<Ran>, String> {
        self.draw((pair.picture, pair.picture_seed));
        // Until all is found the same and is the picture again.
        let drawn = self.drawn.take();
        put(&mut self.rust, &pair.puts);
        put(&mut self.port.memories, &pair.puts);
        let mut board = Board::start();
        self.rust.swap(&mut board.system);
        let ran = self.run_scripts(pair, &mut board, alter);
        self.rust.swap(&mut board.system);
        let ran = ran?;
        self.compare_memories()?;
        self.drawn = drawn;
        Ok(ran)
    }

    /// The same, and digests of the memories at the end.
    pub fn run_digested(&mut self, pair: &Pair) -> Result<(Vec<Ran>, [u64; 4]), String> {
        self.draw((pair.picture, pair.picture_seed));
        let mut board = Board::start();
        let mut memories = Memories(self.rust.0.clone());
        put(&mut memories, &pair.puts);
        memories.swap(&mut board.system);
        for (at, (script, out)) in pair.scripts.iter().enumerate() {
            if at > 0 {
                board.system.timers_resync();
            }
            continue_script(&mut board, script, &mut vec![0; *out]);
        }
        memories.swap(&mut board.system);
        let digests = memories.0.each_ref().map(|memory| digest(memory));
        Ok((self.run(pair, None)?, digests))
    }

    fn run_scripts(
        &mut self,
        pair: &Pair,
        board: &mut Board,
        mut alter: Option<&mut Alter>,
    ) -> Result<Vec<Ran>, String> {
        let mut random = Random::new(pair.seed);
        self.port.unit = Unit::any(&mut random);
        self.port.unit.fresh();
        let mut all = Vec::new();
        for (at, (script, out)) in pair.scripts.iter().enumerate() {
            let mut ran = self
                .run_script(board, script, *out)
                .map_err(|said| format!("script {} of {}: {said}", at + 1, pair.scripts.len()))?;
            if at + 1 < pair.scripts.len() {
                ran.session = Some((size(&board.system), digest(&head(&board.system).0)));
                match alter.as_deref_mut() {
                    Some(alter) => {
                        alter.change(&mut board.system);
                        let size = port_size(&mut self.port);
                        self.port.save(size, true)?;
                        self.port.resume(&mut random)?;
                    }
                    None => self.cut(board, &mut random).map_err(|said| {
                        format!("after script {} of {}: {said}", at + 1, pair.scripts.len())
                    })?,
                }
            }
            all.push(ran);
        }
        Ok(all)
    }

    fn run_script(&mut self, board: &mut Board, script: &[u8], out: usize) -> Result<Ran, String> {
        let before: Vec<u8> = (0..out + BEHIND).map(|at| (37 * at) as u8).collect();
        let (mut rust, mut port) = (before.clone(), before);
        let returned = continue_script(board, script, &mut rust[..out]);
        let memories = lent(&mut self.port.memories);
        let here = self.port.unit.continue_script(memories, script, &mut port[..out]);
        if returned != here {
            return Err(format!("returned: Rust {returned}, port {here}"));
        }
        if let Some(at) = first_difference(&rust, &port) {
            let answer = at.saturating_sub(4) / ANSWER_BYTES;
            return Err(match (read_answer(&rust, answer), read_answer(&port, answer)) {
                (Some(rust), Some(port)) => format!("answer {answer}: Rust {rust}, port {port}"),
                _ => format!("byte {at} of the answers"),
            });
        }
        self.bytes += rust.len() as u64;
        rust.truncate(out);
        Ok(Ran { returned, out: rust, session: None })
    }

    /// The session is saved and resumed, and the Rust device goes on with its
    /// timers' periods counted anew.
    fn cut(&mut self, board: &mut Board, random: &mut Random) -> Result<(), String> {
        let size = size(&board.system);
        self.situations.look(&mut board.system);
        if random.one_in(8) {
            self.port.save_short(size, random)?;
            self.tried.short += 1;
        }
        if random.one_in(8) {
            self.port.other_lengths(random)?;
            self.tried.lengths += 1;
        }
        let exact = random.one_in(2);
        self.port.save(size, exact)?;
        *(if exact { &mut self.tried.exact } else { &mut self.tried.most }) += 1;
        self.compare_head(board)?;
        if random.one_in(4) {
            self.compare_saved_memories(board)?;
        }
        self.port.resume(random)?;
        board.system.timers_resync();
        if random.one_in(4) {
            self.port.save_again()?;
            self.tried.again += 1;
        }
        Ok(())
    }

    /// What comes before the memories is what the Rust device's fields are.
    fn compare_head(&mut self, board: &Board) -> Result<(), String> {
        let (head, sections) = head(&board.system);
        if let Some(at) = first_difference(&head, &self.port.saved[..head.len()]) {
            let section = sections.iter().take_while(|&&begin| begin <= at).count() - 1;
            return Err(format!(
                "the session's byte {at}, byte {} of section {section}: Rust {:02x}, port {:02x}",
                at - sections[section],
                head[at],
                self.port.saved[at]
            ));
        }
        self.bytes += head.len() as u64;
        self.tried.heads += 1;
        Ok(())
    }

    fn compare_saved_memories(&mut self, board: &Board) -> Result<(), String> {
        let system = &board.system;
        let rust = [&system.ram, &system.sram, &system.gpio, &system.lcd.fb];
        for ((name, rust), saved) in NAMES.iter().zip(rust).zip(memories_in(self.port.session())) {
            if let Some(at) = first_difference(rust, saved) {
                return Err(format!("the session's {name} byte {at:#x}"));
            }
            self.bytes += saved.len() as u64;
        }
        self.tried.memories += 1;
        Ok(())
    }

    fn compare_memories(&mut self) -> Result<(), String> {
        for (number, picture) in self.picture.0.iter().enumerate() {
            let (one, other) = (&mut self.rust.0[number], &mut self.port.memories.0[number]);
            if let Some(at) = settle(one, other, picture) {
                let (name, rust, port) = (NAMES[number], one[at], other[at]);
                return Err(format!("{name} byte {at:#x}: Rust {rust:02x}, port {port:02x}"));
            }
            self.bytes += picture.len() as u64;
        }
        Ok(())
    }
}

/// How many bytes the port's unit needs, as the port itself says.
fn port_size(port: &mut Port) -> usize {
    let (answer, written) = port.unit.save(lent(&mut port.memories), &mut port.again[..MOST]);
    assert_eq!(answer, 0, "saved");
    written as usize
}
