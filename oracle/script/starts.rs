//! The memories that scripts start with: one of a few pictures of them all,
//! and bytes put into it for each script.

use crate::common::edges::CLOCKS;
use crate::common::numbers::{SRAM_BASE, SYSCLK_VAR};
use crate::common::random::Random;
use crate::memories::{Memories, LENGTHS};
use crate::sys::System;
use crate::FLASH_SIZE;

pub const PICTURES: usize = 4;

const SRAM: usize = 1;
const GPIO: usize = 2;
const FRAMEBUFFER: usize = 3;

/// Byte i is the low byte of (i * 31 + seed) / 8, or 0 if the seed is 0.
pub fn fill(memories: &mut Memories, seed: u64) {
    for memory in &mut memories.0 {
        for (at, byte) in memory.iter_mut().enumerate() {
            let number = if seed == 0 { 0 } else { 31 * at as u64 + seed };
            *byte = (number >> 3) as u8;
        }
    }
}

fn randomly(memories: &mut Memories, mut random: Random) {
    for memory in &mut memories.0 {
        for bytes in memory.chunks_mut(8) {
            bytes.copy_from_slice(&random.next().to_le_bytes()[..bytes.len()]);
        }
    }
}

/// All zero, a pattern, anything, and an erased array.
pub fn picture(number: usize, seed: u64) -> Memories {
    let mut memories = Memories::zero();
    match number {
        0 => {}
        1 => fill(&mut memories, seed % 4096 + 1),
        2 => randomly(&mut memories, Random::new(seed)),
        _ => memories.0[0][..FLASH_SIZE].fill(0xFF),
    }
    memories
}

/// A word that is put into a memory: which one, where, and what.
pub type Put = (usize, usize, u32);

fn put_at_edge(random: &mut Random) -> Put {
    let memory = random.below(LENGTHS.len());
    let near = 4 * random.below(8);
    let any = random.below(LENGTHS[memory] - 3);
    let at = random.pick(&[near, LENGTHS[memory] - 4 - near, any, any & !0xFFF]);
    (memory, at, random.next() as u32)
}

/// The clock word comes first, for an author must know it.
pub fn puts(random: &mut Random) -> Vec<Put> {
    let clock = if random.one_in(3) { random.next() as u32 } else { random.pick(&CLOCKS) };
    let clock = if random.one_in(2) { 0 } else { clock };
    let mut puts = vec![(SRAM, (SYSCLK_VAR - SRAM_BASE) as usize, clock)];
    if random.one_in(2) {
        puts.push((GPIO, 0x20, random.next() as u32));
    }
    for _ in 0..random.pick(&[0, 0, 3, 20]) {
        puts.push(put_at_edge(random));
        puts.push((FRAMEBUFFER, 4 * random.below(8192), random.next() as u32));
    }
    puts
}

pub fn put(memories: &mut Memories, puts: &[Put]) {
    for &(memory, at, word) in puts {
        memories.0[memory][at..at + 4].copy_from_slice(&word.to_le_bytes());
    }
}

/// An author's device has what is put, and zeros elsewhere.
pub fn put_into(system: &mut System, puts: &[Put]) {
    let mut memories = Memories(Default::default());
    memories.swap(system);
    put(&mut memories, puts);
    memories.swap(system);
}
