//! Runs a script by the Rust device itself. What the paper adds to document
//! 000 for a whole script is decided here, and for a step in `bus/steps.rs`.

use crate::bus::kinds::PRESS;
use crate::bus::steps::Board;
use crate::bytes::*;
use crate::common::numbers::{ANSWER_BYTES, BAD_MEMORY, BAD_SCRIPT, OUT_TOO_SHORT};
use crate::common::step::{Device, Step};
use crate::memories::Memories;

/// The number of the whole script's refusal, 0 for done.
pub fn run_script(memories: &mut Memories, script: &[u8], out: &mut [u8]) -> u32 {
    if !memories.have_right_lengths() {
        return BAD_MEMORY.into();
    }
    let mut board = Board::start();
    memories.swap(&mut board.system);
    let returned = continue_script(&mut board, script, out);
    memories.swap(&mut board.system);
    returned
}

/// The same from where the board stands; its memories have their lengths.
pub fn continue_script(board: &mut Board, script: &[u8], out: &mut [u8]) -> u32 {
    let Some(script) = Script::read(script) else { return BAD_SCRIPT.into() };
    if out.len() < out_length(script.answers()) {
        return OUT_TOO_SHORT.into();
    }
    work(board, &script, out);
    0
}

fn work(board: &mut Board, script: &Script, out: &mut [u8]) {
    let presses = script.presses.iter().map(|&(key, time)| Step {
        kind: PRESS,
        address: key.into(),
        value: time,
    });
    let steps = script.steps.iter().map(|step| step.on_bus());
    let (count, answers) = out.split_at_mut(4);
    count.copy_from_slice(&(script.answers() as u32).to_le_bytes());
    for (step, to) in presses.chain(steps).zip(answers.chunks_exact_mut(ANSWER_BYTES)) {
        write_answer(board.answer(step), to);
    }
}
