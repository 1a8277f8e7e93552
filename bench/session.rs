//! A session saved and resumed, beside copying the four memories to a buffer and back. The Rust device has no
//! counterpart.

#[path = "../oracle/session/port.rs"]
#[allow(dead_code)]
mod port;

use std::hint::black_box;
use std::time::{Duration, Instant};

use crate::bytes::{out_length, Script, ScriptStep};
use crate::common::device::timer_word;
use crate::common::numbers::*;
use crate::common::random::Random;
use crate::memories::{Memories, LENGTHS};
use port::{lent, Unit};

/// How often each is done, by turns.
const RUNS: usize = 101;

/// Saving or resuming takes no more than so many times of copying.
const GOAL: f64 = 2.0;

/// The most bytes that a session has.
const MOST: usize = 17_872_533;

/// A unit as it is made, and one with every table full.
const CASES: [&str; 2] = ["fresh", "full tables"];

fn write(address: u32, value: u64) -> ScriptStep {
    ScriptStep { kind: WRITE, size: 4, unused: [0; 2], address, value }
}

/// 64 presses, 256 other words and 256 sound events.
fn filling() -> Script {
    let presses = (0..KEY_PLACES).map(|n| ((n % 3) as u8, (1.0 + n as f64).to_bits())).collect();
    let words = (0..REGISTER_PLACES as u32).map(|n| write(0xC010_0000 + 4 * n, 1 + u64::from(n)));
    let start = write(timer_word(SOUND_TIMER, CONTROL_AT), 0x2000);
    let tones = (1..SOUND_PLACES as u64).map(|n| write(timer_word(SOUND_TIMER, RELOAD_AT), n));
    Script { presses, steps: words.chain([start]).chain(tones).collect() }
}

struct Bench {
    unit: Box<Unit>,
    memories: Memories,
    saved: Vec<u8>,
    length: usize,
    copy: Vec<u8>,
}

// Their names are what a counter of instructions is told.
#[no_mangle]
#[inline(never)]
fn measured_session_out(memories: &Memories, copy: &mut [u8]) {
    let mut rest = copy;
    for memory in &memories.0 {
        let (here, behind) = rest.split_at_mut(memory.len());
        here.copy_from_slice(memory);
        rest = behind;
    }
}

#[no_mangle]
#[inline(never)]
fn measured_session_in(memories: &mut Memories, copy: &[u8]) {
    let mut rest = copy;
    for memory in &mut memories.0 {
        let (here, behind) = rest.split_at(memory.len());
        memory.copy_from_slice(here);
        rest = behind;
    }
}

#[no_mangle]
#[inline(never)]
fn measured_session_save(unit: &mut Unit, memories: &mut Memories, out: &mut [u8]) -> (u32, u64) {
    unit.save(lent(memories), out)
}

#[no_mangle]
#[inline(never)]
fn measured_session_resume(unit: &mut Unit, memories: &mut Memories, saved: &[u8]) -> u32 {
    unit.resume(lent(memories), saved)
}

impl Bench {
    /// Memories of any bytes; every page has been touched.
    fn new(case: &str) -> Bench {
        let mut random = Random::new(1);
        let mut bench = Bench {
            unit: Unit::any(&mut random),
            memories: Memories::zero(),
            saved: vec![1; MOST],
            length: 0,
            copy: vec![1; LENGTHS.iter().sum()],
        };
        bench.unit.fresh();
        if case != "fresh" {
            let script = filling();
            let mut out = vec![0; out_length(script.answers())];
            let memories = lent(&mut bench.memories);
            let returned = bench.unit.continue_script(memories, &script.bytes(), &mut out);
            assert_eq!(returned, 0, "the port refused the script");
        }
        for eight in bench.memories.0.iter_mut().flat_map(|memory| memory.chunks_exact_mut(8)) {
            eight.copy_from_slice(&random.next().to_le_bytes());
        }
        // Not by the function that is measured.
        let (answer, written) = bench.unit.save(lent(&mut bench.memories), &mut bench.saved);
        assert_eq!(answer, 0, "the port refused to save");
        bench.length = written as usize;
        bench
    }

    fn save(&mut self) {
        let (answer, written) = measured_session_save(&mut self.unit, &mut self.memories, black_box(&mut self.saved));
        assert_eq!((answer, written as usize), (0, self.length), "the port saved otherwise");
    }

    fn resume(&mut self) {
        let saved = black_box(&self.saved[..self.length]);
        let answer = measured_session_resume(&mut self.unit, &mut self.memories, saved);
        assert_eq!(answer, 0, "the port refused to resume");
    }

    fn run(&mut self, side: &str) -> Option<()> {
        match side {
            "out" => measured_session_out(&self.memories, black_box(&mut self.copy)),
            "save" => self.save(),
            "in" => {
                measured_session_out(&self.memories, &mut self.copy);
                measured_session_in(&mut self.memories, black_box(&self.copy));
            }
            "resume" => self.resume(),
            _ => return None,
        }
        Some(())
    }

    fn timed(&mut self, side: &str) -> Duration {
        let start = Instant::now();
        self.run(side);
        start.elapsed()
    }
}

/// Microseconds, by the sides' order: medians, and the lowest.
fn time(case: &str) -> [[f64; 4]; 2] {
    let mut bench = Bench::new(case);
    bench.run("in");
    let mut times = [const { Vec::new() }; 4];
    for _ in 0..RUNS {
        times[0].push(bench.timed("out"));
        times[1].push(bench.timed("save"));
        let start = Instant::now();
        measured_session_in(&mut bench.memories, black_box(&bench.copy));
        times[2].push(start.elapsed());
        times[3].push(bench.timed("resume"));
    }
    let lowest = times.each_ref().map(|times| times.iter().min().unwrap().as_nanos() as f64);
    [times.map(crate::median), lowest].map(|times| times.map(|time| time / 1000.0))
}

pub fn time_all() -> Result<(), String> {
    println!("microseconds, of {RUNS} by turns");
    let head = ["copy", "save", "ratio", "back", "resume", "ratio"];
    println!("{:<22}{}", "", head.map(|name| format!("{name:>9}")).concat());
    let mut met = 0;
    for case in CASES {
        for (which, [out, save, back, resume]) in ["medians", "lowest"].iter().zip(time(case)) {
            let ratios = [save / out, resume / back];
            let first = format!("{out:>9.0}{save:>9.0}{:>9.2}", ratios[0]);
            let name = format!("{case}, {which}");
            println!("{name:<22}{first}{back:>9.0}{resume:>9.0}{:>9.2}", ratios[1]);
            met += ratios.iter().filter(|&&ratio| ratio <= GOAL).count();
        }
    }
    println!("within {GOAL} times of copying: {met} of {}", 4 * CASES.len());
    Ok(())
}

/// One run of one side, for a counter of instructions.
pub fn count(number: usize, side: &str) -> Option<()> {
    Bench::new(CASES.get(number)?).run(side)
}

pub fn list() {
    for (number, case) in CASES.iter().enumerate() {
        println!("{number} {case}");
    }
}
