//! One call of the bus at a time, as a processor's loads and stores are: `tg18_read` and `tg18_write`, by the crate of
//! host/rust, beside the device's own `read32` and `write32`.

use std::hint::black_box;
use std::time::{Duration, Instant};

use tg18::{Memories, Unit};

use crate::common::device::{fresh, timer_word};
use crate::common::numbers::*;
use crate::cpu::Bus;
use crate::sys::System;

/// Bytes of one transaction of the flash: the device keeps them all until it ends. With the two writes that end it and
/// begin the next it is so many calls.
const TRANSACTION: usize = 256;
const CALLS_OF_TRANSACTION: usize = TRANSACTION + 2;

/// Calls in a run, a whole number of transactions; and how often each side runs.
const CALLS: usize = 200 * CALLS_OF_TRANSACTION;
const RUNS: usize = 101;

/// Words of a memory that are read or written in turn: 16 KiB.
const WORDS: usize = 4_096;

/// More nanoseconds than the Rust's call that the port's may take.
const GOAL: f64 = 3.0;

/// One side, and what is asked of it: a call that is not inlined for each.
trait Side {
    fn read(&mut self, address: u32) -> u32;
    fn write(&mut self, address: u32, value: u32);
    fn go(&mut self, time: f64);
}

struct Rust(System);

#[inline(never)]
fn rust_read(system: &mut System, address: u32) -> u32 {
    system.read32(address)
}

#[inline(never)]
fn rust_write(system: &mut System, address: u32, value: u32) {
    system.write32(address, value);
}

impl Side for Rust {
    #[inline(always)]
    fn read(&mut self, address: u32) -> u32 {
        rust_read(&mut self.0, address)
    }

    #[inline(always)]
    fn write(&mut self, address: u32, value: u32) {
        rust_write(&mut self.0, address, value);
    }

    fn go(&mut self, time: f64) {
        self.0.advance(time);
    }
}

/// The port: each is a call of C.
struct Port {
    unit: Box<Unit>,
    memories: Memories<'static>,
}

impl Side for Port {
    #[inline(always)]
    fn read(&mut self, address: u32) -> u32 {
        self.unit.read(&self.memories, address, 4).expect("the port refused a read")
    }

    #[inline(always)]
    fn write(&mut self, address: u32, value: u32) {
        self.unit.write(&mut self.memories, address, 4, value).expect("the port refused a write");
    }

    fn go(&mut self, time: f64) {
        self.unit.advance(&mut self.memories, time).expect("the port refused a time");
    }
}

/// The port where plain memory is read and written directly, and only all else is a call of C.
struct Short<'a>(&'a mut Port);

#[inline(never)]
fn short_read(port: &mut Port, address: u32) -> u32 {
    port.memories.read_plain32(address).unwrap_or_else(|| port.read(address))
}

#[inline(never)]
fn short_write(port: &mut Port, address: u32, value: u32) {
    if !port.memories.write_plain32(address, value) {
        port.write(address, value);
    }
}

impl Side for Short<'_> {
    #[inline(always)]
    fn read(&mut self, address: u32) -> u32 {
        short_read(self.0, address)
    }

    #[inline(always)]
    fn write(&mut self, address: u32, value: u32) {
        short_write(self.0, address, value);
    }

    fn go(&mut self, time: f64) {
        self.0.go(time);
    }
}

enum Calls {
    Reads,
    Writes,
    Transfers,
}

/// Calls of one kind, to so many words from an address on, one after the other.
struct Case {
    name: &'static str,
    calls: Calls,
    address: u32,
    words: usize,
    /// Writes before all others.
    before: &'static [(u32, u32)],
    /// The port's side goes the short way.
    short: bool,
}

const fn reads(name: &'static str, address: u32, words: usize, before: &'static [(u32, u32)]) -> Case {
    Case { name, calls: Calls::Reads, address, words, before, short: false }
}

const fn writes(name: &'static str, address: u32, words: usize) -> Case {
    Case { name, calls: Calls::Writes, address, words, before: &[], short: false }
}

const CONTROL: u32 = timer_word(1, CONTROL_AT);
const RELOAD: u32 = timer_word(1, RELOAD_AT);
const COUNTER: u32 = timer_word(1, COUNTER_AT);
const RUNNING: &[(u32, u32)] = &[(RELOAD, 0xFC18), (CONTROL, 0x2000)];
const IN_A_READ: &[(u32, u32)] = &[
    (SPIFC_SELECT, FLASH_SELECTED),
    (SPIFC_SEND, 0x03),
    (SPIFC_SEND, 0),
    (SPIFC_SEND, 0),
    (SPIFC_SEND, 0),
    (SPIFC_SEND, 0),
];

const CASES: [Case; 15] = [
    reads("read RAM", FLASH_BASE, WORDS, &[]),
    writes("write RAM", FLASH_BASE, WORDS),
    reads("read SRAM", SRAM_BASE, WORDS, &[]),
    writes("write SRAM", SRAM_BASE, WORDS),
    reads("read own word", INTC_MASK, 1, &[(INTC_MASK, 5)]),
    writes("write own word", INTC_MASK, 1),
    reads("read timer's control", CONTROL, 1, RUNNING),
    reads("read timer's counter, running", COUNTER, 1, RUNNING),
    writes("write timer's reload", RELOAD, 1),
    reads("read flash byte", SPIFC_ANSWER, 1, IN_A_READ),
    Case { calls: Calls::Transfers, ..writes("write flash byte", SPIFC_SEND, 1) },
    Case { short: true, ..reads("read RAM, short way", FLASH_BASE, WORDS, &[]) },
    Case { short: true, ..writes("write RAM, short way", FLASH_BASE, WORDS) },
    Case { short: true, ..reads("read SRAM, short way", SRAM_BASE, WORDS, &[]) },
    Case { short: true, ..writes("write SRAM, short way", SRAM_BASE, WORDS) },
];

impl Case {
    fn ready<S: Side>(&self, mut side: S) -> S {
        for &(address, value) in self.before {
            side.write(address, value);
        }
        side.go(0.5);
        side
    }

    /// All calls of a run; what was read, or is read afterwards, added up.
    #[inline(always)]
    fn run<S: Side>(&self, side: &mut S) -> u32 {
        match self.calls {
            Calls::Reads => self.each(|address, _| side.read(address)),
            Calls::Writes => {
                self.each(|address, value| {
                    side.write(address, value);
                    0
                });
                side.read(self.address)
            }
            Calls::Transfers => transfers(side),
        }
    }

    #[inline(always)]
    fn each(&self, mut call: impl FnMut(u32, u32) -> u32) -> u32 {
        let (mut sum, mut at) = (0u32, 0);
        for n in 0..CALLS as u32 {
            sum = sum.wrapping_add(call(black_box(self.address + 4 * at), n));
            at = if at + 1 == self.words as u32 { 0 } else { at + 1 };
        }
        sum
    }
}

/// Transactions that read from the array's start: 03, three bytes of address, and what answers.
#[inline(always)]
fn transfers<S: Side>(side: &mut S) -> u32 {
    for _ in 0..CALLS / CALLS_OF_TRANSACTION {
        side.write(black_box(SPIFC_SELECT), 0);
        side.write(black_box(SPIFC_SELECT), FLASH_SELECTED);
        for n in 0..TRANSACTION {
            side.write(black_box(SPIFC_SEND), if n == 0 { 0x03 } else { 0 });
        }
    }
    side.read(SPIFC_ANSWER)
}

// Their names are what a counter of instructions is told.
#[no_mangle]
#[inline(never)]
fn measured_live_rust(side: &mut Rust, case: &Case) -> u32 {
    case.run(side)
}

#[no_mangle]
#[inline(never)]
fn measured_live_port(side: &mut Port, case: &Case) -> u32 {
    match case.short {
        true => case.run(&mut Short(side)),
        false => case.run(side),
    }
}

fn rust_side(case: &Case) -> Rust {
    let mut system = fresh(&[]);
    fill(&mut system.ram);
    fill(&mut system.sram);
    case.ready(Rust(system))
}

fn port_side(case: &Case) -> Port {
    let mut port = Port { unit: Box::new(Unit::fresh()), memories: Memories::new() };
    fill(port.memories.ram_mut());
    fill(port.memories.sram_mut());
    case.ready(port)
}

/// Something to read, so that every page that is used has been touched, and the timers' clock is still zero.
fn fill(memory: &mut [u8]) {
    for (n, byte) in memory[..4 * WORDS].iter_mut().enumerate() {
        *byte = (n % 251) as u8;
    }
}

fn timed(run: impl FnOnce() -> u32) -> (u32, Duration) {
    let start = Instant::now();
    let sum = black_box(run());
    (sum, start.elapsed())
}

/// Nanoseconds a call: Rust and port.
fn time(case: &Case) -> Result<(f64, f64), String> {
    let (mut rust, mut port) = (rust_side(case), port_side(case));
    let (mut rust_times, mut port_times) = (Vec::new(), Vec::new());
    for _ in 0..RUNS {
        let (rust_sum, rust_took) = timed(|| measured_live_rust(&mut rust, case));
        let (port_sum, port_took) = timed(|| measured_live_port(&mut port, case));
        if rust_sum != port_sum {
            return Err(format!("{}: Rust and port differ", case.name));
        }
        rust_times.push(rust_took);
        port_times.push(port_took);
    }
    let calls = CALLS as f64;
    Ok((crate::median(rust_times) / calls, crate::median(port_times) / calls))
}

pub fn time_all(part: &str) -> Result<(), String> {
    println!("ns a call: medians of {RUNS} runs of {CALLS} calls");
    println!("{:<30}{:>10}{:>10}{:>8}", "", "Rust", "port", "more");
    let (mut met, mut all) = (0, 0);
    for case in CASES.iter().filter(|case| case.name.contains(part)) {
        let (rust, port) = time(case)?;
        println!("{:<30}{rust:>10.2}{port:>10.2}{:>8.2}", case.name, port - rust);
        met += usize::from(port <= rust + GOAL);
        all += 1;
    }
    println!("no slower than the Rust's call and {GOAL} ns: {met} of {all}");
    Ok(())
}

/// One run of one side, for a counter of instructions.
pub fn count(number: usize, side: &str) -> Option<()> {
    let case = CASES.get(number)?;
    match side {
        "rust" => measured_live_rust(&mut rust_side(case), case),
        "port" => measured_live_port(&mut port_side(case), case),
        _ => return None,
    };
    Some(())
}

pub fn list() {
    for (number, case) in CASES.iter().enumerate() {
        println!("{number} {CALLS} {}", case.name);
    }
}
