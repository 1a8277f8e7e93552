//! Times the port's library and the Rust device on the same scripts, in one
//! process and by turns.

// `live` and `session` are set by bench/common.sh.
#![allow(unknown_lints, unexpected_cfgs)]

#[path = "../oracle/bus/mod.rs"]
mod bus;
#[path = "../oracle/script/bytes.rs"]
#[allow(dead_code)]
mod bytes;
#[path = "../oracle/common/mod.rs"]
mod common;
mod families;
#[cfg(live)]
mod live;
#[path = "../oracle/script/make.rs"]
#[allow(dead_code)]
mod make;
#[path = "../oracle/script/memories.rs"]
#[allow(dead_code)]
mod memories;
#[path = "../oracle/script/port.rs"]
mod port;
mod rust_side;
#[cfg(session)]
mod session;

use std::env;
use std::hint::black_box;
use std::process::ExitCode;
use std::time::{Duration, Instant};

use bytes::{out_length, Script};
use common::device::*;
use common::full::*;
use families::{Family, FAMILIES};
use memories::Memories;
use sys::System;

/// How long each side runs in a family, and how often at least.
const LONG_ENOUGH: Duration = Duration::from_millis(400);
const OFTEN_ENOUGH: usize = 9;

/// A script, and all that one side needs to run it again and again. Memories
/// are zero at first and then what the run before left; nothing is cleared
/// between runs, and every page has been touched before a run is timed.
struct Bench {
    script: Vec<u8>,
    steps: usize,
    fresh: System,
    rust: (Memories, Vec<u8>),
    port: (Memories, Vec<u8>),
}

impl Bench {
    fn new(family: &Family) -> Bench {
        let author = family.script();
        let script = Script { presses: author.presses, steps: author.steps };
        let steps = script.answers();
        let side = || {
            let mut memories = Memories::zero();
            memories.0.iter_mut().for_each(|memory| memory.fill(0));
            (memories, vec![0; out_length(steps)])
        };
        let (rust, port) = (side(), side());
        Bench { script: script.bytes(), steps, fresh: fresh(&[]), rust, port }
    }

    /// What a new device costs is not counted; that the port makes its fresh
    /// state in each run is.
    fn rust_run(&mut self) -> Duration {
        let mut system = fresh(&[]);
        let (memories, out) = &mut self.rust;
        memories.swap(&mut system);
        let start = Instant::now();
        let returned = measured_rust(&mut system, &self.fresh, &self.script, out);
        let took = start.elapsed();
        assert_eq!(returned, 0, "the Rust refused the script");
        memories.swap(&mut system);
        took
    }

    fn port_run(&mut self) -> Duration {
        let (memories, out) = &mut self.port;
        let start = Instant::now();
        let returned = measured_port(memories, &self.script, out);
        let took = start.elapsed();
        assert_eq!(returned, 0, "the port refused the script");
        took
    }

    fn alike(&self) -> bool {
        self.rust.1 == self.port.1 && self.rust.0 .0 == self.port.0 .0
    }

    /// Both sides run once, and what came out is compared.
    fn agreed(family: &Family) -> Result<Bench, String> {
        let mut bench = Bench::new(family);
        bench.rust_run();
        bench.port_run();
        match bench.alike() {
            true => Ok(bench),
            false => Err(format!("{}: Rust and port differ", family.name)),
        }
    }
}

fn wished<'a>(part: &'a str) -> impl Iterator<Item = &'static Family> + 'a {
    FAMILIES.iter().filter(move |family| family.name.contains(part))
}

// Their names are what a counter of instructions is told.
#[no_mangle]
#[inline(never)]
fn measured_rust(system: &mut System, fresh: &System, script: &[u8], out: &mut [u8]) -> u32 {
    rust_side::run(system, fresh, black_box(script), out)
}

#[no_mangle]
#[inline(never)]
fn measured_port(memories: &mut Memories, script: &[u8], out: &mut [u8]) -> u32 {
    port::run_script(memories, black_box(script), out)
}

fn median(mut times: Vec<Duration>) -> f64 {
    times.sort_unstable();
    times[times.len() / 2].as_nanos() as f64
}

/// Nanoseconds a step: Rust and port.
fn time(bench: &mut Bench) -> (f64, f64) {
    let (mut rust, mut port) = (Vec::new(), Vec::new());
    let start = Instant::now();
    while rust.len() < OFTEN_ENOUGH || start.elapsed() < 2 * LONG_ENOUGH {
        rust.push(bench.rust_run());
        port.push(bench.port_run());
    }
    let steps = bench.steps as f64;
    (median(rust) / steps, median(port) / steps)
}

fn time_all(part: &str) -> Result<(), String> {
    println!("{:<30}{:>10}{:>10}{:>8}", "ns a step (medians)", "Rust", "port", "ratio");
    for family in wished(part) {
        let (rust, port) = time(&mut Bench::agreed(family)?);
        println!("{:<30}{rust:>10.1}{port:>10.1}{:>8.2}", family.name, port / rust);
    }
    Ok(())
}

fn agree_all(part: &str) -> Result<(), String> {
    wished(part).try_for_each(|family| Bench::agreed(family).map(drop))
}

/// One run of one side, for a counter of instructions.
fn count(number: usize, side: &str) -> Option<()> {
    let mut bench = Bench::new(FAMILIES.get(number)?);
    match side {
        "rust" => bench.rust_run(),
        "port" => bench.port_run(),
        _ => return None,
    };
    Some(())
}

fn list_families() {
    for (number, family) in FAMILIES.iter().enumerate() {
        println!("{number} {} {}", family.script().steps.len(), family.name);
    }
}

fn counted(number: &str, side: &str, count: fn(usize, &str) -> Option<()>) -> Result<(), String> {
    number.parse().ok().and_then(|number| count(number, side)).ok_or("no such run".to_string())
}

const USAGE: &str = "usage: time|agree|live [PART OF A NAME] | families | count NUMBER rust|port
       live_families | live_count NUMBER rust|port
       session | session_families | session_count NUMBER out|save|in|resume";

/// Of live calls, where they are built in: `bench/run -l` does that, and then
/// the crate of `host/rust` is needed.
#[cfg(live)]
fn live_calls(words: &[&str]) -> Result<(), String> {
    match *words {
        ["live"] => live::time_all(""),
        ["live", part] => live::time_all(part),
        ["live_families"] => {
            live::list();
            Ok(())
        }
        ["live_count", number, side] => counted(number, side, live::count),
        _ => sessions(words),
    }
}

#[cfg(not(live))]
fn live_calls(words: &[&str]) -> Result<(), String> {
    sessions(words)
}

/// Of sessions, where they are built in: `bench/run -s` does that.
#[cfg(session)]
fn sessions(words: &[&str]) -> Result<(), String> {
    match *words {
        ["session"] => session::time_all(),
        ["session_families"] => {
            session::list();
            Ok(())
        }
        ["session_count", number, side] => counted(number, side, session::count),
        _ => Err(USAGE.to_string()),
    }
}

#[cfg(not(session))]
fn sessions(_: &[&str]) -> Result<(), String> {
    Err(USAGE.to_string())
}

fn main() -> ExitCode {
    let arguments: Vec<String> = env::args().skip(1).collect();
    let words: Vec<&str> = arguments.iter().map(String::as_str).collect();
    let said = match *words {
        ["time"] => time_all(""),
        ["time", part] => time_all(part),
        ["agree"] => agree_all(""),
        ["agree", part] => agree_all(part),
        ["families"] => {
            list_families();
            Ok(())
        }
        ["count", number, side] => counted(number, side, count),
        ref words => live_calls(words),
    };
    match said {
        Ok(()) => ExitCode::SUCCESS,
        Err(said) => {
            eprintln!("bench: {said}");
            ExitCode::FAILURE
        }
    }
}
