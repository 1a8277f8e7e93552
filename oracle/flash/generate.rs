//! Writes step lists to standard output, and counts of what stands in them
//! to standard error. The same arguments always give the same list.

#[path = "../common/mod.rs"]
mod common;
mod fixed;
mod list;
mod malformed;
mod transactions;

use std::env;
use std::io::{self, Write};
use std::process::ExitCode;

use common::device::*;
use common::small::*;
use list::List;

const USAGE: &str = "\
usage: oracle_flash_generate SEED TRANSACTIONS   a random list
       oracle_flash_generate fixed               the fixed list
       oracle_flash_generate bad SEED            a list with one line that is no step";

fn write_list(list: List, final_newline: bool) -> io::Result<()> {
    list.report(&mut io::stderr())?;
    let mut text = list.into_text();
    if !final_newline {
        text.pop();
    }
    io::stdout().write_all(&text)
}

fn write_malformed(seed: u64) -> io::Result<()> {
    let (text, number) = malformed::malformed(seed);
    writeln!(io::stderr(), "bad line {number}")?;
    io::stdout().write_all(&text)
}

fn main() -> ExitCode {
    let arguments: Vec<String> = env::args().skip(1).collect();
    let words: Vec<&str> = arguments.iter().map(String::as_str).collect();
    let written = match words[..] {
        ["fixed"] => Some(write_list(fixed::fixed_list(), true)),
        ["bad", seed] => seed.parse().ok().map(write_malformed),
        [seed, transactions] => match (seed.parse(), transactions.parse()) {
            // Every other list goes without its final newline.
            (Ok(seed), Ok(count)) => {
                Some(write_list(transactions::random_list(seed, count), seed % 2 == 0))
            }
            _ => None,
        },
        _ => None,
    };
    match written {
        Some(Ok(())) => ExitCode::SUCCESS,
        Some(Err(error)) => {
            eprintln!("oracle_flash_generate: {error}");
            ExitCode::FAILURE
        }
        None => {
            eprintln!("{USAGE}");
            ExitCode::FAILURE
        }
    }
}
