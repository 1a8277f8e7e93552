//! How a program that compares ends.

use std::env;
use std::process::ExitCode;

/// Runs it with the program's words: a difference is said and is status 1, words that mean nothing are status 2.
pub fn ended(run: impl FnOnce(&[&str]) -> Option<Result<(), String>>, usage: &str) -> ExitCode {
    let arguments: Vec<String> = env::args().skip(1).collect();
    let words: Vec<&str> = arguments.iter().map(String::as_str).collect();
    match run(&words) {
        Some(Ok(())) => ExitCode::SUCCESS,
        Some(Err(said)) => {
            println!("DIFFERENCE: {said}");
            ExitCode::FAILURE
        }
        None => {
            println!("usage: {usage}");
            ExitCode::from(2)
        }
    }
}
