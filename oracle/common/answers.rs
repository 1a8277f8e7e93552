//! Answers a list of steps: standard input holds one a line, and every step
//! prints one line.

use std::io::{self, BufRead, BufWriter, Error, ErrorKind, Write};

use super::step::{Device, Step};

/// `from_str_radix` alone would take capitals and a sign, too.
fn hex(field: &str) -> Option<u64> {
    let plain = field.bytes().all(|b| matches!(b, b'0'..=b'9' | b'a'..=b'f'));
    u64::from_str_radix(field, 16).ok().filter(|_| plain)
}

fn parse(line: &str) -> Option<Step> {
    let fields: Option<Vec<u64>> = line.split(' ').map(hex).collect();
    match fields?[..] {
        [kind, address, value] => Some(Step { kind, address, value }),
        _ => None,
    }
}

pub fn answer_list<D: Device>() -> io::Result<()> {
    let mut out = BufWriter::new(io::stdout().lock());
    let mut device = D::start();
    for (at, line) in io::stdin().lock().lines().enumerate() {
        // No list holds such a line, and no answer to it is laid down.
        let bad = || Error::new(ErrorKind::InvalidData, format!("line {} is no step", at + 1));
        let step = parse(&line?).ok_or_else(bad)?;
        if D::ends(step) {
            break;
        }
        writeln!(out, "{}", device.answer(step))?;
    }
    out.flush()
}
