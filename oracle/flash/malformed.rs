//! Lists with one line that is no step.

use crate::common::numbers::SMALL_BYTES;
use crate::transactions::Author;

const MILLION: usize = 1_000_000;

#[rustfmt::skip]
const LINES: [&[u8]; 44] = [
    b"", b"A0", b"0F", b"aF", b"FF", b"0", b"f", b"000", b"0606", b" ", b"  ", b" 06", b"06 ",
    b"0 ", b" 0", b"06\r", b"+\r", b"-\r", b"\r", b"\t", b"\t06", b"06\t", b"0\t", b"++", b"--",
    b"+-", b"+06", b"+ ", b" +", b"g0", b"0g", b"0/", b":0", b"`0", b"0@", b",", b"*", b"\0",
    b"0\0", b"06\0", b"+\0", b"\xC3\xA9", b"\xFF\xFE", b"\xEF\xBB\xBF+",
];

/// A good beginning, then the bad line that `seed` chooses, then sometimes
/// good lines again; and the bad line's number.
pub fn malformed(seed: u64) -> (Vec<u8>, usize) {
    let mut author = Author::new(seed);
    for _ in 0..author.random.pick(&[0, 0, 1, 8, 40]) {
        author.transaction();
    }
    if author.random.one_in(16) {
        author.list.read_back(0, SMALL_BYTES);
    }
    let number = author.list.lines() + 1;
    let mut text = author.list.into_text();
    let line = bad_line(seed);
    text.extend(&line);
    // At the end of a list, an empty line without its newline is no line.
    match author.random.below(3) {
        0 if !line.is_empty() => {}
        1 => text.extend(b"\n+\n9f\n00\n-\n"),
        _ => text.push(b'\n'),
    }
    (text, number)
}

fn bad_line(seed: u64) -> Vec<u8> {
    let kind = (seed % (LINES.len() as u64 + 2)) as usize;
    match LINES.get(kind) {
        Some(line) => line.to_vec(),
        None if kind == LINES.len() => vec![b'0'; MILLION],
        None => vec![b'+'; MILLION],
    }
}
