//! Sessions that are damaged: each is refused and changes nothing, or it is
//! taken and saving it again gives the same bytes. Which of both, 02 says.

use std::collections::BTreeMap;

use crate::common::edges::{TIME_EDGES, TURBO_EDGES};
use crate::common::numbers::{self, *};
use crate::common::random::Random;
use crate::judge::good;
use crate::memories::LENGTHS;
use crate::port::{lent, Unit};
use crate::stage::{complement, is_complement, Port};

#[derive(Default)]
pub struct Damages {
    /// Refused and taken, by what was done.
    pub counts: BTreeMap<&'static str, [u64; 2]>,
}

/// A session in two pieces: all before the memories, and where its sections
/// begin; and the four memories' sections.
struct Pieces {
    head: Vec<u8>,
    sections: Vec<usize>,
    tail: Vec<u8>,
}

const BAD_SAVE: u32 = numbers::BAD_SAVE as u32;

/// Where numbers of eight bytes are times and such, as places in a section.
#[rustfmt::skip]
const DOUBLES: [(usize, usize); 18] = [
    (0, 4), (0, 12), (0, 20), (0, 28), (0, 36), (0, 44), (4, 4), (4, 12), (4, 20), (4, 28),
    (4, 36), (5, 4), (5, 12), (7, 8), (7, 16), (7, 24), (8, 5), (9, 4),
];

/// Other fields: section, place in it, bytes.
#[rustfmt::skip]
const FIELDS: [(usize, usize, usize); 41] = [
    (0, 52, 1), (0, 57, 1), (2, 4, 1), (2, 5, 1), (3, 4, 4), (3, 8, 1), (3, 9, 1), (3, 10, 1),
    (3, 11, 1), (3, 12, 1), (3, 12, 1), (3, 13, 4), (3, 17, 4), (3, 21, 4), (3, 25, 4), (3, 29, 4),
    (3, 33, 4), (3, 37, 4), (3, 41, 8), (4, 44, 8), (4, 52, 4), (4, 56, 8), (4, 64, 8), (4, 72, 4),
    (6, 4, 1), (6, 5, 1), (6, 6, 8), (6, 14, 1), (6, 15, 1), (6, 16, 1), (6, 17, 1), (6, 18, 1),
    (6, 19, 4), (6, 19, 4), (6, 23, 1), (7, 4, 1), (7, 6, 1), (7, 7, 1), (8, 4, 1), (1, 308, 4),
    (1, 312, 4),
];

/// Numbers about the ends of their ranges.
#[rustfmt::skip]
const EDGES: [u64; 24] = [
    0, 1, 2, 3, 4, 5, 0x1F, 0x20, 0xE0, 255, 256, 257, 259, 260, 261, 65_535, 65_536, 86_399,
    86_400, 0x80_0004, 0x80_0005, (1 << 48) - 1, 1 << 48, u64::MAX,
];

/// Sections of rows: where the first row begins in it, and a row's bytes.
const TABLES: [(usize, usize, usize); 3] = [(1, 308, OTHER_BYTES), (8, 4, 9), (9, 4, 24)];
const OTHER_BYTES: usize = 8;

const WHAT: [(&str, fn(&mut Pieces, &mut Random)); 16] = [
    ("a field", field),
    ("a field", field),
    ("a row's field", row_field),
    ("a row's field", row_field),
    ("a bit", bit),
    ("a bit of the fixed part", fixed_bit),
    ("a byte", byte),
    ("a double", double),
    ("a section's count", count),
    ("two sections exchanged", exchange),
    ("two memories exchanged", exchange_memories),
    ("its end cut off", cut),
    ("bytes added at its end", add),
    ("bytes missing or added in it", inside),
    ("a row and its count gone or doubled", row),
    ("a memory's bytes", memory),
];

/// Those for which the memories are needed.
const WHOLE: [&str; 5] = [
    "a section's count",
    "two memories exchanged",
    "its end cut off",
    "bytes added at its end",
    "a memory's bytes",
];

/// Damages tried of one session.
const TRIALS: usize = 40;

fn flip(bytes: &mut [u8], random: &mut Random) {
    let at = random.below(bytes.len());
    bytes[at] ^= 1 << random.below(8);
}

fn bit(pieces: &mut Pieces, random: &mut Random) {
    flip(&mut pieces.head, random);
}

/// Tables can be long: here each other section has its turn.
fn fixed_bit(pieces: &mut Pieces, random: &mut Random) {
    let section = random.pick(&[0, 2, 3, 4, 5, 6, 7]);
    let (from, to) = (pieces.sections[section], pieces.sections[section + 1]);
    // Most of the clocks' section are registers of the RTC, and of the flash's the page.
    let to = if random.one_in(2) { to.min(from + 76) } else { to };
    flip(&mut pieces.head[from..to], random);
}

fn byte(pieces: &mut Pieces, random: &mut Random) {
    let at = random.below(pieces.head.len());
    pieces.head[at] = random.pick(&[0, 1, 2, 0x7F, 0x80, 0xFF]);
}

fn put_field(bytes: &mut [u8], random: &mut Random) {
    let mut eight = [0; 8];
    eight[..bytes.len()].copy_from_slice(bytes);
    let old = u64::from_le_bytes(eight);
    let edge = random.pick(&EDGES);
    let four = random.pick(&[4, 8]);
    let beside = [old.wrapping_add(1), old.wrapping_sub(1), old.wrapping_add(four)];
    let beside = random.pick(&beside);
    let new = random.pick(&[edge, edge, beside]).to_le_bytes();
    bytes.copy_from_slice(&new[..bytes.len()]);
}

fn field(pieces: &mut Pieces, random: &mut Random) {
    let (section, place, bytes) = random.pick(&FIELDS);
    let at = pieces.sections[section] + place;
    if at + bytes <= pieces.sections[section + 1] {
        put_field(&mut pieces.head[at..at + bytes], random);
    }
}

/// Of any row of a table that has some: an address or a value, a key, a part
/// of a number.
fn row_field(pieces: &mut Pieces, random: &mut Random) {
    let rows = |&(section, first, bytes): &(usize, usize, usize)| {
        (pieces.sections[section + 1] - pieces.sections[section] - first) / bytes
    };
    let tables: Vec<_> = TABLES.into_iter().filter(|table| rows(table) > 0).collect();
    if tables.is_empty() {
        return;
    }
    let table = random.pick(&tables);
    let (section, first, bytes) = table;
    let row = pieces.sections[section] + first + bytes * random.below(rows(&table));
    if bytes == OTHER_BYTES {
        return other_word(&mut pieces.head[row..row + bytes], random);
    }
    let (place, bytes) = match bytes {
        9 => random.pick(&[(0, 1), (1, 8), (7, 2)]),
        _ => random.pick(&[(0, 8), (6, 2), (14, 2), (22, 2)]),
    };
    put_field(&mut pieces.head[row + place..row + place + bytes], random);
}

/// A value that is zero or not, an address beside it or of something else.
fn other_word(row: &mut [u8], random: &mut Random) {
    let word = u32::from_le_bytes(row[..4].try_into().unwrap());
    let beside = [word ^ 1, word ^ 2, word + 4, word - 4, word ^ 0x1000_0000];
    let words = [KEY_LINES, FLASH_BASE, SRAM_BASE, RTC_HOURS, INTC_MASK, REGISTERS_F_END, 0];
    let number = match random.below(3) {
        0 => return row[4..].copy_from_slice(&random.pick(&[0u32, 0, 1]).to_le_bytes()),
        1 => random.pick(&beside),
        _ => random.pick(&words),
    };
    row[..4].copy_from_slice(&number.to_le_bytes());
}

fn double(pieces: &mut Pieces, random: &mut Random) {
    let (section, place) = random.pick(&DOUBLES);
    let at = pieces.sections[section] + place;
    if at + 8 > pieces.sections[section + 1] {
        return;
    }
    let old = u64::from_le_bytes(pieces.head[at..at + 8].try_into().unwrap());
    let (time, turbo) = (random.pick(&TIME_EDGES), random.pick(&TURBO_EDGES).to_bits());
    let new = random.pick(&[time, turbo, old.wrapping_add(1), old.wrapping_sub(1), 0]);
    pieces.head[at..at + 8].copy_from_slice(&new.to_le_bytes());
}

fn put_count(bytes: &mut [u8], at: usize, count: u32) {
    bytes[at..at + 4].copy_from_slice(&count.to_le_bytes());
}

fn count(pieces: &mut Pieces, random: &mut Random) {
    let at = random.below(14);
    let (bytes, at) = match at.checked_sub(10) {
        None => (&mut pieces.head, pieces.sections[at]),
        Some(memory) => {
            (&mut pieces.tail, (0..memory).map(|before| 4 + LENGTHS[before]).sum::<usize>())
        }
    };
    let old = u32::from_le_bytes(bytes[at..at + 4].try_into().unwrap());
    let new = random.pick(&[
        0,
        1,
        old.wrapping_add(1),
        old.wrapping_sub(1),
        256,
        257,
        65,
        u32::MAX,
        old | 1 << 31,
        0x1000_0000,
    ]);
    put_count(bytes, at, new);
}

fn exchange(pieces: &mut Pieces, random: &mut Random) {
    let (one, other) = (random.below(10), random.below(10));
    let (one, other) = (one.min(other), one.max(other));
    let mut order: Vec<usize> = (0..10).collect();
    order.swap(one, other);
    let part =
        |&section: &usize| &pieces.head[pieces.sections[section]..pieces.sections[section + 1]];
    pieces.head = order.iter().flat_map(part).copied().collect();
}

fn exchange_memories(pieces: &mut Pieces, random: &mut Random) {
    let last = LENGTHS.map(|length| 4 + length);
    let end = pieces.tail.len();
    if random.one_in(2) {
        pieces.tail[end - last[3] - last[2]..].rotate_left(last[2]);
    } else {
        let from = end - last[3] - last[2] - last[1];
        pieces.tail[from..end - last[3]].rotate_left(last[1]);
    }
}

fn cut(pieces: &mut Pieces, random: &mut Random) {
    let any = random.below(pieces.tail.len());
    let last = pieces.tail.len() - 1;
    let left = random.pick(&[last, last, any, 0, 4]);
    pieces.tail.truncate(left);
    if left == 0 {
        pieces.head.truncate(random.below(pieces.head.len() + 1));
    }
}

fn add(pieces: &mut Pieces, random: &mut Random) {
    for _ in 0..random.pick(&[1, 1, 4, 8, 9, 24]) {
        pieces.tail.push(random.byte());
    }
}

fn inside(pieces: &mut Pieces, random: &mut Random) {
    let at = random.below(pieces.head.len());
    if random.one_in(2) {
        pieces.head.remove(at);
    } else {
        pieces.head.insert(at, random.byte());
    }
}

/// So that all lengths are right again.
fn row(pieces: &mut Pieces, random: &mut Random) {
    let (section, first, bytes) = random.pick(&TABLES);
    let begin = pieces.sections[section];
    let rows = (pieces.sections[section + 1] - begin - first) / bytes;
    let there = begin + first + bytes * random.below(rows.max(1));
    let gone = rows > 0 && random.one_in(2);
    let some: Vec<u8> = (0..bytes).map(|_| random.byte()).collect();
    if gone {
        pieces.head.drain(there..there + bytes);
    } else {
        let copied = if rows > 0 { pieces.head[there..there + bytes].to_vec() } else { some };
        let at = if random.one_in(2) { there } else { begin + first + bytes * rows };
        pieces.head.splice(at..at, copied);
    }
    put_count(&mut pieces.head, begin, if gone { rows - 1 } else { rows + 1 } as u32);
}

fn memory(pieces: &mut Pieces, random: &mut Random) {
    let at = random.below(pieces.tail.len());
    pieces.tail[at] ^= 1 << random.below(8);
}

/// Where the ten sections before the memories begin and the last ends.
fn sections(head: &[u8]) -> Vec<usize> {
    let number = |at: usize| u32::from_le_bytes(head[at..at + 4].try_into().unwrap()) as usize;
    let flags = 366 + 8 * number(58);
    let presses = flags + 719;
    let events = presses + 4 + 9 * number(presses);
    let fixed = [6, 55, 387, 407, 687].map(|more| flags + more);
    let [panel, clocks, sound, flash, keys] = fixed;
    vec![0, 58, flags, panel, clocks, sound, flash, keys, presses, events, head.len()]
}

impl Damages {
    /// Tries damages of the session that the port saved last, on its spare
    /// unit over memories of which no byte is as in the unit's.
    pub fn try_all(&mut self, port: &mut Port, random: &mut Random) -> Result<(), String> {
        let saved = port.session().to_vec();
        let behind: usize = LENGTHS.iter().map(|length| 4 + length).sum();
        let (head, tail) = saved.split_at(saved.len() - behind);
        let sections = sections(head);
        port.spare = Unit::any(random);
        complement(&mut port.spare_memories, &port.memories);
        let mut damaged = saved.clone();
        // Only what was changed is laid anew.
        let mut as_before = true;
        for _ in 0..TRIALS {
            let (name, what) = random.pick(&WHAT);
            let whole = WHOLE.contains(&name);
            let mut pieces = Pieces {
                head: head.to_vec(),
                sections: sections.clone(),
                tail: if whole { tail.to_vec() } else { Vec::new() },
            };
            what(&mut pieces, random);
            if pieces.head == head && (!whole || pieces.tail == tail) {
                continue;
            }
            if !whole && as_before && pieces.head.len() == head.len() {
                damaged[..head.len()].copy_from_slice(&pieces.head);
            } else {
                damaged.clear();
                damaged.extend(&pieces.head);
                damaged.extend(if whole { &pieces.tail } else { tail });
                as_before = !whole && pieces.head.len() == head.len();
            }
            let taken = self.judge(port, &damaged).map_err(|said| format!("{name}: {said}"))?;
            if taken != good(&damaged) {
                return Err(format!(
                    "{name}: {} and should not be",
                    if taken { "taken" } else { "refused" }
                ));
            }
            self.counts.entry(name).or_default()[usize::from(taken)] += 1;
        }
        if !is_complement(&port.spare_memories, &port.memories) {
            return Err("a refused session changed a memory".to_string());
        }
        Ok(())
    }

    /// Whether it is taken. The memories are looked at after the last.
    fn judge(&mut self, port: &mut Port, damaged: &[u8]) -> Result<bool, String> {
        let before = *port.spare.bytes();
        match port.spare.resume(lent(&mut port.spare_memories), damaged) {
            BAD_SAVE if *port.spare.bytes() == before => Ok(false),
            BAD_SAVE => Err("a refused session changed the unit".to_string()),
            0 => {
                let room = port.again.len();
                let (answer, written) =
                    port.spare.save(lent(&mut port.spare_memories), &mut port.again[..room]);
                let length = damaged.len();
                if (answer, written) != (0, length as u64) || port.again[..length] != *damaged {
                    return Err(format!("taken, and saved as others: {answer}, {written} bytes"));
                }
                complement(&mut port.spare_memories, &port.memories);
                Ok(true)
            }
            other => Err(format!("answered {other}")),
        }
    }

    pub fn report(&self) {
        let mut sum = [0, 0];
        for (name, [refused, taken]) in &self.counts {
            println!("damaged, {name}: refused {refused}, taken {taken}");
            sum = [sum[0] + refused, sum[1] + taken];
        }
        println!(
            "damaged sessions {}: refused {}, taken and saved alike {}",
            sum[0] + sum[1],
            sum[0],
            sum[1]
        );
    }
}
