//! The short way answers and stores what the unit does.

use tg18::{Memories, Unit};

use crate::made::{same_bytes, Random};

/// Addresses around the ends of RAM, SRAM and others, and some at random.
fn addresses(random: &mut Random) -> Vec<u32> {
    let ends =
        [0, 0x2000_0000, 0x2080_0000, 0x2100_0000, 0xC000_0000, 0xC000_1000, 0xF800_0000, 0xF810_0000, 0xFF00_0000];
    let mut all: Vec<u32> =
        ends.iter().flat_map(|end: &u32| (0..16).map(|n| end.wrapping_add(n).wrapping_sub(8))).collect();
    for _ in 0..2000 {
        let (base, length) =
            [(0x2000_0000, 0x100_0000), (0xF800_0000, 0x10_0000), (0, u32::MAX)][random.below(3) as usize];
        all.push(base + random.below(length));
    }
    all
}

fn is_plain(address: u32) -> bool {
    (0x2000_0000..0x2100_0000).contains(&address) || (0xF800_0000..0xF810_0000).contains(&address)
}

fn filled(random: &mut Random) -> Memories<'static> {
    let mut memories = Memories::new();
    random.fill(memories.ram_mut());
    random.fill(memories.sram_mut());
    memories
}

/// All three sizes, as the unit's answers are.
fn read_plain(memories: &Memories, address: u32) -> [Option<u32>; 3] {
    let (byte, half) = (memories.read_plain8(address), memories.read_plain16(address));
    [byte.map(u32::from), half.map(u32::from), memories.read_plain32(address)]
}

#[test]
fn reads() {
    let mut random = Random::new(2);
    let (mut unit, memories) = (Unit::fresh(), filled(&mut random));
    for address in addresses(&mut random) {
        for (size, read) in [1, 2, 4].into_iter().zip(read_plain(&memories, address)) {
            assert_eq!(read.is_some(), is_plain(address), "{address:#x}");
            if let Some(read) = read {
                assert_eq!(unit.read(&memories, address, size), Ok(read), "{address:#x}, {size}");
            }
        }
    }
    assert_eq!(unit.bytes(), Unit::fresh().bytes());
}

fn write_plain(memories: &mut Memories, address: u32, size: u32, value: u32) -> bool {
    match size {
        1 => memories.write_plain8(address, value as u8),
        2 => memories.write_plain16(address, value as u16),
        _ => memories.write_plain32(address, value),
    }
}

#[test]
fn writes() {
    let mut random = Random::new(3);
    let (mut unit, mut ours) = (Unit::fresh(), filled(&mut random));
    let mut units = ours.clone();
    for address in addresses(&mut random) {
        let (size, value) = (1 << random.below(3), random.next() as u32);
        let done = write_plain(&mut ours, address, size, value);
        assert_eq!(done, is_plain(address), "{address:#x}");
        if done {
            assert_eq!(unit.write(&mut units, address, size, value), Ok(()), "{address:#x}, {size}");
        }
    }
    assert!(same_bytes(&ours, &units));
    assert_eq!(unit.bytes(), Unit::fresh().bytes());
}

/// There the unit refuses, so there is nothing to answer for it.
#[test]
fn memories_of_wrong_lengths_have_no_short_way() {
    let (mut ram, mut sram) = (vec![0; tg18::RAM_BYTES], vec![0; tg18::SRAM_BYTES]);
    let mut memories = Memories::lent(&mut ram, &mut sram, &mut [], &mut []);
    assert_eq!(read_plain(&memories, 0x2000_0000), [None; 3]);
    for size in [1, 2, 4] {
        assert!(!write_plain(&mut memories, 0xF800_0000, size, 1));
    }
    assert_eq!(memories.sram()[0], 0);
}

/// The array of the flash is RAM's first half: what is stored directly is what it answers.
#[test]
fn a_direct_store_is_the_flashs() {
    let (mut unit, mut memories) = (Unit::fresh(), Memories::new());
    memories.ram_mut()[0x1234] = 0x42;
    unit.write(&mut memories, 0xC015_0000, 4, 0x40).unwrap();
    for byte in [0x03, 0x00, 0x12, 0x34, 0x00] {
        unit.write(&mut memories, 0xC015_0008, 4, byte).unwrap();
    }
    assert_eq!(unit.read(&memories, 0xC015_000C, 4), Ok(0x42));
}
