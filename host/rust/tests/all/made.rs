//! What the tests are made of: numbers at random, memories, scripts.

use tg18::{Memories, Unit, UNIT_BYTES};

/// Always the same numbers from the same seed (xorshift).
pub struct Random(u64);

impl Random {
    pub fn new(seed: u64) -> Random {
        Random(seed.wrapping_mul(0x9E37_79B9_7F4A_7C15) | 1)
    }

    pub fn next(&mut self) -> u64 {
        self.0 ^= self.0 << 13;
        self.0 ^= self.0 >> 7;
        self.0 ^= self.0 << 17;
        self.0
    }

    pub fn below(&mut self, limit: u32) -> u32 {
        (self.next() >> 32) as u32 % limit
    }

    pub fn fill(&mut self, bytes: &mut [u8]) {
        bytes.iter_mut().for_each(|byte| *byte = (self.next() >> 32) as u8);
    }

    pub fn unit(&mut self) -> Unit {
        let mut bytes = vec![0; UNIT_BYTES];
        self.fill(&mut bytes);
        Unit::from_bytes(&bytes).unwrap()
    }
}

pub fn same_bytes(one: &Memories, other: &Memories) -> bool {
    one.ram() == other.ram()
        && one.sram() == other.sram()
        && one.gpio() == other.gpio()
        && one.framebuffer() == other.framebuffer()
}

/// A step of a script: kind, size, address, value.
pub type Step = (u8, u8, u32, u64);

pub fn script(presses: &[(u8, f64)], steps: &[Step]) -> Vec<u8> {
    let mut bytes = (presses.len() as u32).to_le_bytes().to_vec();
    for (key, time) in presses {
        bytes.push(*key);
        bytes.extend(time.to_le_bytes());
    }
    bytes.extend((steps.len() as u32).to_le_bytes());
    for (kind, size, address, value) in steps {
        bytes.extend([*kind, *size, 0, 0]);
        bytes.extend(address.to_le_bytes());
        bytes.extend(value.to_le_bytes());
    }
    bytes
}

const WORDS: [u32; 14] = [
    0x2000_0000,
    0x20FF_FFFE,
    0xF800_90A4,
    0xC000_0020,
    0xC002_0000,
    0xC002_0008,
    0xC002_0080,
    0xC002_0088,
    0xC009_000C,
    0xC015_0000,
    0xC015_0008,
    0xC015_000C,
    0xD050_0140,
    0xC010_0000,
];

/// Steps of all kinds but the wipe, as they come.
pub fn steps(random: &mut Random, count: usize) -> Vec<Step> {
    let mut now = 0.0;
    let mut step = |_| {
        let (kind, size) = (1 + random.below(11) as u8, [1, 2, 4, 4][random.below(4) as usize]);
        let address = WORDS[random.below(14) as usize] + random.below(4);
        let value = random.next();
        now += f64::from(random.below(1000)) / 4096.0;
        match kind {
            3 => (kind, size, address, now.to_bits()),
            6 => (kind, size, address, (1.0 + (value % 8) as f64).to_bits()),
            7 => (kind, size, address % 4, value & 1),
            8 => (kind, size, address % 4, (now + 0.1).to_bits()),
            _ => (kind, size, address, value),
        }
    };
    (0..count).map(&mut step).collect()
}
