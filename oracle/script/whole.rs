//! Cases of the fixed list of scripts that only scripts have.

use crate::bytes::*;
use crate::common::edges::{TIME_EDGES, TURBO_EDGES};
use crate::common::numbers::*;
use crate::common::random::Random;
use crate::desk::{BYTES, LAY, LONGEST, OUT};
use crate::faults::of_counts;
use crate::fixed::Sheet;

fn step(kind: u8, size: u8, address: u32, value: u64) -> ScriptStep {
    ScriptStep { kind, size, unused: [0; 2], address, value }
}

/// A little of everything, with a wipe in the middle.
fn short() -> Script {
    let presses = vec![(0, 0.25f64.to_bits()), (3, 0), (2, 0.5f64.to_bits())];
    let half = 0.5f64.to_bits();
    let before = [
        step(WRITE, 4, FLASH_BASE + 0x10, 0x1_2345_6789),
        step(WRITE, 4, POWER_REG, 0),
        step(ADVANCE, 0, 0, half),
        step(READ, 4, KEY_LINES, 0),
        step(COUNTERS, 0, 0, 0),
    ];
    let after = [
        step(READ, 4, FLASH_BASE + 0x10, 0),
        step(READ, 4, KEY_LINES, 0),
        step(COUNTERS, 0, 0, 0),
        step(ADVANCE, 0, 0, half),
        step(READ, 4, KEY_LINES, 0),
        step(NEXT, 0, 0, 0),
        step(SOUND, 0, 0, 0),
    ];
    let wipe = [step(WIPE, 0, 0, 0)];
    Script { presses, steps: [&before[..], &wipe, &after].concat() }
}

/// Enough to see that nothing of it was done.
fn tiny() -> Script {
    let steps = vec![step(WRITE, 4, FLASH_BASE + 0x10, 0x1234_5678), step(WIPE, 0, 0, 0)];
    Script { presses: vec![(1, 0)], steps }
}

/// As many presses as fit and two more, one after the other.
fn presses() -> Script {
    let times = (0..66u32).map(|at| f64::from(at) * 0.01);
    let presses = times.enumerate().map(|(at, time)| (at as u8 % 3, time.to_bits())).collect();
    let steps = [0.3, 0.45, 0.639, 0.7, 0.9].into_iter().flat_map(|time: f64| {
        [step(ADVANCE, 0, 0, time.to_bits()), step(READ, 1, KEY_LINES, 0), step(NEXT, 0, 0, 0)]
    });
    Script { presses, steps: steps.collect() }
}

/// Numbers at the limits, as time, turbo, hold and press; keys and sizes too.
fn limits() -> Script {
    // A bad key comes before a bad time.
    let both = f64::NAN.to_bits();
    let presses = TIME_EDGES.iter().step_by(2).map(|&time| (2, time)).chain([(3, both)]).collect();
    let turbos = TURBO_EDGES.iter().map(|turbo| step(TURBO, 0, 0, turbo.to_bits()));
    let holds = TIME_EDGES.iter().skip(1).step_by(2).map(|&time| step(HOLD, 0, 1, time));
    let keys = [3, 256, u32::MAX]
        .into_iter()
        .flat_map(|key| [step(KEY, 0, key, 1), step(HOLD, 0, key, both)]);
    let sizes = [0, 3, 5, 16, 20, 255].map(|size| step(READ + size % 2, size, 0, 1));
    let fastest = [step(TURBO, 0, 0, FASTEST.to_bits())];
    let last = [LAST_TIME.next_up(), LAST_TIME, LAST_TIME.next_down()];
    let times = last.map(|time| step(ADVANCE, 0, 0, time.to_bits()));
    let edges = TIME_EDGES.iter().map(|&time| step(ADVANCE, 0, 0, time));
    let game = [RTC_SECONDS, RTC_MINUTES, RTC_HOURS].map(|word| step(READ, 4, word, 0));
    let steps = turbos.chain(holds).chain(keys).chain(sizes).chain(fastest).chain(times);
    Script { presses, steps: steps.chain(game).chain(edges).collect() }
}

impl Sheet {
    pub fn whole_scripts(&mut self) {
        self.good(&limits(), 0);
        self.good(&short(), 8);
        self.good(&presses(), 0);
        self.good(&Script { presses: Vec::new(), steps: Vec::new() }, 3);
        self.good(&Script { steps: Vec::new(), ..short() }, 0);
        self.good(&Script { presses: Vec::new(), ..short() }, 2);
        self.bad_lengths();
        self.bad_counts();
        self.bad_kinds();
        self.short_outs();
        self.damaged();
        self.desk_limits();
    }

    /// Bytes missing and too many.
    fn bad_lengths(&mut self) {
        let good = tiny().bytes();
        for length in [0, 3, 4, 7, 8, 13, 17, 33, good.len() - 1] {
            self.bad(&good[..length], OUT, BAD_SCRIPT);
        }
        self.bad(&[&good[..], &[0]].concat(), OUT, BAD_SCRIPT);
    }

    /// Counts too large, and such that the length they make goes round.
    fn bad_counts(&mut self) {
        for (presses, steps) in [
            (0, 0x1000_0000),
            (0, 0x1000_0001),
            (0x1C71_C71D, 0),
            (4097, 0),
            (4096, 4097),
            (0, 4097),
            (0, 4096),
            (u32::MAX, u32::MAX),
        ] {
            let mut script = of_counts(presses, steps);
            script.truncate(LONGEST as usize);
            // As long as they say only where that goes round, or cut off.
            self.lay_sparsely(&script);
            let ran = self.run(OUT, 1);
            assert_eq!(ran.words[..2], [BAD_SCRIPT.into(), 0xA5A5_A5A5]);
        }
    }

    /// Only the words that hold the counts, for long scripts.
    fn lay_sparsely(&mut self, script: &[u8]) {
        self.list.step(LAY, 0, script.len() as u64);
        let presses = u32::from_le_bytes(script[..4].try_into().unwrap());
        let at = 4 + presses.wrapping_mul(PRESS_BYTES as u32);
        let steps = script.get(at as usize..at as usize + 4);
        let steps = steps.map_or(0, |bytes| u32::from_le_bytes(bytes.try_into().unwrap()));
        self.list.step(BYTES, 0, presses.into());
        if steps != 0 {
            self.list.step(BYTES, at.into(), steps.into());
        }
    }

    fn bad_kinds(&mut self) {
        let good = tiny();
        for kind in [0, 13, 255] {
            for at in [0, good.steps.len() - 1] {
                let mut bad = tiny();
                bad.steps[at].kind = kind;
                self.bad(&bad.bytes(), OUT, BAD_SCRIPT);
            }
        }
        // This comes before a slice that is too short.
        let mut bad = tiny();
        bad.steps[1].kind = 0;
        self.bad(&bad.bytes(), 0, BAD_SCRIPT);
    }

    fn short_outs(&mut self) {
        let good = tiny();
        let exact = out_length(good.answers());
        for out in [0, 3, 4, exact - ANSWER_BYTES, exact - 1] {
            self.bad(&good.bytes(), out, OUT_TOO_SHORT);
        }
        let none = Script { presses: Vec::new(), steps: Vec::new() };
        for out in [0, 3] {
            self.bad(&none.bytes(), out, OUT_TOO_SHORT);
        }
        for out in [exact, exact + 1, OUT, OUT + 1] {
            self.lay(&good.bytes(), 6);
            self.run(out, good.answers());
        }
    }

    /// Copies of a script with bytes of its presses and steps altered: in keys,
    /// times, sizes, what is unused, and values.
    fn damaged(&mut self) {
        let mut random = Random::new(3);
        for _ in 0..3 {
            let mut bytes = short().bytes();
            let steps = bytes.len() - STEP_BYTES * short().steps.len();
            for _ in 0..6 {
                let press = 4 + random.below(steps - 8);
                let at = steps + STEP_BYTES * random.below(12) + random.pick(&[1, 2, 3, 8, 13, 15]);
                bytes[press] = random.byte();
                bytes[at] = random.byte();
            }
            let script = Script::read(&bytes).expect("counts and kinds are as before");
            self.good(&script, 4);
        }
    }
}
