//! Counts of what the scripts held and how they were answered.

use std::collections::BTreeMap;
use std::fmt::Display;

use crate::bytes::{read_answer, Script};
use crate::cases::Case;
use crate::stage::Outcome;

#[derive(Default)]
pub struct Counts {
    pub scripts: u64,
    presses: u64,
    steps: u64,
    kinds: BTreeMap<u8, u64>,
    returned: BTreeMap<u32, u64>,
    refusals: BTreeMap<u8, u64>,
    families: BTreeMap<&'static str, u64>,
}

fn print<K: Display>(name: &str, counts: &BTreeMap<K, u64>) {
    let each: Vec<String> = counts.iter().map(|(key, count)| format!("{key}: {count}")).collect();
    println!("{name}: {}", each.join(", "));
}

impl Counts {
    pub fn add(&mut self, case: &Case, outcome: &Outcome) {
        self.scripts += 1;
        *self.families.entry(case.family).or_default() += 1;
        *self.returned.entry(outcome.returned).or_default() += 1;
        // What a refused script held was not run.
        let script = Script::read(&case.script).filter(|_| outcome.returned == 0);
        let Some(script) = script else { return };
        self.presses += script.presses.len() as u64;
        self.steps += script.steps.len() as u64;
        for step in &script.steps {
            *self.kinds.entry(step.kind).or_default() += 1;
        }
        let answers = (0..script.answers()).filter_map(|at| read_answer(&outcome.out, at));
        for answer in answers {
            *self.refusals.entry(answer.refusal).or_default() += 1;
        }
    }

    pub fn report(&self) {
        print("families", &self.families);
        print("returned", &self.returned);
        print("kinds of steps run", &self.kinds);
        print("refusals of presses and steps run", &self.refusals);
        println!(
            "scripts {}, presses run {}, steps run {}",
            self.scripts, self.presses, self.steps
        );
    }
}
