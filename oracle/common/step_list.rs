//! A list of steps being written, and counts of what stands in it. The device
//! works every step at once, so that an author sees the state that a list has
//! reached and can aim at its edges.

use std::collections::BTreeMap;
use std::io::{self, Write};

use super::step::*;

pub struct StepList<D> {
    pub device: D,
    steps: Vec<Step>,
    part: &'static str,
    kinds: BTreeMap<u64, u64>,
    parts: BTreeMap<&'static str, u64>,
    refusals: BTreeMap<u8, u64>,
}

impl<D: Device> StepList<D> {
    pub fn new() -> StepList<D> {
        StepList {
            device: D::start(),
            steps: Vec::new(),
            part: "",
            kinds: BTreeMap::new(),
            parts: BTreeMap::new(),
            refusals: BTreeMap::new(),
        }
    }

    pub fn steps(&self) -> usize {
        self.steps.len()
    }

    /// Names what the next steps belong to, for the counts.
    pub fn begin(&mut self, part: &'static str) {
        self.part = part;
    }

    pub fn step(&mut self, kind: u64, address: u64, value: u64) -> Answer {
        let step = Step { kind, address, value };
        if !D::has(step) {
            return DONE;
        }
        let answer = self.device.answer(step);
        self.steps.push(step);
        *self.kinds.entry(kind).or_default() += 1;
        *self.parts.entry(self.part).or_default() += 1;
        *self.refusals.entry(answer.refusal).or_default() += 1;
        answer
    }

    pub fn look(&mut self, at: u64) -> Answer {
        self.step(LOOK, at, 0)
    }

    pub fn put(&mut self, at: u64, value: u64) -> Answer {
        self.step(PUT, at, value)
    }

    /// Only the authors of scripts ask for them.
    #[allow(dead_code)]
    pub fn into_steps(self) -> Vec<Step> {
        self.steps
    }

    pub fn into_text(self) -> Vec<u8> {
        self.steps.iter().flat_map(|step| format!("{step}\n").into_bytes()).collect()
    }

    /// One count a line, the number last.
    pub fn report(&self, out: &mut impl Write) -> io::Result<()> {
        writeln!(out, "steps: {}", self.steps())?;
        for (name, count) in self.device.counts() {
            writeln!(out, "{name}: {count}")?;
        }
        let of_kind = |kind| self.kinds.get(&kind).copied().unwrap_or(0);
        for &kind in D::KINDS {
            writeln!(out, "kind {kind:x}: {}", of_kind(kind))?;
        }
        let known: u64 = D::KINDS.iter().copied().map(of_kind).sum();
        writeln!(out, "other kinds: {}", self.steps() as u64 - known)?;
        for (part, count) in &self.parts {
            writeln!(out, "family {part}: {count}")?;
        }
        for (refusal, count) in &self.refusals {
            writeln!(out, "refusal {refusal:02x}: {count}")?;
        }
        Ok(())
    }
}
