//! Pairs of scripts, or more of them, with a session saved and resumed between
//! each and the next. The seed and a number say all of it.

use crate::bus::families::{Author, FAMILIES};
use crate::bus::limits::LARGE;
use crate::bytes::{out_length, Script};
use crate::cases::{look_a_little, Case};
use crate::common::generator::{Authorship, Family};
use crate::common::numbers::MOST_STEPS;
use crate::common::random::Random;
use crate::common::step::Step;
use crate::cuts::CUTS;
use crate::faults::FAULTS;
use crate::memories::LENGTHS;
use crate::starts::{put_into, puts, Put, PICTURES};
use crate::steps::OWN;

/// So many pairs in a row start with the same picture.
const ROW: u64 = 128;

/// What faults leave alone here: the lengths of the memories.
const LENGTHS_FAULT: [&str; 2] = ["lengths", "several"];

pub struct Pair {
    pub family: &'static str,
    /// Each script, and the length of the slice for its answers.
    pub scripts: Vec<(Vec<u8>, usize)>,
    pub picture: usize,
    pub picture_seed: u64,
    pub puts: Vec<Put>,
    /// Of all that is drawn at the cuts.
    pub seed: u64,
}

/// Scripts being written: an author, and the steps before which one ends.
pub struct Draft {
    pub author: Author,
    cuts: Vec<usize>,
}

impl Draft {
    /// The script ends here, and the next begins.
    pub fn cut(&mut self) {
        self.cuts.push(self.author.list.steps());
        self.author.list.device.system.timers_resync();
    }

    /// A cut or none.
    pub fn maybe_cut(&mut self, one_in: usize) {
        if self.author.random.one_in(one_in) {
            self.cut();
        }
    }
}

#[derive(Clone, Copy)]
enum Way {
    /// Actions of a family, and cuts anywhere among them.
    Actions(&'static Family<Author>),
    /// A family that says where its cuts are.
    Own(fn(&mut Draft)),
    /// The same with a script that is refused as a whole, or nearly so.
    Faulty,
    Long,
}

pub struct Making {
    pub name: &'static str,
    way: Way,
}

/// All families, each taking its turn.
pub fn makings() -> Vec<Making> {
    let actions = all().map(|family| Making { name: family.name, way: Way::Actions(family) });
    let own = CUTS.iter().map(|&(name, cuts)| Making { name, way: Way::Own(cuts) });
    let others = [("long", Way::Long), ("faulty", Way::Faulty)];
    let others = others.into_iter().map(|(name, way)| Making { name, way });
    actions.chain(own).chain(others).collect()
}

fn all() -> impl Iterator<Item = &'static Family<Author>> {
    static OWN_FAMILIES: [Family<Author>; 6] = OWN;
    FAMILIES.iter().chain(&OWN_FAMILIES)
}

fn any_family(random: &mut Random) -> &'static Family<Author> {
    let families: Vec<_> = all().collect();
    random.pick(&families)
}

/// Most scripts are short.
fn some(random: &mut Random, family: &Family<Author>) -> usize {
    if LARGE.contains(&family.name) {
        return random.pick(&[10, 100, 300, 500]);
    }
    let (few, more, most) =
        (random.between(0, 30), random.between(30, 150), random.between(150, 400));
    random.pick(&[few, few, few, few, few, few, more, more, more, most])
}

fn act(draft: &mut Draft, family: &Family<Author>, steps: usize) {
    let until = draft.author.list.steps() + steps;
    while draft.author.list.steps() < until {
        family.act(&mut draft.author);
    }
}

/// Two families, often the same. Half of the cuts are where the first ends,
/// all others at any step.
fn actions(draft: &mut Draft, random: &mut Random, family: &'static Family<Author>) {
    let other = if random.one_in(2) { family } else { any_family(random) };
    let steps = some(random, family);
    act(draft, family, steps);
    let between = draft.author.list.steps();
    let steps = some(random, other);
    act(draft, other, steps);
    let all = draft.author.list.steps();
    for _ in 0..random.pick(&[1, 1, 1, 1, 1, 2, 3, 4]) {
        let any = random.below(all + 1);
        draft.cuts.push(random.pick(&[between, any]));
    }
    draft.cuts.sort_unstable();
}

fn long(draft: &mut Draft, random: &mut Random) {
    let wild = Family::named("wild").expect("a family of the whole bus");
    let steps = random.pick(&[1000, 2000, MOST_STEPS]);
    act(draft, wild, steps);
    draft.cut();
    act(draft, wild, 300);
}

impl Making {
    pub fn make(&self, seed: u64, number: u64) -> Pair {
        let mut random = Random::new(seed.wrapping_mul(0x1_0000_0201).wrapping_add(number));
        let puts = puts(&mut random);
        let mut draft = Draft { author: Author::new(random.next()), cuts: Vec::new() };
        put_into(&mut draft.author.list.device.system, &puts);
        match self.way {
            Way::Actions(family) => actions(&mut draft, &mut random, family),
            Way::Own(cuts) => {
                cuts(&mut draft);
                if random.one_in(2) {
                    let family = any_family(&mut random);
                    act(&mut draft, family, 20);
                }
            }
            Way::Faulty => {
                let family = any_family(&mut random);
                actions(&mut draft, &mut random, family);
            }
            Way::Long => long(&mut draft, &mut random),
        }
        end(&mut draft.author, &mut random);
        let mut scripts = cut(draft, &mut random);
        if matches!(self.way, Way::Faulty) {
            make_faulty(&mut scripts, &mut random);
        }
        Pair {
            family: self.name,
            scripts,
            picture: (number / ROW) as usize % PICTURES,
            picture_seed: seed.wrapping_add(number / ROW),
            puts,
            seed: random.next(),
        }
    }
}

/// Mostly a look at all of the state.
fn end(author: &mut Author, random: &mut Random) {
    match random.below(8) {
        0 => {}
        1 | 2 => look_a_little(&mut author.list),
        _ => author.end(),
    }
}

fn cut(draft: Draft, random: &mut Random) -> Vec<(Vec<u8>, usize)> {
    let mut rest: Vec<Step> = draft.author.into_list().into_steps();
    let mut parts = Vec::new();
    for &at in draft.cuts.iter().rev() {
        parts.push(rest.split_off(at));
    }
    parts.push(rest);
    let fill = random.one_in(2);
    let script = |steps| {
        let mut script = Script::of(steps);
        if fill {
            script.fill_unused(random);
        }
        let out = out_length(script.answers()) + random.pick(&[0, 0, 1, 25, 333]);
        (script.bytes(), out)
    };
    parts.into_iter().rev().map(script).collect()
}

/// One of the scripts.
fn make_faulty(scripts: &mut [(Vec<u8>, usize)], random: &mut Random) {
    let faults = FAULTS.iter().filter(|(name, _)| !LENGTHS_FAULT.contains(name));
    let faults: Vec<_> = faults.map(|&(_, fault)| fault).collect();
    let at = random.below(scripts.len());
    let (script, out) = &mut scripts[at];
    let mut case = Case { out: *out, ..Case::of_script(std::mem::take(script)) };
    random.pick(&faults)(&mut case, random);
    assert!(case.lengths == LENGTHS);
    (*script, *out) = (case.script, case.out);
}
