//! What programs that write lists have in common: families of lists, and the
//! command line. A list goes to standard output, counts of what stands in it
//! go to standard error. The same arguments always give the same list.

use std::env;
use std::io::{self, Write};
use std::process::ExitCode;

use super::step::{Answer, Device};
use super::step_list::StepList;

pub struct Family<A> {
    pub name: &'static str,
    /// Adds a few steps, or all that the list is to have.
    action: fn(&mut A),
    whole: bool,
}

/// A family whose lists are as long as wished, by one action after the other.
pub const fn family<A>(name: &'static str, action: fn(&mut A)) -> Family<A> {
    Family { name, action, whole: false }
}

/// A family whose lists are one action each, whatever length is wished.
pub const fn whole_family<A>(name: &'static str, action: fn(&mut A)) -> Family<A> {
    Family { whole: true, ..family(name, action) }
}

/// What the author of a harness's lists is and does.
pub trait Authorship: Sized + 'static {
    type Device: Device;
    const PROGRAM: &'static str;
    const FAMILIES: &'static [Family<Self>];

    fn new(seed: u64) -> Self;

    fn list(&mut self) -> &mut StepList<Self::Device>;

    fn into_list(self) -> StepList<Self::Device>;

    /// Comes before each action.
    fn settle(&mut self) {}

    /// Looks at all state, so that equal answers mean equal states.
    fn end(&mut self);

    fn fixed_list() -> StepList<Self::Device>;
}

impl<A: Authorship> Family<A> {
    pub fn named(name: &str) -> Option<&'static Family<A>> {
        A::FAMILIES.iter().find(|family| family.name == name)
    }

    pub fn act(&self, author: &mut A) {
        author.list().begin(self.name);
        author.settle();
        (self.action)(author);
    }
}

/// A list of at least `steps` steps, and its ending.
fn random_list<A: Authorship>(family: &Family<A>, seed: u64, steps: usize) -> StepList<A::Device> {
    let mut author = A::new(seed);
    if family.whole {
        family.act(&mut author);
    }
    while !family.whole && author.list().steps() < steps {
        family.act(&mut author);
    }
    author.end();
    author.into_list()
}

/// The families of these names act one after the other, until the list has
/// `steps` steps.
pub fn take_turns<A: Authorship>(author: &mut A, names: &[&str], steps: usize) {
    for name in names.iter().cycle() {
        if author.list().steps() >= steps {
            return;
        }
        Family::named(name).unwrap().act(author);
    }
}

/// For answers that were worked out by hand.
pub fn expect(answer: Answer, refusal: u8, words: [u64; 3]) {
    assert_eq!(answer, Answer { refusal, words });
}

fn usage(program: &str) -> ExitCode {
    eprintln!("usage: {program} FAMILY SEED STEPS   a random list");
    eprintln!("       {program} fixed               the fixed list");
    eprintln!("       {program} families            the families' names");
    ExitCode::FAILURE
}

fn wished_list<A: Authorship>(
    family: &str,
    seed: &str,
    steps: &str,
) -> Option<StepList<A::Device>> {
    let family = Family::<A>::named(family)?;
    Some(random_list(family, seed.parse().ok()?, steps.parse().ok()?))
}

pub fn write_list<D: Device>(list: StepList<D>) -> io::Result<()> {
    list.report(&mut io::stderr())?;
    io::stdout().write_all(&list.into_text())
}

fn write_families<A: Authorship>() -> io::Result<()> {
    for family in A::FAMILIES {
        writeln!(io::stdout(), "{}", family.name)?;
    }
    Ok(())
}

pub fn run<A: Authorship>() -> ExitCode {
    let arguments: Vec<String> = env::args().skip(1).collect();
    let words: Vec<&str> = arguments.iter().map(String::as_str).collect();
    let written = match words[..] {
        ["fixed"] => write_list(A::fixed_list()),
        ["families"] => write_families::<A>(),
        [family, seed, steps] => match wished_list::<A>(family, seed, steps) {
            Some(list) => write_list(list),
            None => return usage(A::PROGRAM),
        },
        _ => return usage(A::PROGRAM),
    };
    match written {
        Ok(()) => ExitCode::SUCCESS,
        Err(error) => {
            eprintln!("{}: {error}", A::PROGRAM);
            ExitCode::FAILURE
        }
    }
}
