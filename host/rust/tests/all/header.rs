//! The numbers of tg18.h are this crate's.

use tg18::Refusal;

const HEADER: &str = include_str!("../../../tg18.h");

/// The number that the header gives a name.
fn number(name: &str) -> u32 {
    let start = format!("    TG18_{name} = ");
    let line = HEADER.lines().find_map(|line| line.strip_prefix(&start));
    let digits = line.unwrap_or_else(|| panic!("no {name}")).split(|c: char| !c.is_ascii_digit()).next();
    digits.unwrap().parse().unwrap()
}

/// `BadTime` as the header writes it: BAD_TIME.
fn in_capitals(refusal: Refusal) -> String {
    let mut name = String::new();
    for letter in format!("{refusal:?}").chars() {
        if letter.is_ascii_uppercase() && !name.is_empty() {
            name.push('_');
        }
        name.push(letter.to_ascii_uppercase());
    }
    name
}

#[test]
fn refusals_have_the_headers_names_and_numbers() {
    for refusal in Refusal::ALL {
        assert_eq!(refusal.number(), number(&in_capitals(refusal)));
        assert_eq!(Refusal::try_from(refusal.number()), Ok(refusal));
        assert_eq!(u32::from(refusal), refusal.number());
    }
    let listed = HEADER.split("enum tg18_refusal {").nth(1).unwrap().split('}').next().unwrap();
    let entries = listed.lines().filter(|line| line.starts_with("    TG18_")).count();
    assert_eq!(entries, 1 + Refusal::ALL.len(), "the header's, with TG18_DONE");
}

#[test]
fn no_other_number_is_a_refusals() {
    let known = |n: u32| (1..=15).contains(&n) || n == 256;
    for n in 0..1000 {
        assert_eq!(Refusal::from_number(n).is_some(), known(n), "{n}");
    }
    assert_eq!(Refusal::from_number(u32::MAX), None);
}

#[test]
fn a_refusal_says_its_name_and_why() {
    assert_eq!(Refusal::BadSize.to_string(), "BadSize: the size is not 1, 2 or 4");
    let mut said: Vec<String> = Refusal::ALL.iter().map(Refusal::to_string).collect();
    said.sort();
    said.dedup();
    assert_eq!(said.len(), Refusal::ALL.len());
}

#[test]
fn sizes_are_the_headers() {
    let sizes = [
        ("RAM_BYTES", tg18::RAM_BYTES),
        ("SRAM_BYTES", tg18::SRAM_BYTES),
        ("GPIO_BYTES", tg18::GPIO_BYTES),
        ("FRAMEBUFFER_BYTES", tg18::FRAMEBUFFER_BYTES),
        ("SCREEN_WIDTH", tg18::SCREEN_WIDTH),
        ("SCREEN_HEIGHT", tg18::SCREEN_HEIGHT),
        ("SCREEN_BYTES", tg18::SCREEN_BYTES),
        ("MOST_PRESSES", tg18::MOST_PRESSES),
        ("MOST_STEPS", tg18::MOST_STEPS),
        ("PRESS_BYTES", tg18::PRESS_BYTES),
        ("STEP_BYTES", tg18::STEP_BYTES),
        ("ANSWER_BYTES", tg18::ANSWER_BYTES),
        ("SAVE_MOST", tg18::SAVE_MOST),
        ("SCRUBBED_BYTES", tg18::SCRUBBED_BYTES),
    ];
    for (name, size) in sizes {
        assert_eq!(size, number(name) as usize, "{name}");
    }
}

#[test]
fn the_version_is_the_headers() {
    let line = HEADER.lines().find_map(|line| line.strip_prefix("#define TG18_VERSION \""));
    assert_eq!(format!("{}.0", line.unwrap().trim_end_matches('"')), env!("CARGO_PKG_VERSION"));
}
