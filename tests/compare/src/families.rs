//! Families of generated journals, most of them compared with the other
//! evaluator; where a formula gives the answers, they are written out.

use crate::case::Case;
use crate::generate::{damage, damage_content, journal, Generator, Style};
use crate::random::Random;
use crate::write::*;

pub fn cases(seed: u64) -> Vec<Case> {
    let mut cases = small_journals(seed);
    cases.extend(waiting_journals(seed));
    cases.extend(narrow_journals(seed));
    cases.extend(middle_journals(seed));
    cases.extend(large_journals(seed));
    cases.extend(damaged_journals(seed));
    cases.extend(loose_bytes(seed));
    cases.extend(cut_journals(seed));
    cases.extend(probed_books(seed));
    cases.extend(all_conclusions(seed));
    cases
}

const SMALL: &str = "small valid journals";
const WAITING: &str = "journals that ask for what is awaited";
const NARROW: &str = "narrow valid journals";
const MIDDLE: &str = "middle-sized valid journals";
const LARGE: &str = "several hundred entries and withdrawals";

/// The groups of journals in which every record can be read.
pub const VALID: [&str; 5] = [SMALL, WAITING, NARROW, MIDDLE, LARGE];

/// Small valid journals; they also serve to compare the two evaluators.
pub fn small_journals(seed: u64) -> Vec<Case> {
    let mut random = Random::new(seed, SMALL);
    let mut make = |i: usize| {
        let members = random.between(1, 3);
        let records = random.between(1, 14);
        Case::compared(SMALL, i.to_string(), journal(&mut random, members, records))
    };
    (0..1_500).map(&mut make).collect()
}

/// Small valid journals that often ask for what provisional licences would
/// give; they also serve to compare the two evaluators.
pub fn waiting_journals(seed: u64) -> Vec<Case> {
    let mut random = Random::new(seed, WAITING);
    let mut make = |i: usize| {
        let members = random.between(1, 4);
        let records = random.between(4, 24);
        let style = Style::random(&mut random, members);
        let bytes = Generator::new(&mut random, style).waiting_journal(records);
        Case::compared(WAITING, i.to_string(), bytes)
    };
    (0..400).map(&mut make).collect()
}

/// Longer journals over one to three members of each sort, in which much is
/// said by several paths; they also serve to compare the two evaluators.
pub fn narrow_journals(seed: u64) -> Vec<Case> {
    let mut random = Random::new(seed, NARROW);
    let mut make = |i: usize| {
        let members = random.between(1, 3);
        let records = random.between(15, 30);
        Case::compared(NARROW, i.to_string(), journal(&mut random, members, records))
    };
    (0..400).map(&mut make).collect()
}

pub fn middle_journals(seed: u64) -> Vec<Case> {
    let mut random = Random::new(seed, MIDDLE);
    let mut make = |i: usize| {
        let members = random.between(2, 16);
        let records = random.between(15, 70);
        Case::compared(MIDDLE, i.to_string(), journal(&mut random, members, records))
    };
    (0..400).map(&mut make).collect()
}

fn large_journals(seed: u64) -> Vec<Case> {
    let mut random = Random::new(seed, LARGE);
    let mut make = |i: usize| {
        let members = random.between(2, 16);
        let mut style = Style::random(&mut random, members);
        style.reuse = 90;
        style.most_principal_variables = *random.choose(&[0, 1, 1, 2]);
        let records = random.between(200, 500);
        let bytes = Generator::new(&mut random, style).journal(records);
        Case::compared(LARGE, i.to_string(), bytes)
    };
    (0..24).map(&mut make).collect()
}

/// In half of them contents are damaged, and lengths fit what is left.
fn damaged_journals(seed: u64) -> Vec<Case> {
    const GROUP: &str = "journals with bytes changed, inserted, removed";
    let mut random = Random::new(seed, GROUP);
    let mut make = |i: usize| {
        let members = random.between(1, 4);
        let records = random.between(1, 20);
        let mut bytes = journal(&mut random, members, records);
        let damages = *random.choose(&[damage as fn(&mut Random, &mut Bytes), damage_content]);
        for _ in 0..random.between(1, 3) {
            damages(&mut random, &mut bytes);
        }
        Case::compared(GROUP, i.to_string(), bytes)
    };
    (0..2_000).map(&mut make).collect()
}

/// Bytes without plan as the content of a record, and a query behind it. In one
/// of ten the length is loose too.
fn loose_bytes(seed: u64) -> Vec<Case> {
    const GROUP: &str = "records of loose bytes";
    const LIKELY: [u8; 9] = [0, 0, 0, 1, 1, 2, 3, 0x80, 0x81];
    let mut random = Random::new(seed, GROUP);
    let mut make = |i: usize| {
        let letters = *random.choose(&LETTERS);
        let count = random.below(40);
        let content: Bytes = (0..count).map(|_| *random.choose(&LIKELY)).collect();
        let stated = match random.percent(10) {
            true => random.below(60),
            false => content.len(),
        };
        let bytes = [stating(letters, stated, &content), query(&property(0, 0))].concat();
        Case::compared(GROUP, i.to_string(), bytes)
    };
    (0..600).map(&mut make).collect()
}

/// Each of some journals cut at every byte.
fn cut_journals(seed: u64) -> Vec<Case> {
    const GROUP: &str = "journals cut at every byte";
    let mut random = Random::new(seed, GROUP);
    let mut cases = Vec::new();
    for i in 0..12 {
        let members = random.between(1, 3);
        let bytes = journal(&mut random, members, 9);
        for length in 0..=bytes.len() {
            let name = format!("{i}, the first {length} bytes");
            cases.push(Case::compared(GROUP, name, bytes[..length].to_vec()));
        }
    }
    cases
}

/// A book, then trusted grants that show single statements: "q said e gives
/// Property(k, p)" is entered, the property queried, the grant struck.
fn probed_books(seed: u64) -> Vec<Case> {
    const GROUP: &str = "what was said, shown by trusted grants";
    let mut random = Random::new(seed, GROUP);
    let mut make = |i: usize| {
        let members = random.between(1, 3);
        let mut style = Style::random(&mut random, members);
        style.most_principal_variables = 2;
        let mut generator = Generator::new(&mut random, style);
        let mut bytes = generator.journal(10);
        for shown in 0..24 {
            let speaker = generator.named_principal();
            let shown = property(15, shown % 16);
            let probe = when(&[said(speaker, &generator.closed_conclusion())], &shown);
            bytes.extend([trust(&probe), query(&shown), strike(&probe)].concat());
        }
        Case::compared(GROUP, i.to_string(), bytes)
    };
    (0..150).map(&mut make).collect()
}

/// A book, then a query of every property and pack right, and of the right
/// of every principal to issue some grants.
fn all_conclusions(seed: u64) -> Vec<Case> {
    const GROUP: &str = "every conclusion queried";
    let mut random = Random::new(seed, GROUP);
    let mut make = |i: usize| {
        let members = random.between(1, 4);
        let mut bytes = journal(&mut random, members, 14);
        for principal in 0..16 {
            (0..16).for_each(|k| bytes.extend(query(&property(k, principal))));
            (0..32).for_each(|n| bytes.extend(query(&run(principal, n))));
            (0..32).for_each(|n| bytes.extend(query(&export(principal, n))));
            bytes.extend(query(&issue(principal, &plain(&property(0, 0)))));
            bytes.extend(query(&issue(principal, &may_issue_all(principal))));
        }
        Case::compared(GROUP, i.to_string(), bytes)
    };
    (0..60).map(&mut make).collect()
}
