// What the preview of a withdrawal costs, beside the withdrawal.

use crate::book::Book;
use crate::measure::{self, best};
use crate::{each, ratio, times, us, write, Tools, HAND_GOAL, ROUNDS};
use std::path::Path;

/// Seconds for one record, by one of the two programs.
struct Costs {
    preview: f64,
    withdrawal: f64,
}

pub struct Found {
    name: String,
    ours: Costs,
    by_hand: Costs,
}

/// The costs by one program, of the shortest licence that stands. pv may follow
/// itself. wd may not: wd and li in turn are measured against li twice.
fn costs(t: &Tools, b: &Book, program: &Path, args: &[&str]) -> Costs {
    let issued = b.licence();
    let named = |letters: &[u8; 2]| [letters.as_slice(), &issued[2..]].concat();
    let (preview, in_turn) = (named(b"pv"), [named(b"wd"), issued.clone()].concat());
    let twice = issued.repeat(2);
    let previews = times(t, b, &preview, program, args);
    let turns = times(t, b, &in_turn, program, args);
    let runs = [(&[][..], 1), (&preview[..], previews), (&in_turn[..], turns), (&twice[..], turns)];
    let at = |i: usize| t.dir.join(format!("preview {}", i));
    for (i, (records, k)) in runs.iter().enumerate() {
        write(&at(i), &b.journal_with(records, *k));
    }
    let mut timed: Vec<_> =
        (0..runs.len()).map(|i| move || measure::program(program, args, &at(i))).collect();
    let mut all: Vec<&mut dyn FnMut() -> f64> =
        timed.iter_mut().map(|one| one as &mut dyn FnMut() -> f64).collect();
    let found = best(ROUNDS, &mut all);
    let issue = each(found[3], found[0], 2 * turns);
    Costs {
        preview: each(found[1], found[0], previews),
        withdrawal: each(found[2], found[0], turns) - issue,
    }
}

pub fn measure(t: &Tools, b: &Book) -> Found {
    Found {
        name: b.name.clone(),
        ours: costs(t, b, &t.listing, &[]),
        by_hand: costs(t, b, &t.this, &["--list"]),
    }
}

pub fn print(found: &[Found]) {
    println!("the preview of a withdrawal, beside the withdrawal");
    println!("{:<43} | {:^25} | {:^25} | {:>7}", "", "pv", "wd", "pv/wd");
    let both = format!("{:>8} {:>8} {:>7}", "ours", "by hand", "ratio");
    println!("{:<43} | {} | {} | {:>7}", "book", both, both, "ours");
    for Found { name, ours, by_hand } in found {
        let two = |a: f64, b: f64| {
            format!("{:>8} {:>8} {:>7}", us(a), us(b), ratio(a / b, HAND_GOAL, 2))
        };
        println!(
            "{:<43} | {} | {} | {:>7.2}",
            name,
            two(ours.preview, by_hand.preview),
            two(ours.withdrawal, by_hand.withdrawal),
            ours.preview / ours.withdrawal
        );
    }
}
