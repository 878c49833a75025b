// What provisional licences cost: a record that changes a book, on the book
// and on the same book with one provisional licence more, and the records pl
// and cf.

use crate::book::Book;
use crate::measure::{self, best};
use crate::{each, ratio, times, us, write, Tools, HAND_GOAL, ROUNDS};
use std::path::{Path, PathBuf};

/// A changing record on a book with a provisional licence against the same on
/// the book without.
pub const WAITING_GOAL: f64 = 2.0;

/// Seconds for one record, by one of the two programs.
pub struct Costs {
    /// tg of a standing grant, where no provisional licence stands
    without: f64,
    /// the same where one stands
    with: f64,
    /// pl of the provisional licence that stands
    enter: f64,
    /// cf of the one that stands
    confirm: f64,
}

pub struct Found {
    pub name: String,
    ours: Costs,
    by_hand: Costs,
}

impl Found {
    pub fn by_licence(&self) -> f64 {
        self.ours.with / self.ours.without
    }
}

/// A book followed by some records so many times.
struct Run {
    at: PathBuf,
    times: usize,
}

fn run(t: &Tools, name: &str, b: &Book, records: &[u8], times: usize) -> Run {
    let at = t.dir.join(name);
    write(&at, &b.journal_with(records, times));
    Run { at, times }
}

/// The costs by one program. pl may follow itself. cf may not: pl, cf and wd in
/// turn are measured against pl and wd in turn.
fn costs(t: &Tools, b: &Book, program: &Path, args: &[&str]) -> Costs {
    let awaited = b.awaited();
    let named = |letters: &[u8; 2]| [letters.as_slice(), &awaited[2..]].concat();
    let mut with = b.clone();
    with.journal.extend(&awaited);
    let in_turn = [awaited.clone(), named(b"cf"), named(b"wd")].concat();
    let without_cf = [awaited.clone(), named(b"wd")].concat();
    let often = |b: &Book, records: &[u8]| times(t, b, records, program, args);
    let turns = often(b, &in_turn);
    let runs = [
        run(t, "without", b, &[], 1),
        run(t, "without again", b, &b.again, often(b, &b.again)),
        run(t, "with", &with, &[], 1),
        run(t, "with again", &with, &b.again, often(&with, &b.again)),
        run(t, "entered again", &with, &awaited, often(&with, &awaited)),
        run(t, "in turn", b, &in_turn, turns),
        run(t, "in turn without cf", b, &without_cf, turns),
    ];
    let mut timed: Vec<_> =
        runs.iter().map(|run| || measure::program(program, args, &run.at)).collect();
    let mut all: Vec<&mut dyn FnMut() -> f64> =
        timed.iter_mut().map(|one| one as &mut dyn FnMut() -> f64).collect();
    let found = best(ROUNDS, &mut all);
    let cost = |more: usize, base: usize| each(found[more], found[base], runs[more].times);
    Costs {
        without: cost(1, 0),
        with: cost(3, 2),
        enter: cost(4, 2),
        confirm: cost(5, 6),
    }
}

pub fn measure(t: &Tools, b: &Book) -> Found {
    Found {
        name: b.name.clone(),
        ours: costs(t, b, &t.listing, &[]),
        by_hand: costs(t, b, &t.this, &["--list"]),
    }
}

pub fn print(found: &[Found]) {
    println!("a record that changes a book without a provisional licence and with one; pl and cf of that one");
    println!(
        "{:<43} | {:^25} | {:^25} | {:^25} | {:^25}",
        "", "ours", "by hand", "pl", "cf"
    );
    let pair = format!("{:>8} {:>8} {:>7}", "without", "with", "ratio");
    let both = format!("{:>8} {:>8} {:>7}", "ours", "by hand", "ratio");
    println!("{:<43} | {} | {} | {} | {}", "book", pair, pair, both, both);
    for Found { name, ours, by_hand } in found {
        let beside = |a: f64, b: f64, of: f64, goal: f64| {
            format!("{:>8} {:>8} {:>7}", us(a), us(b), ratio(of, goal, 2))
        };
        let grows = |c: &Costs| beside(c.without, c.with, c.with / c.without, WAITING_GOAL);
        let two = |a: f64, b: f64| beside(a, b, a / b, HAND_GOAL);
        println!(
            "{:<43} | {} | {} | {} | {}",
            name,
            grows(ours),
            grows(by_hand),
            two(ours.enter, by_hand.enter),
            two(ours.confirm, by_hand.confirm)
        );
    }
}
