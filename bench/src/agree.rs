// The evaluators against one another: gringo and the hand-written evaluator
// atom by atom, the two books line by line.

use crate::book::*;
use crate::datalog;
use crate::hand_book;
use crate::Tools;
use std::fs::{self, File};
use std::path::Path;
use std::process::Command;

fn output(program: &Path, args: &[&str], input: &Path) -> String {
    let file = File::open(input).unwrap_or_else(|e| panic!("{}: {}", input.display(), e));
    let out = Command::new(program).args(args).stdin(file).output();
    let out = out.unwrap_or_else(|e| panic!("{}: {}", program.display(), e));
    String::from_utf8_lossy(&out.stdout).into_owned()
}

/// How many withdrawals are previewed on a book.
const PREVIEWS: usize = 12;

/// The book, the records that are measured on it, previews of some withdrawals,
/// and a query of every conclusion that a record can name, as far as a journal
/// has room.
fn questions(b: &Book) -> Vec<u8> {
    let mut j = b.journal_with(&b.again, 2);
    j.extend(b.refused());
    let issued = b.entries.iter().filter(|record| record.starts_with(b"li"));
    for record in issued.take(PREVIEWS) {
        if j.len() + record.len() <= JOURNAL_LIMIT {
            j.extend(b"pv");
            j.extend(&record[2..]);
        }
    }
    let mut ask = |c: &[u8]| {
        if j.len() + CONTENT + c.len() <= JOURNAL_LIMIT {
            j.extend(record(b"qu", c));
        }
    };
    for p in 0..PRINS as u8 {
        (0..16).for_each(|k| ask(&[0, k, p]));
        (0..32).for_each(|n| ask(&[2, p, n]));
        (0..32).for_each(|n| ask(&[3, p, n]));
        for g in b.names().iter().filter(|g| **g != []) {
            ask(&[&[1, p, 0], g.as_slice()].concat());
        }
    }
    j
}

/// Both books print the same; the answer is the number of lines.
fn same_listing(t: &Tools, b: &Book) -> usize {
    let at = t.dir.join("check.journal");
    fs::write(&at, questions(b)).expect("the work folder can be written");
    let ours = output(&t.listing, &[], &at);
    let hand = output(&t.this, &["--list"], &at);
    let mut lines = ours.lines().zip(hand.lines());
    if let Some((a, c)) = lines.find(|(a, c)| a != c) {
        panic!(
            "{}: the listing has '{}', the hand-written book '{}'",
            b.name, a, c
        );
    }
    assert!(ours == hand, "{}: the listings differ in length", b.name);
    let accepted = ours.lines().take(b.records + 2);
    assert!(
        accepted.clone().count() == b.records + 2
            && accepted.clone().all(|l| !l.contains("refused")),
        "{}: a record of the book is refused",
        b.name
    );
    let refused = format!("{} refused 7", b.records + 3);
    assert!(
        ours.lines().any(|l| l == refused),
        "{}: no '{}'",
        b.name,
        refused
    );
    ours.lines().count()
}

/// The mark of an atom of gringo's, truth(...) or said(...).
fn mark(atom: &str) -> Option<usize> {
    let (name, rest) = atom.strip_suffix(").")?.split_once('(')?;
    let mut parts: Vec<&str> = rest.split(',').collect();
    let from = match name {
        "truth" => 0,
        "said" => CONCLUSIONS * (1 + parts.remove(0).parse::<usize>().ok()?),
        _ => return None,
    };
    let base = match parts[0] {
        "issue" => 16,
        "run" => 80,
        "export" => 112,
        _ => {
            return Some(
                from + 144 * parts[1].parse::<usize>().ok()? + parts[0].parse::<usize>().ok()?,
            )
        }
    };
    Some(from + 144 * parts[1].parse::<usize>().ok()? + base + parts[2].parse::<usize>().ok()?)
}

fn gringo_marks(t: &Tools, b: &Book) -> Vec<u8> {
    let at = t.dir.join("check.lp");
    fs::write(&at, datalog::program(b)).expect("the work folder can be written");
    let mut marks = vec![0; MARKS];
    for l in output(Path::new("gringo"), &["--text"], &at).lines() {
        if l.starts_with("truth(") || l.starts_with("said(") {
            let n = mark(l).unwrap_or_else(|| panic!("{}: gringo says {}", b.name, l));
            marks[n] = 1;
        }
    }
    marks
}

/// gringo comes to the same marks as the hand-written evaluator.
fn same_marks(t: &Tools, b: &Book, hand: &[u8; MARKS]) {
    let gringo = gringo_marks(t, b);
    let differ = (0..MARKS).find(|m| gringo[*m] != hand[*m]);
    if let Some(m) = differ {
        panic!(
            "{}: mark {}: gringo {}, by hand {}",
            b.name, m, gringo[m], hand[m]
        );
    }
}

/// All have to come to the same marks, also with the provisional licences taken
/// as firm. The answers are how many stand, and how
/// many lines the two listings share.
pub fn agree(t: &Tools, b: &Book) -> (usize, usize) {
    let mut hand = hand_book::Book::new();
    hand.take(&b.journal);
    if t.gringo {
        same_marks(t, b, &hand.marks);
        let waits = b.rows.iter().any(|row| row.waiting.contains(&true));
        if waits {
            same_marks(t, &b.taken_as_firm(), &hand.second_marks());
        }
    }
    let marks = hand.marks.iter().map(|m| *m as usize).sum();
    (marks, same_listing(t, b))
}
