// The worst journal: books filled up to 65,536 bytes with short records.

use crate::book::*;
use crate::hand_book::{self, Answer};
use crate::measure;
use crate::Tools;
use std::fs;

/// A journal up to this many seconds is run whole.
const RUN_WHOLE: f64 = 12.0;
/// A stretch of records is lengthened until it takes this long, in seconds,
/// and as long as the book takes alone.
const STRETCH: f64 = 0.03;

pub struct Found {
    pub book: String,
    pub fill: String,
    /// how often the fill stands behind the book
    pub times: usize,
    pub seconds: f64,
    /// how many of them were run; the rest is worked out from these
    pub run: usize,
    /// the same by the hand-written book
    pub by_hand: f64,
}

/// The standing trusted grant or licence whose removal changes the most marks:
/// its removal and its entry again.
fn flip(b: &Book) -> (Vec<u8>, i32) {
    let mut hand = hand_book::Book::new();
    hand.take(&b.journal);
    let mut best = (vec![], 0);
    for entry in b.entries.iter().filter(|e| e.len() <= CONTENT + 14) {
        let mut removal = entry.clone();
        removal[..2].copy_from_slice(if entry.starts_with(b"tg") {
            b"st"
        } else {
            b"wd"
        });
        let (Answer::Nets([truths, sayings]), _) = hand.call(&removal) else {
            continue;
        };
        hand.call(entry);
        let lost = -(truths + sayings);
        if lost > best.1 {
            best = ([removal.as_slice(), entry].concat(), lost);
        }
    }
    best
}

fn fills(b: &Book) -> Vec<(String, Vec<u8>)> {
    let (flip, marks) = flip(b);
    let preview = [b"pv", &b.licence()[2..]].concat();
    let mut fills = vec![
        ("tg of a standing grant".to_string(), b.again.clone()),
        ("pv of a standing licence".to_string(), preview),
        ("qu".to_string(), crate::QUERY.to_vec()),
        ("st refused with 7".to_string(), b.refused()),
    ];
    if !flip.is_empty() {
        let pair = if flip.starts_with(b"st") {
            "st and tg"
        } else {
            "wd and li"
        };
        fills.push((format!("{} in turn, {} marks", pair, marks), flip));
    }
    fills
}

fn time(t: &Tools, b: &Book, fill: &[u8], k: usize) -> f64 {
    let at = t.dir.join("worst.journal");
    fs::write(&at, b.journal_with(fill, k)).expect("the work folder can be written");
    measure::program(&t.listing, &[], &at)
}

/// What the hand-written book takes for the whole journal.
fn time_by_hand(t: &Tools, b: &Book, fill: &[u8], times: usize) -> f64 {
    let at = t.dir.join("worst.journal");
    let time = |k: usize| {
        fs::write(&at, b.journal_with(fill, k)).expect("the work folder can be written");
        measure::program(&t.this, &["--list"], &at)
    };
    let (base, run) = (time(0), times.min(100));
    let whole = base + (time(run) - base).max(0.0) * times as f64 / run as f64;
    if whole <= 2.0 {
        time(times)
    } else {
        whole
    }
}

/// Lengthens the stretch of records until it can be seen beside the book.
fn estimate(t: &Tools, b: &Book, name: String, fill: &[u8], base: f64) -> Found {
    let times = b.room(fill);
    let mut run = times.min(4);
    loop {
        let took = (time(t, b, fill, run) - base).max(0.0);
        if took >= STRETCH.max(base) || run == times {
            return Found {
                book: b.name.clone(),
                fill: name,
                times,
                seconds: base + took * times as f64 / run as f64,
                run,
                by_hand: f64::NAN,
            };
        }
        let more = (STRETCH.max(base) / took.max(1e-6) * 1.5) as usize * run;
        run = more.clamp(2 * run, 50 * run).min(times);
    }
}

/// How many journals were tried, and, the worst first, those that take over
/// `limit` seconds and the worst for each way of filling.
pub fn search(t: &Tools, books: &[Book], limit: f64) -> (usize, Vec<Found>) {
    let mut found: Vec<(Found, &Book, Vec<u8>)> = vec![];
    for b in books {
        let base = time(t, b, &[], 0).min(time(t, b, &[], 0));
        for (name, fill) in fills(b) {
            found.push((estimate(t, b, name, &fill, base), b, fill));
        }
    }
    let tried = found.len();
    found.sort_by(|a, b| b.0.seconds.total_cmp(&a.0.seconds));
    let mut seen: Vec<String> = vec![];
    let mut worst = vec![];
    for (mut f, b, fill) in found {
        let way = f.fill.split(',').next().unwrap_or("").to_string();
        if seen.contains(&way) && f.seconds <= limit {
            continue;
        }
        seen.push(way);
        if f.seconds <= RUN_WHOLE && f.run < f.times {
            f.seconds = time(t, b, &fill, f.times);
            f.run = f.times;
        }
        f.by_hand = time_by_hand(t, b, &fill, f.times);
        worst.push(f);
    }
    worst.sort_by(|a, b| b.seconds.total_cmp(&a.seconds));
    (tried, worst)
}
