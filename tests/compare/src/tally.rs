//! Counts which kinds of answers the journals of a run call for, and whether
//! enough queries are open and enough previews accepted.

use crate::checks::Check;
use crate::properties::answers;
use std::collections::BTreeMap;

pub const ENOUGH_OPEN: &str = "one of ten queries of the valid generated journals is open";

pub const ENOUGH_PREVIEWS: &str = "one of twenty-five records of them is an accepted preview";

/// Of so many queries one has to be open.
const OPEN_IN: usize = 10;
/// Of so many records one has to be a preview that is accepted.
const PREVIEW_IN: usize = 25;
/// Of so many accepted previews one has to lose truths.
const FALLING_IN: usize = 10;

#[derive(Default)]
pub struct Tally {
    counts: BTreeMap<String, usize>,
}

impl Tally {
    pub fn add(&mut self, listing: &str) {
        for answer in answers(listing) {
            *self.counts.entry(kind(answer)).or_default() += 1;
        }
    }

    /// Whether enough of the queries are open, and no kind of answer is rare.
    pub fn enough_open(&self) -> Check {
        let count = |kind: &str| self.counts.get(kind).copied().unwrap_or(0);
        let [open, permitted, not] = ["qu open", "qu permitted", "qu not permitted"].map(count);
        let queries = open + permitted + not;
        let enough = open * OPEN_IN >= queries && permitted * OPEN_IN >= queries && queries > 0;
        let fault = format!("{open} open and {permitted} permitted of {queries} queries");
        Check { group: ENOUGH_OPEN, fault: (!enough).then_some(fault) }
    }

    /// Whether enough previews are accepted, and in enough of them rights fall.
    pub fn enough_previews(&self) -> Check {
        let of = |start: &str| -> usize {
            self.counts.iter().filter(|(kind, _)| kind.starts_with(start)).map(|(_, n)| n).sum()
        };
        let [all, accepted, falling] = ["", "pv ", "pv loss"].map(of);
        let enough = accepted * PREVIEW_IN >= all && falling * FALLING_IN >= accepted && all > 0;
        let fault = format!("{accepted} accepted, in {falling} rights fall, of {all} records");
        Check { group: ENOUGH_PREVIEWS, fault: (!enough).then_some(fault) }
    }

    pub fn print(&self) {
        let counts = self.counts.iter().map(|(kind, count)| format!("{kind}: {count}"));
        println!("answers called for: {}", counts.collect::<Vec<_>>().join(", "));
    }
}

/// The answer, with every net other than zero reduced to its sign.
fn kind(answer: &str) -> String {
    let reduced = answer.split(' ').map(|word| match word.as_bytes() {
        b"+0" => "+0",
        [b'+', ..] => "gain",
        [b'-', ..] => "loss",
        _ => word,
    });
    reduced.collect::<Vec<_>>().join(" ")
}
