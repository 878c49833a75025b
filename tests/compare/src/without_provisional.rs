//! A journal with provisional licences beside two journals without any: one
//! has them firm from the start, the other not before they are confirmed.
//! What stands in these is what stands with all of them and with none, so they
//! show which queries of the journal are permitted, open and not permitted.

use crate::checks::Check;
use crate::program::Program;
use crate::properties::answers;
use crate::write::*;
use reference::listing::LONGEST_JOURNAL;
use reference::machine::Machine;
use reference::reader::{frames, Record};

pub const TAKEN_AS_FIRM: &str = "property: provisional licences taken as firm";
pub const LEFT_OUT: &str = "property: provisional licences left out until they are confirmed";

/// The records of a journal written anew, and the places of those they are
/// written for; the others are left out.
#[derive(Default)]
struct Rewritten {
    journal: Bytes,
    places: Vec<usize>,
}

/// Judges the answers that the program printed for a journal by what it prints
/// for the other two. Without a provisional licence there is nothing to judge.
pub fn checks(program: &Program, journal: &[u8], printed: &str) -> Vec<Check> {
    if !answers(printed).contains(&"pl +0 +0") {
        return Vec::new();
    }
    let firm = rewrite(journal, taken_as_firm);
    let mut machine = Machine::default();
    let left_out = rewrite(journal, |record, bytes| left_out(&mut machine, record, bytes));
    let judged = [(TAKEN_AS_FIRM, firm, fits_firm as Fits), (LEFT_OUT, left_out, fits_left_out)];
    let short = judged.into_iter().filter(|(_, anew, _)| anew.journal.len() <= LONGEST_JOURNAL);
    let check = |(group, anew, fits): (&'static str, Rewritten, Fits)| {
        Check { group, fault: anew.fault(program, printed, fits) }
    };
    short.map(check).collect()
}

/// Whether the answer of a record fits that of the record written for it.
type Fits = fn(&str, &str) -> bool;

/// Writes each record that can be read anew or leaves it out; the others and
/// what ends the reading stay as they are.
fn rewrite(journal: &[u8], mut anew: impl FnMut(&Record, &[u8]) -> Option<Bytes>) -> Rewritten {
    let mut rewritten = Rewritten::default();
    let (mut end, mut count) = (0, 0);
    for (place, (start, frame)) in frames(journal).enumerate() {
        (end, count) = (start + frame.length(), place + 1);
        let bytes = &journal[start..end];
        let written = match frame.record() {
            Ok(record) => anew(&record, bytes),
            Err(_) => Some(bytes.to_vec()),
        };
        if let Some(written) = written {
            rewritten.journal.extend(written);
            rewritten.places.push(place);
        }
    }
    if end < journal.len() {
        rewritten.journal.extend(&journal[end..]);
        rewritten.places.push(count);
    }
    rewritten
}

/// pl as li, and no cf.
fn taken_as_firm(record: &Record, bytes: &[u8]) -> Option<Bytes> {
    match record {
        Record::EnterProvisional(issuer, _) => Some(licence(*issuer, &bytes[CONTENT + 1..])),
        Record::Confirm(..) => None,
        _ => Some(bytes.to_vec()),
    }
}

/// pl as a query that gives the same numbers; cf as li where it is accepted;
/// and no wd or pv of a provisional licence.
fn left_out(machine: &mut Machine, record: &Record, bytes: &[u8]) -> Option<Bytes> {
    let waiting = machine.provisional.len();
    let accepted = machine.feed(record).is_ok();
    match record {
        Record::EnterProvisional(issuer, _) => Some(query(&issue(*issuer, &bytes[CONTENT + 1..]))),
        Record::Confirm(issuer, _) => accepted.then(|| licence(*issuer, &bytes[CONTENT + 1..])),
        Record::WithdrawLicence(..) if machine.provisional.len() < waiting => None,
        Record::PreviewWithdrawal(issuer, grant)
            if machine.provisional.contains(&(*issuer, grant.clone())) =>
        {
            None
        }
        _ => Some(bytes.to_vec()),
    }
}

/// Changes may have other nets; a query is permitted where it was permitted or
/// open.
fn fits_firm(answer: &str, anew: &str) -> bool {
    match (&answer[..3], answer) {
        (_, "qu open") => anew == "qu permitted",
        ("pl ", _) => anew.starts_with("li "),
        (letters @ ("tg " | "st " | "li " | "wd " | "pv "), _) => anew.starts_with(letters),
        _ => anew == answer,
    }
}

/// Changes have the same nets; a query is permitted only where it was so.
fn fits_left_out(answer: &str, anew: &str) -> bool {
    match answer.split_at(3) {
        ("pl ", _) => anew.starts_with("qu "),
        ("qu ", "open") => anew == "qu not permitted",
        ("cf ", nets) => anew.strip_prefix("li ") == Some(nets),
        _ => anew == answer,
    }
}

impl Rewritten {
    fn fault(&self, program: &Program, printed: &str, fits: Fits) -> Option<String> {
        let again = match program.listing(&self.journal) {
            Ok(again) => again,
            Err(error) => return Some(error),
        };
        let (before, after) = (answers(printed), answers(&again));
        if after.len() != self.places.len() {
            return Some(format!("{} records are answered, not {}", after.len(), self.places.len()));
        }
        let differ = |&(&place, anew): &(&usize, &&str)| !fits(before[place], anew);
        let (place, anew) = self.places.iter().zip(&after).find(differ)?;
        Some(format!("record {place} (from 0): {:?}, and {anew:?} without", before[*place]))
    }
}
