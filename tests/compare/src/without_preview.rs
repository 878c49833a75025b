//! A journal with previews beside the same journal without them, and beside the
//! journal up to one of them with the withdrawal in its place.

use crate::checks::{take_out, Check};
use crate::program::Program;
use crate::properties::{answers, marks_printed};
use crate::random::Random;
use crate::write::Bytes;
use reference::reader::{frames, Record};

pub const TAKEN_OUT: &str = "property: previews change no other answer";
pub const WITHDRAWN: &str = "property: a preview and the withdrawal in its place";

/// So many previews of a journal are tried as withdrawals.
const MOST_WITHDRAWN: usize = 2;

/// A preview: its place among the records and its bytes in the journal.
struct Preview {
    place: usize,
    start: usize,
    end: usize,
}

/// Judges the answers that the program printed for a journal by what it prints
/// for the others. Without a preview there is nothing to judge.
pub fn checks(program: &Program, journal: &[u8], printed: &str, random: &mut Random) -> Vec<Check> {
    let mut previews = previews(journal);
    if previews.is_empty() {
        return Vec::new();
    }
    let places: Vec<usize> = previews.iter().map(|preview| preview.place).collect();
    let fault = taken_out(program, journal, printed, &places).err();
    let mut checks = vec![Check { group: TAKEN_OUT, fault }];
    random.shuffle(&mut previews);
    for preview in previews.iter().take(MOST_WITHDRAWN) {
        let fault = withdrawn(program, journal, printed, preview).err();
        checks.push(Check { group: WITHDRAWN, fault });
    }
    checks
}

fn previews(journal: &[u8]) -> Vec<Preview> {
    let mut found = Vec::new();
    for (place, (start, frame)) in frames(journal).enumerate() {
        if let Ok(Record::PreviewWithdrawal(..)) = frame.record() {
            found.push(Preview { place, start, end: start + frame.length() });
        }
    }
    found
}

/// Without the previews the other records have the answers they had, and as
/// many marks stand.
fn taken_out(
    program: &Program,
    journal: &[u8],
    printed: &str,
    places: &[usize],
) -> Result<(), String> {
    let again = program.listing(&take_out(journal, places))?;
    let others = answers(printed).into_iter().enumerate();
    let kept: Vec<&str> =
        others.filter(|(place, _)| !places.contains(place)).map(|(_, answer)| answer).collect();
    if answers(&again) != kept {
        return Err(format!("answers change without the previews {places:?} (from 0)"));
    }
    match (marks_printed(printed)?, marks_printed(&again)?) {
        (with, without) if with == without => Ok(()),
        (with, without) => Err(format!("{with} marks, and {without} without the previews")),
    }
}

/// The withdrawal in the preview's place has its answer, but for the letters.
fn withdrawn(
    program: &Program,
    journal: &[u8],
    printed: &str,
    preview: &Preview,
) -> Result<(), String> {
    let &Preview { place, start, end } = preview;
    let copy: Bytes = [&journal[..start], b"wd", &journal[start + 2..end]].concat();
    let again = program.listing(&copy)?;
    let seen = answers(printed).get(place).map(|answer| answer.replace("pv ", "wd "));
    match (seen, answers(&again).get(place)) {
        (Some(seen), Some(&found)) if seen == found => Ok(()),
        (seen, found) => Err(format!("record {place} (from 0): {seen:?}, withdrawn {found:?}")),
    }
}
