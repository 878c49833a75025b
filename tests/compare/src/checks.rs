//! The checks of one case against the program.

use crate::case::{Case, Expected};
use crate::program::Program;
use crate::properties::{answers, marks_printed, sums_and_signs};
use crate::random::Random;
use crate::without_preview;
use crate::without_provisional;
use crate::write::Bytes;
use reference::listing::{Listing, LONGEST_JOURNAL};
use reference::reader::frames;

pub const SUMS_AND_SIGNS: &str = "property: sums and signs of the nets, of truths and of sayings";
pub const REFUSED_REMOVED: &str = "property: later answers without a refused record";
pub const REFERENCE_WRITTEN: &str = "the reference against the written answers";

/// The result of one check, with what went wrong.
pub struct Check {
    pub group: &'static str,
    pub fault: Option<String>,
}

/// Runs the program on the case's journal and judges what it prints, beside
/// the reference's listing of that journal.
pub fn check(program: &Program, case: &Case, reference: &Listing, seed: u64) -> Vec<Check> {
    let mut checks = Vec::new();
    if let Expected::Written(text) = &case.expected {
        let fault = difference(text, &reference.text);
        checks.push(Check { group: REFERENCE_WRITTEN, fault });
    }
    let printed = match program.listing(&case.journal) {
        Ok(printed) => printed,
        Err(error) => {
            checks.push(Check { group: case.group, fault: Some(error) });
            return checks;
        }
    };
    let fault = difference(case.expected_listing(reference), &printed);
    checks.push(Check { group: case.group, fault });
    if case.journal.len() <= LONGEST_JOURNAL {
        let fault = sums_and_signs(&printed, reference.standing).err();
        checks.push(Check { group: SUMS_AND_SIGNS, fault });
        checks.extend(without_refused(program, case, &printed, seed));
        checks.extend(without_provisional::checks(program, &case.journal, &printed));
        let mut random = Random::new(seed, &case.name);
        checks.extend(without_preview::checks(program, &case.journal, &printed, &mut random));
    }
    checks
}

/// The first line in which two listings differ.
pub fn difference(expected: &str, printed: &str) -> Option<String> {
    if expected == printed {
        return None;
    }
    let mut wanted = expected.split_inclusive('\n');
    let mut found = printed.split_inclusive('\n');
    loop {
        match (wanted.next(), found.next()) {
            (Some(want), Some(have)) if want == have => {}
            (None, None) => return None,
            (want, have) => {
                let (want, have) = (want.unwrap_or(""), have.unwrap_or(""));
                return Some(format!("expected {want:?}, printed {have:?}"));
            }
        }
    }
}

/// Takes some or all of the records that the program refused, other than with 1
/// or 2, out of the journal; the other records must have the answers they had,
/// and as many marks stand.
fn without_refused(program: &Program, case: &Case, printed: &str, seed: u64) -> Option<Check> {
    let answered = answers(printed);
    let removed = some_refused(&answered, &mut Random::new(seed, &case.name))?;
    let shorter = take_out(&case.journal, &removed);
    let places = answered.into_iter().enumerate();
    let kept: Vec<&str> =
        places.filter(|(place, _)| !removed.contains(place)).map(|(_, answer)| answer).collect();
    let fault = match program.listing(&shorter) {
        Ok(again) if answers(&again) != kept => {
            Some(format!("answers change without the records {removed:?} (from 0)"))
        }
        Ok(again) if marks_printed(&again) != marks_printed(printed) => {
            Some(format!("marks change without the records {removed:?} (from 0)"))
        }
        Ok(_) => None,
        Err(error) => Some(error),
    };
    Some(Check { group: REFUSED_REMOVED, fault })
}

/// The places of one or more answers that are refusals after which the reading
/// goes on, if there are any.
fn some_refused(answered: &[&str], random: &mut Random) -> Option<Vec<usize>> {
    let is_refused = |place: &usize| reads_on(answered[*place]);
    let refused: Vec<usize> = (0..answered.len()).filter(is_refused).collect();
    if refused.is_empty() {
        return None;
    }
    let always = *random.choose(&refused);
    let share = *random.choose(&[50, 100]);
    Some(refused.into_iter().filter(|&place| place == always || random.percent(share)).collect())
}

/// Whether an answer is a refusal after which the next record is read.
pub fn reads_on(answer: &str) -> bool {
    answer.starts_with("refused ") && !matches!(answer, "refused 1" | "refused 2")
}

/// The journal without the records at the given places. What ends the reading
/// is kept as it is, with all that follows.
pub fn take_out(journal: &[u8], places: &[usize]) -> Bytes {
    let (mut shorter, mut end) = (Vec::new(), 0);
    for (place, (start, frame)) in frames(journal).enumerate() {
        end = start + frame.length();
        if !places.contains(&place) {
            shorter.extend(&journal[start..end]);
        }
    }
    shorter.extend(&journal[end..]);
    shorter
}
