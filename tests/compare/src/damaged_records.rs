//! The example journals with one byte of one record changed. Document 02, 7:
//! where the damaged record is refused other than with 1 or 2, the records
//! after it are answered as in the journal without it, apart from their numbers.

use crate::case::Case;
use crate::checks::{difference, reads_on, take_out, Check};
use crate::program::Program;
use crate::properties::{answers, marks_printed};
use crate::random::Random;
use crate::write::{hex, Bytes, CONTENT};
use reference::listing::listing;
use reference::reader::frames;
use std::path::Path;

const COMPARED: &str = "example journals with a byte changed: the reference";
const WITHOUT: &str = "example journals with a byte changed: the journal without that record";

/// Of a journal at most so many records are damaged, the last ones.
const MOST_RECORDS: usize = 20;

/// One record of a journal, whose bytes are changed in turn.
pub struct Target {
    pub case: Case,
    place: usize,
    start: usize,
    length: usize,
}

/// The records of the journals `*.hex` of a folder.
pub fn targets(folder: &Path) -> Result<Vec<Target>, String> {
    let told = |error: std::io::Error| format!("{}: {error}", folder.display());
    let mut paths = Vec::new();
    for entry in std::fs::read_dir(folder).map_err(told)? {
        paths.push(entry.map_err(told)?.path());
    }
    paths.retain(|path| path.extension().is_some_and(|ending| ending == "hex"));
    paths.sort();
    let mut targets = Vec::new();
    for path in paths {
        let text = std::fs::read_to_string(&path).map_err(told)?;
        let name = path.file_name().unwrap_or_default().to_string_lossy();
        targets.extend(records(&name, &journal(&text)));
    }
    match targets.is_empty() {
        true => Err(format!("{}: no journals", folder.display())),
        false => Ok(targets),
    }
}

/// The bytes of a journal in hexadecimal, with comments.
fn journal(text: &str) -> Bytes {
    let without_comment = |line: &str| line.split('#').next().unwrap_or("").to_string();
    hex(&text.lines().map(without_comment).collect::<Vec<_>>().join("\n"))
}

fn records(name: &str, journal: &[u8]) -> Vec<Target> {
    let found = frames(journal).enumerate();
    let mut targets: Vec<Target> = found
        .map(|(place, (start, frame))| Target {
            case: Case::compared(COMPARED, format!("{name}, record {place}"), journal.to_vec()),
            place,
            start,
            length: frame.length(),
        })
        .collect();
    targets.drain(..targets.len().saturating_sub(MOST_RECORDS));
    targets
}

/// Changes each byte of the record to several others.
pub fn compare(program: &Program, target: &Target, seed: u64) -> Vec<Check> {
    let mut random = Random::new(seed, &target.case.name);
    let whole = &target.case.journal;
    let without = program.listing(&take_out(whole, &[target.place]));
    let mut checks = Vec::new();
    for offset in 0..target.length {
        let at = target.start + offset;
        for other in others(whole[at], offset, &mut random) {
            let mut damaged = whole.clone();
            damaged[at] = other;
            let found = one(program, target.place, &damaged, offset, &without);
            let told = |fault| format!("byte {at} as {other:02X}: {fault}");
            checks.extend(found.into_iter().map(|(group, fault)| Check {
                group,
                fault: fault.map(told),
            }));
        }
    }
    checks
}

/// Other values for a byte: of the letters near ones and capitals, of the length
/// near ones and the ends, of the content a near one, one that no list has, and
/// one that some list has.
fn others(byte: u8, offset: usize, random: &mut Random) -> Vec<u8> {
    const LIKELY: [u8; 13] = [0, 1, 2, 3, 4, 5, 0x0F, 0x10, 0x1F, 0x20, 0x80, 0x81, 0x82];
    let mut values = match offset {
        0 | 1 => vec![byte ^ 0x20, byte.wrapping_add(1), *random.choose(b"tgsliwdpvcfqu")],
        2 | 3 => vec![0, byte.wrapping_sub(1), byte.wrapping_add(1), 0xFF],
        _ => vec![byte.wrapping_add(1), 0xFF, *random.choose(&LIKELY)],
    };
    values.retain(|&value| value != byte);
    values.dedup();
    values
}

type Found = (&'static str, Option<String>);

/// The checks of one damaged journal. Where the length is damaged, another part
/// of the journal is left out than `without` leaves out.
fn one(
    program: &Program,
    place: usize,
    damaged: &[u8],
    offset: usize,
    without: &Result<String, String>,
) -> Vec<Found> {
    let printed = match program.listing(damaged) {
        Ok(printed) => printed,
        Err(error) => return vec![(COMPARED, Some(error))],
    };
    let mut found = vec![(COMPARED, difference(&listing(damaged).text, &printed))];
    if answers(&printed).get(place).is_some_and(|answer| reads_on(answer)) {
        let again = match (2..CONTENT).contains(&offset) {
            true => program.listing(&take_out(damaged, &[place])),
            false => without.clone(),
        };
        let fault = again.and_then(|again| same_answers(&printed, place, &again)).err();
        found.push((WITHOUT, fault));
    }
    found
}

/// A listing has the answers of another, but for one at a place, and its marks.
fn same_answers(printed: &str, place: usize, without: &str) -> Result<(), String> {
    let mut kept = answers(printed);
    let refused = kept.remove(place);
    if kept != answers(without) {
        return Err(format!("{refused}, and other answers than without the record"));
    }
    match (marks_printed(printed)?, marks_printed(without)?) {
        (with, without) if with == without => Ok(()),
        (with, without) => Err(format!("{with} marks, and {without} without the record")),
    }
}
