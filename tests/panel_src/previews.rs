//! The preview buffer that a journal leaves, byte by byte beside the other
//! evaluator. Each byte is 0 at the start. An accepted preview makes the buffer
//! the firm marks of that evaluator's lists with the licence withdrawn; every
//! other record and every refusal leave it.

use crate::boundary::{preview, Preview};
use crate::families;
use crate::judged::Judged;
use crate::parallel;
use crate::write::{self, Bytes};
use reference::bottom_up::standing_statements;
use reference::grant::Grant;
use reference::listing::{replay, Book, LONGEST_JOURNAL};
use reference::machine::Machine;
use reference::reader::{frames, Record};
use reference::sorts::{Marks, Statement, STATEMENTS};

/// So many buffers at least have to be neither all 0 nor one of the two buffers
/// of marks, or too little is compared.
const LEAST_APART: usize = 1_000;
/// So many bytes of a journal are shown with a fault.
const SHOWN_BYTES: usize = 400;

/// The generated journals that have a preview, and those of the greatest length.
pub fn generated(seed: u64) -> Vec<Bytes> {
    let mut journals: Vec<Bytes> = families::cases(seed).into_iter().map(|c| c.journal).collect();
    journals.retain(|journal| has_preview(journal));
    journals.extend(longest());
    journals
}

fn has_preview(journal: &[u8]) -> bool {
    let is_preview = |record| matches!(record, Ok(Record::PreviewWithdrawal(..)));
    frames(journal).any(|(_, frame)| is_preview(frame.record()))
}

/// Journals of 65,536 bytes with a preview among the first records and as the
/// last one, and each with a byte more.
fn longest() -> Vec<Bytes> {
    let right = write::plain(&write::run(3, 7));
    let entered = [write::trust(&write::may_issue_all(1)), write::licence(1, &right)].concat();
    let seen = write::preview(1, &right);
    let rest = filling(LONGEST_JOURNAL - entered.len() - seen.len());
    let first = [&entered[..], &seen, &rest].concat();
    let last = [&entered[..], &rest, &seen].concat();
    let more = |journal: &[u8], byte: u8| [journal, &[byte]].concat();
    vec![more(&first, b'q'), more(&last, 0), first, last]
}

/// So many bytes of records that enter and remove nothing: queries of 7 bytes,
/// and of 10 bytes the strike of what is not trusted.
fn filling(length: usize) -> Bytes {
    let asks = write::query(&write::run(3, 7));
    let strikes = write::strike(&write::plain(&write::run(0, 0)));
    let fits = |queries: &usize| (length - asks.len() * queries) % strikes.len() == 0;
    let queries = (0..strikes.len()).find(fits).expect("7 and 10 have no common divisor");
    let left = (length - asks.len() * queries) / strikes.len();
    [asks.repeat(queries), strikes.repeat(left)].concat()
}

/// Compares the buffers that the journals leave, whole and cut before and behind
/// each preview.
pub fn run(journals: &[Bytes]) -> Judged {
    let compared = parallel::map(journals, |journal| compare(journal));
    let accepted: usize = compared.iter().map(|one| one.accepted).sum();
    let apart: usize = compared.iter().map(|one| one.apart).sum();
    let judged = compared.into_iter().map(|one| one.judged);
    let mut total = Judged::all(judged.chain([written()]));
    total.case((apart < LEAST_APART).then(|| format!("only {apart} buffers show a preview")));
    let (count, ones) = (journals.len(), total.ones);
    println!("preview buffers of {count} journals: {accepted} previews accepted,");
    println!("{apart} buffers neither 0 nor the marks of either buffer, {ones} bytes 1");
    total
}

/// Of one journal: its cases, how many of its previews are accepted, and how
/// many of these leave marks that are apart from the others.
#[derive(Default)]
struct Compared {
    judged: Judged,
    accepted: usize,
    apart: usize,
}

fn compare(journal: &[u8]) -> Compared {
    let mut compared = Compared::default();
    let mut held = Preview { refusal: 0, bytes: vec![0; STATEMENTS] };
    if journal.len() > LONGEST_JOURNAL {
        judge(&mut compared.judged, journal, &Preview { refusal: 8, ..held });
        return compared;
    }
    replay(journal, |entry, record, book| {
        let Some(Record::PreviewWithdrawal(issuer, grant)) = record else { return };
        judge(&mut compared.judged, &journal[..entry.start], &held);
        if let Some(marks) = with_withdrawn(&book.machine, *issuer, grant) {
            held.bytes = bytes_of(&marks);
            compared.accepted += 1;
            compared.apart += usize::from(is_apart(&marks, book));
        }
        judge(&mut compared.judged, &journal[..entry.start + entry.length], &held);
    });
    judge(&mut compared.judged, journal, &held);
    compared
}

/// The firm marks that a withdrawal would leave, unless it is refused.
fn with_withdrawn(machine: &Machine, issuer: u8, grant: &Grant) -> Option<Marks> {
    let mut copy = machine.clone();
    copy.feed(&Record::WithdrawLicence(issuer, grant.clone())).ok()?;
    Some(standing_statements(&copy))
}

/// Whether marks are neither none nor those that stand, with the firm licences
/// or with all.
fn is_apart(marks: &Marks, book: &Book) -> bool {
    let others = [Marks::none(), book.marks.clone()];
    !others.contains(marks) && *marks != standing_statements(&book.machine.all_firm())
}

fn bytes_of(marks: &Marks) -> Vec<u8> {
    let stands = |number| u8::from(marks.has(Statement::from_number(number)));
    (0..STATEMENTS).map(stands).collect()
}

/// One case: the number that is returned, and each byte.
fn judge(judged: &mut Judged, journal: &[u8], expected: &Preview) {
    let found = preview(journal);
    judged.ones += found.bytes.iter().filter(|&&byte| byte == 1).count();
    judged.case((found != *expected).then(|| fault(journal, &found, expected)));
}

fn fault(journal: &[u8], found: &Preview, expected: &Preview) -> String {
    let differs = |&number: &usize| found.bytes[number] != expected.bytes[number];
    let places: Vec<usize> = (0..STATEMENTS).filter(differs).collect();
    let (length, count, first) = (journal.len(), places.len(), places.first());
    let shown = write::to_hex(&journal[..length.min(SHOWN_BYTES)]);
    let (returned, due) = (found.refusal, expected.refusal);
    format!(
        "preview buffer of {length} bytes, {shown}: {returned} returned, {due} due; \
         {count} of its bytes are wrong, the first {first:?}"
    )
}

/// Answers written out from document 02, 6. 1 may issue every grant, which is
/// bytes 160 to 223, and issues run(3, 7), byte 519, and export(3, 4), byte 548;
/// that 1 said so is bytes 5,127 and 5,156. run(3, 8) awaits its signature.
fn written() -> Judged {
    let right = write::plain(&write::run(3, 7));
    let other = write::plain(&write::export(3, 4));
    let other_licence = [&[1], other.as_slice()].concat();
    let awaited = write::plain(&write::run(3, 8));
    let trusted = write::may_issue_all(1);
    let firm = [write::licence(1, &right), write::licence(1, &other)].concat();
    let entered = [write::trust(&trusted), firm, write::provisional(1, &awaited)].concat();
    let seen = [entered.clone(), write::preview(1, &right)].concat();
    let mut judged = Judged::default();
    let nothing = Preview { refusal: 0, bytes: vec![0; STATEMENTS] };
    judge(&mut judged, &[], &nothing);
    judge(&mut judged, &entered, &nothing);
    let mut after = |more: &[u8], ones: &[usize]| {
        judge(&mut judged, &[&seen, more].concat(), &with_rights(ones));
    };
    after(&[], &[548, 5_156]);
    after(&write::withdraw(1, &right), &[548, 5_156]);
    after(&write::withdraw(1, &other), &[548, 5_156]);
    after(&write::strike(&trusted), &[548, 5_156]);
    after(&write::confirm(1, &awaited), &[548, 5_156]);
    after(&write::query(&write::run(3, 7)), &[548, 5_156]);
    after(&write::preview(2, &right), &[548, 5_156]);
    after(b"pv", &[548, 5_156]);
    let cut = write::record(b"pv", &other_licence[..other_licence.len() - 1]);
    let long = write::record(b"pv", &[&other_licence[..], &[0]].concat());
    let damaged = [cut, long, write::record(b"pv", &[0x10]), write::record(b"pv", &[])].concat();
    after(&damaged, &[548, 5_156]);
    after(&[damaged.clone(), write::preview(1, &other)].concat(), &[519, 5_127]);
    after(&[b"PV", &write::preview(1, &other)[2..]].concat(), &[548, 5_156]);
    after(&write::preview(1, &other), &[519, 5_127]);
    after(&write::preview(1, &awaited), &[519, 548, 5_127, 5_156]);
    judged
}

/// The buffer in which 1 may issue every grant, and these bytes are 1 too.
fn with_rights(ones: &[usize]) -> Preview {
    let mut bytes = vec![0; STATEMENTS];
    bytes[160..=223].fill(1);
    ones.iter().for_each(|&place| bytes[place] = 1);
    Preview { refusal: 0, bytes }
}
