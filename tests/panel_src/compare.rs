//! Panels beside the other evaluator, and those that documents 01 and 02 tell.
//! Where a right is open its bit is 0. A preview of a withdrawal shows in no
//! panel.

use crate::boundary::{panel, Panel};
use crate::families;
use crate::judged::Judged;
use crate::parallel;
use crate::write;
use reference::listing::{replay, Answer, Book, LONGEST_JOURNAL};
use reference::reader::{frames, Record};
use reference::sorts::{Claim, Conclusion, PACKS, PRINCIPALS};

/// Principals above 15 that are asked about too.
const ABOVE: [u8; 5] = [16, 17, 31, 128, 255];
/// Every so many of the generated journals is taken.
const STRIDE: usize = 4;

/// Journals of every family, and one that is too long.
pub fn generated(seed: u64) -> Vec<Vec<u8>> {
    let cases = families::cases(seed);
    let mut journals: Vec<Vec<u8>> = cases.into_iter().step_by(STRIDE).map(|c| c.journal).collect();
    journals.push(vec![b't'; LONGEST_JOURNAL + 1]);
    journals
}

/// Compares the panels of all principals.
pub fn run(journals: &[Vec<u8>]) -> Judged {
    let judged = parallel::map(journals, |journal| judge(journal, &expected(journal)));
    let without = parallel::map(journals, |journal| judge_without_previews(journal));
    let written = document01().into_iter().chain(provisional_licences()).chain(previews());
    let total = Judged::all(judged.into_iter().chain(without).chain(written));
    let open: usize = parallel::map(journals, |journal| open_rights(journal)).iter().sum();
    let (count, bits) = (journals.len(), total.ones);
    println!("panels of {count} journals: {bits} rights over packs permitted, {open} open");
    total
}

/// One case for each principal.
fn judge(journal: &[u8], expected: &[(u8, Panel)]) -> Judged {
    let mut judged = Judged::default();
    for &(principal, panel_expected) in expected {
        let found = panel(journal, principal);
        judged.ones += (found.run.count_ones() + found.export.count_ones()) as usize;
        judged.case((found != panel_expected).then(|| {
            format!(
                "principal {principal}, journal {journal:02x?}: {found:x?}, not {panel_expected:x?}"
            )
        }));
    }
    judged
}

/// The panels of a journal with previews beside those of the same without them,
/// through the library alone.
fn judge_without_previews(journal: &[u8]) -> Judged {
    match without_previews(journal) {
        Some(shorter) => {
            let panels = (0..PRINCIPALS).map(|principal| (principal, panel(&shorter, principal)));
            judge(journal, &panels.collect::<Vec<_>>())
        }
        None => Judged::default(),
    }
}

/// The journal without its previews, if it has any and can be read.
fn without_previews(journal: &[u8]) -> Option<Vec<u8>> {
    if journal.len() > LONGEST_JOURNAL {
        return None;
    }
    let (mut shorter, mut end) = (Vec::new(), 0);
    for (start, frame) in frames(journal) {
        end = start + frame.length();
        if !matches!(frame.record(), Ok(Record::PreviewWithdrawal(..))) {
            shorter.extend(&journal[start..end]);
        }
    }
    shorter.extend(&journal[end..]);
    (shorter.len() < journal.len()).then_some(shorter)
}

fn refused(refusal: u8) -> Panel {
    Panel { refusal, run: 0, export: 0 }
}

/// The panels by the other evaluator's answers.
fn expected(journal: &[u8]) -> Vec<(u8, Panel)> {
    let principals = (0..PRINCIPALS).chain(ABOVE);
    if journal.len() > LONGEST_JOURNAL {
        return principals.map(|principal| (principal, refused(8))).collect();
    }
    let mut book = replay(journal, |_, _, _| {});
    let mut of = |principal: u8| match principal < PRINCIPALS {
        true => Panel {
            refusal: 0,
            run: word(&mut book, principal, Claim::Run),
            export: word(&mut book, principal, Claim::Export),
        },
        false => refused(3),
    };
    principals.map(|principal| (principal, of(principal))).collect()
}

/// Bit n is 1 where the right over pack n is permitted.
fn word(book: &mut Book, principal: u8, claim: fn(u8) -> Claim) -> u32 {
    let answers = (0..PACKS).map(|n| (n, book.answer(Conclusion { principal, claim: claim(n) })));
    answers.filter(|(_, answer)| *answer == Answer::Permitted).map(|(n, _)| 1 << n).sum()
}

/// How many rights over packs are open at the end of a journal.
fn open_rights(journal: &[u8]) -> usize {
    if journal.len() > LONGEST_JOURNAL {
        return 0;
    }
    let mut book = replay(journal, |_, _, _| {});
    let mut open = 0;
    for principal in 0..PRINCIPALS {
        for claim in (0..PACKS).flat_map(|n| [Claim::Run(n), Claim::Export(n)]) {
            open += usize::from(book.answer(Conclusion { principal, claim }) == Answer::Open);
        }
    }
    open
}

/// Answers written out from document 01: P10, "for all packs k, Perm(5, run,
/// k). Run of pack 31 permitted, export not"; and export of one pack.
fn document01() -> Vec<Judged> {
    let shown = |run, export| Panel { refusal: 0, run, export };
    let p10 = [0x74, 0x67, 0x00, 0x06, 0x00, 0x02, 0x00, 0x02, 0x05, 0x80];
    let export_of_pack_7 = [0x74, 0x67, 0x00, 0x06, 0x00, 0x00, 0x00, 0x03, 0x0F, 0x07];
    vec![
        judge(&p10, &[(5, shown(0xFFFF_FFFF, 0)), (4, shown(0, 0)), (16, refused(3))]),
        judge(&export_of_pack_7, &[(15, shown(0, 1 << 7)), (7, shown(0, 0))]),
        judge(&[], &[(0, shown(0, 0)), (16, refused(3))]),
    ]
}

/// Answers written out from document 02, 5: trust in 1 to issue "3 may run any
/// pack", which 1 enters as provisional and then confirms; pack 4 is trusted,
/// so the provisional licence adds nothing there.
fn provisional_licences() -> Vec<Judged> {
    let shown = |run, export| Panel { refusal: 0, run, export };
    let any_pack = plain_over_packs(&write::run(3, write::ANY_PACK));
    let trusted = write::trust(&write::plain(&write::issue(1, &any_pack)));
    let pack_4 = write::trust(&write::plain(&write::run(3, 4)));
    let entered = [trusted, pack_4, write::provisional(1, &any_pack)].concat();
    let confirmed = [entered.clone(), write::confirm(1, &any_pack)].concat();
    let issued = [entered.clone(), write::licence(1, &any_pack)].concat();
    let withdrawn = [confirmed.clone(), write::withdraw(1, &any_pack)].concat();
    vec![
        judge(&entered, &[(3, shown(1 << 4, 0)), (1, shown(0, 0)), (16, refused(3))]),
        judge(&confirmed, &[(3, shown(0xFFFF_FFFF, 0)), (1, shown(0, 0))]),
        judge(&issued, &[(3, shown(0xFFFF_FFFF, 0))]),
        judge(&withdrawn, &[(3, shown(1 << 4, 0))]),
    ]
}

/// Answers written out from document 02, 6: what would fall still stands, of a
/// firm licence and of a provisional one; and after the withdrawal it is gone.
fn previews() -> Vec<Judged> {
    let shown = |run, export| Panel { refusal: 0, run, export };
    let any_pack = plain_over_packs(&write::run(3, write::ANY_PACK));
    let pack_4 = write::plain(&write::export(3, 4));
    let trusted = write::trust(&write::may_issue_all(1));
    let entered = [trusted, write::licence(1, &any_pack), write::provisional(1, &pack_4)].concat();
    let seen = [write::preview(1, &any_pack), write::preview(1, &pack_4)].concat();
    let previewed = [entered, seen.clone(), write::preview(2, &pack_4)].concat();
    let confirmed = [previewed.clone(), write::confirm(1, &pack_4), seen.clone()].concat();
    let withdrawn = [confirmed.clone(), write::withdraw(1, &any_pack), seen].concat();
    vec![
        judge(&previewed, &[(3, shown(0xFFFF_FFFF, 0)), (1, shown(0, 0)), (16, refused(3))]),
        judge(&confirmed, &[(3, shown(0xFFFF_FFFF, 1 << 4))]),
        judge(&withdrawn, &[(3, shown(0, 1 << 4))]),
    ]
}

fn plain_over_packs(conclusion: &[u8]) -> Vec<u8> {
    write::for_all(0, write::OVER_PACKS, &[], conclusion)
}
