//! The examples of document 01, with its answers written out; a change shows
//! two nets, as document 02, 1 has it, and records have lower-case letters and
//! state their length, as document 02, 7 has it.

use crate::case::Case;
use crate::write::*;

const SMART: u8 = 0;
const ATTRACTIVE: u8 = 1;
const GOOD: u8 = 2;
const GREAT: u8 = 3;
const TRUSTED: u8 = 4;

pub fn cases() -> Vec<Case> {
    let mut cases = listing_examples();
    cases.extend(refusal_examples());
    cases.extend(fault_order());
    cases.extend(accepted_records());
    cases.extend(p1_to_p10());
    cases
}

fn listing_examples() -> Vec<Case> {
    const GROUP: &str = "document 01: what the listing program prints";
    let example = hex("74 67 00 06 00 00 00 00 00 02  6C 69 00 07 00 00 00 00 00 02 02 \
         71 75 00 03 00 02 02  74 67 00 0C 00 00 00 01 00 00 00 00 00 00 02 02 \
         71 75 00 03 00 02 02 \
         77 64 00 07 00 00 00 00 00 02 02  77 64 00 07 00 00 00 00 00 02 02");
    let lines = [
        "1 tg +1 +0",
        "2 li +0 +1",
        "3 qu not permitted",
        "4 tg +2 +0",
        "5 qu permitted",
        "6 wd -1 -1",
        "7 refused 7",
        "end 7 marks 2",
    ];
    let twice = hex("74 67 00 06 00 00 00 00 00 02 74 67 00 06 00 00 00 00 00 02");
    vec![
        Case::written(GROUP, "the example journal", &[example], &lines),
        Case::written(GROUP, "an empty journal", &[], &["end 0 marks 0"]),
        Case::written(
            GROUP,
            "nets of zero",
            &[twice],
            &["1 tg +1 +0", "2 tg +0 +0", "end 2 marks 1"],
        ),
    ]
}

/// The table of refusals. Refusal 9 is for a lent book and cannot be reached
/// through a journal.
fn refusal_examples() -> Vec<Case> {
    const GROUP: &str = "document 01: examples of the refusal table";
    let first = |name: &str, bytes: &str, number: u8| {
        let line = format!("1 refused {number}");
        Case::written(GROUP, name, &[hex(bytes)], &[line.as_str(), "end 1 marks 0"])
    };
    let inner = "00 00 00 01 00 00 ".repeat(4);
    vec![
        first("1: a byte is missing", "74", 1),
        first("2: none of the marks", "41 41", 2),
        first("3: outside its range", "74 67 00 01 03", 3),
        first("4: an undeclared variable", "74 67 00 06 00 00 00 00 05 80", 4),
        first("5: a grant at depth 5", &format!("74 67 00 18 {inner}"), 5),
        sixty_fifth_grant(GROUP),
        first("7: nothing to withdraw", "77 64 00 07 00 00 00 00 00 02 02", 7),
        Case::written(GROUP, "8: 65,537 bytes", &[vec![0; 65_537]], &["refused 8"]),
    ]
}

/// Refusal 6: 64 grants that each set one mark, then one more.
fn sixty_fifth_grant(group: &'static str) -> Case {
    let grants = (0..65u8).map(|i| plain(&property(i % 16, i / 16)));
    let records: Vec<Bytes> = grants.map(|grant| trust(&grant)).collect();
    let mut answers = vec!["tg +1 +0".to_string(); 64];
    answers.push("refused 6".to_string());
    Case::answers(group, "6: tg of a 65th grant", &records, &answers, 64)
}

/// The first fault from left to right decides, in every place of a record.
fn fault_order() -> Vec<Case> {
    const GROUP: &str = "document 01: ranges and order of faults";
    let table: &[(&str, u8)] = &[
        // the two mark bytes
        ("00", 1),
        ("75", 1),
        ("74 00", 2),
        ("74 47", 2),
        ("54 47", 2),
        ("67 74", 2),
        ("00 00 00", 2),
        ("71 67", 2),
        // the two bytes of the length, then the length against the input
        ("74 67", 1),
        ("74 67 00", 1),
        ("74 67 00 01", 1),
        ("74 67 00 06 00 00 00 00 00", 1),
        ("74 67 01 00 03", 1),
        ("74 67 FF FF 03", 1),
        ("41 41 00", 2),
        ("41 41 FF FF", 2),
        // issuer: 00 to 0F only
        ("6C 69 []", 10),
        ("6C 69 [10]", 3),
        ("6C 69 [80]", 3),
        ("6C 69 [81 03]", 3),
        ("77 64 [10 00 00 00 00 00 00]", 3),
        ("77 64 [0F]", 10),
        // the three counts at the head of a grant
        ("74 67 []", 10),
        ("73 74 [03 00]", 3),
        ("74 67 [00 03]", 3),
        ("74 67 [00 80]", 3),
        ("74 67 [02 02]", 10),
        ("74 67 [00 00 05]", 3),
        ("74 67 [02 01 04]", 10),
        ("74 67 [03 03 05]", 3),
        // principals
        ("74 67 [00 00 01 10]", 3),
        ("74 67 [00 00 01 80]", 4),
        ("74 67 [01 00 01 81]", 4),
        ("74 67 [02 00 01 82]", 3),
        ("74 67 [02 00 01 7F]", 3),
        ("74 67 [02 00 01 81]", 10),
        ("74 67 [00 00 00 00 00 10]", 3),
        ("74 67 [01 00 00 00 00 81 FF]", 4),
        // kinds and properties
        ("74 67 [00 00 00 04]", 3),
        ("74 67 [00 00 00 80]", 3),
        ("74 67 [00 00 00 00 10 80]", 3),
        ("74 67 [00 00 00 00 80 80]", 3),
        // issue: 00 with a grant, or 01 for the grant variable
        ("74 67 [00 01 00 01 00 02]", 3),
        ("74 67 [00 01 00 01 00 80]", 3),
        ("74 67 [00 00 00 01 00 01]", 4),
        ("74 67 [00 02 00 01 00 01]", 4),
        ("74 67 [02 02 00 01 81 01]", 4),
        ("74 67 [00 01 00 01 80 01]", 4),
        ("74 67 [00 01 00 01 20 01]", 3),
        ("74 67 [00 01 00 01 00]", 10),
        // run and export: 00 to 1F, or 80 for the pack variable
        ("74 67 [00 02 00 02 00 20]", 3),
        ("74 67 [00 02 00 02 00 81]", 3),
        ("74 67 [00 02 00 03 00 7F]", 3),
        ("74 67 [00 00 00 02 00 80]", 4),
        ("74 67 [00 01 00 02 00 80]", 4),
        ("74 67 [02 01 00 03 81 80]", 4),
        ("74 67 [00 02 00 03 00]", 10),
        // an inner grant does not see the variables around it
        ("74 67 [01 00 00 01 80 00 00 00 00 00 00 80]", 4),
        ("74 67 [00 01 00 01 00 00 00 00 00 01 00 01]", 4),
        ("74 67 [00 02 00 01 00 00 00 00 00 02 00 80]", 4),
        ("74 67 [00 00 00 01 00 00 01 00 00 00 00 81]", 4),
        // depth 5, in conditions as in conclusions, before what follows it
        ("74 67 [00 00 00 01 00 00 00 00 00 01 00 00 00 00 00 01 00 00 00 00 00 01 00 00 FF]", 5),
        (
            "74 67 [00 00 01 00 01 00 00 00 00 01 00 01 00 00 00 00 01 00 \
             01 00 00 00 00 01 00 01 00 00]",
            5,
        ),
        ("74 67 [00 00 00 01 00 00 00 00 00 01 00 00 00 00 00 01 00 00 00 00 00 01 00 01]", 4),
        ("74 67 [00 00 00 01 00 00 00 00 00 01 00 00 00 00 00 01 00 00 00 00 00 01 00 02]", 3),
        ("74 67 [00 00 00 01 00 00 00 00 00 01 00 00 00 00 00 01 00 00 00 00 00 01 00]", 10),
        // queries: every variable is undeclared, an inner grant is at depth 1
        ("71 75 []", 10),
        ("71 75 [04]", 3),
        ("71 75 [00 10]", 3),
        ("71 75 [00 02 80]", 4),
        ("71 75 [00 02 81]", 4),
        ("71 75 [00 02 82]", 3),
        ("71 75 [01 00 01]", 4),
        ("71 75 [01 80 00]", 4),
        ("71 75 [01 00 02]", 3),
        ("71 75 [02 00 80]", 4),
        ("71 75 [03 00 80]", 4),
        ("71 75 [03 00 20]", 3),
        ("71 75 [02 10 80]", 3),
        (
            "71 75 [01 00 00 00 00 00 01 00 00 00 00 00 01 00 00 00 00 00 \
             01 00 00 00 00 00 01 00 00]",
            5,
        ),
        // removing what does not stand, on a fresh book
        ("73 74 [00 00 00 00 00 02]", 7),
        ("77 64 [0F 02 01 00 01 81 01]", 7),
    ];
    table.iter().map(|&(bytes, number)| first_of_two(GROUP, bytes, number)).collect()
}

/// A refused record and a query behind it, which is read unless the refusal is 1
/// or 2.
fn first_of_two(group: &'static str, bytes: &str, number: u8) -> Case {
    let refused = format!("1 refused {number}");
    match number {
        1 => Case::written(group, bytes, &[hex(bytes)], &[&refused, "end 1 marks 0"]),
        2 => {
            let records = [hex(bytes), query(&property(0, 0))];
            Case::written(group, bytes, &records, &[&refused, "end 1 marks 0"])
        }
        _ => {
            let records = [hex(bytes), query(&property(0, 0))];
            let lines = [&refused, "2 qu not permitted", "end 2 marks 0"];
            Case::written(group, bytes, &records, &lines)
        }
    }
}

/// Single records that are accepted, at the ends of the ranges.
fn accepted_records() -> Vec<Case> {
    const GROUP: &str = "document 01: accepted records at the ends of the ranges";
    let table: &[(&str, &str, usize)] = &[
        ("74 67 [00 00 00 00 0F 0F]", "tg +1 +0", 1),
        ("74 67 [01 00 00 00 00 80]", "tg +16 +0", 16),
        ("74 67 [02 00 00 00 00 81]", "tg +16 +0", 16),
        ("74 67 [02 02 00 00 00 00]", "tg +1 +0", 1),
        ("74 67 [00 01 00 01 00 01]", "tg +64 +0", 64),
        ("74 67 [01 01 00 01 80 01]", "tg +1024 +0", 1_024),
        ("74 67 [00 02 00 02 0F 80]", "tg +32 +0", 32),
        ("74 67 [02 02 00 03 81 80]", "tg +512 +0", 512),
        ("6C 69 [0F 00 00 00 03 0F 1F]", "li +0 +1", 1),
        ("6C 69 [0F 01 01 00 01 80 01]", "li +0 +1024", 1_024),
        ("6C 69 [00 01 00 01 80 00 00 80 00 00 80]", "li +0 +0", 0),
        ("71 75 [00 0F 0F]", "qu not permitted", 0),
        ("71 75 [03 0F 1F]", "qu not permitted", 0),
        ("71 75 [01 0F 00 02 01 00 01 81 01]", "qu not permitted", 0),
        // depth 4 in a grant and in a query
        (
            "74 67 [00 00 00 01 00 00 00 00 00 01 00 00 00 00 00 01 00 00 \
             00 00 00 00 00 00]",
            "tg +1 +0",
            1,
        ),
        (
            "71 75 [01 00 00 00 00 00 01 00 00 00 00 00 01 00 00 00 00 00 \
             01 00 00 00 00 00 00 00 00]",
            "qu not permitted",
            0,
        ),
    ];
    let case = |&(bytes, answer, marks): &(&str, &str, usize)| {
        Case::answers(GROUP, bytes, &[hex(bytes)], &[answer.to_string()], marks)
    };
    table.iter().map(case).collect()
}

/// P1 to P10.
fn p1_to_p10() -> Vec<Case> {
    const GROUP: &str = "document 01: P1 to P10";
    let smart = |p| plain(&property(SMART, p));
    let zero_said_smart = |p| said(0, &property(SMART, p));
    let attractive = when(&[zero_said_smart(2)], &property(ATTRACTIVE, 2));
    let good_if_great =
        for_all(1, NO_RESOURCE, &[said(0, &property(GREAT, X))], &property(GOOD, X));
    let great_if_good = when(&[said(0, &property(GOOD, 2))], &property(GREAT, 3));
    let smart_if_said_by = |q| when(&[said(q, &property(SMART, 2))], &property(SMART, 2));
    let good_if_smart = when(&[zero_said_smart(2)], &property(GOOD, 2));
    let both = [zero_said_smart(2), said(1, &property(GOOD, 2))];
    vec![
        Case::written(
            GROUP,
            "P1",
            &[
                licence(0, &smart(2)),
                licence(1, &attractive),
                trust(&plain(&issue(1, &attractive))),
                query(&property(ATTRACTIVE, 2)),
            ],
            &["1 li +0 +1", "2 li +0 +1", "3 tg +2 +0", "4 qu permitted", "end 4 marks 4"],
        ),
        Case::written(
            GROUP,
            "P2",
            &[licence(0, &smart(2)), licence(1, &attractive), query(&property(ATTRACTIVE, 2))],
            &["1 li +0 +1", "2 li +0 +1", "3 qu not permitted", "end 3 marks 2"],
        ),
        Case::written(
            GROUP,
            "P3",
            &[
                licence(0, &smart(0)),
                trust(&when(&[zero_said_smart(0)], &issue(0, &smart(0)))),
                query(&property(SMART, 0)),
            ],
            &["1 li +0 +1", "2 tg +2 +0", "3 qu permitted", "end 3 marks 3"],
        ),
        Case::written(
            GROUP,
            "P4",
            &[trust(&smart(0)), query(&property(SMART, 1))],
            &["1 tg +1 +0", "2 qu not permitted", "end 2 marks 1"],
        ),
        // 0 said Great(2), Good(2), Great(3), Good(3); then 64 rights and
        // those four as truths.
        Case::written(
            GROUP,
            "P5",
            &[
                licence(0, &good_if_great),
                licence(0, &great_if_good),
                licence(0, &plain(&property(GREAT, 2))),
                query(&property(GOOD, 3)),
                trust(&may_issue_all(0)),
                query(&property(GOOD, 3)),
            ],
            &[
                "1 li +0 +0",
                "2 li +0 +0",
                "3 li +0 +4",
                "4 qu not permitted",
                "5 tg +68 +0",
                "6 qu permitted",
                "end 6 marks 72",
            ],
        ),
        Case::written(
            GROUP,
            "P6, the circle alone",
            &[licence(0, &smart_if_said_by(1)), licence(1, &smart_if_said_by(0))],
            &["1 li +0 +0", "2 li +0 +0", "end 2 marks 0"],
        ),
        Case::written(
            GROUP,
            "P6, with a licence that feeds it",
            &[
                licence(0, &smart_if_said_by(1)),
                licence(1, &smart_if_said_by(0)),
                licence(1, &smart(2)),
            ],
            &["1 li +0 +0", "2 li +0 +0", "3 li +0 +2", "end 3 marks 2"],
        ),
        Case::written(
            GROUP,
            "P7",
            &[licence(0, &may_issue_all(0)), query(&issue(0, &may_issue_all(0)))],
            &["1 li +0 +64", "2 qu not permitted", "end 2 marks 64"],
        ),
        Case::written(
            GROUP,
            "P8",
            &[trust(&smart(2)), trust(&good_if_smart), query(&property(GOOD, 2))],
            &["1 tg +1 +0", "2 tg +0 +0", "3 qu not permitted", "end 3 marks 1"],
        ),
        Case::written(
            GROUP,
            "P9",
            &[
                licence(0, &smart(2)),
                licence(1, &good_if_smart),
                trust(&when(&both, &property(TRUSTED, 2))),
                query(&property(TRUSTED, 2)),
                withdraw(0, &smart(2)),
                query(&property(TRUSTED, 2)),
            ],
            &[
                "1 li +0 +1",
                "2 li +0 +1",
                "3 tg +1 +0",
                "4 qu permitted",
                "5 wd -1 -2",
                "6 qu not permitted",
                "end 6 marks 0",
            ],
        ),
        Case::written(
            GROUP,
            "P10",
            &[
                trust(&for_all(0, OVER_PACKS, &[], &run(5, ANY_PACK))),
                query(&run(5, 31)),
                query(&export(5, 31)),
            ],
            &["1 tg +32 +0", "2 qu permitted", "3 qu not permitted", "end 3 marks 32"],
        ),
    ]
}
