//! Document 02, 5: what is wrong in the bytes of pl and cf, with the answers
//! written out.

use crate::case::{nets, Case};
use crate::write::*;

const GROUP: &str = "document 02, 5: faults in pl and cf";

pub fn cases() -> Vec<Case> {
    let mut cases = near_letters();
    cases.extend(faults());
    cases.extend(cut_at_every_byte());
    cases
}

fn smart(principal: u8) -> Bytes {
    plain(&property(0, principal))
}

/// Letters that are nearly those of a record.
fn near_letters() -> Vec<Case> {
    const NEAR: [&[u8; 2]; 16] = [
        b"PL", b"Pl", b"pL", b"pm", b"pk", b"ql", b"lp", b"pp", b"CF", b"Cf", b"cF", b"cg", b"ce",
        b"df", b"fc", b"cc",
    ];
    const MIXED: [&[u8; 2]; 8] = [b"pf", b"cl", b"ll", b"ff", b"pi", b"cd", b"lf", b"wf"];
    let one = |letters: &&[u8; 2]| {
        let record = record(letters, &[&[0], smart(2).as_slice()].concat());
        let name = format!("letters {}", to_hex(letters.as_slice()));
        let lines = ["1 refused 2", "end 1 marks 0"];
        Case::written(GROUP, &name, &[record, provisional(0, &smart(2))], &lines)
    };
    NEAR.iter().chain(&MIXED).map(one).collect()
}

/// What may be wrong in the content, issuer first, and its number.
pub const WRONG: &[(&str, u8)] = &[
    ("", 10),
    ("10", 3),
    ("80", 3),
    ("81 03", 3),
    ("FF", 3),
    ("0F", 10),
    ("0F 03", 3),
    ("00 00 03", 3),
    ("00 02 02", 10),
    ("00 00 00 05", 3),
    ("00 00 00 01 10", 3),
    ("00 00 00 01 80", 4),
    ("00 01 00 01 81", 4),
    ("00 02 00 01 82", 3),
    ("00 00 00 00 04", 3),
    ("00 00 00 00 00 10", 3),
    ("00 00 00 00 00 05 80", 4),
    ("00 00 00 00 00 00 10", 3),
    ("00 00 01 00 01 00 02", 3),
    ("00 00 00 00 01 00 01", 4),
    ("00 00 02 00 01 00 01", 4),
    ("00 00 02 00 02 00 20", 3),
    ("00 00 00 00 02 00 80", 4),
    ("00 00 01 00 03 00 80", 4),
    // an inner grant does not see the variables around it
    ("00 01 00 00 01 80 00 00 00 00 00 00 80", 4),
    ("00 00 01 00 01 00 00 00 00 00 01 00 01", 4),
    // depth 5 at the byte that announces the grant
    ("00 00 00 00 01 00 00 00 00 00 01 00 00 00 00 00 01 00 00 00 00 00 01 00 00", 5),
    ("00 00 00 00 01 00 00 00 00 00 01 00 00 00 00 00 01 00 00 00 00 00 01 00 02", 3),
];

/// The same faults in both records; what follows is read.
fn faults() -> Vec<Case> {
    let mut cases = Vec::new();
    for letters in [b"pl", b"cf"] {
        for (content, number) in WRONG {
            let bytes = record(letters, &hex(content));
            let line = format!("2 refused {number}");
            cases.push(Case::written(
                GROUP,
                &to_hex(&bytes),
                &[trust(&smart(0)), bytes.clone(), query(&property(0, 0))],
                &["1 tg +1 +0", &line, "3 qu permitted", "end 3 marks 1"],
            ));
        }
    }
    cases
}

/// A provisional licence that stands and its confirmation, cut at every byte.
fn cut_at_every_byte() -> Vec<Case> {
    let inner = for_all(1, OVER_PACKS, &[said(X, &run(3, ANY_PACK))], &export(X, ANY_PACK));
    let grant = for_all(2, OVER_GRANTS, &[said(X, &issue(Y, &inner))], &issue_any(X));
    let mut cases = Vec::new();
    let (whole, confirmed) = (provisional(1, &grant), confirm(1, &grant));
    for length in 1..whole.len() {
        let cut = |record: &Bytes| record[..length].to_vec();
        let first = [trust(&smart(0)), cut(&whole)];
        let lines = ["1 tg +1 +0", "2 refused 1", "end 2 marks 1"];
        cases.push(Case::written(GROUP, &format!("pl, {length} bytes"), &first, &lines));
        let second = [whole.clone(), cut(&confirmed)];
        let lines = ["1 pl +0 +0", "2 refused 1", "end 2 marks 0"];
        cases.push(Case::written(GROUP, &format!("cf, {length} bytes"), &second, &lines));
    }
    let answers = [nets("pl", 0, 0), nets("cf", 0, 0), "refused 7".to_string()];
    let records = [whole, confirmed.clone(), confirmed];
    cases.push(Case::answers(GROUP, "nothing cut", &records, &answers, 0));
    cases
}
