//! Document 02, 6: what is wrong in the bytes of pv, with the answers written
//! out.

use crate::case::{nets, Case};
use crate::signature_faults::WRONG;
use crate::write::*;

const GROUP: &str = "document 02, 6: faults in pv";

pub fn cases() -> Vec<Case> {
    let mut cases = near_letters();
    cases.extend(faults());
    cases.extend(cut_at_every_byte());
    cases
}

fn smart(principal: u8) -> Bytes {
    plain(&property(0, principal))
}

/// Letters that are nearly those of a record.
fn near_letters() -> Vec<Case> {
    const NEAR: [&[u8; 2]; 11] =
        [b"PV", b"Pv", b"pV", b"pu", b"pw", b"ov", b"qv", b"vp", b"pp", b"vv", b"p\xF6"];
    const MIXED: [&[u8; 2]; 9] = [b"wv", b"pd", b"lv", b"cv", b"tv", b"sv", b"vl", b"vf", b"pg"];
    let one = |letters: &&[u8; 2]| {
        let near = record(letters, &[&[0], smart(2).as_slice()].concat());
        let name = format!("letters {}", to_hex(letters.as_slice()));
        let records = [licence(0, &smart(2)), near, preview(0, &smart(2))];
        Case::written(GROUP, &name, &records, &["1 li +0 +1", "2 refused 2", "end 2 marks 1"])
    };
    NEAR.iter().chain(&MIXED).map(one).collect()
}

/// The faults of the other records with an issuer; what follows is read.
fn faults() -> Vec<Case> {
    let one = |(content, number): &(&str, u8)| {
        let bytes = record(b"pv", &hex(content));
        let entered = [trust(&smart(0)), licence(0, &smart(2))].concat();
        let records = [entered, bytes.clone(), preview(0, &smart(2))];
        let line = format!("3 refused {number}");
        let lines = ["1 tg +1 +0", "2 li +0 +1", &line, "4 pv +0 -1", "end 4 marks 2"];
        Case::written(GROUP, &to_hex(&bytes), &records, &lines)
    };
    WRONG.iter().map(one).collect()
}

/// The preview of a licence that stands, cut at every byte.
fn cut_at_every_byte() -> Vec<Case> {
    let inner = for_all(1, OVER_PACKS, &[said(X, &run(3, ANY_PACK))], &export(X, ANY_PACK));
    let waits = for_all(2, OVER_GRANTS, &[said(X, &issue(Y, &inner))], &issue_any(X));
    let speaks = for_all(1, OVER_GRANTS, &[], &issue_any(X));
    let mut cases = Vec::new();
    for (name, grant, sayings) in [("conditions", waits, 0), ("no conditions", speaks, 1_024)] {
        let (entered, whole) = (licence(1, &grant), preview(1, &grant));
        let first = nets("li", 0, sayings);
        for length in 1..whole.len() {
            let records = [entered.clone(), whole[..length].to_vec()];
            let answers = [first.clone(), "refused 1".to_string()];
            let name = format!("{name}, {length} bytes");
            cases.push(Case::answers(GROUP, &name, &records, &answers, sayings as usize));
        }
        let records = [entered.clone(), whole.clone(), entered, whole];
        let seen = nets("pv", 0, -sayings);
        let answers = [first, seen.clone(), nets("li", 0, 0), seen];
        let name = format!("{name}, nothing cut");
        cases.push(Case::answers(GROUP, &name, &records, &answers, sayings as usize));
    }
    cases
}
