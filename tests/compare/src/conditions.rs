//! Grants with one to four conditions, each of which is needed.

use crate::case::{nets, Case};
use crate::write::*;

const GROUP: &str = "one to four conditions, each needed";

/// A trusted grant with conditions, and the licences that meet them.
struct Demand {
    name: &'static str,
    grant: fn(&[Bytes]) -> Bytes,
    condition: fn(u8) -> Bytes,
    met_by: fn(u8) -> (u8, Bytes),
    given: fn() -> Bytes,
}

pub fn cases() -> Vec<Case> {
    let mut cases = Vec::new();
    for demand in demands() {
        for count in 1..=4 {
            cases.extend((0..count).map(|last| one_by_one(&demand, count, last)));
            cases.extend((0..count).map(|last| one_provisional(&demand, count, last)));
        }
    }
    cases
}

fn demands() -> [Demand; 5] {
    [
        Demand {
            name: "without variables",
            grant: |conditions| when(conditions, &property(15, 9)),
            condition: |i| said(i, &property(i, 9)),
            met_by: |i| (i, property(i, 9)),
            given: || property(15, 9),
        },
        Demand {
            name: "over principals",
            grant: |conditions| for_all(1, NO_RESOURCE, conditions, &property(15, X)),
            condition: |i| said(i, &property(i, X)),
            met_by: |i| (i, property(i, 9)),
            given: || property(15, 9),
        },
        Demand {
            name: "over pairs of principals",
            grant: |conditions| for_all(2, NO_RESOURCE, conditions, &property(15, Y)),
            condition: |i| said(X, &property(i, Y)),
            met_by: |i| (12, property(i, 9)),
            given: || property(15, 9),
        },
        Demand {
            name: "over packs",
            grant: |conditions| for_all(0, OVER_PACKS, conditions, &export(9, ANY_PACK)),
            condition: |i| said(i, &run(i, ANY_PACK)),
            met_by: |i| (i, run(i, 31)),
            given: || export(9, 31),
        },
        Demand {
            name: "over grants",
            grant: |conditions| for_all(0, OVER_GRANTS, conditions, &issue_any(9)),
            condition: |i| said(i, &issue_any(i)),
            met_by: |i| (i, issue(i, &some_grant())),
            given: || issue(9, &some_grant()),
        },
    ]
}

fn some_grant() -> Bytes {
    plain(&property(3, 3))
}

/// Meets the conditions one by one, the given one last; nothing is granted
/// before that, and no more once one of them is taken back.
fn one_by_one(demand: &Demand, count: u8, last: u8) -> Case {
    let conditions: Vec<Bytes> = (0..count).map(demand.condition).collect();
    let given = query(&(demand.given)());
    let meet = |i: u8| {
        let (speaker, conclusion) = (demand.met_by)(i);
        (speaker, plain(&conclusion))
    };
    let mut records = vec![trust(&(demand.grant)(&conditions))];
    let mut answers = vec![nets("tg", 0, 0)];
    for i in (0..count).filter(|&i| i != last) {
        let (speaker, grant) = meet(i);
        records.push(licence(speaker, &grant));
        answers.push(nets("li", 0, 1));
    }
    let (speaker, grant) = meet(last);
    records.extend([given.clone(), licence(speaker, &grant), given.clone()]);
    answers.extend(["qu not permitted".to_string(), nets("li", 1, 1), "qu permitted".to_string()]);
    records.extend([withdraw(speaker, &grant), given]);
    answers.extend([nets("wd", -1, -1), "qu not permitted".to_string()]);
    let name = format!("{}: {count} conditions, number {last} last", demand.name);
    Case::answers(GROUP, &name, &records, &answers, usize::from(count) - 1)
}

/// The given condition is met by a provisional licence, entered first; what is
/// granted is open once the others are met, and permitted once it is firm.
fn one_provisional(demand: &Demand, count: u8, waiting: u8) -> Case {
    let conditions: Vec<Bytes> = (0..count).map(demand.condition).collect();
    let given = query(&(demand.given)());
    let meet = |i: u8| {
        let (speaker, conclusion) = (demand.met_by)(i);
        (speaker, plain(&conclusion))
    };
    let (partner, awaited) = meet(waiting);
    let mut records = vec![trust(&(demand.grant)(&conditions)), provisional(partner, &awaited)];
    let mut answers = vec![nets("tg", 0, 0), nets("pl", 0, 0)];
    for i in (0..count).filter(|&i| i != waiting) {
        let (speaker, grant) = meet(i);
        records.extend([given.clone(), licence(speaker, &grant)]);
        answers.extend(["qu not permitted".to_string(), nets("li", 0, 1)]);
    }
    records.extend([given.clone(), confirm(partner, &awaited), given.clone()]);
    answers.extend(["qu open".to_string(), nets("cf", 1, 1), "qu permitted".to_string()]);
    records.extend([withdraw(partner, &awaited), given]);
    answers.extend([nets("wd", -1, -1), "qu not permitted".to_string()]);
    let name = format!("{}: {count} conditions, number {waiting} provisional", demand.name);
    Case::answers(GROUP, &name, &records, &answers, usize::from(count) - 1)
}
