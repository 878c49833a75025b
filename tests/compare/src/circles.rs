//! Circles of statements and of rights, none of which supports itself, and
//! long chains of statements.

use crate::case::{nets, Case};
use crate::random::Random;
use crate::write::*;

pub fn cases(seed: u64) -> Vec<Case> {
    let mut cases = circles();
    cases.extend(shuffled_circles(seed));
    cases.extend(circles_of_rights());
    cases.extend(long_chains(seed));
    cases
}

/// Statement i of a circle: who says which property of principal 2.
pub fn circle_statement(i: usize) -> (u8, Bytes) {
    ((i % 16) as u8, property((i / 16) as u8, 2))
}

/// Licence i of a circle: statement i holds if the next one does.
pub fn circle_licence(i: usize, length: usize) -> (u8, Bytes) {
    let (speaker, conclusion) = circle_statement(i);
    let (next_speaker, next) = circle_statement((i + 1) % length);
    (speaker, when(&[said(next_speaker, &next)], &conclusion))
}

/// A circle does not support itself; fed by one licence it stands whole, and
/// falls with that licence.
pub fn circles() -> Vec<Case> {
    const GROUP: &str = "circles of 1 to 30 statements";
    let case = |length: usize| {
        let links = (0..length).map(|i| circle_licence(i, length));
        let mut records: Vec<Bytes> = links.map(|(p, grant)| licence(p, &grant)).collect();
        let (speaker, conclusion) = circle_statement(length / 2);
        let feed = plain(&conclusion);
        records.extend([licence(speaker, &feed), withdraw(speaker, &feed)]);
        let mut answers = vec![nets("li", 0, 0); length];
        answers.extend([nets("li", 0, length as i32), nets("wd", 0, -(length as i32))]);
        Case::answers(GROUP, &format!("length {length}"), &records, &answers, 0)
    };
    (1..=30).map(case).collect()
}

/// The same with the records in random order, with trust in the issuers, some
/// licences provisional, and one of the circle previewed and withdrawn at the
/// end.
fn shuffled_circles(seed: u64) -> Vec<Case> {
    const GROUP: &str = "circles in random order, with authority";
    let mut random = Random::new(seed, GROUP);
    let mut cases = Vec::new();
    for length in 1..=30 {
        let links: Vec<(u8, Bytes)> = (0..length).map(|i| circle_licence(i, length)).collect();
        let (speaker, conclusion) = circle_statement(random.below(length));
        let share = *random.choose(&[0, 10, 50]);
        let mut records: Vec<Bytes> =
            links.iter().map(|(p, grant)| random.licence(share, *p, grant)).collect();
        records.push(random.licence(share, speaker, &plain(&conclusion)));
        for principal in 0..length.min(16) as u8 {
            records.push(trust(&may_issue_all(principal)));
        }
        random.shuffle(&mut records);
        let (p, grant) = random.choose(&links);
        records.extend([preview(*p, grant), withdraw(*p, grant)]);
        (0..length).for_each(|i| records.push(query(&circle_statement(i).1)));
        cases.push(Case::compared(GROUP, format!("length {length}"), records.concat()));
    }
    cases
}

/// Each principal says that the next may issue every grant. Nobody may, until
/// the first may issue that licence of its own.
fn circles_of_rights() -> Vec<Case> {
    const GROUP: &str = "circles of rights to issue, 1 to 16 principals";
    let case = |length: u8| {
        let grant = |i: u8| may_issue_all((i + 1) % length);
        let mut records: Vec<Bytes> = (0..length).map(|i| licence(i, &grant(i))).collect();
        let start = plain(&issue(0, &grant(0)));
        records.extend([query(&issue(0, &grant(0))), trust(&start)]);
        records.extend([query(&issue(length - 1, &start)), strike(&start)]);
        let all = 64 * i32::from(length);
        let mut answers = vec![nets("li", 0, 64); usize::from(length)];
        answers.push("qu not permitted".to_string());
        answers.push(nets("tg", all, 0));
        answers.push("qu permitted".to_string());
        answers.push(nets("st", -all, 0));
        Case::answers(GROUP, &format!("length {length}"), &records, &answers, all as usize)
    };
    (1..=16).map(case).collect()
}

/// A chain through 15 properties of all 16 principals, each statement the only
/// ground of the next. Rules read in an unlucky order take up to 240 passes.
fn long_chains(seed: u64) -> Vec<Case> {
    const GROUP: &str = "chains of 240 statements";
    let upwards: [u8; 16] = std::array::from_fn(|i| i as u8);
    let downwards: [u8; 16] = std::array::from_fn(|i| 15 - i as u8);
    let mut random = Random::new(seed, GROUP);
    let mut cases = Vec::new();
    for (way, order) in [("upwards", upwards), ("downwards", downwards)] {
        let links = chain_licences(order);
        let backwards: Vec<(u8, Bytes)> = links.iter().rev().cloned().collect();
        let mut mixed = links.clone();
        random.shuffle(&mut mixed);
        for (entered, links) in [("in order", links), ("backwards", backwards), ("mixed", mixed)] {
            cases.push(long_chain(GROUP, &format!("{way}, {entered}"), order, &links));
        }
    }
    cases
}

/// The property by which each principal names its neighbour in the chain.
const NEIGHBOUR: u8 = 15;
/// Who says all statements of the chain.
const TELLER: u8 = 7;

/// Each principal names its neighbour; each property passes on from neighbour
/// to neighbour, and from the last principal to the first of the next property.
fn chain_licences(order: [u8; 16]) -> Vec<(u8, Bytes)> {
    let names = order.windows(2).map(|pair| (pair[0], plain(&property(NEIGHBOUR, pair[1]))));
    let along = (0..NEIGHBOUR).map(|k| {
        let conditions = [said(X, &property(NEIGHBOUR, Y)), said(TELLER, &property(k, X))];
        (TELLER, for_all(2, NO_RESOURCE, &conditions, &property(k, Y)))
    });
    let across = (1..NEIGHBOUR).map(|k| {
        let condition = said(TELLER, &property(k - 1, order[15]));
        (TELLER, when(&[condition], &property(k, order[0])))
    });
    names.chain(along).chain(across).collect()
}

/// The chain falls with its first statement and with a link in its middle.
/// The teller also names one neighbour, which becomes true with the chain.
fn long_chain(group: &'static str, name: &str, order: [u8; 16], links: &[(u8, Bytes)]) -> Case {
    let mut records: Vec<Bytes> = links.iter().map(|(p, grant)| licence(*p, grant)).collect();
    let named = |grant: &Bytes| i32::from(grant.len() == plain(&property(0, 0)).len());
    let mut answers: Vec<String> = links.iter().map(|(_, g)| nets("li", 0, named(g))).collect();
    let first = plain(&property(0, order[0]));
    let link = when(&[said(TELLER, &property(6, order[15]))], &property(7, order[0]));
    let last = query(&property(14, order[15]));
    let more = [
        (licence(TELLER, &first), nets("li", 0, 240)),
        (withdraw(TELLER, &first), nets("wd", 0, -240)),
        (trust(&may_issue_all(TELLER)), nets("tg", 64 + 1, 0)),
        (provisional(TELLER, &first), nets("pl", 0, 0)),
        (last.clone(), "qu open".to_string()),
        (licence(TELLER, &first), nets("li", 240, 240)),
        (last.clone(), "qu permitted".to_string()),
        (withdraw(TELLER, &link), nets("wd", -8 * 16, -8 * 16)),
        (last, "qu not permitted".to_string()),
    ];
    for (record, answer) in more {
        records.push(record);
        answers.push(answer);
    }
    Case::answers(group, name, &records, &answers, 15 + 65 + 480 - 256)
}
