//! Nested grants, and tables with no room for another grant.

use crate::case::{nets, Case};
use crate::generate::any_record;
use crate::random::Random;
use crate::write::*;

pub fn cases(seed: u64) -> Vec<Case> {
    let mut cases = nested_grants(seed);
    cases.extend(full_tables());
    cases.extend(crowded_tables(seed));
    cases
}

/// Grants nested to depth 6, in conditions and in conclusions; from depth 5
/// on they are refused. The innermost may use variables that only the grants
/// around it declare.
fn nested_grants(seed: u64) -> Vec<Case> {
    const GROUP: &str = "grants nested to depth 6";
    let mut random = Random::new(seed, GROUP);
    let mut cases = Vec::new();
    for i in 0..400 {
        let mut journal = Vec::new();
        for _ in 0..random.between(1, 4) {
            let depth = *random.choose(&[1, 2, 3, 3, 4, 4, 5, 6]);
            let grant = nested(&mut random, depth);
            let issuer = random.byte_below(3);
            journal.extend(match random.below(5) {
                0 => trust(&grant),
                1 => licence(issuer, &grant),
                3 => [provisional(issuer, &grant), confirm(issuer, &grant)].concat(),
                2 => query(&issue(issuer, &grant)),
                _ => [trust(&plain(&issue(issuer, &grant))), licence(issuer, &grant)].concat(),
            });
        }
        cases.push(Case::compared(GROUP, i.to_string(), journal));
    }
    cases
}

/// A grant of the given depth with one place for the inner grant.
fn nested(random: &mut Random, depth: usize) -> Bytes {
    let variables = random.byte_below(3);
    let declared = |random: &mut Random| match random.percent(40) && variables > 0 {
        true => X + random.byte_below(variables),
        false => random.byte_below(3),
    };
    let undeclared = random.percent(5);
    let leaf = property(random.byte_below(2), if undeclared { Y } else { declared(random) });
    if depth == 1 {
        return for_all(variables, NO_RESOURCE, &[], &leaf);
    }
    let inner = nested(random, depth - 1);
    let right = issue(declared(random), &inner);
    match random.percent(60) {
        true => for_all(variables, NO_RESOURCE, &[], &right),
        false => for_all(variables, NO_RESOURCE, &[said(declared(random), &right)], &leaf),
    }
}

/// Grant i of a list of distinct ones, each giving one mark.
pub fn simple(i: usize) -> Bytes {
    plain(&property((i % 16) as u8, (i / 16) as u8))
}

fn simple_entries(count: usize) -> (Vec<Bytes>, Vec<String>) {
    ((0..count).map(|i| trust(&simple(i))).collect(), vec![nets("tg", 1, 0); count])
}

/// Records at a nearly full and a full table, with the answers written out.
pub fn full_tables() -> Vec<Case> {
    const GROUP: &str = "full tables: the 64th and 65th grant, inner ones";
    let fresh = |i: u8| plain(&run(i, i));
    let holding = |i: u8| plain(&issue(0, &fresh(i)));
    let holding_twice =
        when(&[said(1, &issue(2, &fresh(1))), said(3, &issue(4, &fresh(1)))], &export(5, 5));
    let refused = || "refused 6".to_string();
    let case = |name: &str, filled: usize, more: Vec<(Bytes, String)>, marks: usize| {
        let (mut records, mut answers) = simple_entries(filled);
        for (record, answer) in more {
            records.push(record);
            answers.push(answer);
        }
        Case::answers(GROUP, name, &records, &answers, marks)
    };
    vec![
        case(
            "63 grants: one with a new inner grant does not fit, a single one does",
            63,
            vec![
                (trust(&holding(1)), refused()),
                (licence(3, &holding(1)), refused()),
                (query(&issue(3, &holding(1))), refused()),
                (trust(&fresh(1)), nets("tg", 1, 0)),
                (trust(&holding(1)), refused()),
                (licence(3, &fresh(1)), nets("li", 0, 1)),
            ],
            65,
        ),
        case(
            "62 grants: one with a new inner grant fits",
            62,
            vec![
                (trust(&holding(1)), nets("tg", 1, 0)),
                (query(&issue(0, &fresh(1))), "qu permitted".to_string()),
                (query(&issue(0, &fresh(2))), refused()),
                (query(&property(0, 0)), "qu permitted".to_string()),
            ],
            63,
        ),
        case(
            "62 grants: the same new inner grant twice counts once",
            62,
            vec![
                (trust(&holding_twice), nets("tg", 0, 0)),
                (trust(&fresh(1)), nets("tg", 1, 0)),
                (trust(&fresh(2)), refused()),
            ],
            63,
        ),
        case(
            "63 grants: the same twice does not fit",
            63,
            vec![(trust(&holding_twice), refused())],
            63,
        ),
        case(
            "64 grants: what has a number is still accepted",
            64,
            vec![
                (trust(&simple(63)), nets("tg", 0, 0)),
                (licence(15, &simple(0)), nets("li", 0, 1)),
                (strike(&simple(5)), nets("st", -1, 0)),
                (strike(&simple(5)), "refused 7".to_string()),
                (trust(&simple(5)), nets("tg", 1, 0)),
                (withdraw(15, &simple(1)), "refused 7".to_string()),
                (withdraw(15, &simple(0)), nets("wd", 0, -1)),
                (query(&issue(7, &simple(9))), "qu not permitted".to_string()),
            ],
            64,
        ),
        case(
            "64 grants: new ones are refused, removing them is 7 and never 6",
            64,
            vec![
                (trust(&fresh(1)), refused()),
                (licence(0, &fresh(1)), refused()),
                (query(&issue(0, &fresh(1))), refused()),
                (strike(&fresh(1)), "refused 7".to_string()),
                (withdraw(0, &holding(1)), "refused 7".to_string()),
                (trust(&plain(&issue(0, &simple(0)))), refused()),
                (query(&run(0, 0)), "qu not permitted".to_string()),
            ],
            64,
        ),
        case(
            "63 grants: refused records give no numbers",
            63,
            vec![
                (strike(&fresh(1)), "refused 7".to_string()),
                (withdraw(0, &holding(2)), "refused 7".to_string()),
                (trust(&holding(3)), refused()),
                (trust(&fresh(4)), nets("tg", 1, 0)),
                (query(&issue(0, &fresh(1))), refused()),
                (query(&issue(0, &fresh(3))), refused()),
                (query(&issue(0, &fresh(4))), "qu not permitted".to_string()),
            ],
            64,
        ),
        case(
            "a number is kept after the grant is struck",
            64,
            (0..64)
                .map(|i| (strike(&simple(i)), nets("st", -1, 0)))
                .chain([(trust(&fresh(1)), refused()), (trust(&simple(8)), nets("tg", 1, 0))])
                .collect(),
            1,
        ),
        grants_of_depth_4(GROUP),
        numbers_from_queries(GROUP),
        numbers_not_given(GROUP),
    ]
}

/// Sixteen grants of depth 4 fill the table.
fn grants_of_depth_4(group: &'static str) -> Case {
    let chain = |i: u8| {
        let first = plain(&property(i, i));
        let second = plain(&issue(i, &first));
        plain(&issue(i, &plain(&issue(i, &second))))
    };
    let mut records: Vec<Bytes> = (0..16).map(|i| trust(&chain(i))).collect();
    let mut answers = vec![nets("tg", 1, 0); 16];
    records.push(trust(&plain(&property(1, 0))));
    answers.push("refused 6".to_string());
    records.push(licence(3, &plain(&property(3, 3))));
    answers.push(nets("li", 0, 1));
    Case::answers(group, "sixteen grants of depth 4", &records, &answers, 17)
}

/// Queries give numbers too.
fn numbers_from_queries(group: &'static str) -> Case {
    let mut records: Vec<Bytes> = (0..65).map(|i| query(&issue(0, &simple(i)))).collect();
    let mut answers = vec!["qu not permitted".to_string(); 64];
    answers.push("refused 6".to_string());
    records.push(strike(&simple(3)));
    answers.push("refused 7".to_string());
    records.push(trust(&simple(3)));
    answers.push(nets("tg", 1, 0));
    Case::answers(group, "64 grants numbered by queries", &records, &answers, 1)
}

/// "For all grants" speaks of numbers not given, so a grant that gets one of
/// them later is covered without a change of marks.
fn numbers_not_given(group: &'static str) -> Case {
    let records = [
        trust(&may_issue_all(4)),
        query(&issue(4, &simple(9))),
        licence(4, &simple(9)),
        licence(4, &simple(10)),
        query(&property(10, 0)),
    ];
    let answers = [
        nets("tg", 64, 0),
        "qu permitted".to_string(),
        nets("li", 1, 1),
        nets("li", 1, 1),
        "qu permitted".to_string(),
    ];
    Case::answers(group, "rights over numbers not given", &records, &answers, 68)
}

/// Many new grants, single and nested, until nothing fits, then all kinds of
/// records over old and new grants.
fn crowded_tables(seed: u64) -> Vec<Case> {
    const GROUP: &str = "tables filled at random";
    let mut random = Random::new(seed, GROUP);
    let mut cases = Vec::new();
    for i in 0..60 {
        let mut grants: Vec<Bytes> = Vec::new();
        for _ in 0..110 {
            let conclusion = property(random.byte_below(16), random.byte_below(16));
            let grant = match grants.last() {
                Some(last) if random.percent(30) && last.len() < 15 => {
                    when(&[said(1, &issue(2, last))], &issue(3, &plain(&conclusion)))
                }
                _ => plain(&conclusion),
            };
            grants.push(grant);
        }
        let records: Vec<Bytes> = (0..170).map(|_| any_record(&mut random, &grants)).collect();
        cases.push(Case::compared(GROUP, i.to_string(), records.concat()));
    }
    cases
}
