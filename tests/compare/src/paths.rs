//! Several paths to the same statement: grants that name each other, rights
//! carried twice, and grants that cover parts of each other.

use crate::case::Case;
use crate::generate::any_record;
use crate::random::Random;
use crate::write::*;

pub fn cases(seed: u64) -> Vec<Case> {
    let mut cases = naming_each_other(seed);
    cases.extend(second_paths(seed));
    cases.extend(overlapping_grants(seed));
    cases
}

/// Grants over all principals, licensed by many, whose conditions name what
/// the other licences give.
fn naming_each_other(seed: u64) -> Vec<Case> {
    const GROUP: &str = "grants over all principals that name each other";
    let mut random = Random::new(seed, GROUP);
    let mut cases = Vec::new();
    for i in 0..60 {
        let grants: Vec<Bytes> = (0..random.between(2, 8)).map(|_| naming(&mut random)).collect();
        let mut records: Vec<Bytes> = Vec::new();
        for grant in &grants {
            let issuers = random.between(1, 5);
            for _ in 0..issuers {
                let issuer = random.byte_below(16);
                records.push(random.licence(25, issuer, grant));
            }
        }
        for _ in 0..random.between(1, 4) {
            let feed = plain(&property(random.byte_below(4), random.byte_below(16)));
            let issuer = random.byte_below(16);
            records.push(random.licence(25, issuer, &feed));
            records.push(trust(&may_issue_all(random.byte_below(16))));
        }
        random.shuffle(&mut records);
        let mut removals: Vec<Bytes> = records.iter().map(|record| removal(record)).collect();
        random.shuffle(&mut removals);
        let previewed = removals.iter().flat_map(|taken| [previews(taken), taken.clone()]);
        records.extend(previewed);
        cases.push(Case::compared(GROUP, i.to_string(), records.concat()));
    }
    cases
}

/// A grant with one or two principal variables in its conditions and conclusion.
fn naming(random: &mut Random) -> Bytes {
    let variables = 1 + random.byte_below(2);
    let somebody = |random: &mut Random| match random.percent(70) {
        true => X + random.byte_below(variables),
        false => random.byte_below(16),
    };
    let about = |random: &mut Random| property(random.byte_below(4), somebody(random));
    let mut conditions = Vec::new();
    for _ in 0..random.between(1, 3) {
        let conclusion = about(random);
        conditions.push(said(somebody(random), &conclusion));
    }
    for_all(variables, NO_RESOURCE, &conditions, &about(random))
}

/// The record that takes back what a tg, li or pl record entered.
fn removal(record: &[u8]) -> Bytes {
    match &record[..2] {
        b"tg" => strike(&record[CONTENT..]),
        _ => withdraw(record[CONTENT], &record[CONTENT + 1..]),
    }
}

/// The preview of a withdrawal; nothing before a strike.
fn previews(removal: &[u8]) -> Bytes {
    match &removal[..2] {
        b"wd" => preview(removal[CONTENT], &removal[CONTENT + 1..]),
        _ => Bytes::new(),
    }
}

/// A right carried by several licences and trusted grants, which are then
/// taken away one after another, each licence after a preview.
fn second_paths(seed: u64) -> Vec<Case> {
    const GROUP: &str = "a right carried by another path";
    let right = plain(&run(9, 7));
    let mut cases = vec![Case::written(
        GROUP,
        "two issuers",
        &[
            trust(&plain(&issue(0, &right))),
            trust(&may_issue_all(1)),
            licence(0, &right),
            licence(1, &right),
            withdraw(0, &right),
            query(&run(9, 7)),
            withdraw(1, &right),
            query(&run(9, 7)),
        ],
        &[
            "1 tg +1 +0",
            "2 tg +64 +0",
            "3 li +1 +1",
            "4 li +0 +1",
            "5 wd +0 -1",
            "6 qu permitted",
            "7 wd -1 -1",
            "8 qu not permitted",
            "end 8 marks 65",
        ],
    )];
    let mut random = Random::new(seed, GROUP);
    for i in 0..80 {
        let mut records = paths_to(&mut random, &run(9, 7));
        random.shuffle(&mut records);
        let mut removals: Vec<Bytes> = records.iter().map(|record| removal(record)).collect();
        random.shuffle(&mut removals);
        for taken in removals {
            records.extend([previews(&taken), taken, query(&run(9, 7))]);
        }
        cases.push(Case::compared(GROUP, i.to_string(), records.concat()));
    }
    cases
}

/// Some of the ways to one conclusion, in half of the lists some provisional.
fn paths_to(random: &mut Random, conclusion: &[u8]) -> Vec<Bytes> {
    let right = plain(conclusion);
    let wide = for_all(1, OVER_PACKS, &[], &run(X, ANY_PACK));
    let by_word = when(&[said(2, conclusion)], conclusion);
    let handed_on = plain(&issue(4, &right));
    let records = [
        trust(&right),
        trust(&wide),
        trust(&by_word),
        trust(&plain(&issue(0, &right))),
        trust(&may_issue_all(1)),
        trust(&plain(&issue(3, &handed_on))),
        licence(0, &right),
        licence(1, &right),
        licence(1, &wide),
        licence(2, &right),
        licence(2, &by_word),
        licence(3, &handed_on),
        licence(4, &right),
        licence(1, &by_word),
    ];
    let share = *random.choose(&[0, 40]);
    let mut some: Vec<Bytes> = records.into_iter().filter(|_| random.percent(70)).collect();
    for record in some.iter_mut().filter(|record| record.starts_with(b"li")) {
        *record = random.licence(share, record[CONTENT], &record[CONTENT + 1..]);
    }
    some
}

/// The same grant entered again, renamed variables, unused variables, and
/// grants that cover parts of each other.
fn overlapping_grants(seed: u64) -> Vec<Case> {
    const GROUP: &str = "repeated and overlapping grants";
    let grants = [
        plain(&property(0, 2)),
        for_all(1, NO_RESOURCE, &[], &property(0, X)),
        for_all(2, NO_RESOURCE, &[], &property(0, X)),
        for_all(2, NO_RESOURCE, &[], &property(0, Y)),
        for_all(0, OVER_PACKS, &[], &property(0, 2)),
        when(&[said(1, &property(0, 2))], &property(0, 2)),
        when(&[said(1, &property(0, 2)), said(1, &property(0, 2))], &property(0, 2)),
        for_all(1, NO_RESOURCE, &[said(X, &property(0, X))], &property(0, X)),
        for_all(2, NO_RESOURCE, &[said(X, &property(0, Y))], &property(0, Y)),
        for_all(2, NO_RESOURCE, &[said(Y, &property(0, X))], &property(0, X)),
        for_all(0, OVER_PACKS, &[], &run(2, ANY_PACK)),
        for_all(1, OVER_PACKS, &[], &run(X, ANY_PACK)),
        for_all(1, NO_RESOURCE, &[], &run(X, 31)),
        may_issue_all(1),
        for_all(1, OVER_GRANTS, &[], &issue_any(X)),
    ];
    let mut random = Random::new(seed, GROUP);
    let mut cases = Vec::new();
    for i in 0..120 {
        let mut journal = Vec::new();
        for _ in 0..40 {
            journal.extend(any_record(&mut random, &grants));
            if random.percent(25) {
                journal.extend(query(&property(0, random.byte_below(4))));
            }
        }
        cases.push(Case::compared(GROUP, i.to_string(), journal));
    }
    cases
}
