//! Document 02, 6: preview of a withdrawal, with the answers written out.

use crate::case::{nets, Case};
use crate::circles::{circle_licence, circle_statement};
use crate::tables::simple;
use crate::write::*;

const GROUP: &str = "document 02, 6: preview of a withdrawal";

const SMART: u8 = 0;
const GOOD: u8 = 2;
const TRUSTED: u8 = 4;

pub fn cases() -> Vec<Case> {
    let mut cases = what_falls();
    cases.extend([twice_then_withdrawn(), of_a_provisional_licence(), what_does_not_stand()]);
    cases.extend([the_book_is_untouched(), what_is_open_stays_open(), thousands()]);
    cases.extend(circles());
    cases.extend([each_row(), each_issuer(), nearly_all_numbers(), all_numbers()]);
    cases.extend((0..4).map(other_orders));
    cases
}

/// Which rights fall, and which stay by another path.
pub fn what_falls() -> Vec<Case> {
    vec![
        along_a_chain(),
        carried_by_another_licence(),
        carried_by_a_trusted_grant(),
        awaited_from_another(),
        right_to_issue(),
        right_to_issue_any(),
        by_its_own_word(),
        everything(),
    ]
}

fn smart(principal: u8) -> Bytes {
    plain(&property(SMART, principal))
}

fn right() -> Bytes {
    plain(&run(3, 7))
}

fn asks() -> Bytes {
    query(&run(3, 7))
}

/// A case from pairs of a record and its answer.
fn case(name: &str, pairs: &[(Bytes, &str)], marks: usize) -> Case {
    let records: Vec<Bytes> = pairs.iter().map(|(record, _)| record.clone()).collect();
    let answers: Vec<String> = pairs.iter().map(|(_, answer)| answer.to_string()).collect();
    Case::answers(GROUP, name, &records, &answers, marks)
}

/// The preview's line is that of the withdrawal but for the letters.
fn twice_then_withdrawn() -> Case {
    case(
        "twice, then withdrawn",
        &[
            (trust(&plain(&issue(1, &right()))), "tg +1 +0"),
            (licence(1, &right()), "li +1 +1"),
            (preview(1, &right()), "pv -1 -1"),
            (preview(1, &right()), "pv -1 -1"),
            (asks(), "qu permitted"),
            (withdraw(1, &right()), "wd -1 -1"),
            (preview(1, &right()), "refused 7"),
            (withdraw(1, &right()), "refused 7"),
            (asks(), "qu not permitted"),
            (licence(1, &right()), "li +1 +1"),
            (preview(1, &right()), "pv -1 -1"),
        ],
        3,
    )
}

/// A provisional licence has no part in the firm marks.
fn of_a_provisional_licence() -> Case {
    case(
        "of a provisional licence",
        &[
            (trust(&plain(&issue(1, &right()))), "tg +1 +0"),
            (provisional(1, &right()), "pl +0 +0"),
            (preview(1, &right()), "pv +0 +0"),
            (asks(), "qu open"),
            (preview(1, &right()), "pv +0 +0"),
            (confirm(1, &right()), "cf +1 +1"),
            (preview(1, &right()), "pv -1 -1"),
            (confirm(1, &right()), "refused 7"),
            (asks(), "qu permitted"),
            (withdraw(1, &right()), "wd -1 -1"),
            (provisional(1, &right()), "pl +0 +0"),
            (preview(1, &right()), "pv +0 +0"),
            (withdraw(1, &right()), "wd +0 +0"),
            (preview(1, &right()), "refused 7"),
            (provisional(1, &right()), "pl +0 +0"),
            (licence(1, &right()), "li +1 +1"),
            (preview(1, &right()), "pv -1 -1"),
            (provisional(1, &right()), "pl +0 +0"),
            (preview(1, &right()), "pv -1 -1"),
        ],
        3,
    )
}

/// Refusal 7 uses the whole record, so that the next one is read.
fn what_does_not_stand() -> Case {
    let g = when(&[said(0, &issue(3, &smart(1)))], &property(GOOD, 2));
    case(
        "of what does not stand",
        &[
            (preview(0, &g), "refused 7"),
            (preview(15, &for_all(2, OVER_GRANTS, &[], &issue_any(Y))), "refused 7"),
            (trust(&g), "tg +0 +0"),
            (preview(0, &g), "refused 7"),
            (licence(1, &g), "li +0 +0"),
            (preview(0, &g), "refused 7"),
            (preview(2, &g), "refused 7"),
            (preview(1, &smart(1)), "refused 7"),
            (preview(1, &g), "pv +0 +0"),
            (provisional(2, &g), "pl +0 +0"),
            (preview(2, &g), "pv +0 +0"),
            (preview(3, &g), "refused 7"),
            (withdraw(2, &g), "wd +0 +0"),
            (preview(2, &g), "refused 7"),
            (strike(&g), "st +0 +0"),
            (preview(1, &g), "pv +0 +0"),
            (withdraw(1, &g), "wd +0 +0"),
            (preview(1, &g), "refused 7"),
        ],
        0,
    )
}

/// P9: the first licence of a chain takes the others' words with it.
fn along_a_chain() -> Case {
    let good = when(&[said(0, &property(SMART, 2))], &property(GOOD, 2));
    let both = [said(0, &property(SMART, 2)), said(1, &property(GOOD, 2))];
    case(
        "along a chain",
        &[
            (licence(0, &smart(2)), "li +0 +1"),
            (preview(0, &smart(2)), "pv +0 -1"),
            (licence(1, &good), "li +0 +1"),
            (preview(0, &smart(2)), "pv +0 -2"),
            (trust(&when(&both, &property(TRUSTED, 2))), "tg +1 +0"),
            (preview(0, &smart(2)), "pv -1 -2"),
            (preview(1, &good), "pv -1 -1"),
            (query(&property(TRUSTED, 2)), "qu permitted"),
            (withdraw(0, &smart(2)), "wd -1 -2"),
            (preview(1, &good), "pv +0 +0"),
            (query(&property(TRUSTED, 2)), "qu not permitted"),
        ],
        0,
    )
}

/// Of two licences either may go; of the last one the right falls.
fn carried_by_another_licence() -> Case {
    case(
        "carried by another licence",
        &[
            (trust(&plain(&issue(0, &right()))), "tg +1 +0"),
            (trust(&plain(&issue(1, &right()))), "tg +1 +0"),
            (licence(0, &right()), "li +1 +1"),
            (preview(0, &right()), "pv -1 -1"),
            (licence(1, &right()), "li +0 +1"),
            (preview(0, &right()), "pv +0 -1"),
            (preview(1, &right()), "pv +0 -1"),
            (withdraw(0, &right()), "wd +0 -1"),
            (preview(1, &right()), "pv -1 -1"),
            (asks(), "qu permitted"),
        ],
        4,
    )
}

fn carried_by_a_trusted_grant() -> Case {
    case(
        "carried by a trusted grant",
        &[
            (trust(&may_issue_all(1)), "tg +64 +0"),
            (licence(1, &right()), "li +1 +1"),
            (preview(1, &right()), "pv -1 -1"),
            (trust(&right()), "tg +0 +0"),
            (preview(1, &right()), "pv +0 -1"),
            (strike(&right()), "st +0 +0"),
            (preview(1, &right()), "pv -1 -1"),
            (strike(&may_issue_all(1)), "st -65 +0"),
            (preview(1, &right()), "pv +0 -1"),
        ],
        1,
    )
}

/// A provisional licence of the same right keeps it open, not firm.
fn awaited_from_another() -> Case {
    case(
        "awaited from another",
        &[
            (trust(&plain(&issue(0, &right()))), "tg +1 +0"),
            (trust(&plain(&issue(1, &right()))), "tg +1 +0"),
            (licence(0, &right()), "li +1 +1"),
            (provisional(1, &right()), "pl +0 +0"),
            (preview(0, &right()), "pv -1 -1"),
            (preview(1, &right()), "pv +0 +0"),
            (asks(), "qu permitted"),
            (withdraw(0, &right()), "wd -1 -1"),
            (asks(), "qu open"),
            (confirm(1, &right()), "cf +1 +1"),
            (provisional(0, &right()), "pl +0 +0"),
            (preview(1, &right()), "pv -1 -1"),
            (preview(0, &right()), "pv +0 +0"),
            (confirm(0, &right()), "cf +0 +1"),
            (preview(1, &right()), "pv +0 -1"),
        ],
        5,
    )
}

/// With the right to issue falls what was issued by it; that it was said stays.
fn right_to_issue() -> Case {
    let passed = plain(&issue(1, &right()));
    case(
        "a right to issue that was passed on",
        &[
            (trust(&plain(&issue(0, &passed))), "tg +1 +0"),
            (licence(0, &passed), "li +1 +1"),
            (preview(0, &passed), "pv -1 -1"),
            (licence(1, &right()), "li +1 +1"),
            (preview(0, &passed), "pv -2 -1"),
            (preview(1, &right()), "pv -1 -1"),
            (query(&issue(1, &right())), "qu permitted"),
            (asks(), "qu permitted"),
            (withdraw(0, &passed), "wd -2 -1"),
            (preview(1, &right()), "pv +0 -1"),
            (asks(), "qu not permitted"),
        ],
        2,
    )
}

/// A right to issue any grant also speaks of numbers that are not given.
fn right_to_issue_any() -> Case {
    let any = may_issue_all(0);
    case(
        "a right to issue any grant",
        &[
            (licence(0, &any), "li +0 +64"),
            (preview(0, &any), "pv +0 -64"),
            (trust(&plain(&issue(0, &any))), "tg +64 +0"),
            (preview(0, &any), "pv -63 -64"),
            (query(&issue(0, &simple(5))), "qu permitted"),
            (licence(0, &simple(5)), "li +1 +1"),
            (preview(0, &any), "pv -64 -64"),
            (preview(0, &simple(5)), "pv -1 -1"),
            (withdraw(0, &any), "wd -64 -64"),
            (preview(0, &simple(5)), "pv +0 -1"),
            (query(&issue(0, &simple(5))), "qu not permitted"),
        ],
        2,
    )
}

/// P3: the licence that is looked at is the ground of the right to issue it.
fn by_its_own_word() -> Case {
    let rights = when(&[said(0, &property(SMART, 0))], &issue(0, &smart(0)));
    case(
        "a right by its own word",
        &[
            (trust(&rights), "tg +0 +0"),
            (licence(0, &smart(0)), "li +2 +1"),
            (preview(0, &smart(0)), "pv -2 -1"),
            (query(&property(SMART, 0)), "qu permitted"),
            (withdraw(0, &smart(0)), "wd -2 -1"),
        ],
        0,
    )
}

/// Every conclusion is granted where 0 said Smart(0), by trusted grants and by
/// licences of everybody: that one word carries all marks.
fn everything() -> Case {
    let condition = [said(0, &property(SMART, 0))];
    let mut grants: Vec<Bytes> =
        (0..16).map(|k| for_all(1, NO_RESOURCE, &condition, &property(k, X))).collect();
    grants.push(for_all(1, OVER_GRANTS, &condition, &issue_any(X)));
    grants.push(for_all(1, OVER_PACKS, &condition, &run(X, ANY_PACK)));
    grants.push(for_all(1, OVER_PACKS, &condition, &export(X, ANY_PACK)));
    let mut pairs: Vec<(Bytes, &str)> = grants.iter().map(|g| (trust(g), "tg +0 +0")).collect();
    for issuer in 0..16 {
        pairs.extend(grants.iter().map(|grant| (licence(issuer, grant), "li +0 +0")));
        pairs.push((preview(issuer, &grants[18]), "pv +0 +0"));
    }
    let word = smart(0);
    pairs.extend([
        (licence(0, &word), "li +2304 +36864"),
        (preview(0, &word), "pv -2304 -36864"),
        (preview(0, &word), "pv -2304 -36864"),
        (preview(15, &grants[18]), "pv +0 -512"),
        (query(&export(15, 31)), "qu permitted"),
        (query(&property(0, 0)), "qu permitted"),
        (withdraw(0, &word), "wd -2304 -36864"),
        (preview(0, &word), "refused 7"),
        (preview(15, &grants[18]), "pv +0 +0"),
        (licence(0, &word), "li +2304 +36864"),
        (preview(0, &word), "pv -2304 -36864"),
    ]);
    case("of all marks at once", &pairs, 39_168)
}

/// After a preview every record is answered as without it.
fn the_book_is_untouched() -> Case {
    let good = when(&[said(0, &property(SMART, 2))], &property(GOOD, 2));
    case(
        "before every kind of record",
        &[
            (licence(0, &smart(2)), "li +0 +1"),
            (preview(0, &smart(2)), "pv +0 -1"),
            (licence(0, &smart(2)), "li +0 +0"),
            (preview(0, &smart(2)), "pv +0 -1"),
            (trust(&good), "tg +1 +0"),
            (preview(0, &smart(2)), "pv -1 -1"),
            (query(&property(GOOD, 2)), "qu permitted"),
            (preview(0, &smart(2)), "pv -1 -1"),
            (trust(&good), "tg +0 +0"),
            (preview(0, &smart(2)), "pv -1 -1"),
            (strike(&good), "st -1 +0"),
            (preview(0, &smart(2)), "pv +0 -1"),
            (strike(&good), "refused 7"),
            (preview(0, &smart(2)), "pv +0 -1"),
            (provisional(0, &smart(2)), "pl +0 +0"),
            (preview(0, &smart(2)), "pv +0 -1"),
            (confirm(0, &smart(2)), "refused 7"),
            (provisional(1, &good), "pl +0 +0"),
            (preview(0, &smart(2)), "pv +0 -1"),
            (confirm(1, &good), "cf +0 +1"),
            (preview(0, &smart(2)), "pv +0 -2"),
            (withdraw(1, &good), "wd +0 -1"),
            (preview(0, &smart(2)), "pv +0 -1"),
            (withdraw(0, &smart(2)), "wd +0 -1"),
        ],
        0,
    )
}

/// What stands with the provisional licences is untouched too.
fn what_is_open_stays_open() -> Case {
    let good = plain(&property(GOOD, 2));
    let both = [said(0, &property(SMART, 2)), said(1, &property(GOOD, 2))];
    let asks = query(&run(2, 0));
    case(
        "what is open stays open",
        &[
            (trust(&when(&both, &run(2, 0))), "tg +0 +0"),
            (provisional(0, &smart(2)), "pl +0 +0"),
            (licence(1, &good), "li +0 +1"),
            (asks.clone(), "qu open"),
            (preview(1, &good), "pv +0 -1"),
            (asks.clone(), "qu open"),
            (preview(0, &smart(2)), "pv +0 +0"),
            (asks.clone(), "qu open"),
            (preview(1, &smart(2)), "refused 7"),
            (asks.clone(), "qu open"),
            (withdraw(1, &good), "wd +0 -1"),
            (asks.clone(), "qu not permitted"),
            (preview(0, &smart(2)), "pv +0 +0"),
            (licence(1, &good), "li +0 +1"),
            (preview(1, &good), "pv +0 -1"),
            (confirm(0, &smart(2)), "cf +1 +1"),
            (preview(1, &good), "pv -1 -1"),
            (asks, "qu permitted"),
        ],
        3,
    )
}

/// As many previews as a journal has room for enter no sum.
fn thousands() -> Case {
    let entered = [trust(&may_issue_all(1)), licence(1, &right())];
    let asked = preview(1, &right());
    let count = (65_536 - entered.concat().len()) / asked.len();
    let mut pairs = vec![(entered[0].clone(), "tg +64 +0"), (entered[1].clone(), "li +1 +1")];
    pairs.extend(vec![(asked, "pv -1 -1"); count]);
    case("thousands of them", &pairs, 66)
}

/// Statement i of a circle is said if the next one is; one of them is fed. The
/// circle falls with its feed, and without link i what lies behind that link as
/// seen from the feed.
fn circles() -> Vec<Case> {
    let one = |length: usize| {
        let links: Vec<(u8, Bytes)> = (0..length).map(|i| circle_licence(i, length)).collect();
        let fed = length / 2;
        let (speaker, conclusion) = circle_statement(fed);
        let feed = plain(&conclusion);
        let all = length as i32;
        let mut records: Vec<Bytes> = links.iter().map(|(p, grant)| licence(*p, grant)).collect();
        let mut answers = vec![nets("li", 0, 0); length];
        let previews = |records: &mut Vec<Bytes>| {
            records.extend(links.iter().map(|(p, grant)| preview(*p, grant)));
        };
        previews(&mut records);
        answers.extend(vec![nets("pv", 0, 0); length]);
        records.extend([licence(speaker, &feed), preview(speaker, &feed)]);
        answers.extend([nets("li", 0, all), nets("pv", 0, -all)]);
        previews(&mut records);
        let behind = |i: usize| ((i + length - fed) % length) as i32;
        answers.extend((0..length).map(|i| nets("pv", 0, -behind(i))));
        records.extend([withdraw(speaker, &feed), preview(speaker, &feed)]);
        answers.extend([nets("wd", 0, -all), "refused 7".to_string()]);
        previews(&mut records);
        answers.extend(vec![nets("pv", 0, 0); length]);
        Case::answers(GROUP, &format!("a circle of {length} licences"), &records, &answers, 0)
    };
    (1..=30).map(one).collect()
}

/// Each row has a licence of its own.
fn each_row() -> Case {
    let issuer = |i: usize| (i % 16) as u8;
    let mut pairs: Vec<(Bytes, &str)> =
        (0..64).map(|i| (licence(issuer(i), &simple(i)), "li +0 +1")).collect();
    for i in (0..64).rev() {
        pairs.push((preview(issuer(i + 1), &simple(i)), "refused 7"));
        pairs.push((preview(issuer(i), &simple((i + 1) % 64)), "refused 7"));
        pairs.push((preview(issuer(i), &simple(i)), "pv +0 -1"));
    }
    case("of each of 64 rows", &pairs, 64)
}

/// Firm and provisional licences of each issuer of one row.
fn each_issuer() -> Case {
    let firm = |p: u8| p % 2 == 0;
    let mut pairs: Vec<(Bytes, &str)> = Vec::new();
    for p in 0..16 {
        pairs.push((preview(p, &right()), "refused 7"));
        pairs.push(match firm(p) {
            true => (licence(p, &right()), "li +0 +1"),
            false => (provisional(p, &right()), "pl +0 +0"),
        });
    }
    for p in (0..16).rev() {
        pairs.push((preview(p, &right()), if firm(p) { "pv +0 -1" } else { "pv +0 +0" }));
    }
    case("of each issuer of one row", &pairs, 8)
}

/// So many licences of principal 3, then more records.
fn after(count: usize, name: &str, more: &[(Bytes, &str)], marks: usize) -> Case {
    let entered = |i: usize| (licence(3, &simple(i)), "li +0 +1");
    case(name, &[(0..count).map(entered).collect::<Vec<_>>().as_slice(), more].concat(), marks)
}

fn fresh(i: u8) -> Bytes {
    plain(&run(i, i))
}

fn holding(i: u8) -> Bytes {
    plain(&issue(0, &fresh(i)))
}

/// A preview gives no number.
fn nearly_all_numbers() -> Case {
    let more = [
        (preview(0, &fresh(1)), "refused 7"),
        (preview(0, &holding(2)), "refused 7"),
        (preview(3, &simple(62)), "pv +0 -1"),
        (licence(0, &fresh(3)), "li +0 +1"),
        (preview(0, &fresh(3)), "pv +0 -1"),
        (trust(&fresh(1)), "refused 6"),
        (preview(0, &fresh(1)), "refused 7"),
    ];
    after(63, "63 numbers given", &more, 64)
}

/// Where all 64 numbers are given a preview is not refused with 6.
fn all_numbers() -> Case {
    let more = [
        (preview(0, &fresh(1)), "refused 7"),
        (preview(3, &holding(1)), "refused 7"),
        (trust(&fresh(1)), "refused 6"),
        (preview(3, &simple(63)), "pv +0 -1"),
        (preview(3, &simple(0)), "pv +0 -1"),
        (preview(4, &simple(0)), "refused 7"),
        (withdraw(3, &simple(0)), "wd +0 -1"),
        (preview(3, &simple(0)), "refused 7"),
        (licence(3, &simple(0)), "li +0 +1"),
        (preview(3, &simple(0)), "pv +0 -1"),
    ];
    after(64, "64 numbers given", &more, 64)
}

/// Document 02, 3: conditions in another order and repeated, so many grants
/// deep. Both conditions are met, or what is said is a right to issue.
fn other_orders(depth: usize) -> Case {
    let (a, b) = (said(0, &property(SMART, 2)), said(1, &property(GOOD, 2)));
    let deeper = |conditions: &[Bytes]| {
        (0..depth).fold(when(conditions, &run(7, 3)), |inner, _| plain(&issue(5, &inner)))
    };
    let one = deeper(&[a.clone(), b.clone()]);
    let other = deeper(&[b.clone(), a.clone()]);
    let repeated = deeper(&[b.clone(), a.clone(), b.clone(), a.clone()]);
    let another = deeper(&[a]);
    let pairs = [
        (licence(0, &smart(2)), "li +0 +1"),
        (licence(1, &plain(&property(GOOD, 2))), "li +0 +1"),
        (licence(2, &one), "li +0 +1"),
        (preview(2, &other), "pv +0 -1"),
        (preview(2, &repeated), "pv +0 -1"),
        (preview(2, &one), "pv +0 -1"),
        (preview(2, &another), "refused 7"),
        (withdraw(2, &repeated), "wd +0 -1"),
        (preview(2, &one), "refused 7"),
        (provisional(2, &repeated), "pl +0 +0"),
        (preview(2, &one), "pv +0 +0"),
        (confirm(2, &other), "cf +0 +1"),
        (preview(2, &repeated), "pv +0 -1"),
    ];
    case(&format!("conditions in another order, {depth} grants deep"), &pairs, 3)
}
