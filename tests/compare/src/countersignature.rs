//! Document 02, 5: licences awaiting countersignature, with the answers
//! written out.

use crate::case::{nets, Case};
use crate::circles::{circle_licence, circle_statement};
use crate::tables::simple;
use crate::write::*;

const GROUP: &str = "document 02, 5: licences awaiting countersignature";

const SMART: u8 = 0;
const GOOD: u8 = 2;
const TRUSTED: u8 = 4;

pub fn cases() -> Vec<Case> {
    let mut cases = queries();
    cases.extend(kinds_of_licence());
    cases.extend(circles());
    cases.extend(issuers_and_rows());
    cases.extend(numbers());
    cases.extend(other_orders());
    cases
}

fn smart(principal: u8) -> Bytes {
    plain(&property(SMART, principal))
}

/// A case from pairs of a record and its answer.
fn case(name: &str, pairs: &[(Bytes, &str)], marks: usize) -> Case {
    let records: Vec<Bytes> = pairs.iter().map(|(record, _)| record.clone()).collect();
    let answers: Vec<String> = pairs.iter().map(|(_, answer)| answer.to_string()).collect();
    Case::answers(GROUP, name, &records, &answers, marks)
}

/// What a query answers, over the choices of which provisional licences
/// become firm.
pub fn queries() -> Vec<Case> {
    vec![
        middle_of_a_chain(),
        either_of_two_paths("the first is confirmed", 0, 1),
        either_of_two_paths("the second is confirmed", 1, 0),
        both_needed(),
        nothing_added(),
        nothing_added_to_a_firm_licence(),
        right_to_issue(),
        right_to_issue_any(),
        other_records_under_a_provisional_licence(),
        said_is_not_true(),
        everything_open_at_once(),
    ]
}

/// 0 said Smart(2), 1 would have to say Good(2), and that is trusted.
fn middle_of_a_chain() -> Case {
    let middle = when(&[said(0, &property(SMART, 2))], &property(GOOD, 2));
    let last = when(&[said(1, &property(GOOD, 2))], &property(TRUSTED, 2));
    let asks = query(&property(TRUSTED, 2));
    case(
        "the middle of a chain",
        &[
            (licence(0, &smart(2)), "li +0 +1"),
            (provisional(1, &middle), "pl +0 +0"),
            (asks.clone(), "qu not permitted"),
            (trust(&last), "tg +0 +0"),
            (asks.clone(), "qu open"),
            (withdraw(0, &smart(2)), "wd +0 -1"),
            (asks.clone(), "qu not permitted"),
            (licence(0, &smart(2)), "li +0 +1"),
            (asks.clone(), "qu open"),
            (confirm(1, &middle), "cf +1 +1"),
            (asks, "qu permitted"),
        ],
        3,
    )
}

/// Two provisional licences of one right: it is permitted as soon as one of
/// them is confirmed, with the other withdrawn before or after.
fn either_of_two_paths(name: &str, kept: u8, gone: u8) -> Case {
    let right = plain(&run(9, 7));
    let asks = query(&run(9, 7));
    case(
        &format!("two paths to one right: {name}"),
        &[
            (trust(&plain(&issue(0, &right))), "tg +1 +0"),
            (trust(&plain(&issue(1, &right))), "tg +1 +0"),
            (provisional(0, &right), "pl +0 +0"),
            (asks.clone(), "qu open"),
            (provisional(1, &right), "pl +0 +0"),
            (asks.clone(), "qu open"),
            (confirm(kept, &right), "cf +1 +1"),
            (asks.clone(), "qu permitted"),
            (withdraw(gone, &right), "wd +0 +0"),
            (asks.clone(), "qu permitted"),
            (withdraw(kept, &right), "wd -1 -1"),
            (asks.clone(), "qu not permitted"),
            (provisional(gone, &right), "pl +0 +0"),
            (provisional(kept, &right), "pl +0 +0"),
            (withdraw(gone, &right), "wd +0 +0"),
            (asks.clone(), "qu open"),
            (confirm(kept, &right), "cf +1 +1"),
            (asks, "qu permitted"),
        ],
        4,
    )
}

/// A trusted grant that needs the word of two, both provisional.
fn both_needed() -> Case {
    let both = when(&[said(0, &property(SMART, 2)), said(1, &property(GOOD, 2))], &run(2, 0));
    let good = plain(&property(GOOD, 2));
    let asks = query(&run(2, 0));
    case(
        "two licences, both needed",
        &[
            (trust(&both), "tg +0 +0"),
            (provisional(0, &smart(2)), "pl +0 +0"),
            (asks.clone(), "qu not permitted"),
            (provisional(1, &good), "pl +0 +0"),
            (asks.clone(), "qu open"),
            (confirm(0, &smart(2)), "cf +0 +1"),
            (asks.clone(), "qu open"),
            (withdraw(1, &good), "wd +0 +0"),
            (asks.clone(), "qu not permitted"),
            (provisional(1, &good), "pl +0 +0"),
            (confirm(1, &good), "cf +1 +1"),
            (asks, "qu permitted"),
        ],
        3,
    )
}

/// A right that stands by trust is permitted whatever becomes of the licence.
fn nothing_added() -> Case {
    let right = plain(&run(9, 7));
    let asks = query(&run(9, 7));
    case(
        "a provisional licence of what is trusted",
        &[
            (trust(&right), "tg +1 +0"),
            (trust(&may_issue_all(1)), "tg +64 +0"),
            (provisional(1, &right), "pl +0 +0"),
            (asks.clone(), "qu permitted"),
            (strike(&right), "st -1 +0"),
            (asks.clone(), "qu open"),
            (trust(&right), "tg +1 +0"),
            (confirm(1, &right), "cf +0 +1"),
            (strike(&right), "st +0 +0"),
            (asks, "qu permitted"),
        ],
        66,
    )
}

/// The same beside a firm licence of another issuer.
fn nothing_added_to_a_firm_licence() -> Case {
    let right = plain(&run(9, 7));
    let asks = query(&run(9, 7));
    case(
        "a provisional licence beside a firm one",
        &[
            (trust(&may_issue_all(0)), "tg +64 +0"),
            (trust(&may_issue_all(1)), "tg +64 +0"),
            (licence(0, &right), "li +1 +1"),
            (provisional(1, &right), "pl +0 +0"),
            (asks.clone(), "qu permitted"),
            (confirm(0, &right), "refused 7"),
            (withdraw(0, &right), "wd -1 -1"),
            (asks.clone(), "qu open"),
            (licence(0, &right), "li +1 +1"),
            (withdraw(1, &right), "wd +0 +0"),
            (asks, "qu permitted"),
        ],
        130,
    )
}

/// 0 may pass the right to issue on to 1 and does so provisionally.
fn right_to_issue() -> Case {
    let right = plain(&run(3, 7));
    let passed = plain(&issue(1, &right));
    case(
        "a right to issue that is passed on",
        &[
            (trust(&plain(&issue(0, &passed))), "tg +1 +0"),
            (licence(1, &right), "li +0 +1"),
            (provisional(0, &passed), "pl +0 +0"),
            (query(&issue(1, &right)), "qu open"),
            (query(&run(3, 7)), "qu open"),
            (query(&issue(0, &passed)), "qu permitted"),
            (query(&issue(0, &right)), "qu not permitted"),
            (strike(&plain(&issue(0, &passed))), "st -1 +0"),
            (query(&issue(1, &right)), "qu not permitted"),
            (query(&run(3, 7)), "qu not permitted"),
            (trust(&plain(&issue(0, &passed))), "tg +1 +0"),
            (confirm(0, &passed), "cf +2 +1"),
            (query(&run(3, 7)), "qu permitted"),
        ],
        5,
    )
}

/// P7 with a provisional licence: "for all x, Perm(0, issue, x)" is no ground
/// of itself; where it may be issued it also speaks of numbers not given.
fn right_to_issue_any() -> Case {
    let any = may_issue_all(0);
    case(
        "a right to issue any grant",
        &[
            (provisional(0, &any), "pl +0 +0"),
            (query(&issue(0, &any)), "qu not permitted"),
            (trust(&plain(&issue(0, &any))), "tg +1 +0"),
            (query(&issue(0, &any)), "qu permitted"),
            (query(&issue(0, &simple(5))), "qu open"),
            (query(&issue(1, &simple(5))), "qu not permitted"),
            (confirm(0, &any), "cf +63 +64"),
            (query(&issue(0, &simple(6))), "qu permitted"),
        ],
        128,
    )
}

/// The second marks follow every kind of change.
fn other_records_under_a_provisional_licence() -> Case {
    let asks = query(&property(GOOD, 2));
    let good = when(&[said(0, &property(SMART, 2))], &property(GOOD, 2));
    case(
        "every change is worked out with the provisional licences too",
        &[
            (provisional(0, &smart(2)), "pl +0 +0"),
            (trust(&good), "tg +0 +0"),
            (asks.clone(), "qu open"),
            (strike(&good), "st +0 +0"),
            (asks.clone(), "qu not permitted"),
            (licence(1, &good), "li +0 +0"),
            (asks.clone(), "qu not permitted"),
            (trust(&may_issue_all(1)), "tg +64 +0"),
            (asks.clone(), "qu open"),
            (withdraw(1, &good), "wd +0 +0"),
            (asks.clone(), "qu not permitted"),
            (provisional(1, &good), "pl +0 +0"),
            (asks.clone(), "qu open"),
            (confirm(1, &good), "cf +0 +0"),
            (asks.clone(), "qu open"),
            (confirm(0, &smart(2)), "cf +1 +2"),
            (asks, "qu permitted"),
        ],
        67,
    )
}

/// A provisional licence that nobody may issue opens no right.
fn said_is_not_true() -> Case {
    case(
        "what would only be said",
        &[
            (provisional(0, &smart(2)), "pl +0 +0"),
            (query(&property(SMART, 2)), "qu not permitted"),
            (confirm(0, &smart(2)), "cf +0 +1"),
            (query(&property(SMART, 2)), "qu not permitted"),
        ],
        1,
    )
}

/// Every conclusion is granted where 0 said Smart(0), by trusted grants and by
/// licences of everybody; that one word is provisional.
fn everything_open_at_once() -> Case {
    let condition = [said(0, &property(SMART, 0))];
    let mut grants: Vec<Bytes> =
        (0..16).map(|k| for_all(1, NO_RESOURCE, &condition, &property(k, X))).collect();
    grants.push(for_all(1, OVER_GRANTS, &condition, &issue_any(X)));
    grants.push(for_all(1, OVER_PACKS, &condition, &run(X, ANY_PACK)));
    grants.push(for_all(1, OVER_PACKS, &condition, &export(X, ANY_PACK)));
    let ends = [
        property(0, 0),
        property(15, 0),
        issue(0, &grants[0]),
        run(0, 0),
        export(0, 31),
        property(0, 15),
        issue(15, &grants[18]),
        run(15, 31),
        export(15, 31),
    ];
    let ask = |answer: &'static str| ends.iter().map(move |end| (query(end), answer));
    let mut pairs: Vec<(Bytes, &str)> = grants.iter().map(|g| (trust(g), "tg +0 +0")).collect();
    for issuer in 0..16 {
        pairs.extend(grants.iter().map(|grant| (licence(issuer, grant), "li +0 +0")));
    }
    pairs.extend(ask("qu not permitted"));
    pairs.push((provisional(0, &smart(0)), "pl +0 +0"));
    pairs.extend(ask("qu open"));
    pairs.push((confirm(0, &smart(0)), "cf +2304 +36864"));
    pairs.extend(ask("qu permitted"));
    case("all marks of the second kind at once", &pairs, 39_168)
}

/// How pl, li, cf and wd change which kind a licence is.
fn kinds_of_licence() -> Vec<Case> {
    let g = smart(2);
    let (pl, li) = ((provisional(0, &g), "pl +0 +0"), (licence(0, &g), "li +0 +1"));
    let (cf, wd) = (confirm(0, &g), withdraw(0, &g));
    let gone = |record: &Bytes| (record.clone(), "refused 7");
    let confirmed = (cf.clone(), "cf +0 +1");
    let firm_withdrawn = (wd.clone(), "wd +0 -1");
    let withdrawn = (wd.clone(), "wd +0 +0");
    let again = (licence(0, &g), "li +0 +0");
    let kept = [pl.clone(), confirmed.clone(), gone(&cf), firm_withdrawn.clone(), gone(&cf)];
    let stays_firm = [li.clone(), pl.clone(), gone(&cf), firm_withdrawn.clone(), gone(&wd)];
    let made_firm = [pl.clone(), li.clone(), gone(&cf), again, firm_withdrawn.clone(), gone(&wd)];
    let removed = [pl.clone(), withdrawn.clone(), gone(&wd), gone(&cf), pl.clone(), withdrawn];
    let twice = [pl.clone(), pl.clone(), confirmed.clone(), gone(&cf), pl.clone(), gone(&cf)];
    let anew = [li, firm_withdrawn, pl.clone(), confirmed, pl];
    vec![
        case("confirmed, then withdrawn", &[&kept[..], &[gone(&wd)]].concat(), 0),
        case("pl of a firm licence leaves it firm", &stays_firm, 0),
        case("li of a provisional licence makes it firm", &made_firm, 0),
        case("wd of a provisional licence", &removed, 0),
        case("pl twice is one provisional licence", &twice, 1),
        case("withdrawn, then provisional, then firm", &anew, 1),
        firm_in_answers(),
        nothing_to_confirm(),
    ]
}

/// The kinds as queries see them.
fn firm_in_answers() -> Case {
    let (g, asks) = (smart(2), query(&property(SMART, 2)));
    case(
        "which kind a licence is, seen by queries",
        &[
            (trust(&may_issue_all(0)), "tg +64 +0"),
            (licence(0, &g), "li +1 +1"),
            (provisional(0, &g), "pl +0 +0"),
            (asks.clone(), "qu permitted"),
            (withdraw(0, &g), "wd -1 -1"),
            (asks.clone(), "qu not permitted"),
            (provisional(0, &g), "pl +0 +0"),
            (asks.clone(), "qu open"),
            (licence(0, &g), "li +1 +1"),
            (asks.clone(), "qu permitted"),
            (confirm(0, &g), "refused 7"),
            (asks.clone(), "qu permitted"),
            (withdraw(0, &g), "wd -1 -1"),
            (provisional(0, &g), "pl +0 +0"),
            (withdraw(0, &g), "wd +0 +0"),
            (asks, "qu not permitted"),
        ],
        64,
    )
}

/// Refusal 7 uses the whole record, so that the next one is read.
fn nothing_to_confirm() -> Case {
    let g = when(&[said(0, &issue(3, &smart(1)))], &property(GOOD, 2));
    case(
        "cf of what is not provisional",
        &[
            (confirm(0, &g), "refused 7"),
            (confirm(15, &for_all(2, OVER_GRANTS, &[], &issue_any(Y))), "refused 7"),
            (trust(&g), "tg +0 +0"),
            (confirm(0, &g), "refused 7"),
            (licence(0, &g), "li +0 +0"),
            (confirm(0, &g), "refused 7"),
            (provisional(1, &g), "pl +0 +0"),
            (confirm(0, &g), "refused 7"),
            (confirm(2, &g), "refused 7"),
            (confirm(1, &smart(1)), "refused 7"),
            (withdraw(2, &g), "refused 7"),
            (strike(&smart(1)), "refused 7"),
            (confirm(1, &g), "cf +0 +0"),
            (strike(&g), "st +0 +0"),
        ],
        0,
    )
}

/// A circle of provisional licences does not support itself. Fed by a
/// provisional licence it is open, also when all the circle is firm.
pub fn circles() -> Vec<Case> {
    let one = |length: usize| {
        let (first_speaker, first) = circle_statement(0);
        let (speaker, fed) = circle_statement(length / 2);
        let links: Vec<(u8, Bytes)> = (0..length).map(|i| circle_licence(i, length)).collect();
        let (shown, asks) = (property(15, 15), query(&property(15, 15)));
        let feed = plain(&fed);
        let (gain, loss) = (format!("cf +1 +{length}"), format!("wd -1 -{length}"));
        let mut pairs = vec![(trust(&when(&[said(first_speaker, &first)], &shown)), "tg +0 +0")];
        pairs.extend(links.iter().map(|(p, grant)| (provisional(*p, grant), "pl +0 +0")));
        pairs.push((asks.clone(), "qu not permitted"));
        pairs.push((provisional(speaker, &feed), "pl +0 +0"));
        pairs.push((asks.clone(), "qu open"));
        pairs.extend(links.iter().map(|(p, grant)| (confirm(*p, grant), "cf +0 +0")));
        pairs.extend([(asks.clone(), "qu open"), (confirm(speaker, &feed), &gain)]);
        pairs.extend([(asks.clone(), "qu permitted"), (withdraw(speaker, &feed), &loss)]);
        pairs.push((asks, "qu not permitted"));
        case(&format!("a circle of {length} provisional licences"), &pairs, 0)
    };
    (1..=30).map(one).collect()
}

/// Each issuer and each row has a provisional licence of its own.
fn issuers_and_rows() -> Vec<Case> {
    let mut rows: Vec<(Bytes, &str)> = Vec::new();
    let issuer = |i: usize| (i % 16) as u8;
    rows.extend((0..64).map(|i| (provisional(issuer(i), &simple(i)), "pl +0 +0")));
    for i in (0..64).rev() {
        rows.push((confirm(issuer(i + 1), &simple(i)), "refused 7"));
        rows.push((confirm(issuer(i), &simple((i + 1) % 64)), "refused 7"));
        rows.push((confirm(issuer(i), &simple(i)), "cf +0 +1"));
        rows.push((confirm(issuer(i), &simple(i)), "refused 7"));
    }
    let right = plain(&run(3, 31));
    let mut issuers: Vec<(Bytes, &str)> = Vec::new();
    for p in 0..16 {
        issuers.push((provisional(p, &right), "pl +0 +0"));
        issuers.push((trust(&plain(&issue(p, &right))), "tg +1 +0"));
        issuers.push((query(&run(3, 31)), "qu open"));
    }
    for p in (0..16).rev() {
        issuers.push((withdraw(p, &right), "wd +0 +0"));
        issuers.push((withdraw(p, &right), "refused 7"));
        issuers.push((query(&run(3, 31)), if p > 0 { "qu open" } else { "qu not permitted" }));
    }
    vec![
        case("a provisional licence of each of 64 rows", &rows, 64),
        case("provisional licences of each issuer of one row", &issuers, 16),
    ]
}

/// So many provisional licences of principal 3, then more records.
fn after(count: usize, name: &str, more: &[(Bytes, &str)], marks: usize) -> Case {
    let entered = |i: usize| (provisional(3, &simple(i)), "pl +0 +0");
    case(name, &[(0..count).map(entered).collect::<Vec<_>>().as_slice(), more].concat(), marks)
}

fn fresh(i: u8) -> Bytes {
    plain(&run(i, i))
}

fn holding(i: u8) -> Bytes {
    plain(&issue(0, &fresh(i)))
}

/// pl gives numbers as li does, cf gives none.
fn numbers() -> Vec<Case> {
    let nearly = [
        (provisional(0, &holding(1)), "refused 6"),
        (confirm(0, &fresh(2)), "refused 7"),
        (confirm(0, &holding(2)), "refused 7"),
        (provisional(0, &fresh(1)), "pl +0 +0"),
        (provisional(0, &holding(1)), "refused 6"),
        (trust(&fresh(2)), "refused 6"),
        (trust(&fresh(1)), "tg +1 +0"),
    ];
    let inner = [
        (provisional(0, &holding(1)), "pl +0 +0"),
        (trust(&fresh(1)), "tg +1 +0"),
        (trust(&fresh(2)), "refused 6"),
        (trust(&holding(1)), "tg +1 +0"),
    ];
    let mut kept: Vec<(Bytes, &str)> =
        (0..64).map(|i| (withdraw(3, &simple(i)), "wd +0 +0")).collect();
    kept.extend([(trust(&fresh(1)), "refused 6"), (trust(&simple(8)), "tg +1 +0")]);
    vec![
        all_numbers_given(),
        after(63, "63 provisional licences", &nearly, 1),
        after(62, "62 provisional licences, an inner grant", &inner, 2),
        after(64, "numbers are kept when provisional licences go", &kept, 1),
    ]
}

/// Where all 64 numbers are given, what has one is still entered.
fn all_numbers_given() -> Case {
    let more = [
        (provisional(0, &fresh(1)), "refused 6"),
        (licence(0, &fresh(1)), "refused 6"),
        (query(&issue(0, &fresh(1))), "refused 6"),
        (confirm(0, &fresh(1)), "refused 7"),
        (withdraw(0, &holding(1)), "refused 7"),
        (query(&issue(0, &simple(63))), "qu not permitted"),
        (provisional(4, &simple(63)), "pl +0 +0"),
        (confirm(3, &simple(0)), "cf +0 +1"),
        (withdraw(3, &simple(1)), "wd +0 +0"),
        (provisional(0, &fresh(1)), "refused 6"),
        (provisional(3, &simple(1)), "pl +0 +0"),
    ];
    after(64, "64 provisional licences, and one more", &more, 1)
}

/// Document 02, 3: what is entered in one order is confirmed, issued and
/// withdrawn in another, also with conditions repeated and inside.
fn other_orders() -> Vec<Case> {
    let (a, b) = (said(0, &property(SMART, 2)), said(1, &property(GOOD, 2)));
    let writings = [
        when(&[a.clone(), b.clone()], &run(7, 3)),
        when(&[b.clone(), a.clone()], &run(7, 3)),
        when(&[b.clone(), a.clone(), b.clone(), a], &run(7, 3)),
    ];
    let deeper = |depth: usize, grant: &Bytes| {
        (0..depth).fold(grant.clone(), |inner, _| plain(&issue(5, &inner)))
    };
    (0..4).map(|depth| in_turn(depth, &writings.each_ref().map(|g| deeper(depth, g)))).collect()
}

/// The three writings of one grant in turn. Without its conditions' words it
/// says nothing; a grant around it does.
fn in_turn(depth: usize, [one, other, repeated]: &[Bytes; 3]) -> Case {
    let said = i32::from(depth > 0);
    let (li, cf, wd) = (nets("li", 0, said), nets("cf", 0, said), nets("wd", 0, -said));
    let pairs = [
        (provisional(2, one), "pl +0 +0"),
        (provisional(2, other), "pl +0 +0"),
        (confirm(2, repeated), &cf),
        (confirm(2, one), "refused 7"),
        (provisional(2, other), "pl +0 +0"),
        (withdraw(2, other), &wd),
        (provisional(2, repeated), "pl +0 +0"),
        (licence(2, other), &li),
        (confirm(2, other), "refused 7"),
        (withdraw(2, one), &wd),
        (provisional(2, other), "pl +0 +0"),
        (withdraw(2, repeated), "wd +0 +0"),
        (withdraw(2, one), "refused 7"),
    ];
    case(&format!("conditions in another order, {depth} grants deep"), &pairs, 0)
}
