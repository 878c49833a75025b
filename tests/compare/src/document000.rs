//! Document 000's examples, as far as the language of the book has them.
//!
//! Example 3.2 asks about a union of principals, which the language lacks.
//! Example 3.5 has an open grant as a resource, which it lacks too; its
//! closed instances and its nearest form with a grant variable stand here.
//! Example 3.6 ranges over infinitely many grants there and over 64 here.

use crate::case::Case;
use crate::write::*;

const GROUP: &str = "document 000: examples 3.1, 3.3 to 3.6, 4.3 and 4.4";

const ALICE: u8 = 0;
const BOB: u8 = 1;
const CHARLIE: u8 = 2;
const AMY: u8 = 3;

const SMART: u8 = 0;
const ATTRACTIVE: u8 = 1;
const NAP: u8 = 5;
const TRUSTED: u8 = 6;
const CHEATED: u8 = 7;
const GREAT: u8 = 8;
const GOOD: u8 = 9;

pub fn cases() -> Vec<Case> {
    [
        example_3_1(),
        example_3_3(),
        example_3_4(),
        example_3_5(),
        example_3_6(),
        example_4_3(),
        example_4_4(),
    ]
    .into_iter()
    .flatten()
    .collect()
}

fn example_3_1() -> Vec<Case> {
    let attractive = when(&[said(ALICE, &property(SMART, BOB))], &property(ATTRACTIVE, BOB));
    let records = [
        licence(ALICE, &plain(&property(SMART, BOB))),
        licence(AMY, &attractive),
        trust(&plain(&issue(AMY, &attractive))),
        query(&property(ATTRACTIVE, BOB)),
        query(&property(SMART, BOB)),
    ];
    let lines = [
        "1 li +0 +1",
        "2 li +0 +1",
        "3 tg +2 +0",
        "4 qu permitted",
        "5 qu not permitted",
        "end 5 marks 4",
    ];
    vec![Case::written(GROUP, "3.1: Amy may say that Bob is attractive", &records, &lines)]
}

/// Alice may say she is smart if she says so. The uncorrected query removes
/// the licence under question and says no.
fn example_3_3() -> Vec<Case> {
    let smart = plain(&property(SMART, ALICE));
    let may_say = when(&[said(ALICE, &property(SMART, ALICE))], &issue(ALICE, &smart));
    let records = [licence(ALICE, &smart), trust(&may_say), query(&property(SMART, ALICE))];
    let lines = ["1 li +0 +1", "2 tg +2 +0", "3 qu permitted", "end 3 marks 3"];
    vec![Case::written(GROUP, "3.3: Alice is smart", &records, &lines)]
}

/// "If I say Bob is smart, then he is": no ground to say it, until a trusted
/// grant says that Bob is smart.
fn example_3_4() -> Vec<Case> {
    let circle = when(&[said(ALICE, &property(SMART, BOB))], &property(SMART, BOB));
    let alone = [
        licence(ALICE, &circle),
        trust(&plain(&issue(ALICE, &circle))),
        query(&property(SMART, BOB)),
    ];
    let trusted = [trust(&plain(&property(SMART, BOB))), query(&property(SMART, BOB))];
    let lines = [
        "1 li +0 +0",
        "2 tg +1 +0",
        "3 qu not permitted",
        "4 tg +1 +0",
        "5 qu permitted",
        "end 5 marks 2",
    ];
    vec![Case::written(GROUP, "3.4: is Bob smart", &[&alone[..], &trusted[..]].concat(), &lines)]
}

/// Alice may issue a grant if she says that she may issue her right to it.
fn example_3_5() -> Vec<Case> {
    let nap = plain(&property(NAP, ALICE));
    let may_nap = plain(&issue(ALICE, &nap));
    let step = |grant: &Bytes| {
        let right = plain(&issue(ALICE, grant));
        when(&[said(ALICE, &issue(ALICE, &right))], &issue(ALICE, grant))
    };
    let closed = [
        licence(ALICE, &step(&nap)),
        licence(ALICE, &step(&may_nap)),
        trust(&plain(&issue(ALICE, &step(&nap)))),
        query(&issue(ALICE, &nap)),
    ];
    let closed_lines =
        ["1 li +0 +0", "2 li +0 +0", "3 tg +1 +0", "4 qu not permitted", "end 4 marks 1"];
    let circle = for_all(0, OVER_GRANTS, &[said(ALICE, &issue_any(ALICE))], &issue_any(ALICE));
    let with_variable = [
        licence(ALICE, &circle),
        trust(&plain(&issue(ALICE, &circle))),
        query(&issue(ALICE, &nap)),
    ];
    let variable_lines = ["1 li +0 +0", "2 tg +1 +0", "3 qu not permitted", "end 3 marks 1"];
    vec![
        Case::written(GROUP, "3.5: closed instances", &closed, &closed_lines),
        Case::written(GROUP, "3.5: with a grant variable", &with_variable, &variable_lines),
    ]
}

/// Alice may say she is trusted if Bob says that she may issue some grant.
fn example_3_6() -> Vec<Case> {
    let trusted = plain(&property(TRUSTED, ALICE));
    let rule = for_all(0, OVER_GRANTS, &[said(BOB, &issue_any(ALICE))], &issue(ALICE, &trusted));
    let records = [
        trust(&rule),
        query(&issue(ALICE, &trusted)),
        licence(BOB, &plain(&issue(ALICE, &plain(&property(NAP, CHARLIE))))),
        query(&issue(ALICE, &trusted)),
    ];
    let lines =
        ["1 tg +0 +0", "2 qu not permitted", "3 li +1 +1", "4 qu permitted", "end 4 marks 2"];
    vec![Case::written(GROUP, "3.6: may Alice say she is trusted", &records, &lines)]
}

fn example_4_3() -> Vec<Case> {
    let good_if_great =
        for_all(1, NO_RESOURCE, &[said(ALICE, &property(GREAT, X))], &property(GOOD, X));
    let great_if_good = when(&[said(ALICE, &property(GOOD, BOB))], &property(GREAT, CHARLIE));
    let records = [
        trust(&may_issue_all(ALICE)),
        licence(ALICE, &good_if_great),
        licence(ALICE, &great_if_good),
        query(&property(GOOD, CHARLIE)),
        licence(ALICE, &plain(&property(GREAT, BOB))),
        query(&property(GOOD, CHARLIE)),
    ];
    let lines = [
        "1 tg +64 +0",
        "2 li +0 +0",
        "3 li +0 +0",
        "4 qu not permitted",
        "5 li +4 +4",
        "6 qu permitted",
        "end 6 marks 72",
    ];
    vec![Case::written(GROUP, "4.3: Charlie is good", &records, &lines)]
}

/// What is true is not thereby said.
fn example_4_4() -> Vec<Case> {
    let cheated = plain(&property(CHEATED, ALICE));
    let rule = when(&[said(ALICE, &property(CHEATED, ALICE))], &property(TRUSTED, ALICE));
    let records = [
        trust(&cheated),
        trust(&rule),
        query(&property(TRUSTED, ALICE)),
        licence(ALICE, &cheated),
        query(&property(TRUSTED, ALICE)),
    ];
    let lines = [
        "1 tg +1 +0",
        "2 tg +0 +0",
        "3 qu not permitted",
        "4 li +1 +1",
        "5 qu permitted",
        "end 5 marks 3",
    ];
    vec![Case::written(GROUP, "4.4: Alice is not trusted before she confesses", &records, &lines)]
}
