//! Document 02, 1: truths and sayings counted separately, with the answers
//! written out.

use crate::case::{nets, Case};
use crate::write::*;

const GROUP: &str = "document 02, 1: truths and sayings counted separately";

pub fn cases() -> Vec<Case> {
    let mut cases = ends_of_the_kinds();
    cases.push(a_licence_that_only_says());
    cases.push(each_kind_alone());
    cases.push(all_marks_at_once());
    cases
}

/// The first and the last mark of each kind: 0, 2,303, 2,304 and 39,167.
fn ends_of_the_kinds() -> Vec<Case> {
    let first = plain(&property(0, 0));
    let last = plain(&export(15, 31));
    let case = |name: &str, enter: Bytes, entered: &str, remove: Bytes, removed: &str| {
        let lines = [&format!("1 {entered}"), &format!("2 {removed}"), "end 2 marks 0"];
        Case::written(GROUP, name, &[enter, remove], &lines)
    };
    vec![
        case("the first truth", trust(&first), "tg +1 +0", strike(&first), "st -1 +0"),
        case("the last truth", trust(&last), "tg +1 +0", strike(&last), "st -1 +0"),
        case("the first saying", licence(0, &first), "li +0 +1", withdraw(0, &first), "wd +0 -1"),
        case("the last saying", licence(15, &last), "li +0 +1", withdraw(15, &last), "wd +0 -1"),
    ]
}

/// A licence is no right before its issuer may issue it.
fn a_licence_that_only_says() -> Case {
    let right = plain(&run(3, 7));
    Case::written(
        GROUP,
        "a licence that only lets somebody say something",
        &[
            licence(1, &right),
            query(&run(3, 7)),
            trust(&plain(&issue(1, &right))),
            query(&run(3, 7)),
            strike(&plain(&issue(1, &right))),
            withdraw(1, &right),
        ],
        &[
            "1 li +0 +1",
            "2 qu not permitted",
            "3 tg +2 +0",
            "4 qu permitted",
            "5 st -2 +0",
            "6 wd +0 -1",
            "end 6 marks 0",
        ],
    )
}

/// A truth that a trusted grant carries stays when the licence goes, and what
/// was said stays when the trusted grant goes.
fn each_kind_alone() -> Case {
    let right = plain(&run(3, 7));
    Case::written(
        GROUP,
        "one kind goes, the other stays",
        &[
            trust(&may_issue_all(1)),
            trust(&right),
            licence(1, &right),
            withdraw(1, &right),
            query(&run(3, 7)),
            licence(1, &right),
            strike(&right),
            query(&run(3, 7)),
            strike(&may_issue_all(1)),
            query(&run(3, 7)),
        ],
        &[
            "1 tg +64 +0",
            "2 tg +1 +0",
            "3 li +0 +1",
            "4 wd +0 -1",
            "5 qu permitted",
            "6 li +0 +1",
            "7 st +0 +0",
            "8 qu permitted",
            "9 st -65 +0",
            "10 qu not permitted",
            "end 10 marks 1",
        ],
    )
}

/// Every conclusion is granted where 0 said Smart(0), by trusted grants and by
/// licences of everybody. One licence then gains all 39,168 marks, and its
/// withdrawal loses them.
fn all_marks_at_once() -> Case {
    let smart = property(0, 0);
    let condition = [said(0, &smart)];
    let mut grants: Vec<Bytes> =
        (0..16).map(|k| for_all(1, NO_RESOURCE, &condition, &property(k, X))).collect();
    grants.push(for_all(1, OVER_GRANTS, &condition, &issue_any(X)));
    grants.push(for_all(1, OVER_PACKS, &condition, &run(X, ANY_PACK)));
    grants.push(for_all(1, OVER_PACKS, &condition, &export(X, ANY_PACK)));
    let mut records: Vec<Bytes> = grants.iter().map(|grant| trust(grant)).collect();
    let mut answers = vec![nets("tg", 0, 0); grants.len()];
    for issuer in 0..16 {
        records.extend(grants.iter().map(|grant| licence(issuer, grant)));
        answers.extend(vec![nets("li", 0, 0); grants.len()]);
    }
    let (truths, sayings) = (2_304, 16 * 2_304);
    records.extend([licence(0, &plain(&smart)), withdraw(0, &plain(&smart))]);
    answers.extend([nets("li", truths, sayings), nets("wd", -truths, -sayings)]);
    records.push(licence(0, &plain(&smart)));
    answers.push(nets("li", truths, sayings));
    Case::answers(GROUP, "all marks at once", &records, &answers, 39_168)
}
