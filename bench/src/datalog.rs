// The same book as Datalog for gringo. truth/2 and said/3 are properties,
// truth/3 and said/4 are rights. A row with conditions is joined once, in
// b<row>, and the rules of saying, trust and authority read that.

use crate::book::*;
use std::fmt::Write;

fn prin(p: Pr) -> String {
    match p {
        X => "X".into(),
        Y => "Y".into(),
        _ => p.to_string(),
    }
}

/// The arguments of truth(...) for a conclusion.
fn args(a: &Atom) -> String {
    let s = a.slot;
    let (right, base) = match s {
        0..=15 => return format!("{},{}", s, prin(a.prin)),
        16..=79 => ("issue", 16),
        80..=111 => ("run", 80),
        _ => ("export", 112),
    };
    let z = if a.var {
        "Z".to_string()
    } else {
        (s - base).to_string()
    };
    format!("{},{},{}", right, prin(a.prin), z)
}

fn vars(a: &Atom, who: Option<Pr>) -> u8 {
    let mut m = if a.var { 4 } else { 0 };
    for p in std::iter::once(a.prin).chain(who) {
        m |= match p {
            X => 1,
            Y => 2,
            _ => 0,
        };
    }
    m
}

fn rule(out: &mut String, head: &str, body: &[String]) {
    if body.is_empty() {
        writeln!(out, "{}.", head).unwrap();
    } else {
        writeln!(out, "{} :- {}.", head, body.join(", ")).unwrap();
    }
}

/// A row's conditions, and the range of each variable that only its head has.
fn body(row: &Row) -> Vec<String> {
    let mut body: Vec<String> = vec![];
    let mut have = 0;
    for (q, a) in &row.conds {
        body.push(format!("said({},{})", prin(*q), args(a)));
        have |= vars(a, Some(*q));
    }
    let need = vars(&row.head, None) & !have;
    let values = if row.res == 2 { "pack(Z)" } else { "grant(Z)" };
    for (bit, text) in [(1, "prin(X)"), (2, "prin(Y)"), (4, values)] {
        if need & bit != 0 {
            body.push(text.to_string());
        }
    }
    body
}

/// The name under which the joined conditions of row r are kept.
fn joined(r: usize, row: &Row) -> String {
    let need = vars(&row.head, None);
    let names: Vec<&str> = [(1, "X"), (2, "Y"), (4, "Z")]
        .iter()
        .filter(|(b, _)| need & b != 0)
        .map(|(_, n)| *n)
        .collect();
    if names.is_empty() {
        format!("b{}", r)
    } else {
        format!("b{}({})", r, names.join(","))
    }
}

fn add(out: &mut String, r: usize, row: &Row, issuers: &[usize]) {
    let head = args(&row.head);
    let mut body = body(row);
    if !row.conds.is_empty() && !issuers.is_empty() {
        let b = joined(r, row);
        rule(out, &b, &body);
        body = vec![b];
    }
    if row.trusted {
        rule(out, &format!("truth({})", head), &body);
    }
    for p in issuers {
        rule(out, &format!("said({},{})", p, head), &body);
        let mut with = vec![format!("truth(issue,{},{})", p, r)];
        with.extend(body.iter().cloned());
        rule(out, &format!("truth({})", head), &with);
    }
}

pub fn program(book: &Book) -> String {
    let mut out = String::from("#show.\nprin(0..15). grant(0..63). pack(0..31).\n");
    for (r, row) in book.rows.iter().enumerate() {
        let issuers: Vec<usize> = (0..PRINS).filter(|p| row.issued[*p]).collect();
        if row.trusted || !issuers.is_empty() {
            add(&mut out, r, row, &issuers);
        }
    }
    out
}
