//! Document 02, 3: conditions in another order, or repeated, at every depth,
//! are the same grant. Answers written out; and generated journals in which
//! every grant is written anew each time, with the listing of the journal as
//! it was.

use crate::case::Case;
use crate::generate::journal;
use crate::random::Random;
use crate::write::*;
use reference::listing::listing;

const GROUP: &str = "document 02, 3: conditions in another order";
const REWRITTEN: &str = "journals with conditions shuffled and repeated at every depth";
const MOST_CONDITIONS: usize = 4;

pub fn cases(seed: u64) -> Vec<Case> {
    let mut cases = vec![covered(), covered_inside(2), covered_inside(3), turned_at_last_depth()];
    cases.push(struck_in_another_order());
    cases.push(repeated());
    cases.push(five_equal());
    cases.push(what_stays_different());
    cases.extend([63, 62, 61].map(numbers_at_the_edge));
    cases.extend(ascending_by_bytes());
    cases.extend(rewritten_journals(seed));
    cases
}

/// Two conditions in either order, around a conclusion.
fn editors(conclusion: &[u8]) -> [Bytes; 2] {
    let (smart, good) = (said(0, &property(0, 2)), said(1, &property(2, 2)));
    [
        when(&[smart.clone(), good.clone()], conclusion),
        when(&[good.clone(), smart, good], conclusion),
    ]
}

/// A right to issue one editor's file covers the other's.
fn covered() -> Case {
    let [one, other] = editors(&run(7, 3));
    Case::written(
        GROUP,
        "a right to issue the grant in the other order",
        &[
            trust(&plain(&issue(2, &one))),
            licence(2, &other),
            query(&run(7, 3)),
            licence(0, &plain(&property(0, 2))),
            licence(1, &plain(&property(2, 2))),
            query(&run(7, 3)),
            query(&issue(2, &other)),
            strike(&plain(&issue(2, &other))),
        ],
        &[
            "1 tg +1 +0",
            "2 li +0 +0",
            "3 qu not permitted",
            "4 li +0 +1",
            "5 li +1 +2",
            "6 qu permitted",
            "7 qu permitted",
            "8 st -2 +0",
            "end 8 marks 3",
        ],
    )
}

/// The same where the conditions are turned so many grants deep, up to the
/// depth that a right to issue can name.
fn covered_inside(depth: u8) -> Case {
    let nested = |grant: Bytes| (1..depth).fold(grant, |inner, _| plain(&issue(5, &inner)));
    let [one, other] = editors(&run(7, 3)).map(nested);
    Case::written(
        GROUP,
        &format!("turned at depth {depth}"),
        &[
            trust(&plain(&issue(2, &one))),
            licence(2, &other),
            query(&one[3..]),
            query(&other[3..]),
            strike(&plain(&issue(2, &other))),
            withdraw(2, &one),
        ],
        &[
            "1 tg +1 +0",
            "2 li +1 +1",
            "3 qu permitted",
            "4 qu permitted",
            "5 st -2 +0",
            "6 wd +0 -1",
            "end 6 marks 0",
        ],
    )
}

/// At the last depth: entered in one order, removed in the other.
fn turned_at_last_depth() -> Case {
    let nested = |grant: Bytes| (1..4).fold(grant, |inner, _| plain(&issue(5, &inner)));
    let [one, other] = editors(&run(7, 3)).map(nested);
    Case::written(
        GROUP,
        "turned at depth 4",
        &[licence(2, &one), licence(2, &other), withdraw(2, &other), withdraw(2, &one)],
        &["1 li +0 +1", "2 li +0 +0", "3 wd +0 -1", "4 refused 7", "end 4 marks 0"],
    )
}

/// What was entered in one order is entered again, struck and withdrawn in the
/// other.
fn struck_in_another_order() -> Case {
    let [one, other] = editors(&run(7, 3));
    Case::written(
        GROUP,
        "entered in one order, removed in the other",
        &[
            trust(&one),
            trust(&other),
            licence(0, &plain(&property(0, 2))),
            licence(1, &plain(&property(2, 2))),
            query(&run(7, 3)),
            licence(4, &other),
            withdraw(4, &one),
            withdraw(4, &other),
            strike(&other),
            strike(&one),
            query(&run(7, 3)),
        ],
        &[
            "1 tg +0 +0",
            "2 tg +0 +0",
            "3 li +0 +1",
            "4 li +1 +1",
            "5 qu permitted",
            "6 li +0 +1",
            "7 wd +0 -1",
            "8 refused 7",
            "9 st -1 +0",
            "10 refused 7",
            "11 qu not permitted",
            "end 11 marks 2",
        ],
    )
}

/// One condition written up to four times.
fn repeated() -> Case {
    let smart = said(0, &property(0, 2));
    let times = |n: usize| when(&vec![smart.clone(); n], &run(7, 3));
    Case::written(
        GROUP,
        "one condition once, twice, three and four times",
        &[
            trust(&times(4)),
            licence(0, &plain(&property(0, 2))),
            strike(&times(2)),
            trust(&times(1)),
            strike(&times(3)),
            strike(&times(4)),
        ],
        &[
            "1 tg +0 +0",
            "2 li +1 +1",
            "3 st -1 +0",
            "4 tg +1 +0",
            "5 st -1 +0",
            "6 refused 7",
            "end 6 marks 1",
        ],
    )
}

/// "Condition counts are checked as written."
fn five_equal() -> Case {
    let five = when(&vec![said(0, &property(0, 2)); 5], &run(7, 3));
    let inside = plain(&issue(1, &five));
    Case::written(
        GROUP,
        "five equal conditions inside",
        &[trust(&plain(&property(0, 0))), trust(&inside), query(&property(0, 0))],
        &["1 tg +1 +0", "2 refused 3", "3 qu permitted", "end 3 marks 1"],
    )
}

/// Another speaker, another conclusion, a variable for another, and one
/// condition less are other grants.
fn what_stays_different() -> Case {
    let two = |x: u8, y: u8| {
        for_all(2, NO_RESOURCE, &[said(0, &property(1, x)), said(0, &property(2, y))], &run(X, 3))
    };
    let fixed = |conditions: &[Bytes]| when(conditions, &run(7, 3));
    let smart = said(0, &property(0, 2));
    Case::written(
        GROUP,
        "what stays different",
        &[
            trust(&two(X, Y)),
            strike(&two(Y, X)),
            trust(&fixed(&[smart.clone(), said(1, &property(0, 2))])),
            strike(&fixed(&[smart.clone()])),
            strike(&fixed(&[smart.clone(), said(2, &property(0, 2))])),
            strike(&when(&[smart, said(1, &property(0, 2))], &run(8, 3))),
        ],
        &[
            "1 tg +0 +0",
            "2 refused 7",
            "3 tg +0 +0",
            "4 refused 7",
            "5 refused 7",
            "6 refused 7",
            "end 6 marks 0",
        ],
    )
}

/// With so many numbers given, a grant that holds one grant in two ways takes
/// two numbers, and one that holds two grants takes three.
fn numbers_at_the_edge(given: usize) -> Case {
    let [one, other] = editors(&run(7, 3));
    let apart = when(&[said(0, &property(0, 2)), said(2, &property(2, 2))], &run(7, 3));
    let holds = |a: &[u8], b: &[u8]| when(&[said(9, &issue(6, a)), said(9, &issue(6, b))], &property(5, 5));
    let mut records: Vec<Bytes> = (0..given)
        .map(|i| trust(&plain(&property((i % 16) as u8, 8 + (i / 16) as u8))))
        .collect();
    let mut lines = vec!["tg +1 +0".to_string(); given];
    let left = 64 - given;
    let mut enter = |records: &mut Vec<Bytes>, grant: &[u8], takes: bool| {
        records.push(trust(grant));
        lines.push(if takes { "tg +0 +0" } else { "refused 6" }.to_string());
    };
    enter(&mut records, &holds(&one, &apart), left >= 3);
    enter(&mut records, &holds(&one, &other), left == 2);
    enter(&mut records, &holds(&other, &one), left == 2);
    Case::answers(GROUP, &format!("{given} numbers given"), &records, &lines, given)
}

/// Of two orders the listing cannot see which is kept; that the conditions
/// ascend by their bytes is seen where a repeat stands apart from its like.
fn ascending_by_bytes() -> Vec<Case> {
    let conditions = [
        said(0, &property(1, 2)),
        said(0, &property(2, 1)),
        said(0, &issue(1, &plain(&property(0, 0)))),
        said(0, &issue(1, &when(&[said(0, &property(0, 0))], &property(0, 0)))),
        said(0, &run(1, 1)),
        said(0, &export(0, 0)),
        said(1, &property(0, 0)),
        said(15, &property(0, 0)),
    ];
    let mut cases = Vec::new();
    for (i, a) in conditions.iter().enumerate() {
        for b in &conditions[i + 1..] {
            let grant = |order: &[&Bytes]| {
                let chosen: Vec<Bytes> = order.iter().map(|&c| c.clone()).collect();
                when(&chosen, &property(9, 9))
            };
            cases.push(Case::written(
                GROUP,
                &format!("pair {} of conditions", cases.len()),
                &[
                    trust(&grant(&[a, b])),
                    strike(&grant(&[b, a, b])),
                    trust(&grant(&[b, a, a, b])),
                    strike(&grant(&[a, b, a])),
                    strike(&grant(&[a])),
                    strike(&grant(&[b])),
                ],
                &[
                    "1 tg +0 +0",
                    "2 st +0 +0",
                    "3 tg +0 +0",
                    "4 st +0 +0",
                    "5 refused 7",
                    "6 refused 7",
                    "end 6 marks 0",
                ],
            ));
        }
    }
    cases
}

fn rewritten_journals(seed: u64) -> Vec<Case> {
    let mut random = Random::new(seed, REWRITTEN);
    let mut make = |i: usize| {
        let members = random.between(1, 4);
        let records = random.between(3, 40);
        let written = journal(&mut random, members, records);
        let expected = listing(&written).text;
        let lines: Vec<&str> = expected.lines().collect();
        let anew = Rewriter { random: &mut random, bytes: &written, at: 0 }.journal();
        Case::written(REWRITTEN, &i.to_string(), &[anew], &lines)
    };
    (0..600).map(&mut make).collect()
}

/// Writes the records of a valid journal anew.
struct Rewriter<'a> {
    random: &'a mut Random,
    bytes: &'a [u8],
    at: usize,
}

impl Rewriter<'_> {
    fn take(&mut self, count: usize) -> Bytes {
        let taken = self.bytes[self.at..self.at + count].to_vec();
        self.at += count;
        taken
    }

    fn journal(mut self) -> Bytes {
        let mut anew = Bytes::new();
        while self.at < self.bytes.len() {
            let mark = self.take(CONTENT);
            let letters = [mark[0], mark[1]];
            let content = match &letters {
                b"qu" => self.conclusion(),
                b"tg" | b"st" => self.grant(),
                _ => [self.take(1), self.grant()].concat(),
            };
            anew.extend(record(&letters, &content));
        }
        anew
    }

    fn grant(&mut self) -> Bytes {
        let head = self.take(3);
        let mut conditions: Vec<Bytes> = Vec::new();
        for _ in 0..head[2] {
            let speaker = self.take(1)[0];
            conditions.push(said(speaker, &self.conclusion()));
        }
        while !conditions.is_empty() && conditions.len() < MOST_CONDITIONS && self.random.percent(40) {
            conditions.push(self.random.choose(&conditions).clone());
        }
        self.random.shuffle(&mut conditions);
        let conclusion = self.conclusion();
        for_all(head[0], head[1], &conditions, &conclusion)
    }

    fn conclusion(&mut self) -> Bytes {
        let mut anew = self.take(3);
        if anew[0] == 1 && anew[2] == 0 {
            anew.extend(self.grant());
        }
        anew
    }
}
