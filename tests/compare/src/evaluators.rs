//! The two evaluators of the reference against each other: the top-down one
//! answers the queries of small journals, under every choice of which
//! provisional licences become firm, and a sample of all statements. And every
//! choice against the two that take no provisional licence and all of them.

use crate::case::Case;
use crate::checks::Check;
use crate::random::Random;
use reference::bottom_up::standing_statements;
use reference::listing::{replay, Answer, Outcome};
use reference::machine::Machine;
use reference::numbered::closed_conclusion;
use reference::reader::Record;
use reference::sorts::{Conclusion, Marks, Statement, STATEMENTS};
use reference::top_down::{answer, TopDown};

pub const QUERIES: &str = "top-down against bottom-up: queries of small journals";
pub const STATEMENTS_SAMPLED: &str = "top-down against bottom-up: sampled statements";
pub const EXTREMES: &str = "every choice of provisional licences against none and all";

const STEPS: u64 = 200_000;

/// Of one journal: the questions on which the evaluators were compared, and
/// how many were left without an answer for want of steps.
#[derive(Default)]
pub struct Comparison {
    pub checks: Vec<Check>,
    pub left: usize,
}

pub fn compare(case: &Case, seed: u64) -> Comparison {
    let mut found = Comparison::default();
    let book = replay(&case.journal, |entry, record, book| {
        if let (Some(Record::Query(tree)), Outcome::Queried(expected)) = (record, entry.outcome) {
            let conclusion = closed_conclusion(&book.machine, tree);
            found.ask(&book.machine, conclusion, expected);
        }
    });
    let mut random = Random::new(seed, &case.name);
    found.sample(&book.machine, &mut random);
    if !book.machine.provisional.is_empty() {
        found.sample(&book.machine.all_firm(), &mut random);
    }
    found
}

impl Comparison {
    /// A query, whose answer is known from the bottom-up evaluator.
    fn ask(&mut self, machine: &Machine, conclusion: Conclusion, expected: Answer) {
        match answer(machine, conclusion, STEPS) {
            Ok(found) => self.judge(QUERIES, conclusion, found, expected),
            Err(_) => self.left += 1,
        }
        if !machine.provisional.is_empty() {
            let stands = |machine: &Machine| {
                standing_statements(machine).has(Statement::True(conclusion))
            };
            let found = Answer::of(&[stands(machine), stands(&machine.all_firm())]);
            self.judge(EXTREMES, conclusion, found, expected);
        }
    }

    /// A sample of what stands, and does not, with the firm licences.
    fn sample(&mut self, machine: &Machine, random: &mut Random) {
        let marks = standing_statements(machine);
        let top_down = TopDown::new(machine);
        for statement in sample(&marks, random) {
            match top_down.stands(statement, STEPS) {
                Ok(found) => {
                    self.judge(STATEMENTS_SAMPLED, statement, found, marks.has(statement));
                }
                Err(_) => self.left += 1,
            }
        }
    }

    fn judge<Q: std::fmt::Debug, A: std::fmt::Debug + PartialEq>(
        &mut self,
        group: &'static str,
        question: Q,
        found: A,
        expected: A,
    ) {
        let fault = format!("{question:?}: {found:?}, by the listing {expected:?}");
        self.checks.push(Check { group, fault: (found != expected).then_some(fault) });
    }
}

/// Some standing statements, the neighbours of their numbers, which differ in
/// little, and some from anywhere.
fn sample(marks: &Marks, random: &mut Random) -> Vec<Statement> {
    let all = (0..STATEMENTS).map(Statement::from_number);
    let mut standing: Vec<Statement> = all.filter(|&s| marks.has(s)).collect();
    random.shuffle(&mut standing);
    standing.truncate(20);
    let mut numbers: Vec<usize> = standing.iter().map(|statement| statement.number()).collect();
    for place in 0..numbers.len() {
        let distance = *random.choose(&[1, 144, 2_304, 2_304 * 2]);
        numbers.push((numbers[place] + distance) % STATEMENTS);
    }
    (0..10).for_each(|_| numbers.push(random.below(STATEMENTS)));
    numbers.into_iter().map(Statement::from_number).collect()
}
