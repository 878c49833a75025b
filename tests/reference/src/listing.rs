//! The listing of a journal, line by line.

use crate::bottom_up::standing_statements;
use crate::machine::Machine;
use crate::numbered::closed_conclusion;
use crate::reader::{read_frame, Record, Refusal};
use crate::sorts::{Conclusion, Count, Marks, Statement};

pub const LONGEST_JOURNAL: usize = 65_536;

/// The answer to one record; to a preview, what the withdrawal would change.
#[derive(Clone, Copy, Debug, PartialEq, Eq)]
pub enum Outcome {
    Changed { letters: &'static str, nets: Nets },
    Previewed(Nets),
    Queried(Answer),
    Refused(Refusal),
}

/// The answer to a query, over the choices of which provisional licences
/// become firm.
#[derive(Clone, Copy, Debug, PartialEq, Eq)]
pub enum Answer {
    /// The conclusion stands under every choice.
    Permitted,
    /// It stands under none.
    NotPermitted,
    /// It stands under some choices and not under others.
    Open,
}

impl Answer {
    /// The answer from whether the conclusion stands under each choice.
    pub fn of(stands: &[bool]) -> Answer {
        match (stands.contains(&true), stands.contains(&false)) {
            (true, true) => Answer::Open,
            (true, false) => Answer::Permitted,
            _ => Answer::NotPermitted,
        }
    }

    pub fn words(self) -> &'static str {
        match self {
            Answer::Permitted => "permitted",
            Answer::NotPermitted => "not permitted",
            Answer::Open => "open",
        }
    }
}

/// Gained less lost, of truths and of sayings.
#[derive(Clone, Copy, Debug, PartialEq, Eq)]
pub struct Nets {
    pub truths: i32,
    pub sayings: i32,
}

impl Nets {
    fn of(gained: Count, lost: Count) -> Nets {
        Nets {
            truths: gained.truths as i32 - lost.truths as i32,
            sayings: gained.sayings as i32 - lost.sayings as i32,
        }
    }
}

/// One record of a journal: where it stands in the bytes, and its answer.
/// A record that ends the reading has length 0.
#[derive(Clone, Copy, Debug)]
pub struct Entry {
    pub start: usize,
    pub length: usize,
    pub outcome: Outcome,
}

/// The book while a journal is read: the plain machine, the marks of its firm
/// licences, and the marks under each choice, worked out when they are asked for.
pub struct Book {
    pub machine: Machine,
    pub marks: Marks,
    under_choices: Option<Vec<Marks>>,
}

impl Book {
    pub fn fresh() -> Book {
        Book { machine: Machine::default(), marks: Marks::none(), under_choices: None }
    }

    pub fn call(&mut self, record: &Record) -> Outcome {
        self.accepted(record).unwrap_or_else(Outcome::Refused)
    }

    fn accepted(&mut self, record: &Record) -> Result<Outcome, Refusal> {
        self.machine.feed(record)?;
        Ok(match record {
            Record::Query(tree) => {
                Outcome::Queried(self.answer(closed_conclusion(&self.machine, tree)))
            }
            Record::PreviewWithdrawal(issuer, grant) => {
                let after = self.machine.without(&(*issuer, grant.clone()))?;
                Outcome::Previewed(self.nets_to(&standing_statements(&after)))
            }
            _ => Outcome::Changed { letters: record.letters(), nets: self.work_out_marks() },
        })
    }

    /// Whether a conclusion stands under every choice, under some or under none.
    pub fn answer(&mut self, conclusion: Conclusion) -> Answer {
        let machine = &self.machine;
        let worked_out = || machine.choices().iter().map(standing_statements).collect();
        let under_choices = self.under_choices.get_or_insert_with(worked_out);
        let stands = |marks: &Marks| marks.has(Statement::True(conclusion));
        Answer::of(&under_choices.iter().map(stands).collect::<Vec<bool>>())
    }

    /// Works the marks of the firm licences out anew; gives the gained less the lost.
    fn work_out_marks(&mut self) -> Nets {
        let marks = standing_statements(&self.machine);
        let nets = self.nets_to(&marks);
        self.marks = marks;
        self.under_choices = None;
        nets
    }

    /// What other marks have more less what they lack, against those that stand.
    fn nets_to(&self, marks: &Marks) -> Nets {
        Nets::of(marks.beyond(&self.marks), self.marks.beyond(marks))
    }
}

/// Reads a journal of any length record by record, up to its end or a
/// refusal 1 or 2, and shows each entry with the book as the record left it.
/// Where the content is at fault there is no record to show.
pub fn replay(journal: &[u8], mut show: impl FnMut(&Entry, Option<&Record>, &Book)) -> Book {
    let mut book = Book::fresh();
    let mut start = 0;
    while start < journal.len() {
        let frame = match read_frame(&journal[start..]) {
            Ok(frame) => frame,
            Err(refusal) => {
                show(&Entry { start, length: 0, outcome: Outcome::Refused(refusal) }, None, &book);
                break;
            }
        };
        let (length, record) = (frame.length(), frame.record());
        let outcome = match &record {
            Ok(record) => book.call(record),
            Err(refusal) => Outcome::Refused(*refusal),
        };
        show(&Entry { start, length, outcome }, record.as_ref().ok(), &book);
        start += length;
    }
    book
}

/// A listing, and the statements that stand at its end.
pub struct Listing {
    pub text: String,
    pub standing: Count,
}

/// What the listing program prints for a journal.
pub fn listing(journal: &[u8]) -> Listing {
    if journal.len() > LONGEST_JOURNAL {
        return Listing { text: "refused 8\n".to_string(), standing: Count::default() };
    }
    let mut lines = Vec::new();
    let book = replay(journal, |entry, _, _| {
        lines.push(format!("{} {}\n", lines.len() + 1, outcome_words(entry.outcome)));
    });
    let standing = book.marks.count();
    let end = format!("end {} marks {}\n", lines.len(), standing.total());
    Listing { text: lines.concat() + &end, standing }
}

fn outcome_words(outcome: Outcome) -> String {
    match outcome {
        Outcome::Changed { letters, nets } => changed_words(letters, nets),
        Outcome::Previewed(nets) => changed_words("pv", nets),
        Outcome::Queried(answer) => format!("qu {}", answer.words()),
        Outcome::Refused(refusal) => format!("refused {}", refusal.number()),
    }
}

fn changed_words(letters: &str, Nets { truths, sayings }: Nets) -> String {
    format!("{letters} {truths:+} {sayings:+}")
}
