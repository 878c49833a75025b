//! One journal with the listing it must give.

use crate::write::Bytes;
use reference::listing::Listing;

pub struct Case {
    pub group: &'static str,
    pub name: String,
    pub journal: Bytes,
    pub expected: Expected,
}

pub enum Expected {
    /// The listing written out from the documents.
    Written(String),
    /// Whatever the comparison evaluator answers.
    Reference,
}

impl Case {
    /// A case whose listing is written out, line by line.
    pub fn written(group: &'static str, name: &str, records: &[Bytes], lines: &[&str]) -> Case {
        let text = lines.iter().map(|line| format!("{line}\n")).collect();
        Case {
            group,
            name: name.to_string(),
            journal: records.concat(),
            expected: Expected::Written(text),
        }
    }

    /// A case whose answers are written out without line numbers and whose
    /// last line has the given number of marks.
    pub fn answers(
        group: &'static str,
        name: &str,
        records: &[Bytes],
        answers: &[String],
        marks: usize,
    ) -> Case {
        let numbered = answers.iter().enumerate().map(|(i, answer)| format!("{} {answer}", i + 1));
        let mut lines: Vec<String> = numbered.collect();
        lines.push(format!("end {} marks {marks}", answers.len()));
        let lines: Vec<&str> = lines.iter().map(String::as_str).collect();
        Case::written(group, name, records, &lines)
    }

    /// A case that is only compared with the other evaluator.
    pub fn compared(group: &'static str, name: String, journal: Bytes) -> Case {
        Case { group, name, journal, expected: Expected::Reference }
    }

    /// The listing expected, given that of the comparison evaluator.
    pub fn expected_listing<'a>(&'a self, reference: &'a Listing) -> &'a str {
        match &self.expected {
            Expected::Written(text) => text,
            Expected::Reference => &reference.text,
        }
    }
}

/// The answer to an accepted change: the nets of truths and of sayings.
pub fn nets(letters: &str, truths: i32, sayings: i32) -> String {
    format!("{letters} {truths:+} {sayings:+}")
}
