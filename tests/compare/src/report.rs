//! Counts the checks of each group and shows the first faults.

use crate::case::Case;
use crate::checks::Check;
use crate::write::to_hex;

const SHOWN_FAULTS: usize = 20;
const SHOWN_BYTES: usize = 300;

#[derive(Default)]
pub struct Report {
    groups: Vec<Group>,
    faults: usize,
}

struct Group {
    name: &'static str,
    passed: usize,
    failed: usize,
}

impl Report {
    /// Counts the checks of one case.
    pub fn add(&mut self, case: &Case, checks: &[Check]) {
        for check in checks {
            let group = self.group(check.group);
            match &check.fault {
                None => group.passed += 1,
                Some(fault) => {
                    group.failed += 1;
                    self.show(case, check.group, fault);
                }
            }
        }
    }

    fn show(&mut self, case: &Case, group: &str, fault: &str) {
        self.faults += 1;
        if self.faults <= SHOWN_FAULTS {
            println!("FAILED {group}: {}\n  {fault}\n  {}", case.name, shown_bytes(&case.journal));
        }
        if self.faults == SHOWN_FAULTS {
            println!("(further faults are only counted)");
        }
    }

    /// Prints the groups and the last line; true when nothing failed.
    pub fn finish(&self) -> bool {
        for group in &self.groups {
            let cases = group.passed + group.failed;
            match group.failed {
                0 => println!("{}: {cases} cases", group.name),
                failed => println!("{}: {cases} cases, {failed} FAILED", group.name),
            }
        }
        let passed: usize = self.groups.iter().map(|group| group.passed).sum();
        let failed: usize = self.groups.iter().map(|group| group.failed).sum();
        println!("{passed} passed, {failed} failed");
        failed == 0
    }

    fn group(&mut self, name: &'static str) -> &mut Group {
        let place = self.groups.iter().position(|group| group.name == name);
        let place = place.unwrap_or_else(|| {
            self.groups.push(Group { name, passed: 0, failed: 0 });
            self.groups.len() - 1
        });
        &mut self.groups[place]
    }
}

fn shown_bytes(journal: &[u8]) -> String {
    match journal.len() {
        0..=SHOWN_BYTES => format!("journal: {}", to_hex(journal)),
        length => format!("journal of {length} bytes: {} ...", to_hex(&journal[..SHOWN_BYTES])),
    }
}
