//! Cases that passed, and what was wrong with the others.

const SHOWN_FAULTS: usize = 20;

#[derive(Default)]
pub struct Judged {
    pub passed: usize,
    /// Bits of panels, or bytes of preview buffers, that are 1.
    pub ones: usize,
    pub faults: Vec<String>,
}

impl Judged {
    pub fn all(parts: impl IntoIterator<Item = Judged>) -> Judged {
        let mut total = Judged::default();
        for part in parts {
            total.passed += part.passed;
            total.ones += part.ones;
            total.faults.extend(part.faults);
        }
        total
    }

    /// One case: what is wrong with it, if anything.
    pub fn case(&mut self, fault: Option<String>) {
        match fault {
            None => self.passed += 1,
            Some(fault) => self.faults.push(fault),
        }
    }

    /// Prints the first faults and then how many cases passed and failed; true
    /// when none failed.
    pub fn report(&self) -> bool {
        for fault in self.faults.iter().take(SHOWN_FAULTS) {
            println!("FAILED {fault}");
        }
        println!("{} passed, {} failed", self.passed, self.faults.len());
        self.faults.is_empty()
    }
}
