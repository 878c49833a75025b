//! The finite sorts, closed conclusions, statements and their numbers.

pub const PRINCIPALS: u8 = 16;
pub const PROPERTIES: u8 = 16;
pub const GRANT_NUMBERS: u8 = 64;
pub const PACKS: u8 = 32;

/// Slots of one principal: properties, issue, run, export.
pub const SLOTS: usize = 144;
pub const CONCLUSIONS: usize = 2_304;
pub const STATEMENTS: usize = 39_168;

/// What a closed conclusion says of its principal.
#[derive(Clone, Copy, Debug, PartialEq, Eq)]
pub enum Claim {
    Property(u8),
    /// The right to issue the grant with this number, given or not.
    Issue(u8),
    Run(u8),
    Export(u8),
}

/// A conclusion without variables.
#[derive(Clone, Copy, Debug, PartialEq, Eq)]
pub struct Conclusion {
    pub principal: u8,
    pub claim: Claim,
}

impl Conclusion {
    pub fn number(self) -> usize {
        let slot = match self.claim {
            Claim::Property(k) => usize::from(k),
            Claim::Issue(g) => 16 + usize::from(g),
            Claim::Run(n) => 80 + usize::from(n),
            Claim::Export(n) => 112 + usize::from(n),
        };
        SLOTS * usize::from(self.principal) + slot
    }

    pub fn from_number(number: usize) -> Conclusion {
        let slot = (number % SLOTS) as u8;
        let claim = match slot {
            0..=15 => Claim::Property(slot),
            16..=79 => Claim::Issue(slot - 16),
            80..=111 => Claim::Run(slot - 80),
            _ => Claim::Export(slot - 112),
        };
        Conclusion { principal: (number / SLOTS) as u8, claim }
    }
}

/// "speaker said conclusion", without variables.
#[derive(Clone, Copy, Debug, PartialEq, Eq)]
pub struct Said {
    pub speaker: u8,
    pub conclusion: Conclusion,
}

/// What one mark says.
#[derive(Clone, Copy, Debug, PartialEq, Eq)]
pub enum Statement {
    True(Conclusion),
    Said(Said),
}

impl Statement {
    pub fn number(self) -> usize {
        match self {
            Statement::True(conclusion) => conclusion.number(),
            Statement::Said(said) => {
                CONCLUSIONS + CONCLUSIONS * usize::from(said.speaker) + said.conclusion.number()
            }
        }
    }

    pub fn from_number(number: usize) -> Statement {
        let conclusion = Conclusion::from_number(number % CONCLUSIONS);
        match number / CONCLUSIONS {
            0 => Statement::True(conclusion),
            rest => Statement::Said(Said { speaker: (rest - 1) as u8, conclusion }),
        }
    }
}

/// How many statements of each kind: what is true, and what somebody said.
#[derive(Clone, Copy, Debug, Default, PartialEq, Eq)]
pub struct Count {
    pub truths: usize,
    pub sayings: usize,
}

impl Count {
    fn of(statements: impl Iterator<Item = Statement>) -> Count {
        let mut count = Count::default();
        for statement in statements {
            match statement {
                Statement::True(_) => count.truths += 1,
                Statement::Said(_) => count.sayings += 1,
            }
        }
        count
    }

    pub fn total(self) -> usize {
        self.truths + self.sayings
    }
}

/// A set of statements.
#[derive(Clone, PartialEq, Eq)]
pub struct Marks {
    set: Vec<bool>,
}

impl Marks {
    pub fn none() -> Marks {
        Marks { set: vec![false; STATEMENTS] }
    }

    pub fn has(&self, statement: Statement) -> bool {
        self.set[statement.number()]
    }

    /// Adds a statement; true when it was not there before.
    pub fn add(&mut self, statement: Statement) -> bool {
        let place = &mut self.set[statement.number()];
        !std::mem::replace(place, true)
    }

    pub fn count(&self) -> Count {
        self.beyond(&Marks::none())
    }

    /// How many statements this set has that the other lacks.
    pub fn beyond(&self, other: &Marks) -> Count {
        let lacking = |&number: &usize| self.set[number] && !other.set[number];
        Count::of((0..STATEMENTS).filter(lacking).map(Statement::from_number))
    }
}
