//! Reads one record from the front of some bytes: two letters, two bytes with
//! the number of bytes that follow, high byte first, and these bytes, the
//! content. Each byte is judged as it is read, so the first fault from left to
//! right decides.

use crate::grant::{
    ConclusionTree, Condition, Grant, GrantTerm, PackTerm, PrincipalTerm, ResourceVariable,
};

const LAST_DEPTH: u8 = 4;

/// Why a record or a journal is turned back.
#[derive(Clone, Copy, Debug, PartialEq, Eq)]
pub enum Refusal {
    MissingByte,
    UnknownLetters,
    OutOfRange,
    UndeclaredVariable,
    TooDeep,
    TableFull,
    NotStanding,
    /// The content needs fewer or more bytes than the stated length.
    WrongLength,
}

impl Refusal {
    pub fn number(self) -> u8 {
        match self {
            Refusal::MissingByte => 1,
            Refusal::UnknownLetters => 2,
            Refusal::OutOfRange => 3,
            Refusal::UndeclaredVariable => 4,
            Refusal::TooDeep => 5,
            Refusal::TableFull => 6,
            Refusal::NotStanding => 7,
            Refusal::WrongLength => 10,
        }
    }
}

#[derive(Clone, Debug, PartialEq, Eq)]
pub enum Record {
    EnterTrusted(Grant),
    StrikeTrusted(Grant),
    IssueLicence(u8, Grant),
    WithdrawLicence(u8, Grant),
    PreviewWithdrawal(u8, Grant),
    EnterProvisional(u8, Grant),
    Confirm(u8, Grant),
    Query(ConclusionTree),
}

impl Record {
    pub fn letters(&self) -> &'static str {
        match self {
            Record::EnterTrusted(_) => "tg",
            Record::StrikeTrusted(_) => "st",
            Record::IssueLicence(..) => "li",
            Record::WithdrawLicence(..) => "wd",
            Record::PreviewWithdrawal(..) => "pv",
            Record::EnterProvisional(..) => "pl",
            Record::Confirm(..) => "cf",
            Record::Query(_) => "qu",
        }
    }

    fn ordered(&self) -> Record {
        match self {
            Record::EnterTrusted(grant) => Record::EnterTrusted(grant.ordered()),
            Record::StrikeTrusted(grant) => Record::StrikeTrusted(grant.ordered()),
            Record::IssueLicence(issuer, grant) => Record::IssueLicence(*issuer, grant.ordered()),
            Record::WithdrawLicence(issuer, grant) => {
                Record::WithdrawLicence(*issuer, grant.ordered())
            }
            Record::PreviewWithdrawal(issuer, grant) => {
                Record::PreviewWithdrawal(*issuer, grant.ordered())
            }
            Record::EnterProvisional(issuer, grant) => {
                Record::EnterProvisional(*issuer, grant.ordered())
            }
            Record::Confirm(issuer, grant) => Record::Confirm(*issuer, grant.ordered()),
            Record::Query(conclusion) => Record::Query(conclusion.ordered()),
        }
    }
}

/// The eight kinds of record, by their letters.
#[derive(Clone, Copy, Debug, PartialEq, Eq)]
enum Kind {
    EnterTrusted,
    StrikeTrusted,
    IssueLicence,
    WithdrawLicence,
    PreviewWithdrawal,
    EnterProvisional,
    Confirm,
    Query,
}

impl Kind {
    fn of(letters: [u8; 2]) -> Option<Kind> {
        match &letters {
            b"tg" => Some(Kind::EnterTrusted),
            b"st" => Some(Kind::StrikeTrusted),
            b"li" => Some(Kind::IssueLicence),
            b"wd" => Some(Kind::WithdrawLicence),
            b"pv" => Some(Kind::PreviewWithdrawal),
            b"pl" => Some(Kind::EnterProvisional),
            b"cf" => Some(Kind::Confirm),
            b"qu" => Some(Kind::Query),
            _ => None,
        }
    }
}

/// Where a record ends and the next may start, whatever is wrong inside it.
pub struct Frame<'a> {
    kind: Kind,
    content: &'a [u8],
}

/// The frame of the first record in the bytes. What is refused here, with 1 or
/// 2, ends the reading: the letters are judged first, then whether the bytes of
/// the length are there, then whether the input has so many bytes more.
pub fn read_frame(bytes: &[u8]) -> Result<Frame<'_>, Refusal> {
    let [first, second, after_letters @ ..] = bytes else { return Err(Refusal::MissingByte) };
    let kind = Kind::of([*first, *second]).ok_or(Refusal::UnknownLetters)?;
    let [high, low, rest @ ..] = after_letters else { return Err(Refusal::MissingByte) };
    let stated = usize::from(*high) * 256 + usize::from(*low);
    let content = rest.get(..stated).ok_or(Refusal::MissingByte)?;
    Ok(Frame { kind, content })
}

impl Frame<'_> {
    /// The bytes of the whole record.
    pub fn length(&self) -> usize {
        2 + 2 + self.content.len()
    }

    /// The record, its grants ordered. Faults, and how many conditions there are,
    /// are judged as written. A byte that is needed behind the content, and one
    /// that is left over in it, is a fault of the length.
    pub fn record(&self) -> Result<Record, Refusal> {
        let mut reader = Reader { bytes: self.content, used: 0 };
        let record = reader.record(self.kind)?;
        match reader.used == self.content.len() {
            true => Ok(record.ordered()),
            false => Err(Refusal::WrongLength),
        }
    }
}

/// The frames of a journal, each with its start, up to what ends the reading.
pub fn frames(journal: &[u8]) -> impl Iterator<Item = (usize, Frame<'_>)> {
    let mut start = 0;
    std::iter::from_fn(move || {
        let frame = read_frame(&journal[start..]).ok()?;
        let found = start;
        start += frame.length();
        Some((found, frame))
    })
}

/// The variables a grant declares; a query declares none.
#[derive(Clone, Copy)]
struct Declared {
    principals: u8,
    resource: ResourceVariable,
}

const NOTHING_DECLARED: Declared = Declared { principals: 0, resource: ResourceVariable::None };

struct Reader<'a> {
    bytes: &'a [u8],
    used: usize,
}

impl Reader<'_> {
    fn byte(&mut self) -> Result<u8, Refusal> {
        let byte = self.bytes.get(self.used).copied().ok_or(Refusal::WrongLength)?;
        self.used += 1;
        Ok(byte)
    }

    fn byte_up_to(&mut self, last: u8) -> Result<u8, Refusal> {
        match self.byte()? {
            byte if byte <= last => Ok(byte),
            _ => Err(Refusal::OutOfRange),
        }
    }

    fn record(&mut self, kind: Kind) -> Result<Record, Refusal> {
        match kind {
            Kind::EnterTrusted => Ok(Record::EnterTrusted(self.grant(1)?)),
            Kind::StrikeTrusted => Ok(Record::StrikeTrusted(self.grant(1)?)),
            Kind::IssueLicence => self.licence(Record::IssueLicence),
            Kind::WithdrawLicence => self.licence(Record::WithdrawLicence),
            Kind::PreviewWithdrawal => self.licence(Record::PreviewWithdrawal),
            Kind::EnterProvisional => self.licence(Record::EnterProvisional),
            Kind::Confirm => self.licence(Record::Confirm),
            Kind::Query => Ok(Record::Query(self.conclusion(NOTHING_DECLARED, 0)?)),
        }
    }

    /// An issuer, then a grant.
    fn licence(&mut self, asked: fn(u8, Grant) -> Record) -> Result<Record, Refusal> {
        let issuer = self.byte_up_to(0x0F)?;
        Ok(asked(issuer, self.grant(1)?))
    }

    fn grant(&mut self, depth: u8) -> Result<Grant, Refusal> {
        let principal_variables = self.byte_up_to(2)?;
        let resource_variable = match self.byte_up_to(2)? {
            0 => ResourceVariable::None,
            1 => ResourceVariable::OverGrants,
            _ => ResourceVariable::OverPacks,
        };
        let declared = Declared { principals: principal_variables, resource: resource_variable };
        let mut conditions = Vec::new();
        for _ in 0..self.byte_up_to(4)? {
            let speaker = self.principal(declared)?;
            let conclusion = self.conclusion(declared, depth)?;
            conditions.push(Condition { speaker, conclusion });
        }
        let conclusion = self.conclusion(declared, depth)?;
        Ok(Grant { principal_variables, resource_variable, conditions, conclusion })
    }

    /// A conclusion that stands in a grant of the given depth (0 for a query).
    fn conclusion(&mut self, declared: Declared, depth: u8) -> Result<ConclusionTree, Refusal> {
        match self.byte_up_to(3)? {
            0 => {
                let property = self.byte_up_to(0x0F)?;
                let principal = self.principal(declared)?;
                Ok(ConclusionTree::Property { property, principal })
            }
            1 => {
                let principal = self.principal(declared)?;
                let grant = self.resource_grant(declared, depth)?;
                Ok(ConclusionTree::Issue { principal, grant })
            }
            2 => {
                let principal = self.principal(declared)?;
                let pack = self.pack(declared)?;
                Ok(ConclusionTree::Run { principal, pack })
            }
            _ => {
                let principal = self.principal(declared)?;
                let pack = self.pack(declared)?;
                Ok(ConclusionTree::Export { principal, pack })
            }
        }
    }

    fn principal(&mut self, declared: Declared) -> Result<PrincipalTerm, Refusal> {
        match self.byte()? {
            named @ 0x00..=0x0F => Ok(PrincipalTerm::Named(named)),
            variable @ 0x80..=0x81 if variable - 0x80 < declared.principals => {
                Ok(PrincipalTerm::Variable(variable - 0x80))
            }
            0x80..=0x81 => Err(Refusal::UndeclaredVariable),
            _ => Err(Refusal::OutOfRange),
        }
    }

    fn resource_grant(&mut self, declared: Declared, depth: u8) -> Result<GrantTerm, Refusal> {
        match self.byte()? {
            0x00 if depth == LAST_DEPTH => Err(Refusal::TooDeep),
            0x00 => Ok(GrantTerm::Written(Box::new(self.grant(depth + 1)?))),
            0x01 if declared.resource == ResourceVariable::OverGrants => Ok(GrantTerm::Variable),
            0x01 => Err(Refusal::UndeclaredVariable),
            _ => Err(Refusal::OutOfRange),
        }
    }

    fn pack(&mut self, declared: Declared) -> Result<PackTerm, Refusal> {
        match self.byte()? {
            named @ 0x00..=0x1F => Ok(PackTerm::Named(named)),
            0x80 if declared.resource == ResourceVariable::OverPacks => Ok(PackTerm::Variable),
            0x80 => Err(Refusal::UndeclaredVariable),
            _ => Err(Refusal::OutOfRange),
        }
    }
}
