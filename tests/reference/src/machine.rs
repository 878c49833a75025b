//! The plain machine: T, L, the provisional licences and N as lists of
//! written grants; and the machines under each choice of which provisional
//! licences become firm.

use crate::grant::{ConclusionTree, Grant};
use crate::reader::{Record, Refusal};
use crate::sorts::GRANT_NUMBERS;

/// With at most so many provisional licences every choice is taken, 2 to the
/// power of their number.
pub const MOST_CHOSEN: usize = 6;

pub type Licence = (u8, Grant);

/// T, the trusted grants; L, the firm licences, pairs of issuer and grant; the
/// provisional ones, none of which is in L; N, the grants that have a number,
/// each at the place that is its number.
#[derive(Clone, Default)]
pub struct Machine {
    pub trusted: Vec<Grant>,
    pub licences: Vec<Licence>,
    pub provisional: Vec<Licence>,
    pub numbered: Vec<Grant>,
}

impl Machine {
    /// The number of a grant in N.
    pub fn number_of(&self, grant: &Grant) -> Option<u8> {
        self.numbered.iter().position(|known| known == grant).map(|place| place as u8)
    }

    /// Accepts a record and changes the lists, or refuses it and changes nothing.
    pub fn feed(&mut self, record: &Record) -> Result<(), Refusal> {
        match record {
            Record::EnterTrusted(grant) => {
                self.give_numbers(self.new_in_grant(grant))?;
                add_once(&mut self.trusted, grant.clone());
                Ok(())
            }
            Record::IssueLicence(issuer, grant) => {
                self.give_numbers(self.new_in_grant(grant))?;
                self.make_firm((*issuer, grant.clone()));
                Ok(())
            }
            Record::EnterProvisional(issuer, grant) => {
                self.give_numbers(self.new_in_grant(grant))?;
                self.enter_provisional((*issuer, grant.clone()));
                Ok(())
            }
            Record::Query(conclusion) => self.give_numbers(self.new_in_conclusion(conclusion)),
            Record::StrikeTrusted(grant) => remove(&mut self.trusted, grant),
            Record::WithdrawLicence(issuer, grant) => self.withdraw(&(*issuer, grant.clone())),
            Record::PreviewWithdrawal(issuer, grant) => {
                self.without(&(*issuer, grant.clone())).map(|_| ())
            }
            Record::Confirm(issuer, grant) => self.confirm((*issuer, grant.clone())),
        }
    }

    /// The machine that a withdrawal of the licence would leave.
    pub fn without(&self, licence: &Licence) -> Result<Machine, Refusal> {
        let mut machine = self.clone();
        machine.withdraw(licence)?;
        Ok(machine)
    }

    /// A licence that was provisional is so no longer.
    fn make_firm(&mut self, licence: Licence) {
        self.provisional.retain(|held| *held != licence);
        add_once(&mut self.licences, licence);
    }

    /// A firm licence stays firm.
    fn enter_provisional(&mut self, licence: Licence) {
        if !self.licences.contains(&licence) {
            add_once(&mut self.provisional, licence);
        }
    }

    fn confirm(&mut self, licence: Licence) -> Result<(), Refusal> {
        remove(&mut self.provisional, &licence)?;
        self.licences.push(licence);
        Ok(())
    }

    /// Removes a licence of either kind; it is never of both.
    fn withdraw(&mut self, licence: &Licence) -> Result<(), Refusal> {
        remove(&mut self.licences, licence).or_else(|_| remove(&mut self.provisional, licence))
    }

    /// The machines in which some of the provisional licences have become firm
    /// and the others are gone: one for every choice where there are few. Where
    /// there are many, only those of none and of all: no rule asks that something
    /// be not said, so a statement that stands with some licences stands with
    /// more, and what stands under every choice or under none is seen there.
    pub fn choices(&self) -> Vec<Machine> {
        let count = self.provisional.len();
        match count <= MOST_CHOSEN {
            true => (0..1 << count).map(|taken| self.chosen(|i| taken >> i & 1 == 1)).collect(),
            false => vec![self.chosen(|_| false), self.all_firm()],
        }
    }

    /// The machine with all provisional licences taken as firm.
    pub fn all_firm(&self) -> Machine {
        self.chosen(|_| true)
    }

    fn chosen(&self, takes: impl Fn(usize) -> bool) -> Machine {
        let mut machine = Machine { provisional: Vec::new(), ..self.clone() };
        let places = self.provisional.iter().enumerate();
        machine.licences.extend(places.filter(|&(i, _)| takes(i)).map(|(_, held)| held.clone()));
        machine
    }

    fn give_numbers(&mut self, new: Vec<Grant>) -> Result<(), Refusal> {
        if self.numbered.len() + new.len() > usize::from(GRANT_NUMBERS) {
            return Err(Refusal::TableFull);
        }
        self.numbered.extend(new);
        Ok(())
    }

    /// The grants without a number in a grant, itself included, each once, in
    /// the order of numbering.
    fn new_in_grant(&self, grant: &Grant) -> Vec<Grant> {
        let mut new = Vec::new();
        self.collect_new(grant, &mut new);
        new
    }

    fn new_in_conclusion(&self, conclusion: &ConclusionTree) -> Vec<Grant> {
        conclusion.inner().map_or(Vec::new(), |grant| self.new_in_grant(grant))
    }

    fn collect_new(&self, grant: &Grant, new: &mut Vec<Grant>) {
        for inner in grant.inner() {
            self.collect_new(inner, new);
        }
        if !self.numbered.contains(grant) {
            add_once(new, grant.clone());
        }
    }
}

fn add_once<T: PartialEq>(list: &mut Vec<T>, item: T) {
    if !list.contains(&item) {
        list.push(item);
    }
}

fn remove<T: PartialEq>(list: &mut Vec<T>, item: &T) -> Result<(), Refusal> {
    let place = list.iter().position(|standing| standing == item).ok_or(Refusal::NotStanding)?;
    list.remove(place);
    Ok(())
}
