//! Grants in which every inner grant is replaced by its number, and
//! substitutions for their variables.

use crate::grant::{ConclusionTree, Grant, GrantTerm, PackTerm, PrincipalTerm, ResourceVariable};
use crate::machine::Machine;
use crate::sorts::{Claim, Conclusion, Said, GRANT_NUMBERS, PACKS, PRINCIPALS};

/// The variables of a grant: two for principals, one for its resource.
#[derive(Clone, Copy, Debug, PartialEq, Eq)]
pub enum Variable {
    Principal(u8),
    Resource,
}

/// A place in a conclusion: a fixed member of its sort, or a variable.
#[derive(Clone, Copy, Debug, PartialEq, Eq)]
pub enum Term {
    Fixed(u8),
    Variable(Variable),
}

#[derive(Clone, Copy, Debug, PartialEq, Eq)]
pub enum ClaimTerm {
    Property(u8),
    Issue(Term),
    Run(Term),
    Export(Term),
}

#[derive(Clone, Copy, Debug, PartialEq, Eq)]
pub struct ConclusionTerm {
    pub principal: Term,
    pub claim: ClaimTerm,
}

#[derive(Clone, Copy, Debug, PartialEq, Eq)]
pub struct SaidTerm {
    pub speaker: Term,
    pub conclusion: ConclusionTerm,
}

#[derive(Clone, Debug)]
pub struct NumberedGrant {
    pub resource: ResourceVariable,
    pub conditions: Vec<SaidTerm>,
    pub conclusion: ConclusionTerm,
}

impl NumberedGrant {
    /// A grant of the machine's T, L or N, all of whose inner grants are in N.
    pub fn of(machine: &Machine, grant: &Grant) -> NumberedGrant {
        let conditions = grant.conditions.iter().map(|condition| SaidTerm {
            speaker: principal_term(condition.speaker),
            conclusion: conclusion_term(machine, &condition.conclusion),
        });
        NumberedGrant {
            resource: grant.resource_variable,
            conditions: conditions.collect(),
            conclusion: conclusion_term(machine, &grant.conclusion),
        }
    }

    /// How many members the sort of a variable of this grant has.
    pub fn range(&self, variable: Variable) -> u8 {
        match (variable, self.resource) {
            (Variable::Principal(_), _) => PRINCIPALS,
            (Variable::Resource, ResourceVariable::OverPacks) => PACKS,
            (Variable::Resource, _) => GRANT_NUMBERS,
        }
    }
}

/// The closed conclusion of a query whose grants are in N.
pub fn closed_conclusion(machine: &Machine, tree: &ConclusionTree) -> Conclusion {
    let nothing = Substitution::default();
    nothing.conclusion(conclusion_term(machine, tree)).expect("a query has no variables")
}

fn principal_term(principal: PrincipalTerm) -> Term {
    match principal {
        PrincipalTerm::Named(named) => Term::Fixed(named),
        PrincipalTerm::Variable(index) => Term::Variable(Variable::Principal(index)),
    }
}

fn pack_term(pack: PackTerm) -> Term {
    match pack {
        PackTerm::Named(named) => Term::Fixed(named),
        PackTerm::Variable => Term::Variable(Variable::Resource),
    }
}

fn grant_term(machine: &Machine, grant: &GrantTerm) -> Term {
    match grant {
        GrantTerm::Written(grant) => {
            Term::Fixed(machine.number_of(grant).expect("an inner grant has a number"))
        }
        GrantTerm::Variable => Term::Variable(Variable::Resource),
    }
}

fn conclusion_term(machine: &Machine, tree: &ConclusionTree) -> ConclusionTerm {
    let (principal, claim) = match tree {
        ConclusionTree::Property { property, principal } => {
            (principal, ClaimTerm::Property(*property))
        }
        ConclusionTree::Issue { principal, grant } => {
            (principal, ClaimTerm::Issue(grant_term(machine, grant)))
        }
        ConclusionTree::Run { principal, pack } => (principal, ClaimTerm::Run(pack_term(*pack))),
        ConclusionTree::Export { principal, pack } => {
            (principal, ClaimTerm::Export(pack_term(*pack)))
        }
    };
    ConclusionTerm { principal: principal_term(*principal), claim }
}

/// Values for some of the variables of one grant.
#[derive(Clone, Copy, Debug, Default, PartialEq, Eq)]
pub struct Substitution {
    principals: [Option<u8>; 2],
    resource: Option<u8>,
}

impl Substitution {
    pub fn value(&self, variable: Variable) -> Option<u8> {
        match variable {
            Variable::Principal(index) => self.principals[usize::from(index)],
            Variable::Resource => self.resource,
        }
    }

    pub fn with(mut self, variable: Variable, value: u8) -> Substitution {
        match variable {
            Variable::Principal(index) => self.principals[usize::from(index)] = Some(value),
            Variable::Resource => self.resource = Some(value),
        }
        self
    }

    fn term(&self, term: Term) -> Option<u8> {
        match term {
            Term::Fixed(value) => Some(value),
            Term::Variable(variable) => self.value(variable),
        }
    }

    /// The closed conclusion, once all its variables have values.
    pub fn conclusion(&self, conclusion: ConclusionTerm) -> Option<Conclusion> {
        let claim = match conclusion.claim {
            ClaimTerm::Property(property) => Claim::Property(property),
            ClaimTerm::Issue(grant) => Claim::Issue(self.term(grant)?),
            ClaimTerm::Run(pack) => Claim::Run(self.term(pack)?),
            ClaimTerm::Export(pack) => Claim::Export(self.term(pack)?),
        };
        Some(Conclusion { principal: self.term(conclusion.principal)?, claim })
    }

    pub fn said(&self, said: SaidTerm) -> Option<Said> {
        let speaker = self.term(said.speaker)?;
        Some(Said { speaker, conclusion: self.conclusion(said.conclusion)? })
    }
}

impl ConclusionTerm {
    pub fn terms(&self) -> impl Iterator<Item = Term> {
        let resource = match self.claim {
            ClaimTerm::Property(_) => None,
            ClaimTerm::Issue(term) | ClaimTerm::Run(term) | ClaimTerm::Export(term) => Some(term),
        };
        [Some(self.principal), resource].into_iter().flatten()
    }
}

impl SaidTerm {
    pub fn terms(&self) -> impl Iterator<Item = Term> {
        [self.speaker].into_iter().chain(self.conclusion.terms())
    }
}

/// The first of the terms that is a variable without a value.
pub fn first_open(terms: impl Iterator<Item = Term>, values: &Substitution) -> Option<Variable> {
    let mut variables = terms.filter_map(|term| match term {
        Term::Variable(variable) => Some(variable),
        Term::Fixed(_) => None,
    });
    variables.find(|&variable| values.value(variable).is_none())
}
