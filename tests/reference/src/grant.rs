//! Written grants as trees: a grant holds conclusions, and a conclusion may
//! hold a grant. Two grants are the same when their bytes agree after inner
//! grants are brought to this form, conditions are put in ascending order of
//! bytes and repeats are dropped; that is when the trees so ordered are equal.

#[derive(Clone, Copy, Debug, PartialEq, Eq)]
pub enum PrincipalTerm {
    Named(u8),
    /// The first (0) or second (1) principal variable of the grant.
    Variable(u8),
}

#[derive(Clone, Copy, Debug, PartialEq, Eq)]
pub enum PackTerm {
    Named(u8),
    Variable,
}

#[derive(Clone, Debug, PartialEq, Eq)]
pub enum GrantTerm {
    Written(Box<Grant>),
    Variable,
}

#[derive(Clone, Debug, PartialEq, Eq)]
pub enum ConclusionTree {
    Property { property: u8, principal: PrincipalTerm },
    Issue { principal: PrincipalTerm, grant: GrantTerm },
    Run { principal: PrincipalTerm, pack: PackTerm },
    Export { principal: PrincipalTerm, pack: PackTerm },
}

#[derive(Clone, Copy, Debug, PartialEq, Eq)]
pub enum ResourceVariable {
    None,
    OverGrants,
    OverPacks,
}

#[derive(Clone, Debug, PartialEq, Eq)]
pub struct Condition {
    pub speaker: PrincipalTerm,
    pub conclusion: ConclusionTree,
}

#[derive(Clone, Debug, PartialEq, Eq)]
pub struct Grant {
    pub principal_variables: u8,
    pub resource_variable: ResourceVariable,
    pub conditions: Vec<Condition>,
    pub conclusion: ConclusionTree,
}

impl ConclusionTree {
    /// The grant written inside this conclusion, if there is one.
    pub fn inner(&self) -> Option<&Grant> {
        match self {
            ConclusionTree::Issue { grant: GrantTerm::Written(grant), .. } => Some(grant),
            _ => None,
        }
    }
}

impl Grant {
    /// The grants written directly inside this one, left to right.
    pub fn inner(&self) -> impl Iterator<Item = &Grant> {
        let in_conditions = self.conditions.iter().filter_map(|c| c.conclusion.inner());
        in_conditions.chain(self.conclusion.inner())
    }
}

impl Grant {
    /// The grant as all that are the same as it are kept: what it holds
    /// ordered first, then its conditions by their bytes, each once.
    pub fn ordered(&self) -> Grant {
        let mut by_bytes = std::collections::BTreeMap::new();
        for condition in &self.conditions {
            let conclusion = condition.conclusion.ordered();
            let kept = Condition { speaker: condition.speaker, conclusion };
            by_bytes.insert(kept.bytes(), kept);
        }
        Grant {
            principal_variables: self.principal_variables,
            resource_variable: self.resource_variable,
            conditions: by_bytes.into_values().collect(),
            conclusion: self.conclusion.ordered(),
        }
    }

    fn bytes(&self) -> Vec<u8> {
        let resource = match self.resource_variable {
            ResourceVariable::None => 0,
            ResourceVariable::OverGrants => 1,
            ResourceVariable::OverPacks => 2,
        };
        let mut bytes = vec![self.principal_variables, resource, self.conditions.len() as u8];
        for condition in &self.conditions {
            bytes.extend(condition.bytes());
        }
        bytes.extend(self.conclusion.bytes());
        bytes
    }
}

impl Condition {
    fn bytes(&self) -> Vec<u8> {
        let mut bytes = vec![self.speaker.byte()];
        bytes.extend(self.conclusion.bytes());
        bytes
    }
}

impl ConclusionTree {
    pub fn ordered(&self) -> ConclusionTree {
        match self {
            ConclusionTree::Issue { principal, grant: GrantTerm::Written(grant) } => {
                let grant = GrantTerm::Written(Box::new(grant.ordered()));
                ConclusionTree::Issue { principal: *principal, grant }
            }
            other => other.clone(),
        }
    }

    fn bytes(&self) -> Vec<u8> {
        match self {
            ConclusionTree::Property { property, principal } => {
                vec![0, *property, principal.byte()]
            }
            ConclusionTree::Issue { principal, grant: GrantTerm::Written(grant) } => {
                let mut bytes = vec![1, principal.byte(), 0];
                bytes.extend(grant.bytes());
                bytes
            }
            ConclusionTree::Issue { principal, grant: GrantTerm::Variable } => {
                vec![1, principal.byte(), 1]
            }
            ConclusionTree::Run { principal, pack } => vec![2, principal.byte(), pack.byte()],
            ConclusionTree::Export { principal, pack } => vec![3, principal.byte(), pack.byte()],
        }
    }
}

impl PrincipalTerm {
    fn byte(self) -> u8 {
        match self {
            PrincipalTerm::Named(named) => named,
            PrincipalTerm::Variable(index) => 0x80 + index,
        }
    }
}

impl PackTerm {
    fn byte(self) -> u8 {
        match self {
            PackTerm::Named(named) => named,
            PackTerm::Variable => 0x80,
        }
    }
}
