//! Random grants, records and journals.

use crate::random::Random;
use crate::write::*;
use reference::reader::frames;

const LAST_DEPTH: u8 = 4;
/// How a grant without variables and conditions opens.
const NO_CONDITIONS: [u8; 3] = [0; 3];

/// How rich the grants of one journal are. Few principals, properties and
/// packs make it likely that conditions meet what is said.
pub struct Style {
    principals: Vec<u8>,
    properties: Vec<u8>,
    packs: Vec<u8>,
    pub most_principal_variables: u8,
    resource_variables: bool,
    most_conditions: u8,
    /// How many of hundred picks take a grant that was used before.
    pub reuse: usize,
    /// Whether one of the principals may issue every grant from the start.
    trusting: bool,
}

impl Style {
    /// Members of each sort are taken from anywhere in the sort.
    pub fn random(random: &mut Random, members: usize) -> Style {
        Style {
            principals: some_members(random, 16, members),
            properties: some_members(random, 16, members),
            packs: some_members(random, 32, members),
            most_principal_variables: *random.choose(&[0, 1, 2, 2]),
            resource_variables: random.percent(60),
            most_conditions: *random.choose(&[1, 2, 2, 3, 4]),
            reuse: *random.choose(&[50, 70, 85]),
            trusting: random.percent(65),
        }
    }
}

fn some_members(random: &mut Random, size: u8, count: usize) -> Vec<u8> {
    let mut members: Vec<u8> = (0..size).collect();
    random.shuffle(&mut members);
    members.truncate(count.min(usize::from(size)));
    members
}

/// A grant with its depth, or a conclusion with the depth of its grant.
#[derive(Clone)]
struct Written {
    bytes: Bytes,
    depth: u8,
}

/// Makes records that refer to each other: grants are used again, what was
/// entered is later struck, what was provisional is confirmed or withdrawn, and
/// withdrawals are previewed.
pub struct Generator<'a> {
    random: &'a mut Random,
    style: Style,
    used: Vec<Written>,
    trusted: Vec<Bytes>,
    licences: Vec<(u8, Bytes)>,
    provisional: Vec<(u8, Bytes)>,
    /// Who may issue every grant, as long as nobody strikes that.
    trustee: Option<u8>,
    /// Closed instances of conditions: who would have to say what.
    conditions: Vec<(u8, Bytes)>,
    /// Grants with a closed instance of what each of them grants.
    conclusions: Vec<(Bytes, Bytes)>,
}

/// The variables that the grant being written declares.
#[derive(Clone, Copy)]
struct Declared {
    principals: u8,
    resource: u8,
}

impl<'a> Generator<'a> {
    pub fn new(random: &'a mut Random, style: Style) -> Generator<'a> {
        Generator {
            random,
            style,
            used: Vec::new(),
            trusted: Vec::new(),
            licences: Vec::new(),
            provisional: Vec::new(),
            trustee: None,
            conditions: Vec::new(),
            conclusions: Vec::new(),
        }
    }

    pub fn journal(&mut self, records: usize) -> Bytes {
        let first = if self.style.trusting { self.trust_somebody() } else { self.record() };
        let rest = (1..records).flat_map(|_| self.record());
        first.into_iter().chain(rest).collect()
    }

    /// A journal that asks again and again for what the provisional licences
    /// would give, from a start at which somebody may issue every grant.
    pub fn waiting_journal(&mut self, records: usize) -> Bytes {
        let mut journal = self.trust_somebody();
        for _ in 0..records {
            journal.extend(self.record());
            for _ in 0..self.random.below(4).min(self.provisional.len()) {
                journal.extend(query(&self.what_is_awaited()));
            }
        }
        journal
    }

    fn record(&mut self) -> Bytes {
        match self.random.below(100) {
            0..=16 => self.enter(),
            17..=33 => self.issue_licence(),
            34..=49 => self.enter_provisional(),
            50..=68 => self.query(),
            69..=74 => self.confirm(),
            75..=81 => self.strike(),
            82..=89 => self.withdraw(),
            _ => self.preview(),
        }
    }

    fn trust_somebody(&mut self) -> Bytes {
        let principal = self.named_principal();
        self.trustee = Some(principal);
        trust(&may_issue_all(principal))
    }

    fn enter(&mut self) -> Bytes {
        let grant = if self.random.percent(40) { self.issue_right() } else { self.grant().bytes };
        self.trusted.push(grant.clone());
        trust(&grant)
    }

    /// A licence; in one of ten cases one that was provisional before.
    fn issue_licence(&mut self) -> Bytes {
        let (issuer, grant) = match self.provisional.is_empty() || self.random.percent(90) {
            true => self.new_licence(),
            false => self.random.choose(&self.provisional).clone(),
        };
        self.licences.push((issuer, grant.clone()));
        licence(issuer, &grant)
    }

    /// A provisional licence; in one of ten cases one that was firm before, else
    /// often one of a principal that may issue it.
    fn enter_provisional(&mut self) -> Bytes {
        let (issuer, grant) = match self.trustee {
            _ if !self.licences.is_empty() && self.random.percent(10) => {
                self.random.choose(&self.licences).clone()
            }
            Some(trustee) if self.random.percent(60) => (trustee, self.grant_or_plain()),
            _ => self.new_licence(),
        };
        self.provisional.push((issuer, grant.clone()));
        provisional(issuer, &grant)
    }

    /// Confirms a licence that was provisional, or any.
    fn confirm(&mut self) -> Bytes {
        if self.provisional.is_empty() || self.random.percent(12) {
            return confirm(self.named_principal(), &self.grant().bytes);
        }
        let place = self.random.below(self.provisional.len());
        let (issuer, grant) = self.provisional.swap_remove(place);
        self.licences.push((issuer, grant.clone()));
        confirm(issuer, &grant)
    }

    /// A grant, or one that gives a single conclusion without any condition.
    fn grant_or_plain(&mut self) -> Bytes {
        match self.conclusions.is_empty() || self.random.percent(40) {
            true => self.grant().bytes,
            false => plain(&self.random.choose(&self.conclusions).1),
        }
    }

    fn new_licence(&mut self) -> (u8, Bytes) {
        match self.conditions.is_empty() || self.random.percent(60) {
            true => (self.named_principal(), self.grant().bytes),
            false => self.what_meets_a_condition(),
        }
    }

    fn strike(&mut self) -> Bytes {
        if self.trusted.is_empty() || self.random.percent(12) {
            return strike(&self.grant().bytes);
        }
        let place = self.random.below(self.trusted.len());
        strike(&self.trusted.swap_remove(place))
    }

    fn withdraw(&mut self) -> Bytes {
        let firm = self.random.below(self.licences.len() + self.provisional.len() + 1);
        let list = match firm < self.licences.len() {
            true => &mut self.licences,
            false => &mut self.provisional,
        };
        if list.is_empty() || self.random.percent(12) {
            return withdraw(self.named_principal(), &self.grant().bytes);
        }
        let place = self.random.below(list.len());
        let (issuer, grant) = list.swap_remove(place);
        withdraw(issuer, &grant)
    }

    /// Previews a withdrawal of what was firm, rather than provisional, or of
    /// any licence; in one of four cases the withdrawal follows.
    fn preview(&mut self) -> Bytes {
        let list = match self.licences.is_empty() || self.random.percent(25) {
            true => &self.provisional,
            false => &self.licences,
        };
        let (issuer, grant) = match list.is_empty() || self.random.percent(10) {
            true => (self.named_principal(), self.grant().bytes),
            false => self.random.choose(list).clone(),
        };
        match self.random.percent(25) {
            true => [preview(issuer, &grant), withdraw(issuer, &grant)].concat(),
            false => preview(issuer, &grant),
        }
    }

    /// An issuer and a grant that make one of the conditions hold.
    fn what_meets_a_condition(&mut self) -> (u8, Bytes) {
        let (speaker, conclusion) = self.random.choose(&self.conditions);
        (*speaker, plain(conclusion))
    }

    /// Asks for what a provisional licence would give, for what some grant gives,
    /// or for anything.
    fn query(&mut self) -> Bytes {
        match self.random.below(10) {
            0..=2 => {}
            3..=6 if !self.provisional.is_empty() => return query(&self.what_is_awaited()),
            _ if !self.conclusions.is_empty() => {
                return query(&self.random.choose(&self.conclusions).1);
            }
            _ => {}
        }
        query(&self.closed_conclusion())
    }

    /// What a provisional licence would give, rather one of the trustee's.
    fn what_is_awaited(&mut self) -> Bytes {
        let by_trustee = |held: &&(u8, Bytes)| Some(held.0) == self.trustee;
        let of_trustee: Vec<&(u8, Bytes)> = self.provisional.iter().filter(by_trustee).collect();
        let (_, grant) = match of_trustee.is_empty() || self.random.percent(25) {
            true => self.random.choose(&self.provisional),
            false => *self.random.choose(&of_trustee),
        };
        self.what_it_gives(grant)
    }

    /// A closed instance of what a grant grants.
    fn what_it_gives(&self, grant: &[u8]) -> Bytes {
        match self.conclusions.iter().find(|(known, _)| known == grant) {
            Some((_, conclusion)) => conclusion.clone(),
            None => grant[NO_CONDITIONS.len()..].to_vec(),
        }
    }

    pub fn closed_conclusion(&mut self) -> Bytes {
        let nothing = Declared { principals: 0, resource: NO_RESOURCE };
        self.conclusion(nothing, LAST_DEPTH).bytes
    }

    pub fn named_principal(&mut self) -> u8 {
        *self.random.choose(&self.style.principals)
    }

    /// A trusted grant that lets somebody issue one grant or all grants.
    fn issue_right(&mut self) -> Bytes {
        let principal = self.named_principal();
        if self.random.percent(40) {
            return may_issue_all(principal);
        }
        plain(&issue(principal, &self.grant_up_to(LAST_DEPTH - 1).bytes))
    }

    fn grant(&mut self) -> Written {
        self.grant_up_to(LAST_DEPTH)
    }

    /// A grant of at most the given depth, used before or new.
    fn grant_up_to(&mut self, depth: u8) -> Written {
        let known: Vec<&Written> = self.used.iter().filter(|grant| grant.depth <= depth).collect();
        if !known.is_empty() && self.random.percent(self.style.reuse) {
            return (*self.random.choose(&known)).clone();
        }
        let grant = self.new_grant(depth);
        self.used.push(grant.clone());
        grant
    }

    fn new_grant(&mut self, depth: u8) -> Written {
        let declared = self.declaration();
        let most = usize::from(self.style.most_conditions);
        let count = match self.random.percent(20) {
            true => most,
            false => self.random.below(most + 1).min(self.random.below(most + 1)),
        };
        let mut deepest = 0;
        let mut conditions = Vec::new();
        for _ in 0..count {
            let speaker = self.principal(declared);
            let conclusion = self.conclusion(declared, depth - 1);
            deepest = deepest.max(conclusion.depth);
            conditions.push(said(speaker, &conclusion.bytes));
            let instance = (self.close_principal(speaker), self.close(&conclusion.bytes));
            self.conditions.push(instance);
        }
        let conclusion = self.conclusion(declared, depth - 1);
        let instance = self.close(&conclusion.bytes);
        let bytes = for_all(declared.principals, declared.resource, &conditions, &conclusion.bytes);
        self.conclusions.push((bytes.clone(), instance));
        Written { bytes, depth: 1 + deepest.max(conclusion.depth) }
    }

    fn declaration(&mut self) -> Declared {
        let most = self.style.most_principal_variables;
        let principals =
            if self.random.percent(40) { most } else { self.random.byte_below(most + 1) };
        let resource = match self.style.resource_variables {
            true => self.random.byte_below(3),
            false => NO_RESOURCE,
        };
        Declared { principals, resource }
    }

    /// A conclusion with the depth of the grant inside it, 0 without one.
    fn conclusion(&mut self, declared: Declared, depth: u8) -> Written {
        let principal = self.principal(declared);
        match self.random.below(10) {
            0..=2 if declared.resource == OVER_GRANTS && self.random.percent(65) => {
                Written { bytes: issue_any(principal), depth: 0 }
            }
            0..=2 if depth > 0 => {
                let inner = self.grant_up_to(depth);
                Written { bytes: issue(principal, &inner.bytes), depth: inner.depth }
            }
            3 => Written { bytes: run(principal, self.pack(declared)), depth: 0 },
            4 => Written { bytes: export(principal, self.pack(declared)), depth: 0 },
            _ => {
                let which = *self.random.choose(&self.style.properties);
                Written { bytes: property(which, principal), depth: 0 }
            }
        }
    }

    /// The conclusion with some member of its sort for each variable.
    fn close(&mut self, conclusion: &[u8]) -> Bytes {
        match conclusion {
            [0x00, which, principal] => property(*which, self.close_principal(*principal)),
            [0x01, principal, 0x00, grant @ ..] => issue(self.close_principal(*principal), grant),
            [0x01, principal, ..] => {
                let principal = self.close_principal(*principal);
                match self.used.iter().find(|grant| grant.depth < LAST_DEPTH) {
                    Some(grant) => issue(principal, &grant.bytes),
                    None => issue(principal, &may_issue_all(principal)),
                }
            }
            [kind, principal, ANY_PACK] => {
                let pack = *self.random.choose(&self.style.packs);
                vec![*kind, self.close_principal(*principal), pack]
            }
            [kind, principal, rest @ ..] => {
                [&[*kind, self.close_principal(*principal)], rest].concat()
            }
            _ => conclusion.to_vec(),
        }
    }

    fn close_principal(&mut self, principal: u8) -> u8 {
        match principal {
            X | Y => self.named_principal(),
            named => named,
        }
    }

    fn principal(&mut self, declared: Declared) -> u8 {
        if declared.principals > 0 && self.random.percent(60) {
            return X + self.random.byte_below(declared.principals);
        }
        self.named_principal()
    }

    fn pack(&mut self, declared: Declared) -> u8 {
        if declared.resource == OVER_PACKS && self.random.percent(65) {
            return ANY_PACK;
        }
        *self.random.choose(&self.style.packs)
    }
}

/// A journal of the given number of records with few members of each sort.
pub fn journal(random: &mut Random, members: usize, records: usize) -> Bytes {
    let style = Style::random(random, members);
    Generator::new(random, style).journal(records)
}

/// One byte changed, inserted or removed.
pub fn damage(random: &mut Random, journal: &mut Bytes) {
    const LIKELY: [u8; 12] = [0, 1, 2, 3, 4, 5, 0x0F, 0x10, 0x1F, 0x20, 0x80, 0x81];
    let byte = match random.percent(70) {
        true => *random.choose(&LIKELY),
        false => random.next() as u8,
    };
    let place = random.below(journal.len() + 1);
    match random.below(3) {
        0 if place < journal.len() => journal[place] = byte,
        1 if place < journal.len() => {
            journal.remove(place);
        }
        _ => journal.insert(place, byte),
    }
}

/// The same in the content of a record, whose length is that of what is left.
pub fn damage_content(random: &mut Random, journal: &mut Bytes) {
    let records: Vec<(usize, usize)> =
        frames(journal).map(|(start, frame)| (start, start + frame.length())).collect();
    let &(start, end) = random.choose(&records);
    let mut content = journal[start + CONTENT..end].to_vec();
    damage(random, &mut content);
    let anew = record(&[journal[start], journal[start + 1]], &content);
    journal.splice(start..end, anew);
}

/// A record of any kind over one of the grants.
pub fn any_record(random: &mut Random, grants: &[Bytes]) -> Bytes {
    let issuer = random.byte_below(4);
    let grant = random.choose(grants);
    match random.below(12) {
        0..=2 => trust(grant),
        3..=4 => licence(issuer, grant),
        5..=6 => provisional(issuer, grant),
        7 => strike(grant),
        8 => withdraw(issuer, grant),
        9 => confirm(issuer, grant),
        10 => preview(issuer, grant),
        _ => query(&issue(issuer, grant)),
    }
}
