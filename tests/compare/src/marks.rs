//! Each mark by itself. A journal is followed by records that show single
//! marks, and the answers come from the reference's marks of the journal
//! alone: those of its firm licences, and those with the provisional ones taken
//! as firm. A query shows a truth: permitted where it is in both, open where it
//! is in the second alone. What a speaker said is shown by a trusted grant, "for
//! all x, the speaker said e(x) gives Property(k, x)" over a property that the
//! journal leaves unused: its net of truths is how many x there are, queries of
//! the property say which, and then it is struck.

use crate::case::{nets, Case};
use crate::checks::Check;
use crate::families::{middle_journals, narrow_journals, small_journals, waiting_journals};
use crate::program::Program;
use crate::properties::answers;
use crate::write::*;
use crate::{circles, conditions, countersignature, document000, document01, preview, tables};
use reference::bottom_up::standing_statements;
use reference::grant::{
    ConclusionTree, Grant, GrantTerm, PackTerm, PrincipalTerm, ResourceVariable,
};
use reference::listing::{listing, replay, Answer, Book, LONGEST_JOURNAL};
use reference::reader::frames;
use reference::sorts::{
    Claim, Conclusion, Marks, Said, Statement, CONCLUSIONS, GRANT_NUMBERS, PACKS, PRINCIPALS,
    PROPERTIES,
};

pub const TRUTHS: &str = "every truth, asked by queries";
pub const SAYINGS: &str = "every saying, shown by trusted grants";

/// The deepest grant that a condition can hold.
const DEEPEST_INNER: u8 = 3;
/// So many numbers that the journal did not give are given and asked about.
const FRESH_ASKED: usize = 2;

/// Of one journal: the runs that were judged, and how many marks they showed.
#[derive(Default)]
pub struct Shown {
    pub checks: Vec<Check>,
    pub truths: usize,
    pub sayings: usize,
}

/// The documents' examples and some of the generated journals, without those
/// whose first record is at fault.
pub fn journals(seed: u64) -> Vec<Case> {
    let mut cases = document01::cases();
    cases.extend(countersignature::queries());
    cases.extend(countersignature::circles().into_iter().step_by(6));
    cases.extend(preview::what_falls());
    cases.retain(|case| starts_with_a_record(&case.journal));
    cases.extend(document000::cases());
    cases.extend(conditions::cases());
    cases.extend(circles::cases(seed).into_iter().step_by(4));
    cases.extend(tables::full_tables());
    cases.extend(small_journals(seed).into_iter().take(80));
    cases.extend(waiting_journals(seed).into_iter().take(60));
    cases.extend(narrow_journals(seed).into_iter().take(70));
    cases.extend(middle_journals(seed).into_iter().take(70));
    cases
}

fn starts_with_a_record(journal: &[u8]) -> bool {
    frames(journal).next().is_some_and(|(_, frame)| frame.record().is_ok())
}

pub fn compare(program: &Program, case: &Case) -> Shown {
    let mut shown = Shown::default();
    let known = Known::of(&case.journal);
    for script in truths(&known) {
        shown.truths += script.marks;
        shown.checks.push(Check { group: TRUTHS, fault: script.fault(program) });
    }
    for script in sayings(&known) {
        shown.sayings += script.marks;
        shown.checks.push(Check { group: SAYINGS, fault: script.fault(program) });
    }
    shown
}

/// A journal up to a record that ends the reading, and what is known of it.
struct Known {
    journal: Bytes,
    answers: Vec<String>,
    book: Book,
    /// The marks with the provisional licences taken as firm.
    taken_as_firm: Marks,
    /// The grant of each of the 64 numbers; those from `given` on are fresh.
    grants: Vec<Bytes>,
    given: usize,
}

impl Known {
    fn of(journal: &[u8]) -> Known {
        let mut end = 0;
        let book = replay(journal, |entry, _, _| end = entry.start + entry.length);
        let journal = journal[..end].to_vec();
        let answers = answers(&listing(&journal).text).into_iter().map(str::to_string).collect();
        let mut grants: Vec<Bytes> = book.machine.numbered.iter().map(grant_bytes).collect();
        let given = grants.len();
        let fresh = (0..PACKS).flat_map(|n| (0..PRINCIPALS).map(move |p| plain(&run(p, n))));
        for grant in fresh {
            if grants.len() < usize::from(GRANT_NUMBERS) && !grants.contains(&grant) {
                grants.push(grant);
            }
        }
        let taken_as_firm = standing_statements(&book.machine.all_firm());
        Known { journal, answers, book, taken_as_firm, grants, given }
    }

    /// A property that no grant of the journal names.
    fn unused_property(&self) -> Option<u8> {
        let named: Vec<u8> = self.book.machine.numbered.iter().flat_map(properties_of).collect();
        (0..PROPERTIES).rev().find(|property| !named.contains(property))
    }

    /// Whether a statement stands with the firm licences, and with all.
    fn stands(&self, statement: Statement) -> [bool; 2] {
        [self.book.marks.has(statement), self.taken_as_firm.has(statement)]
    }

    /// A claim about a principal, as bytes.
    fn written(&self, claim: Claim, principal: u8) -> Bytes {
        match claim {
            Claim::Property(k) => property(k, principal),
            Claim::Issue(g) => issue(principal, &self.grants[usize::from(g)]),
            Claim::Run(n) => run(principal, n),
            Claim::Export(n) => export(principal, n),
        }
    }

    /// The journal, then queries that give numbers to that many fresh grants.
    fn script(&self, fresh: usize) -> Script {
        let mut script = Script {
            journal: self.journal.clone(),
            answers: self.answers.clone(),
            standing: self.book.marks.count().total(),
            added: Vec::new(),
            marks: 0,
        };
        for number in self.given..self.given + fresh {
            let conclusion = Conclusion { principal: 0, claim: Claim::Issue(number as u8) };
            script.ask(self, conclusion);
        }
        script
    }
}

/// A journal with the answers it must have.
struct Script {
    journal: Bytes,
    answers: Vec<String>,
    standing: usize,
    /// The records behind the journal, which show the marks.
    added: Vec<Bytes>,
    /// How many marks it shows.
    marks: usize,
}

impl Script {
    fn has_room(&self, bytes: usize) -> bool {
        self.journal.len() + bytes <= LONGEST_JOURNAL
    }

    fn add(&mut self, record: Bytes, answer: String) {
        self.journal.extend(&record);
        self.added.push(record);
        self.answers.push(answer);
    }

    fn ask(&mut self, known: &Known, conclusion: Conclusion) {
        let written = known.written(conclusion.claim, conclusion.principal);
        self.add(query(&written), queried(known.stands(Statement::True(conclusion))));
    }

    /// Runs the program; says at which record its answers differ, if they do.
    fn fault(&self, program: &Program) -> Option<String> {
        let printed = match program.listing(&self.journal) {
            Ok(printed) => printed,
            Err(error) => return Some(error),
        };
        let mut lines = printed.lines();
        for (place, answer) in self.answers.iter().enumerate() {
            let want = format!("{} {answer}", place + 1);
            let have = lines.next().unwrap_or("");
            if want != have {
                return Some(format!("expected {want:?}, printed {have:?}, {}", self.at(place)));
            }
        }
        let end = format!("end {} marks {}", self.answers.len(), self.standing);
        match (lines.next(), lines.next()) {
            (Some(have), None) if have == end => None,
            (have, _) => Some(format!("expected {end:?} at the end, printed {have:?}")),
        }
    }

    /// The record at a place, with the trusted grant that was entered before it.
    fn at(&self, place: usize) -> String {
        let Some(added) = (place + self.added.len()).checked_sub(self.answers.len()) else {
            return "in the journal".to_string();
        };
        let entered = self.added[..=added].iter().rev().find(|record| record.starts_with(b"tg"));
        let entered = entered.map_or("nothing".to_string(), |record| to_hex(record));
        format!("at {} behind the journal and {entered}", to_hex(&self.added[added]))
    }
}

fn queried(stands: [bool; 2]) -> String {
    format!("qu {}", Answer::of(&stands).words())
}

/// A query of each of the 2,304 conclusions. Numbers that the journal did not
/// give are given first, which changes no mark.
fn truths(known: &Known) -> Vec<Script> {
    let fresh = usize::from(GRANT_NUMBERS) - known.given;
    let mut scripts = Vec::new();
    let mut script = known.script(fresh);
    for number in 0..CONCLUSIONS {
        let conclusion = Conclusion::from_number(number);
        let length = known.written(conclusion.claim, conclusion.principal).len() + CONTENT;
        if !script.has_room(length) {
            scripts.push(std::mem::replace(&mut script, known.script(fresh)));
        }
        if script.has_room(length) {
            script.ask(known, conclusion);
            script.marks += 1;
        }
    }
    scripts.push(script);
    scripts
}

/// A trusted grant for each speaker and claim. Each takes a number, so that
/// many runs are needed. Without a number or a property to spare there are none.
fn sayings(known: &Known) -> Vec<Script> {
    let free = usize::from(GRANT_NUMBERS) - known.given;
    let Some(shown) = known.unused_property() else { return Vec::new() };
    let fresh = FRESH_ASKED.min(free.saturating_sub(1));
    let most = free - fresh;
    if most == 0 {
        return Vec::new();
    }
    let mut scripts = Vec::new();
    for probes in probes(known, fresh).chunks(most) {
        let mut script = known.script(fresh);
        for probe in probes {
            probe.add_to(&mut script, known, shown);
        }
        scripts.push(script);
    }
    scripts
}

/// A question: of which principals did the speaker say one of these claims?
struct Probe {
    speaker: u8,
    /// What is said, about the first variable, and the resource variable.
    said: Bytes,
    resource: u8,
    claims: Vec<Claim>,
}

impl Probe {
    /// Whether the speaker said one of the claims of a principal, with the firm
    /// licences and with all.
    fn has_said(&self, known: &Known, principal: u8) -> [bool; 2] {
        let mut said = [false; 2];
        for &claim in &self.claims {
            let conclusion = Conclusion { principal, claim };
            let statement = Statement::Said(Said { speaker: self.speaker, conclusion });
            let [firm, all] = known.stands(statement);
            said = [said[0] || firm, said[1] || all];
        }
        said
    }

    fn add_to(&self, script: &mut Script, known: &Known, shown: u8) {
        let said_of: Vec<[bool; 2]> = (0..PRINCIPALS).map(|p| self.has_said(known, p)).collect();
        let count = said_of.iter().filter(|said| said[0]).count() as i32;
        let condition = said(self.speaker, &self.said);
        let probe = for_all(1, self.resource, &[condition], &property(shown, X));
        script.add(trust(&probe), nets("tg", count, 0));
        if said_of.iter().any(|said| said[1]) {
            for (principal, &said) in (0..PRINCIPALS).zip(&said_of) {
                script.add(query(&property(shown, principal)), queried(said));
            }
        }
        script.add(strike(&probe), nets("st", -count, 0));
        if self.claims.len() == 1 {
            script.marks += usize::from(PRINCIPALS);
        }
    }
}

/// For each speaker every property and pack right, the right to issue each
/// grant that a condition can hold, and rights over any grant and any pack.
fn probes(known: &Known, fresh: usize) -> Vec<Probe> {
    let numbers = 0..(known.given + fresh) as u8;
    let depths: Vec<u8> = known.book.machine.numbered.iter().map(depth_of).collect();
    let shallow = |g: &u8| depths.get(usize::from(*g)).is_none_or(|&depth| depth <= DEEPEST_INNER);
    let mut claims: Vec<Claim> = (0..PROPERTIES).map(Claim::Property).collect();
    claims.extend((0..PACKS).map(Claim::Run));
    claims.extend((0..PACKS).map(Claim::Export));
    claims.extend(numbers.filter(shallow).map(Claim::Issue));
    let mut probes = Vec::new();
    for speaker in 0..PRINCIPALS {
        for &claim in &claims {
            let said = known.written(claim, X);
            probes.push(Probe { speaker, said, resource: NO_RESOURCE, claims: vec![claim] });
        }
        let mut any = |said: Bytes, resource: u8, claims: Vec<Claim>| {
            probes.push(Probe { speaker, said, resource, claims });
        };
        any(issue_any(X), OVER_GRANTS, (0..GRANT_NUMBERS).map(Claim::Issue).collect());
        any(run(X, ANY_PACK), OVER_PACKS, (0..PACKS).map(Claim::Run).collect());
        any(export(X, ANY_PACK), OVER_PACKS, (0..PACKS).map(Claim::Export).collect());
    }
    probes
}

fn depth_of(grant: &Grant) -> u8 {
    1 + grant.inner().map(depth_of).max().unwrap_or(0)
}

fn properties_of(grant: &Grant) -> Vec<u8> {
    let conditions = grant.conditions.iter().map(|condition| &condition.conclusion);
    let conclusions = conditions.chain([&grant.conclusion]);
    conclusions
        .filter_map(|conclusion| match conclusion {
            ConclusionTree::Property { property, .. } => Some(*property),
            _ => None,
        })
        .collect()
}

fn principal_byte(principal: PrincipalTerm) -> u8 {
    match principal {
        PrincipalTerm::Named(named) => named,
        PrincipalTerm::Variable(which) => X + which,
    }
}

fn pack_byte(pack: PackTerm) -> u8 {
    match pack {
        PackTerm::Named(named) => named,
        PackTerm::Variable => ANY_PACK,
    }
}

fn conclusion_bytes(conclusion: &ConclusionTree) -> Bytes {
    match conclusion {
        ConclusionTree::Property { property: which, principal } => {
            property(*which, principal_byte(*principal))
        }
        ConclusionTree::Issue { principal, grant: GrantTerm::Written(grant) } => {
            issue(principal_byte(*principal), &grant_bytes(grant))
        }
        ConclusionTree::Issue { principal, .. } => issue_any(principal_byte(*principal)),
        ConclusionTree::Run { principal, pack } => {
            run(principal_byte(*principal), pack_byte(*pack))
        }
        ConclusionTree::Export { principal, pack } => {
            export(principal_byte(*principal), pack_byte(*pack))
        }
    }
}

fn grant_bytes(grant: &Grant) -> Bytes {
    let resource = match grant.resource_variable {
        ResourceVariable::None => NO_RESOURCE,
        ResourceVariable::OverGrants => OVER_GRANTS,
        ResourceVariable::OverPacks => OVER_PACKS,
    };
    let condition = |c: &reference::grant::Condition| {
        said(principal_byte(c.speaker), &conclusion_bytes(&c.conclusion))
    };
    let conditions: Vec<Bytes> = grant.conditions.iter().map(condition).collect();
    let conclusion = conclusion_bytes(&grant.conclusion);
    for_all(grant.principal_variables, resource, &conditions, &conclusion)
}
