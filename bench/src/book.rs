// Books as lists of records, and the rows and flags they come to.
// Written from the product's scope document (statement numbers, grants, records).

pub const PRINS: usize = 16;
pub const GRANTS: usize = 64;
pub const CONCLUSIONS: usize = 144 * PRINS;
pub const MARKS: usize = CONCLUSIONS * (PRINS + 1);
pub const JOURNAL_LIMIT: usize = 65_536;

/// A principal as written: 0 to 15, or a variable.
pub type Pr = u8;
pub const X: Pr = 0x80;
pub const Y: Pr = 0x81;

#[derive(Clone, PartialEq)]
pub enum Con {
    Prop(u8, Pr),
    Issue(Pr, Box<Grant>),
    IssueVar(Pr),
    /// kind (2 run, 3 export), principal, pack (0x80 the variable)
    Pack(u8, Pr, u8),
}

#[derive(Clone, PartialEq)]
pub struct Grant {
    pub prins: u8,
    pub res: u8, // 0 none, 1 over grants, 2 over packs
    pub conds: Vec<(Pr, Con)>,
    pub head: Con,
}

pub fn grant(prins: u8, res: u8, conds: Vec<(Pr, Con)>, head: Con) -> Grant {
    Grant {
        prins,
        res,
        conds,
        head,
    }
}

pub fn fact(head: Con) -> Grant {
    grant(0, 0, vec![], head)
}

fn write_con(c: &Con, out: &mut Vec<u8>) {
    match c {
        Con::Prop(k, p) => out.extend([0, *k, *p]),
        Con::Issue(p, g) => {
            out.extend([1, *p, 0]);
            write_grant(g, out);
        }
        Con::IssueVar(p) => out.extend([1, *p, 1]),
        Con::Pack(kind, p, n) => out.extend([*kind, *p, *n]),
    }
}

/// The grant that all grants which are the same are kept as: inner grants
/// first, then conditions in ascending order of bytes, each once.
fn ordered(g: &Grant) -> Grant {
    let inner = |c: &Con| match c {
        Con::Issue(p, g) => Con::Issue(*p, Box::new(ordered(g))),
        other => other.clone(),
    };
    let mut conds: Vec<(Pr, Con)> = g.conds.iter().map(|(q, c)| (*q, inner(c))).collect();
    let bytes = |(q, c): &(Pr, Con)| {
        let mut out = vec![*q];
        write_con(c, &mut out);
        out
    };
    conds.sort_by_key(bytes);
    conds.dedup();
    grant(g.prins, g.res, conds, inner(&g.head))
}

pub fn write_grant(g: &Grant, out: &mut Vec<u8>) {
    out.extend([g.prins, g.res, g.conds.len() as u8]);
    for (q, c) in &g.conds {
        out.push(*q);
        write_con(c, out);
    }
    write_con(&g.head, out);
}

/// A record: letters, the length of its content in two bytes, high byte first,
/// and the content.
pub fn record(letters: &[u8; 2], content: &[u8]) -> Vec<u8> {
    let length = u16::try_from(content.len()).expect("a content has at most 65,535 bytes");
    [letters.as_slice(), &length.to_be_bytes(), content].concat()
}

/// Where the content of a record starts.
pub const CONTENT: usize = 4;

fn licence(letters: &[u8; 2], p: u8, g: &Grant) -> Vec<u8> {
    let mut content = vec![p];
    write_grant(g, &mut content);
    record(letters, &content)
}

/// A conclusion in a row: principal, and a slot that is fixed or a base to
/// which the value of the resource variable is added.
#[derive(Clone, Copy)]
pub struct Atom {
    pub prin: Pr,
    pub slot: u16,
    pub var: bool,
}

#[derive(Clone)]
pub struct Row {
    pub res: u8,
    pub conds: Vec<(Pr, Atom)>,
    pub head: Atom,
    pub trusted: bool,
    pub issued: [bool; PRINS],
    /// by whom it is provisional
    pub waiting: [bool; PRINS],
}

#[derive(Clone)]
pub struct Book {
    pub name: String,
    pub rows: Vec<Row>,
    names: Vec<Vec<u8>>,
    pub journal: Vec<u8>,
    pub records: usize,
    /// the records that enter or issue
    pub entries: Vec<Vec<u8>>,
    /// the shortest record that enters a trusted grant that stands
    pub again: Vec<u8>,
}

impl Book {
    pub fn new(name: &str) -> Book {
        Book {
            name: name.to_string(),
            rows: vec![],
            names: vec![],
            journal: vec![],
            records: 0,
            entries: vec![],
            again: vec![],
        }
    }

    fn atom(&mut self, c: &Con) -> Atom {
        match c {
            Con::Prop(k, p) => Atom {
                prin: *p,
                slot: *k as u16,
                var: false,
            },
            Con::Issue(p, g) => {
                let n = self.number(g);
                Atom {
                    prin: *p,
                    slot: 16 + n as u16,
                    var: false,
                }
            }
            Con::IssueVar(p) => Atom {
                prin: *p,
                slot: 16,
                var: true,
            },
            Con::Pack(kind, p, n) => {
                let base = if *kind == 2 { 80 } else { 112 };
                if *n == 0x80 {
                    Atom {
                        prin: *p,
                        slot: base,
                        var: true,
                    }
                } else {
                    Atom {
                        prin: *p,
                        slot: base + *n as u16,
                        var: false,
                    }
                }
            }
        }
    }

    /// The number of a grant, given now if it has none; inner grants first.
    fn number(&mut self, g: &Grant) -> usize {
        let g = &ordered(g);
        let conds: Vec<(Pr, Atom)> = g.conds.iter().map(|(q, c)| (*q, self.atom(c))).collect();
        let head = self.atom(&g.head);
        let mut bytes = vec![];
        write_grant(g, &mut bytes);
        if let Some(n) = self.names.iter().position(|b| *b == bytes) {
            return n;
        }
        assert!(
            self.rows.len() < GRANTS,
            "{}: more than 64 grants",
            self.name
        );
        self.names.push(bytes);
        self.rows.push(Row {
            res: g.res,
            conds,
            head,
            trusted: false,
            issued: [false; PRINS],
            waiting: [false; PRINS],
        });
        self.rows.len() - 1
    }

    pub fn trust(&mut self, g: &Grant) {
        let n = self.number(g);
        self.rows[n].trusted = true;
        let mut content = vec![];
        write_grant(g, &mut content);
        let rec = record(b"tg", &content);
        self.journal.extend(&rec);
        self.records += 1;
        self.entries.push(rec.clone());
        if self.again.is_empty() || rec.len() <= self.again.len() {
            self.again = rec;
        }
    }

    pub fn issue(&mut self, p: u8, g: &Grant) {
        let n = self.number(g);
        self.rows[n].issued[p as usize] = true;
        self.rows[n].waiting[p as usize] = false;
        let rec = licence(b"li", p, g);
        self.journal.extend(&rec);
        self.records += 1;
        self.entries.push(rec);
    }

    /// Enters a provisional licence; a firm one stays firm.
    pub fn wait(&mut self, p: u8, g: &Grant) {
        let n = self.number(g);
        self.rows[n].waiting[p as usize] = !self.rows[n].issued[p as usize];
        self.journal.extend(licence(b"pl", p, g));
        self.records += 1;
    }

    /// Confirms a licence if it is provisional.
    pub fn confirm(&mut self, p: u8, g: &Grant) {
        let n = self.number(g);
        if self.rows[n].waiting[p as usize] {
            self.rows[n].waiting[p as usize] = false;
            self.rows[n].issued[p as usize] = true;
            self.journal.extend(licence(b"cf", p, g));
            self.records += 1;
        }
    }

    /// The rows with all provisional licences taken as firm.
    pub fn taken_as_firm(&self) -> Book {
        let mut book = self.clone();
        for row in &mut book.rows {
            (0..PRINS).for_each(|p| row.issued[p] |= row.waiting[p]);
        }
        book
    }

    /// A record that enters the shortest numbered grant that it can as a
    /// provisional licence of somebody who has no licence of it.
    pub fn awaited(&self) -> Vec<u8> {
        let free = |row: &Row| (0..PRINS).rev().find(|p| !row.issued[*p] && !row.waiting[*p]);
        let pairs = self.names.iter().zip(&self.rows);
        let found = pairs.filter_map(|(name, row)| Some((name, free(row)?)));
        let (name, p) = found.min_by_key(|(name, _)| name.len()).expect("some licence is free");
        record(b"pl", &[&[p as u8], name.as_slice()].concat())
    }

    /// The shortest record that issues a licence.
    pub fn licence(&self) -> Vec<u8> {
        let issued = self.entries.iter().filter(|record| record.starts_with(b"li"));
        issued.min_by_key(|record| record.len()).expect("some licence stands").clone()
    }

    /// A query that numbers the grant and lets nothing stand.
    pub fn name(&mut self, g: &Grant) {
        self.number(g);
        let mut content = vec![];
        write_con(&Con::Issue(0, Box::new(g.clone())), &mut content);
        self.journal.extend(record(b"qu", &content));
        self.records += 1;
    }

    /// The bytes of each grant that has a number.
    pub fn names(&self) -> &[Vec<u8>] {
        &self.names
    }

    /// A record as long as `again` that strikes a grant which isn't trusted.
    pub fn refused(&self) -> Vec<u8> {
        for (k, p) in (0..16).flat_map(|k| (0..16).map(move |p| (k, p))) {
            let mut grant = self.again[CONTENT..].to_vec();
            assert_eq!(
                grant.len(),
                6,
                "{}: the shortest trusted grant is no fact",
                self.name
            );
            grant[2..].copy_from_slice(&[0, 0, k, p]);
            let known = self.names.iter().position(|g| *g == grant);
            if !known.is_some_and(|n| self.rows[n].trusted) {
                return record(b"st", &grant);
            }
        }
        panic!("{}: every short grant is trusted", self.name)
    }

    /// The journal that builds the book, then a record k times.
    pub fn journal_with(&self, record: &[u8], k: usize) -> Vec<u8> {
        let mut j = self.journal.clone();
        (0..k).for_each(|_| j.extend(record));
        assert!(j.len() <= JOURNAL_LIMIT);
        j
    }

    /// How often a record fits behind the journal that builds the book.
    pub fn room(&self, record: &[u8]) -> usize {
        (JOURNAL_LIMIT - self.journal.len()) / record.len()
    }
}
