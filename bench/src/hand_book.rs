// The hand-written book: reads a journal from standard input and prints the
// listing of the product's scope document, each line with one write. It reads
// a record by its stated length, looks its grants up, evaluates, counts the truths and the sayings
// gained and lost against the marks that stood, and prints, as the book does;
// it does not test the form of a book, which nobody lends it. Where provisional
// licences stand it evaluates a second time, with them taken as firm, and keeps
// the words of that; where none stand, that would give the same marks. For the
// preview of a withdrawal it evaluates once, beside the marks that stand.

use crate::book::{CONTENT, GRANTS, JOURNAL_LIMIT, MARKS, PRINS, X};
use crate::hand::{write_and_count, write_marks, Atom, Row, Table, Words};
use std::fs::File;
use std::io::{Read, Write};
use std::mem::ManuallyDrop;
use std::os::fd::FromRawFd;

/// Room for the 64 rows and for the new ones of one record, at most 156.
const ROOM: usize = 224;
const LAST_DEPTH: u8 = 4;

pub struct Book {
    pub table: Table,
    pub words: Words,
    pub marks: Box<[u8; MARKS]>,
    /// the provisional licences of each principal: bit g for grant g
    waiting: [u64; PRINS],
    /// the words with the provisional licences taken as firm, where any stand
    all: Words,
    /// the words and the marks of the last preview
    ahead: Words,
    preview: Box<[u8; MARKS]>,
    rows: [Row; ROOM],
    keys: [u64; ROOM],
    /// rows known, the new ones of the record that is being read included
    known: usize,
}

pub enum Answer {
    /// gained less lost, of truths and of sayings
    Nets([i32; 2]),
    Permitted,
    NotPermitted,
    /// not with the firm licences alone, but with the provisional ones
    Open,
    Refused(u8),
}

/// The content of a record, and how far it is read.
struct Reader<'a> {
    bytes: &'a [u8],
    at: usize,
}

const LETTERS: [&[u8; 2]; 8] = [b"tg", b"st", b"li", b"wd", b"pv", b"pl", b"cf", b"qu"];

/// The letters and the content of the first record: the letters are judged
/// first, then whether the length is there, then whether so many bytes are.
fn frame(bytes: &[u8]) -> Result<([u8; 2], &[u8]), u8> {
    let (letters, rest) = bytes.split_first_chunk::<2>().ok_or(1)?;
    if !LETTERS.contains(&letters) {
        return Err(2);
    }
    let (length, rest) = rest.split_first_chunk::<2>().ok_or(1)?;
    let content = rest.get(..u16::from_be_bytes(*length) as usize).ok_or(1)?;
    Ok((*letters, content))
}

/// What a grant declares: principal variables and the resource variable.
#[derive(Clone, Copy)]
struct Declared(u8, u8);

impl Reader<'_> {
    /// The content is read whole.
    fn end(&self) -> Result<(), u8> {
        match self.at == self.bytes.len() {
            true => Ok(()),
            false => Err(10),
        }
    }

    fn byte(&mut self) -> Result<u8, u8> {
        let b = *self.bytes.get(self.at).ok_or(10)?;
        self.at += 1;
        Ok(b)
    }

    fn up_to(&mut self, last: u8) -> Result<u8, u8> {
        let b = self.byte()?;
        if b <= last {
            Ok(b)
        } else {
            Err(3)
        }
    }

    fn prin(&mut self, d: Declared) -> Result<u8, u8> {
        match self.byte()? {
            b @ 0..=0x0F => Ok(b),
            b @ 0x80..=0x81 if b - X < d.0 => Ok(b),
            0x80..=0x81 => Err(4),
            _ => Err(3),
        }
    }
}

/// A number that two different rows hardly ever share.
fn key(row: &Row) -> u64 {
    let mut key = row.prins as u64 | (row.res as u64) << 2 | (row.n as u64) << 4;
    for a in row.conds.iter().chain([&row.head]) {
        let four = u32::from_le_bytes([a.who, a.kind | a.var << 7, a.prin, a.item]);
        key = (key ^ four as u64).wrapping_mul(0x9E37_79B9_7F4A_7C15);
        key ^= key >> 29;
    }
    key
}

impl Row {
    /// Conditions in another order, or repeated, are the same grant: they are
    /// kept in one order, each once. Which order does not show.
    fn order(&mut self) {
        let n = self.n as usize;
        self.conds[..n].sort_unstable();
        let mut kept = 0;
        for i in 0..n {
            if i == 0 || self.conds[i] != self.conds[kept - 1] {
                self.conds[kept] = self.conds[i];
                kept += 1;
            }
        }
        self.conds[kept..].fill(Atom::default());
        self.n = kept as u8;
    }
}

impl Book {
    pub fn new() -> Book {
        Book {
            table: Table::new(),
            words: Words::new(),
            marks: Box::new([0; MARKS]),
            waiting: [0; PRINS],
            all: Words::new(),
            ahead: Words::new(),
            preview: Box::new([0; MARKS]),
            rows: [Row::default(); ROOM],
            keys: [0; ROOM],
            known: 0,
        }
    }

    /// The number of a row, which may be beyond the numbers given.
    fn number(&mut self, row: &Row) -> u8 {
        let key = key(row);
        for (i, k) in self.keys[..self.known].iter().enumerate() {
            if *k == key && self.rows[i] == *row {
                return i as u8;
            }
        }
        self.rows[self.known] = *row;
        self.keys[self.known] = key;
        self.known += 1;
        self.known as u8 - 1
    }

    fn grant(&mut self, r: &mut Reader, depth: u8) -> Result<u8, u8> {
        let mut row = Row {
            prins: r.up_to(2)?,
            res: r.up_to(2)?,
            n: r.up_to(4)?,
            ..Row::default()
        };
        let d = Declared(row.prins, row.res);
        for i in 0..row.n as usize {
            let who = r.prin(d)?;
            row.conds[i] = self.conclusion(r, d, depth)?;
            row.conds[i].who = who;
        }
        row.head = self.conclusion(r, d, depth)?;
        row.order();
        Ok(self.number(&row))
    }

    fn conclusion(&mut self, r: &mut Reader, d: Declared, depth: u8) -> Result<Atom, u8> {
        let kind = r.up_to(3)?;
        let mut a = Atom {
            kind,
            ..Atom::default()
        };
        if kind == 0 {
            a.item = r.up_to(0x0F)?;
            a.prin = r.prin(d)?;
            return Ok(a);
        }
        a.prin = r.prin(d)?;
        match (kind, r.byte()?) {
            (1, 0) if depth == LAST_DEPTH => return Err(5),
            (1, 0) => a.item = self.grant(r, depth + 1)?,
            (1, 1) if d.1 == 1 => a.var = 1,
            (1, 1) => return Err(4),
            (1, _) => return Err(3),
            (_, n @ 0..=0x1F) => a.item = n,
            (_, 0x80) if d.1 == 2 => a.var = 1,
            (_, 0x80) => return Err(4),
            _ => return Err(3),
        }
        Ok(a)
    }

    /// One record: its answer and the bytes used.
    pub fn call(&mut self, bytes: &[u8]) -> (Answer, usize) {
        let (letters, content) = match frame(bytes) {
            Ok(frame) => frame,
            Err(n) => return (Answer::Refused(n), 0),
        };
        let answer = self.record(&letters, &mut Reader { bytes: content, at: 0 });
        self.known = self.table.count;
        (answer.unwrap_or_else(Answer::Refused), CONTENT + content.len())
    }

    fn record(&mut self, letters: &[u8; 2], r: &mut Reader) -> Result<Answer, u8> {
        match letters {
            b"tg" => {
                let g = self.whole_grant(r)?;
                self.give_numbers()?;
                self.table.trust(g, true);
            }
            b"st" => {
                let g = self.whole_grant(r)?;
                if g >= self.table.count || self.table.trusted >> g & 1 == 0 {
                    return Err(7);
                }
                self.table.trust(g, false);
            }
            b"qu" => return self.query(r),
            _ => {
                let p = r.up_to(0x0F)? as usize;
                let g = self.whole_grant(r)?;
                if letters == b"pv" {
                    return self.preview(p, g);
                }
                self.licence(letters, p, g)?;
            }
        }
        Ok(Answer::Nets(self.evaluate()))
    }

    /// A grant at the end of a record.
    fn whole_grant(&mut self, r: &mut Reader) -> Result<usize, u8> {
        let g = self.grant(r, 1)?;
        r.end()?;
        Ok(g as usize)
    }

    /// Issues, enters as provisional, withdraws or confirms a licence.
    fn licence(&mut self, letters: &[u8; 2], p: usize, g: usize) -> Result<(), u8> {
        if matches!(letters, b"li" | b"pl") {
            self.give_numbers()?;
        } else if g >= self.table.count {
            return Err(7);
        }
        let firm = self.table.issued[p] >> g & 1 == 1;
        let waits = self.waiting[p] >> g & 1 == 1;
        match letters {
            b"wd" if !firm && !waits => return Err(7),
            b"cf" if !waits => return Err(7),
            b"pl" if firm => return Ok(()),
            _ => {}
        }
        let waits = letters == b"pl";
        self.waiting[p] = self.waiting[p] & !(1 << g) | (waits as u64) << g;
        self.table.issue(p, g, matches!(letters, b"li" | b"cf"));
        Ok(())
    }

    /// What a withdrawal would change. One of a provisional licence would
    /// change no mark of the firm ones.
    fn preview(&mut self, p: usize, g: usize) -> Result<Answer, u8> {
        let stands = |licences: u64| g < self.table.count && licences >> g & 1 == 1;
        let firm = stands(self.table.issued[p]);
        if !firm && !stands(self.waiting[p]) {
            return Err(7);
        }
        self.preview.copy_from_slice(&*self.marks);
        if !firm {
            return Ok(Answer::Nets([0; 2]));
        }
        self.table.issue(p, g, false);
        self.table.evaluate(&mut self.ahead);
        self.table.issue(p, g, true);
        let changes = write_and_count(&self.ahead, &mut self.preview);
        Ok(Answer::Nets(changes.map(|c| c.gained as i32 - c.lost as i32)))
    }

    fn query(&mut self, r: &mut Reader) -> Result<Answer, u8> {
        let a = self.conclusion(r, Declared(0, 0), 0)?;
        r.end()?;
        self.give_numbers()?;
        let (prin, kind, item) = (a.prin as usize, a.kind as usize, a.item as usize);
        let c = 144 * prin + [0, 16, 80, 112][kind] + item;
        Ok(match self.marks[c] {
            1 => Answer::Permitted,
            _ if self.waits() && self.all.truth(prin, kind, item) => Answer::Open,
            _ => Answer::NotPermitted,
        })
    }

    /// Whether any provisional licence stands.
    fn waits(&self) -> bool {
        self.waiting.iter().any(|grants| *grants != 0)
    }

    /// Works out the marks of the firm licences and, where provisional ones
    /// stand, the words with those too. The answer is what the marks gained less
    /// what they lost.
    fn evaluate(&mut self) -> [i32; 2] {
        if self.waits() {
            self.take_as_firm(true);
            self.table.evaluate(&mut self.all);
            self.take_as_firm(false);
        }
        self.table.evaluate(&mut self.words);
        let changes = write_and_count(&self.words, &mut self.marks);
        changes.map(|c| c.gained as i32 - c.lost as i32)
    }

    fn take_as_firm(&mut self, on: bool) {
        for p in 0..PRINS {
            let mut left = self.waiting[p];
            while left != 0 {
                self.table.issue(p, left.trailing_zeros() as usize, on);
                left &= left - 1;
            }
        }
    }

    /// The marks with the provisional licences taken as firm.
    pub fn second_marks(&self) -> Box<[u8; MARKS]> {
        let mut marks = self.marks.clone();
        if self.waits() {
            write_marks(&self.all, &mut marks);
        }
        marks
    }

    /// Gives the record's new grants their numbers, if there is room.
    fn give_numbers(&mut self) -> Result<(), u8> {
        if self.known > GRANTS {
            return Err(6);
        }
        for i in self.table.count..self.known {
            self.table.add(&self.rows[i]);
        }
        Ok(())
    }

    /// Takes a journal that is accepted throughout.
    pub fn take(&mut self, journal: &[u8]) {
        let mut at = 0;
        while at < journal.len() {
            let (answer, used) = self.call(&journal[at..]);
            assert!(
                !matches!(answer, Answer::Refused(_)),
                "a book's record is refused"
            );
            at += used;
        }
    }
}

/// A line in the making.
struct Line {
    text: [u8; 64],
    n: usize,
}

impl Line {
    fn add(&mut self, text: &[u8]) {
        self.text[self.n..self.n + text.len()].copy_from_slice(text);
        self.n += text.len();
    }

    fn number(&mut self, mut n: u32) {
        let (mut digits, mut from) = ([0; 10], 10);
        loop {
            from -= 1;
            digits[from] = b'0' + (n % 10) as u8;
            n /= 10;
            if n == 0 {
                break;
            }
        }
        self.add(&digits[from..]);
    }

    fn put(&mut self, out: &mut File) {
        self.add(b"\n");
        out.write_all(&self.text[..self.n])
            .expect("standard output can be written");
        self.n = 0;
    }
}

/// The listing of the journal on standard input.
pub fn list() {
    // The standard streams without the buffers that std puts before them.
    let mut input = ManuallyDrop::new(unsafe { File::from_raw_fd(0) });
    let mut out = ManuallyDrop::new(unsafe { File::from_raw_fd(1) });
    let mut journal = Vec::with_capacity(JOURNAL_LIMIT + 1);
    let mut part = Read::take(&mut *input, JOURNAL_LIMIT as u64 + 1);
    part.read_to_end(&mut journal)
        .expect("standard input can be read");
    let mut line = Line {
        text: [0; 64],
        n: 0,
    };
    if journal.len() > JOURNAL_LIMIT {
        line.add(b"refused 8");
        return line.put(&mut out);
    }
    let mut book = Book::new();
    let (mut at, mut records) = (0, 0);
    while at < journal.len() {
        let (answer, used) = book.call(&journal[at..]);
        records += 1;
        line.number(records);
        line.add(b" ");
        match answer {
            Answer::Nets(nets) => {
                line.add(&journal[at..at + 2]);
                for net in nets {
                    line.add(if net < 0 { b" -" } else { b" +" });
                    line.number(net.unsigned_abs());
                }
            }
            Answer::Permitted => line.add(b"qu permitted"),
            Answer::NotPermitted => line.add(b"qu not permitted"),
            Answer::Open => line.add(b"qu open"),
            Answer::Refused(n) => {
                line.add(b"refused ");
                line.number(n as u32);
            }
        }
        line.put(&mut out);
        if used == 0 {
            break;
        }
        at += used;
    }
    line.add(b"end ");
    line.number(records);
    line.add(b" marks ");
    line.number(book.marks.iter().map(|m| *m as u32).sum());
    line.put(&mut out);
}
