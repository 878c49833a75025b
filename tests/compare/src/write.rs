//! Writes conclusions, grants, records and journals as bytes.

pub type Bytes = Vec<u8>;

/// The first and the second principal variable.
pub const X: u8 = 0x80;
pub const Y: u8 = 0x81;
/// The pack variable.
pub const ANY_PACK: u8 = 0x80;

/// The second byte of a grant.
pub const NO_RESOURCE: u8 = 0;
pub const OVER_GRANTS: u8 = 1;
pub const OVER_PACKS: u8 = 2;

pub fn property(property: u8, principal: u8) -> Bytes {
    vec![0x00, property, principal]
}

pub fn issue(principal: u8, grant: &[u8]) -> Bytes {
    [&[0x01, principal, 0x00], grant].concat()
}

/// The right to issue whatever the grant variable stands for.
pub fn issue_any(principal: u8) -> Bytes {
    vec![0x01, principal, 0x01]
}

pub fn run(principal: u8, pack: u8) -> Bytes {
    vec![0x02, principal, pack]
}

pub fn export(principal: u8, pack: u8) -> Bytes {
    vec![0x03, principal, pack]
}

/// A condition: the speaker must have said the conclusion.
pub fn said(speaker: u8, conclusion: &[u8]) -> Bytes {
    [&[speaker], conclusion].concat()
}

/// A grant without variables and conditions.
pub fn plain(conclusion: &[u8]) -> Bytes {
    for_all(0, NO_RESOURCE, &[], conclusion)
}

/// A grant without variables.
pub fn when(conditions: &[Bytes], conclusion: &[u8]) -> Bytes {
    for_all(0, NO_RESOURCE, conditions, conclusion)
}

/// "For all grants x, the principal may issue x."
pub fn may_issue_all(principal: u8) -> Bytes {
    for_all(0, OVER_GRANTS, &[], &issue_any(principal))
}

pub fn for_all(principals: u8, resource: u8, conditions: &[Bytes], conclusion: &[u8]) -> Bytes {
    let head = [principals, resource, conditions.len() as u8];
    [&head, conditions.concat().as_slice(), conclusion].concat()
}

/// A record: its letters, two bytes with the length of its content, high byte
/// first, and the content.
pub fn record(letters: &[u8; 2], content: &[u8]) -> Bytes {
    stating(letters, content.len(), content)
}

/// A record whose length may be stated wrongly.
pub fn stating(letters: &[u8; 2], length: usize, content: &[u8]) -> Bytes {
    let length = u16::try_from(length).expect("a length has two bytes").to_be_bytes();
    [letters.as_slice(), &length, content].concat()
}

/// The letters of the eight kinds of record.
pub const LETTERS: [&[u8; 2]; 8] = [b"tg", b"st", b"li", b"wd", b"pv", b"pl", b"cf", b"qu"];

/// Where the content of a record starts.
pub const CONTENT: usize = 4;

/// A record of an issuer and a grant.
fn of_licence(letters: &[u8; 2], issuer: u8, grant: &[u8]) -> Bytes {
    record(letters, &[&[issuer], grant].concat())
}

pub fn trust(grant: &[u8]) -> Bytes {
    record(b"tg", grant)
}

pub fn strike(grant: &[u8]) -> Bytes {
    record(b"st", grant)
}

pub fn licence(issuer: u8, grant: &[u8]) -> Bytes {
    of_licence(b"li", issuer, grant)
}

pub fn withdraw(issuer: u8, grant: &[u8]) -> Bytes {
    of_licence(b"wd", issuer, grant)
}

/// Asks what a withdrawal would change.
pub fn preview(issuer: u8, grant: &[u8]) -> Bytes {
    of_licence(b"pv", issuer, grant)
}

/// Enters a provisional licence.
pub fn provisional(issuer: u8, grant: &[u8]) -> Bytes {
    of_licence(b"pl", issuer, grant)
}

/// Makes a provisional licence firm.
pub fn confirm(issuer: u8, grant: &[u8]) -> Bytes {
    of_licence(b"cf", issuer, grant)
}

pub fn query(conclusion: &[u8]) -> Bytes {
    record(b"qu", conclusion)
}

/// Bytes from their hexadecimal form, blanks ignored. Brackets stand around the
/// content of a record, whose length is written for the first of them.
pub fn hex(text: &str) -> Bytes {
    let Some((before, rest)) = text.split_once('[') else { return digits(text) };
    let (content, after) = rest.split_once(']').expect("a bracket has its other");
    let content = digits(content);
    let length = (content.len() as u16).to_be_bytes();
    [digits(before), length.to_vec(), content, hex(after)].concat()
}

fn digits(text: &str) -> Bytes {
    let digits: Vec<u32> = text.chars().filter_map(|c| c.to_digit(16)).collect();
    digits.chunks(2).map(|pair| (pair[0] * 16 + pair[1]) as u8).collect()
}

pub fn to_hex(bytes: &[u8]) -> String {
    bytes.iter().map(|byte| format!("{byte:02X}")).collect::<Vec<_>>().join(" ")
}
