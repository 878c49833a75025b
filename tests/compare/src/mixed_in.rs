//! Generated journals with faulty records mixed in. The listing is that of the
//! journal without them, with their refusals in between.

use crate::case::Case;
use crate::generate::journal;
use crate::properties::{answers, marks_printed};
use crate::random::Random;
use crate::write::*;
use reference::listing::listing;
use reference::reader::frames;

const GROUP: &str = "journals with faulty records mixed in";

pub fn cases(seed: u64) -> Vec<Case> {
    let mut random = Random::new(seed, GROUP);
    let mut make = |i: usize| {
        let members = random.between(1, 6);
        let records = random.between(4, 30);
        let whole = journal(&mut random, members, records);
        mixed(&mut random, &i.to_string(), &whole)
    };
    (0..250).map(&mut make).collect()
}

/// The records of a journal, in most gaps of which stand one to three others.
fn mixed(random: &mut Random, name: &str, whole: &[u8]) -> Case {
    let records: Vec<&[u8]> =
        frames(whole).map(|(start, frame)| &whole[start..start + frame.length()]).collect();
    let text = listing(whole).text;
    let mut lines = Vec::new();
    let mut bytes = Bytes::new();
    for (record, answer) in records.iter().zip(answers(&text)) {
        bytes.extend(*record);
        lines.push(answer.to_string());
        for _ in 0..random.below(4) {
            let (faulty, number) = faulty(random, &records);
            bytes.extend(faulty);
            lines.push(format!("refused {number}"));
        }
    }
    let marks = marks_printed(&text).expect("the listing has a last line") as usize;
    Case::answers(GROUP, name, &[bytes], &lines, marks)
}

/// A record that is refused, with its number. Most are made from a record of the
/// journal.
fn faulty(random: &mut Random, records: &[&[u8]]) -> (Bytes, u8) {
    let whole = *random.choose(records);
    let (letters, content) = ([whole[0], whole[1]], &whole[CONTENT..]);
    let place = random.below(content.len());
    match random.below(8) {
        0 => (record(&letters, &content[..place]), 10),
        1 => (record(&letters, &content[..content.len() - 1]), 10),
        2 => (record(&letters, &[content, &[random.next() as u8]].concat()), 10),
        3 => (record(&letters, &[content, *random.choose(records)].concat()), 10),
        4 => (record(&letters, &[&content[..place], &[0xFF], &content[place + 1..]].concat()), 3),
        5 => (record(&letters, &[&content[..place], &[0xFF]].concat()), 3),
        6 => (undeclared(random), 4),
        _ => removed_or_deep(random),
    }
}

/// A variable that the grant does not declare; whatever comes behind it.
fn undeclared(random: &mut Random) -> Bytes {
    let grant = plain(&property(random.byte_below(16), X));
    let rest: Bytes = (0..random.below(9)).map(|_| random.next() as u8).collect();
    match random.percent(50) {
        true => record(b"tg", &[grant, rest].concat()),
        false => record(b"pl", &[vec![random.byte_below(16)], grant, rest].concat()),
    }
}

/// The removal of a grant that no journal of these has, and a grant at depth 5.
fn removed_or_deep(random: &mut Random) -> (Bytes, u8) {
    let strange = for_all(2, OVER_PACKS, &vec![said(Y, &export(X, 31)); 4], &run(Y, 30));
    let deep = (0..4).fold(plain(&property(0, 0)), |inner, _| plain(&issue(1, &inner)));
    let issuer = random.byte_below(16);
    match random.below(6) {
        0 => (strike(&strange), 7),
        1 => (withdraw(issuer, &strange), 7),
        2 => (confirm(issuer, &strange), 7),
        3 => (preview(issuer, &strange), 7),
        4 => (trust(&deep), 5),
        _ => (licence(issuer, &deep), 5),
    }
}
