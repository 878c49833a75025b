//! Document 02, 7: record length written out, with the answers written out.
//! Each kind of record stands between records that show whether it changed
//! anything and where the reading goes on.

use crate::case::{nets, Case};
use crate::tables::simple;
use crate::write::*;

const GROUP: &str = "document 02, 7: record length written out";

pub fn cases() -> Vec<Case> {
    let mut cases: Vec<Case> = kinds().iter().flat_map(letters).collect();
    for kind in kinds() {
        cases.extend(in_the_middle(&kind));
        cases.extend(at_the_end(&kind));
        cases.extend([cut_at_every_byte(&kind), left_over(&kind)]);
    }
    cases.extend([before_6(), before_7(), after_other_faults(), empty_contents()]);
    cases.extend(long_contents());
    cases.extend(whole_journals());
    cases
}

/// A kind of record with a content that is accepted behind `before`.
struct Kind {
    letters: &'static [u8; 2],
    content: Bytes,
    answer: &'static str,
}

impl Kind {
    fn stating(&self, length: usize) -> Bytes {
        stating(self.letters, length, &self.content)
    }

    fn name(&self) -> String {
        String::from_utf8_lossy(self.letters).into_owned()
    }
}

fn right() -> Bytes {
    plain(&run(3, 7))
}

fn kinds() -> Vec<Kind> {
    let of = |issuer: u8| [&[issuer], right().as_slice()].concat();
    let kind = |letters, content, answer| Kind { letters, content, answer };
    vec![
        kind(b"tg", simple(1), "tg +1 +0"),
        kind(b"st", simple(0), "st -1 +0"),
        kind(b"li", of(4), "li +0 +1"),
        kind(b"wd", of(1), "wd +0 -1"),
        kind(b"pv", of(1), "pv +0 -1"),
        kind(b"pl", of(5), "pl +0 +0"),
        kind(b"cf", of(2), "cf +0 +1"),
        kind(b"qu", property(0, 0), "qu permitted"),
    ]
}

/// Pairs of records and answers: a trusted grant, a licence and a provisional
/// one. Two marks stand behind them.
fn before() -> Vec<(Bytes, String)> {
    vec![
        (trust(&simple(0)), nets("tg", 1, 0)),
        (licence(1, &right()), nets("li", 0, 1)),
        (provisional(2, &right()), nets("pl", 0, 0)),
    ]
}

/// What is answered so where nothing was changed in between; the marks are two
/// again.
fn behind() -> Vec<(Bytes, String)> {
    vec![
        (query(&property(0, 0)), "qu permitted".to_string()),
        (withdraw(1, &right()), nets("wd", 0, -1)),
        (trust(&simple(0)), nets("tg", 0, 0)),
        (confirm(2, &right()), nets("cf", 0, 1)),
    ]
}

/// Bytes between the two lists, with their answers; the records behind them are
/// answered where the last of these is no refusal 1 or 2.
fn around(name: &str, bytes: &[Bytes], answers: &[&str]) -> Case {
    let (first, last) = (before(), behind());
    let ends = matches!(answers.last(), Some(&"refused 1" | &"refused 2"));
    let mut records: Vec<Bytes> = first.iter().map(|(record, _)| record.clone()).collect();
    records.extend(bytes.iter().cloned());
    records.extend(last.iter().map(|(record, _)| record.clone()));
    let mut lines: Vec<String> = first.into_iter().map(|(_, answer)| answer).collect();
    lines.extend(answers.iter().map(|answer| answer.to_string()));
    if !ends {
        lines.extend(last.into_iter().map(|(_, answer)| answer));
    }
    Case::answers(GROUP, name, &records, &lines, 2)
}

/// Bytes at the end of a journal.
fn at_last(name: &str, bytes: Bytes, answers: &[&str], marks: usize) -> Case {
    let (mut records, mut lines): (Vec<Bytes>, Vec<String>) = before().into_iter().unzip();
    records.push(bytes);
    lines.extend(answers.iter().map(|answer| answer.to_string()));
    Case::answers(GROUP, name, &records, &lines, marks)
}

/// Capitals, one of them or both, and letters next to the right ones.
fn letters(kind: &Kind) -> Vec<Case> {
    let [a, b] = *kind.letters;
    let mut others = vec![[a - 32, b - 32], [a - 32, b], [a, b - 32], [b, a]];
    for change in [|x: u8| x - 1, |x| x + 1, |x| x | 0x80] {
        others.extend([[change(a), b], [a, change(b)]]);
    }
    let case = |other: &[u8; 2]| {
        let name = format!("letters {} for {}", to_hex(other), kind.name());
        around(&name, &[record(other, &kind.content)], &["refused 2"])
    };
    others.iter().map(case).collect()
}

/// Wrong lengths where other records follow. The next record is looked for where
/// the stated length ends, and there are no letters.
fn in_the_middle(kind: &Kind) -> Vec<Case> {
    let right = kind.content.len();
    let case = |length: usize, answers: &[&str]| {
        let name = format!("{} of {right} bytes that states {length}", kind.name());
        around(&name, &[kind.stating(length)], answers)
    };
    let mut cases: Vec<Case> =
        (0..right).map(|less| case(less, &["refused 10", "refused 2"])).collect();
    cases.extend([1, 2].map(|more| case(right + more, &["refused 10", "refused 2"])));
    cases.extend([256 * right, 32_768 + right, 65_535].map(|long| case(long, &["refused 1"])));
    cases
}

/// The same where the journal ends: a frame may end at its last byte and not
/// one byte beyond.
fn at_the_end(kind: &Kind) -> Vec<Case> {
    let right = kind.content.len();
    let gained = match kind.answer {
        "tg +1 +0" | "li +0 +1" | "cf +0 +1" => 3,
        "st -1 +0" | "wd +0 -1" => 1,
        _ => 2,
    };
    let case = |length: usize, answers: &[&str], marks: usize| {
        let name = format!("{} of {right} bytes that states {length}, at the end", kind.name());
        at_last(&name, kind.stating(length), answers, marks)
    };
    let mut cases = vec![
        case(right, &[kind.answer], gained),
        case(right - 1, &["refused 10", "refused 1"], 2),
        case(0, &["refused 10", "refused 2"], 2),
    ];
    cases.extend([right + 1, right + 256, 65_535].map(|long| case(long, &["refused 1"], 2)));
    let whole = record(kind.letters, &kind.content);
    for length in 1..whole.len() {
        let name = format!("{}, the first {length} bytes", kind.name());
        cases.push(at_last(&name, whole[..length].to_vec(), &["refused 1"], 2));
    }
    cases
}

/// A content with inner grants, conditions and variables.
fn rich(kind: &Kind) -> Bytes {
    let inner = for_all(1, OVER_PACKS, &[said(X, &run(3, ANY_PACK))], &export(X, ANY_PACK));
    let grant = for_all(2, OVER_GRANTS, &[said(X, &issue(Y, &inner))], &issue_any(X));
    match kind.letters {
        b"tg" | b"st" => grant,
        b"qu" => issue(4, &grant),
        _ => [&[4], grant.as_slice()].concat(),
    }
}

/// Contents cut at every byte, each with the length of what is left.
fn cut_at_every_byte(kind: &Kind) -> Case {
    let cut = |content: Bytes| {
        let records = (0..content.len()).map(|length| record(kind.letters, &content[..length]));
        records.collect::<Vec<Bytes>>()
    };
    let records = [cut(kind.content.clone()), cut(rich(kind))].concat();
    let answers = vec!["refused 10"; records.len()];
    around(&format!("{} cut at every byte, with its length", kind.name()), &records, &answers)
}

/// Contents with more bytes than they need: any byte, letters, a whole record.
fn left_over(kind: &Kind) -> Case {
    let next = query(&property(0, 0));
    let more: [&[u8]; 8] = [&[0], &[2], &[0x80], &[0xFF], b"qu", &[0; 200], &[7; 300], &next];
    let mut records = Vec::new();
    for content in [&kind.content, &rich(kind)] {
        let longer = more.map(|rest| record(kind.letters, &[content, rest].concat()));
        records.extend(longer);
        records.push(record(kind.letters, &content.repeat(2)));
    }
    let answers = vec!["refused 10"; records.len()];
    around(&format!("{} with bytes left over", kind.name()), &records, &answers)
}

/// A case from pairs of a record and its answer.
fn case(name: &str, pairs: &[(Bytes, &str)], marks: usize) -> Case {
    let records: Vec<Bytes> = pairs.iter().map(|(record, _)| record.clone()).collect();
    let answers: Vec<String> = pairs.iter().map(|(_, answer)| answer.to_string()).collect();
    Case::answers(GROUP, name, &records, &answers, marks)
}

/// A record with a byte more, and one with its last byte taken off.
fn longer(whole: &[u8]) -> Bytes {
    record(&[whole[0], whole[1]], &[&whole[CONTENT..], &[0]].concat())
}

fn shorter(whole: &[u8]) -> Bytes {
    record(&[whole[0], whole[1]], &whole[CONTENT..whole.len() - 1])
}

/// On a full book the length is judged before the numbers.
fn before_6() -> Case {
    let new = plain(&export(9, 9));
    let mut pairs: Vec<(Bytes, &str)> =
        (0..64).map(|i| (trust(&simple(i)), "tg +1 +0")).collect();
    for whole in [trust(&new), licence(2, &new), provisional(2, &new), query(&issue(2, &new))] {
        pairs.extend([(longer(&whole), "refused 10"), (shorter(&whole), "refused 10")]);
        pairs.push((whole, "refused 6"));
    }
    let known = query(&issue(2, &simple(63)));
    pairs.extend([(longer(&known), "refused 10"), (known, "qu not permitted")]);
    case("before refusal 6", &pairs, 64)
}

/// It is judged before what stands, and gives no number.
fn before_7() -> Case {
    let new = plain(&export(9, 9));
    let mut pairs: Vec<(Bytes, &str)> =
        (0..63).map(|i| (trust(&simple(i)), "tg +1 +0")).collect();
    for whole in [strike(&new), withdraw(2, &new), confirm(2, &new), preview(2, &new)] {
        pairs.extend([(longer(&whole), "refused 10"), (shorter(&whole), "refused 10")]);
        pairs.push((whole, "refused 7"));
    }
    for whole in [trust(&new), licence(2, &new), provisional(2, &new), query(&issue(2, &new))] {
        pairs.extend([(longer(&whole), "refused 10"), (shorter(&whole), "refused 10")]);
    }
    let stands = strike(&simple(3));
    pairs.extend([(longer(&stands), "refused 10"), (stands, "st -1 +0")]);
    pairs.push((trust(&plain(&run(8, 8))), "tg +1 +0"));
    pairs.push((trust(&new), "refused 6"));
    case("before refusal 7, and without a number", &pairs, 63)
}

/// The first fault from left to right decides: one in the content before a
/// byte that is missing or left over.
fn after_other_faults() -> Case {
    let deep = "00 00 00 01 00 00 ".repeat(4);
    let deeper = format!("74 67 [{deep}]");
    let deep_and_more = format!("6C 69 [00 {deep} 00 FF 00]");
    let not_deep = format!("74 67 [{}]", &deep[..deep.len() - 3]);
    let table: Vec<(&str, &str)> = vec![
        ("74 67 [03]", "refused 3"),
        ("74 67 [00 00 05]", "refused 3"),
        ("74 67 [00 00 00 00 10]", "refused 3"),
        ("74 67 [00 00 00 00 00 10 00 00]", "refused 3"),
        ("6C 69 [10]", "refused 3"),
        ("71 75 [04 00]", "refused 3"),
        ("71 75 [02 03 20 00]", "refused 3"),
        ("74 67 [00 00 01 80]", "refused 4"),
        ("74 67 [00 00 00 00 05 80 00]", "refused 4"),
        ("71 75 [00 02 80 01 02]", "refused 4"),
        ("71 75 [01 00 01]", "refused 4"),
        ("70 76 [00 00 00 00 01 00 01 FF]", "refused 4"),
        (&deeper, "refused 5"),
        (&deep_and_more, "refused 5"),
        // the fault would come behind the end of the content
        (&not_deep, "refused 10"),
        ("74 67 [00 00 00 00 05]", "refused 10"),
        ("74 67 [00 00]", "refused 10"),
        // no fault but bytes that no list has, left over
        ("74 67 [00 00 00 00 05 05 FF]", "refused 10"),
        ("71 75 [00 02 02 80]", "refused 10"),
    ];
    let records: Vec<Bytes> = table.iter().map(|(bytes, _)| hex(bytes)).collect();
    let answers: Vec<&str> = table.iter().map(|&(_, answer)| answer).collect();
    around("faults in the content before the length", &records, &answers)
}

/// Length 0 in every kind of record, again and again.
fn empty_contents() -> Case {
    let thrice = LETTERS.iter().chain(&LETTERS).chain(&LETTERS);
    let records: Vec<Bytes> = thrice.map(|letters| record(letters, &[])).collect();
    let answers = vec!["refused 10"; records.len()];
    around("lengths of 0", &records, &answers)
}

/// A condition of 10, 14, 18, 22 or 26 bytes, with a grant in it.
fn condition(length: usize) -> Bytes {
    let inner = when(&vec![said(1, &property(1, 1)); (length - 10) / 4], &property(2, 2));
    said(0, &issue(6, &inner))
}

/// A condition with a grant whose own conditions have these lengths.
fn around_conditions(lengths: &[usize]) -> Bytes {
    let inner: Vec<Bytes> = lengths.iter().map(|&length| condition(length)).collect();
    said(0, &issue(6, &when(&inner, &property(2, 2))))
}

/// Lengths about 256, where the first of the two bytes counts, and the longest
/// content, a grant with four conditions at every depth.
fn long_contents() -> Vec<Case> {
    let last = |lengths: &[usize]| {
        let mut conditions = vec![around_conditions(&[26, 26]); 3];
        conditions.push(around_conditions(lengths));
        when(&conditions, &property(5, 5))
    };
    let full = |inner: &Bytes| when(&vec![said(0, &issue(6, inner)); 4], &issue(6, inner));
    let deepest = full(&full(&full(&when(&vec![said(1, &property(1, 1)); 4], &property(2, 2)))));
    let (of_254, of_256) = (last(&[26, 26]), last(&[22, 22, 10]));
    assert_eq!([of_254.len(), of_256.len(), deepest.len()], [254, 256, 3_432]);
    vec![
        long_content(&of_254, &["refused 1"]),
        long_content(&of_256, &["refused 10", "refused 2"]),
        long_content(&deepest, &["refused 1"]),
    ]
}

/// Records with this grant, whose conditions nobody meets; the last has the
/// bytes of its length exchanged, and then come these answers.
fn long_content(grant: &[u8], turned_answers: &[&str]) -> Case {
    let (entered, issued) = (trust(grant), licence(7, grant));
    let asked = query(&issue(7, grant));
    let mut turned = entered.clone();
    turned.swap(2, 3);
    let pairs = [
        (entered.clone(), "tg +0 +0"),
        (longer(&entered), "refused 10"),
        (shorter(&entered), "refused 10"),
        (issued.clone(), "li +0 +0"),
        (longer(&issued), "refused 10"),
        (shorter(&issued), "refused 10"),
        (preview(7, grant), "pv +0 +0"),
        (longer(&asked), "refused 10"),
        (asked, "qu not permitted"),
        (strike(grant), "st +0 +0"),
        (withdraw(7, grant), "wd +0 +0"),
    ];
    let mut records: Vec<Bytes> = pairs.iter().map(|(record, _)| record.clone()).collect();
    let answers = pairs.iter().map(|(_, answer)| answer).chain(turned_answers);
    let answers: Vec<String> = answers.map(|answer| answer.to_string()).collect();
    records.push(turned);
    Case::answers(GROUP, &format!("contents of {} bytes", grant.len()), &records, &answers, 0)
}

/// One record as long as a journal may be, and lengths that leave it.
fn whole_journals() -> Vec<Case> {
    let filled = |length: usize, bytes: usize| {
        let mut content = simple(0);
        content.resize(bytes, 0);
        vec![stating(b"tg", length, &content)]
    };
    let one = |name: &str, records: Vec<Bytes>, answer: &str| {
        Case::answers(GROUP, name, &records, &[answer.to_string()], 0)
    };
    let many = vec![record(b"qu", &[]); 16_384];
    let empty = vec!["refused 10".to_string(); 16_384];
    let bad = vec![stating(b"tg", 65_532, &[3; 65_532])];
    vec![
        one("a record of 65,536 bytes", filled(65_532, 65_532), "refused 10"),
        one("a record of 65,536 bytes, the first at fault", bad, "refused 3"),
        one("a record that states a byte more", filled(65_533, 65_532), "refused 1"),
        one("a record that states 65,535 bytes", filled(65_535, 65_532), "refused 1"),
        Case::written(GROUP, "65,539 bytes", &filled(65_535, 65_535), &["refused 8"]),
        Case::answers(GROUP, "16,384 records without a content", &many, &empty, 0),
    ]
}
