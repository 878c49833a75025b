//! Properties that every listing must have, judged from its lines and from how
//! many statements stand at its end.

use reference::sorts::Count;

/// The last line of a listing.
struct LastLine {
    records: usize,
    marks: i64,
}

/// A number of truths and one of sayings.
#[derive(Clone, Copy, Debug, PartialEq, Eq)]
struct Pair {
    truths: i64,
    sayings: i64,
}

/// The answer of each record line, without its number.
pub fn answers(listing: &str) -> Vec<&str> {
    let records = listing.lines().filter(|line| !line.starts_with("end "));
    records.map(without_number).collect()
}

fn without_number(line: &str) -> &str {
    line.trim_start_matches(|c: char| c.is_ascii_digit()).trim_start_matches(' ')
}

/// Line numbers count from 1 and the last line has their count. The nets of
/// truths add up to the truths standing, those of sayings to the sayings, and
/// all of them to the marks; the nets of previews are left out. An entry and a
/// confirmation lose nothing of either kind, a removal and its preview gain
/// nothing, and a provisional licence changes nothing.
pub fn sums_and_signs(listing: &str, standing: Count) -> Result<(), String> {
    let last = last_line(listing)?;
    let lines: Vec<&str> = listing.lines().collect();
    let records = &lines[..lines.len() - 1];
    if last.records != records.len() {
        return Err(format!(
            "{} record lines, but the last line says {}",
            records.len(),
            last.records
        ));
    }
    let mut sum = Pair { truths: 0, sayings: 0 };
    for (place, line) in records.iter().enumerate() {
        let prefix = format!("{} ", place + 1);
        let answer = line.strip_prefix(&prefix).ok_or(format!("wrong number in: {line}"))?;
        let nets = signed_nets(answer).map_err(|fault| format!("{fault} in: {line}"))?;
        sum.truths += nets.truths;
        sum.sayings += nets.sayings;
    }
    let standing = Pair { truths: standing.truths as i64, sayings: standing.sayings as i64 };
    if sum != standing {
        return Err(format!("the nets add up to {sum:?}, standing are {standing:?}"));
    }
    match sum.truths + sum.sayings == last.marks {
        true => Ok(()),
        false => Err(format!("the nets add up to {sum:?}, the marks are {}", last.marks)),
    }
}

/// The number of marks in the last line.
pub fn marks_printed(listing: &str) -> Result<i64, String> {
    last_line(listing).map(|last| last.marks)
}

fn last_line(listing: &str) -> Result<LastLine, String> {
    let line = listing.lines().last().unwrap_or("");
    let words: Vec<&str> = line.split(' ').collect();
    match words.as_slice() {
        ["end", records, "marks", marks] => Ok(LastLine {
            records: records.parse().map_err(|_| format!("last line: {line}"))?,
            marks: marks.parse().map_err(|_| format!("last line: {line}"))?,
        }),
        _ => Err(format!("last line: {line}")),
    }
}

/// What the nets of one answer add to the sums; 0 for a query, a preview and a
/// refusal.
fn signed_nets(answer: &str) -> Result<Pair, String> {
    match answer.split_once(' ') {
        Some(("pl", "+0 +0")) => Ok(Pair { truths: 0, sayings: 0 }),
        Some(("pl", _)) => Err("a provisional licence changes marks".to_string()),
        Some(("tg" | "li" | "cf", nets)) => match parse_nets(nets)? {
            nets if nets.truths < 0 => Err("an entry loses truths".to_string()),
            nets if nets.sayings < 0 => Err("an entry loses sayings".to_string()),
            nets => Ok(nets),
        },
        Some(("st" | "wd", nets)) => parse_lost(nets),
        Some(("pv", nets)) => parse_lost(nets).map(|_| Pair { truths: 0, sayings: 0 }),
        Some(("qu", "permitted" | "not permitted" | "open"))
        | Some(("refused", "1" | "2" | "3" | "4" | "5" | "6" | "7" | "10")) => {
            Ok(Pair { truths: 0, sayings: 0 })
        }
        _ => Err("unknown answer".to_string()),
    }
}

/// The nets of a removal.
fn parse_lost(nets: &str) -> Result<Pair, String> {
    match parse_nets(nets)? {
        nets if nets.truths > 0 => Err("a removal gains truths".to_string()),
        nets if nets.sayings > 0 => Err("a removal gains sayings".to_string()),
        nets => Ok(nets),
    }
}

/// Two nets with a blank between, truths first.
fn parse_nets(text: &str) -> Result<Pair, String> {
    let (truths, sayings) = text.split_once(' ').ok_or("one net alone")?;
    Ok(Pair { truths: parse_net(truths)?, sayings: parse_net(sayings)? })
}

fn parse_net(text: &str) -> Result<i64, String> {
    match text.starts_with(['+', '-']) && text != "-0" {
        true => text.parse().map_err(|_| "net out of form".to_string()),
        false => Err("net out of form".to_string()),
    }
}
