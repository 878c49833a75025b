// Prints the table: what one evaluation and one whole record cost, by the
// listing program, by hand-written programs and by gringo, side by side.

mod agree;
mod book;
mod books;
mod datalog;
mod hand;
mod hand_book;
mod measure;
mod panel;
mod picture;
mod preview;
mod waiting;
mod worst;

use book::{Book, GRANTS};
use measure::best;
use picture::{Panel, SIZES};
use std::fs;
use std::hint::black_box;
use std::path::{Path, PathBuf};
use std::process::{exit, Command};

const ROUNDS: usize = 8;
const DRAWN: u64 = 100;
/// Records run on a book so long for one measurement, in seconds.
const STRETCH: f64 = 0.04;
const QUERY: &[u8] = b"qu\0\x03\0\x02\x02";

pub struct Tools {
    pub listing: PathBuf,
    /// this program, which is the hand-written book with --list
    pub this: PathBuf,
    pub dir: PathBuf,
    pub gringo: bool,
}

/// Seconds, each for one record or one evaluation.
struct Row {
    name: String,
    rows: usize,
    marks: usize,
    record: f64,
    hand_record: f64,
    evaluation: f64,
    hand_evaluation: f64,
    gringo: f64,
}

impl Row {
    fn by_evaluation(&self) -> f64 {
        self.evaluation / self.hand_evaluation
    }
    fn by_record(&self) -> f64 {
        self.record / self.hand_record
    }
    fn by_gringo(&self) -> f64 {
        self.record / self.gringo
    }
}

fn write(at: &Path, bytes: &[u8]) {
    fs::write(at, bytes).unwrap_or_else(|e| panic!("{}: {}", at.display(), e));
}

/// How often a record stands behind a book in a measurement.
fn times(t: &Tools, b: &Book, record: &[u8], program: &Path, args: &[&str]) -> usize {
    let at = t.dir.join("probe.journal");
    let room = b.room(record);
    let time = |k: usize| {
        write(&at, &b.journal_with(record, k));
        measure::program(program, args, &at).min(measure::program(program, args, &at))
    };
    let base = time(0);
    let probe = room.min(if base > STRETCH { 2 } else { 10 });
    let one = ((time(probe) - base) / probe as f64).max(1e-6);
    ((STRETCH / one) as usize).clamp(3.min(room), room)
}

/// What one more of a record costs: `more` journals against the book alone.
fn each(more: f64, base: f64, k: usize) -> f64 {
    (more - base) / k as f64
}

/// The hand-written evaluation: from rows and flags to 39,168 bytes.
fn hand_evaluation(hand: &mut hand_book::Book) -> impl FnMut() -> f64 + '_ {
    let mut once = move || {
        hand.table.evaluate(black_box(&mut hand.words));
        hand::write_marks(&hand.words, black_box(&mut hand.marks));
    };
    let start = measure::now();
    once();
    let reps = (0.004 / (measure::now() - start).max(1e-7)).clamp(3.0, 5_000.0) as usize;
    move || {
        let start = measure::now();
        (0..reps).for_each(|_| once());
        (measure::now() - start) / reps as f64
    }
}

fn measure_book(t: &Tools, empty: &mut f64, b: &Book) -> Row {
    let (marks, _) = agree::agree(t, b);
    let refused = b.refused();
    let at = |name: &str| t.dir.join(name);
    let (base, again, turned) = (at("base"), at("again"), at("turned"));
    let (hand_again, lp, none) = (at("hand"), at("book.lp"), at("empty.lp"));
    let k = times(t, b, &b.again, &t.listing, &[]);
    let hand_k = times(t, b, &b.again, &t.this, &["--list"]);
    let turned_k = b.room(&refused);
    write(&base, &b.journal);
    write(&again, &b.journal_with(&b.again, k));
    write(&turned, &b.journal_with(&refused, turned_k));
    write(&hand_again, &b.journal_with(&b.again, hand_k));
    write(&lp, datalog::program(b).as_bytes());
    write(&none, b"");
    let mut hand = hand_book::Book::new();
    hand.take(&b.journal);
    let ours = |file: &Path| measure::program(&t.listing, &[], file);
    let by_hand = |file: &Path| measure::program(&t.this, &["--list"], file);
    let gringo = |file: &Path| match t.gringo {
        true => measure::program(Path::new("gringo"), &[], file),
        false => f64::NAN,
    };
    let mut evaluation = hand_evaluation(&mut hand);
    let mut several = || (0..4).map(|_| evaluation()).fold(f64::MAX, f64::min);
    let found = best(
        ROUNDS,
        &mut [
            &mut || ours(&base),
            &mut || ours(&again),
            &mut || ours(&turned),
            &mut || by_hand(&base),
            &mut || by_hand(&hand_again),
            &mut several,
            &mut || gringo(&lp),
            &mut || gringo(&none),
        ],
    );
    *empty = empty.min(found[7]);
    let record = each(found[1], found[0], k);
    Row {
        name: b.name.clone(),
        rows: b.rows.len(),
        marks,
        record,
        hand_record: each(found[4], found[3], hand_k),
        evaluation: record - each(found[2], found[0], turned_k),
        hand_evaluation: found[5],
        // Still with the empty program's time, which is known once all ran.
        gringo: found[6],
    }
}

/// What a query costs on a book, and on an empty one.
fn query(t: &Tools, b: &Book) -> (f64, f64) {
    let k = b.room(QUERY).min(8_000);
    let journals = [
        b.journal.clone(),
        b.journal_with(QUERY, k),
        vec![],
        QUERY.repeat(k),
    ];
    let mut least = [f64::MAX; 4];
    for _ in 0..ROUNDS {
        for (journal, least) in journals.iter().zip(&mut least) {
            let at = t.dir.join("query");
            write(&at, journal);
            *least = least.min(measure::program(&t.listing, &[], &at));
        }
    }
    (each(least[1], least[0], k), each(least[3], least[2], k))
}

fn us(s: f64) -> String {
    let u = s * 1e6;
    if u.is_nan() {
        "-".into()
    } else if u < 10.0 {
        format!("{:.1}", u)
    } else {
        format!("{:.0}", u)
    }
}

/// A ratio, marked where it is over its goal.
fn ratio(x: f64, limit: f64, digits: usize) -> String {
    if x.is_nan() {
        "- ".into()
    } else {
        let mark = if x <= limit { " " } else { "!" };
        format!("{:.*}{}", digits, x, mark)
    }
}

const GRINGO_GOAL: f64 = 0.1;
const HAND_GOAL: f64 = 2.0;
const QUERY_GOAL: f64 = 3.0;
const PANEL_GOAL: f64 = 2.0;
const JOURNAL_GOAL: f64 = 3.0;

/// Says whether each of the named figures is within the limit.
fn goal(text: &str, figures: &[(&str, f64)], limit: f64) {
    let named = |(name, x): &(&str, f64)| format!("{} ({:.2})", name, x);
    if figures.is_empty() || figures.iter().any(|f| f.1.is_nan()) {
        println!("goal {}: not measured", text);
        return;
    }
    let over: Vec<String> = figures.iter().filter(|f| f.1 > limit).map(named).collect();
    let (n, all) = (over.len(), figures.len());
    let most = figures.iter().max_by(|a, b| a.1.total_cmp(&b.1)).map(named);
    if n == 0 {
        println!(
            "goal {}: reached on {} of {}, the most {}",
            text,
            all,
            all,
            most.unwrap()
        );
    } else {
        println!(
            "goal {}: NOT REACHED on {} of {}: {}",
            text,
            n,
            all,
            over.join("; ")
        );
    }
}

fn print_table(rows: &[Row]) {
    println!(
        "{:<54} | {:^25} | {:^25} | {:>17}",
        "", "evaluation alone", "whole record", "record/"
    );
    println!(
        "{:<42} {:>4} {:>6} | {:>8} {:>8} {:>7} | {:>8} {:>8} {:>7} | {:>8} {:>8}",
        "book",
        "rows",
        "marks",
        "ours",
        "by hand",
        "ratio",
        "ours",
        "by hand",
        "ratio",
        "gringo",
        "gringo"
    );
    for r in rows {
        println!(
            "{:<42} {:>4} {:>6} | {:>8} {:>8} {:>7} | {:>8} {:>8} {:>7} | {:>8} {:>8}",
            r.name,
            r.rows,
            r.marks,
            us(r.evaluation),
            us(r.hand_evaluation),
            ratio(r.by_evaluation(), HAND_GOAL, 2),
            us(r.record),
            us(r.hand_record),
            ratio(r.by_record(), HAND_GOAL, 2),
            us(r.gringo),
            ratio(r.by_gringo(), GRINGO_GOAL, 4)
        );
    }
    println!("(! marks a ratio over its goal)");
}

fn print_growth(grow: &[(&str, Vec<Row>)]) -> Vec<Panel> {
    println!("growth with rows, as a ratio to the first");
    println!(
        "{:<43} {:>7} {:>7} {:>7} {:>7}",
        "kind of row, evaluation", SIZES[0], SIZES[1], SIZES[2], SIZES[3]
    );
    let parts: [(&str, fn(&Row) -> f64); 3] = [
        ("ours", |r| r.evaluation),
        ("by hand", |r| r.hand_evaluation),
        ("gringo", |r| r.gringo),
    ];
    let mut panels = vec![];
    for (name, v) in grow {
        let mut lines = vec![];
        for (who, f) in parts {
            let costs: Vec<f64> = v.iter().map(|r| f(r) * 1e6).collect();
            let ratios: Vec<String> = costs
                .iter()
                .map(|c| format!("{:>7}", ratio(c / costs[0], f64::MAX, 2).trim()))
                .collect();
            println!("{:<43} {}", format!("{}: {}", name, who), ratios.join(" "));
            if costs.iter().all(|c| c.is_finite()) {
                lines.push((who.to_string(), costs));
            }
        }
        panels.push(Panel {
            title: name.to_string(),
            lines,
        });
    }
    panels
}

fn print_worst(found: &[worst::Found]) {
    println!("the worst journals of 65,536 bytes found, in seconds");
    println!("{:>9} {:>8}", "ours", "by hand");
    for f in found {
        let how = match f.run == f.times {
            true => "run whole".to_string(),
            false => format!("ours worked out from {} of them", f.run),
        };
        println!(
            "{:>9.2} {:>8.2}  {}, then {} times {} ({})",
            f.seconds, f.by_hand, f.book, f.times, f.fill, how
        );
    }
}

fn measure_growth(t: &Tools, empty: &mut f64) -> Vec<(&'static str, Vec<Row>)> {
    let kinds: [(&str, fn(u8) -> Book); 2] = [
        ("variables, conditions hold", books::variables),
        ("four conditions, none hold", books::never),
    ];
    let mut grow = vec![];
    for (name, make) in kinds {
        let rows = SIZES.iter().map(|n| measure_book(t, empty, &make(*n)));
        grow.push((name, rows.collect()));
    }
    grow
}

fn main() {
    let args: Vec<String> = std::env::args().collect();
    if args.len() == 2 && args[1] == "--list" {
        return hand_book::list();
    }
    if args.len() == 2 && args[1] == "--panel" {
        let (panel, query) = panel::measure();
        return println!("panel {} query {} ratio {:.2}", us(panel), us(query), panel / query);
    }
    if args.len() != 4 {
        eprintln!("usage: bench LISTING-PROGRAM WORK-FOLDER PICTURE, bench --list, or bench --panel");
        exit(2);
    }
    let gringo = Command::new("gringo").arg("--version").output().is_ok();
    let t = Tools {
        listing: fs::canonicalize(&args[1]).unwrap_or_else(|e| panic!("{}: {}", args[1], e)),
        this: std::env::current_exe().expect("this program has a path"),
        dir: PathBuf::from(&args[2]),
        gringo,
    };
    let drawn: Vec<_> = (1..=DRAWN)
        .flat_map(|n| [books::drawn(n, false), books::drawn(n, true)])
        .map(|b| agree::agree(&t, &b))
        .collect();
    let most = drawn.iter().map(|(marks, _)| *marks).max().unwrap_or(0);
    let lines: usize = drawn.iter().map(|(_, lines)| *lines).sum();

    let table = books::all();
    let mut empty = f64::MAX;
    let mut rows: Vec<Row> = table
        .iter()
        .map(|b| measure_book(&t, &mut empty, b))
        .collect();
    let mut grow = measure_growth(&t, &mut empty);
    for r in rows.iter_mut().chain(grow.iter_mut().flat_map(|(_, v)| v)) {
        // Below a hundredth of the empty program the difference says nothing.
        r.gringo = (r.gringo - empty).max(empty / 100.0);
        if !gringo {
            r.gringo = f64::NAN;
        }
    }
    let queries: Vec<(&str, (f64, f64))> = table
        .iter()
        .filter(|b| b.rows.len() == GRANTS)
        .map(|b| (b.name.as_str(), query(&t, b)))
        .collect();
    let waiting: Vec<waiting::Found> =
        books::for_waiting().iter().map(|b| waiting::measure(&t, b)).collect();
    let previews: Vec<preview::Found> =
        books::for_waiting().iter().map(|b| preview::measure(&t, b)).collect();
    let (panel, beside) = panel::measure();
    let (tried, worst) = worst::search(&t, &books::for_worst(), JOURNAL_GOAL);

    println!(
        "the same marks and lines on {} drawn books (up to {} marks, {} lines) and on every book below\n",
        drawn.len(), most, lines
    );
    let other = match gringo {
        true => format!("less its empty program ({})", us(empty)),
        false => "is not installed".into(),
    };
    println!("processor time in microseconds; gringo {}", other);
    print_table(&rows);
    println!();
    println!("a query on a book of 64 rows, beside one on an empty book");
    for (name, (with, without)) in &queries {
        let r = ratio(with / without, QUERY_GOAL, 2);
        println!("{:<43} {:>8} {:>8} {:>7}", name, us(*with), us(*without), r);
    }
    println!();
    waiting::print(&waiting);
    println!();
    preview::print(&previews);
    println!();
    println!("a panel on a book of 64 rows, at most, beside a query on the same book");
    let r = ratio(panel / beside, PANEL_GOAL, 2);
    println!("{:<43} {:>8} {:>8} {:>7}", "through the static library", us(panel), us(beside), r);
    println!();
    let panels = print_growth(&grow);
    println!("{}\n", picture::draw(&panels, &t.dir, Path::new(&args[3])));
    print_worst(&worst);
    println!();
    let of = |f: fn(&Row) -> f64| -> Vec<(&str, f64)> {
        rows.iter().map(|r| (r.name.as_str(), f(r))).collect()
    };
    goal("at most 0.1 times gringo", &of(Row::by_gringo), GRINGO_GOAL);
    goal(
        "evaluation alone at most 2 times the hand-written",
        &of(Row::by_evaluation),
        HAND_GOAL,
    );
    goal(
        "whole record at most 2 times the hand-written book's",
        &of(Row::by_record),
        HAND_GOAL,
    );
    let ratios: Vec<(&str, f64)> = queries.iter().map(|(n, (a, b))| (*n, a / b)).collect();
    goal(
        "a query on 64 rows at most 3 times one on an empty book",
        &ratios,
        QUERY_GOAL,
    );
    let ratios: Vec<(&str, f64)> =
        waiting.iter().map(|f| (f.name.as_str(), f.by_licence())).collect();
    goal(
        "a changing record with a provisional licence at most 2 times one without",
        &ratios,
        waiting::WAITING_GOAL,
    );
    goal(
        "a panel on 64 rows at most 2 times a query",
        &[("through the static library", panel / beside)],
        PANEL_GOAL,
    );
    let over = worst.iter().filter(|f| f.seconds > JOURNAL_GOAL).count();
    let text = "the worst journal of 65,536 bytes found at most 3 s";
    let most = worst.first().map_or(0.0, |f| f.seconds);
    match over {
        0 => println!(
            "goal {}: reached on {} of {}, the most {:.2} s",
            text, tried, tried, most
        ),
        _ => println!(
            "goal {}: NOT REACHED on {} of {}, the most {:.2} s",
            text, over, tried, most
        ),
    }
}
