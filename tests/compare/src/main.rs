//! `compare`: checks a listing program against the documents' examples and
//! against the comparison evaluator.
//!
//! Usage: compare LISTING-PROGRAM EXAMPLES-FOLDER [SEED]

mod case;
mod checks;
mod circles;
mod condition_order;
mod conditions;
mod countersignature;
mod damaged_records;
mod document000;
mod document01;
mod document02;
mod evaluators;
mod families;
mod generate;
mod lengths;
mod marks;
mod mixed_in;
mod parallel;
mod paths;
mod preview;
mod preview_faults;
mod program;
mod properties;
mod random;
mod report;
mod signature_faults;
mod stated_lengths;
mod tables;
mod tally;
mod without_preview;
mod without_provisional;
mod write;

use case::Case;
use damaged_records::Target;
use program::Program;
use reference::listing::listing;
use report::Report;
use std::path::Path;
use std::process::ExitCode;
use tally::Tally;

const SEED: u64 = 20_260_401;

fn main() -> ExitCode {
    let arguments: Vec<String> = std::env::args().skip(1).collect();
    let Some((path, folder, seed)) = read_arguments(&arguments) else {
        eprintln!("usage: compare LISTING-PROGRAM EXAMPLES-FOLDER [SEED]");
        return ExitCode::from(2);
    };
    let targets = match damaged_records::targets(Path::new(folder)) {
        Ok(targets) => targets,
        Err(fault) => {
            eprintln!("compare: {fault}");
            return ExitCode::from(2);
        }
    };
    println!("seed {seed}");
    let program = Program::new(path);
    let mut report = Report::default();
    check_program(&program, &all_cases(seed), seed, &mut report);
    compare_damaged(&program, &targets, seed, &mut report);
    compare_marks(&program, &marks::journals(seed), &mut report);
    compare_evaluators(&small_cases(seed), seed, &mut report);
    match report.finish() {
        true => ExitCode::SUCCESS,
        false => ExitCode::FAILURE,
    }
}

fn read_arguments(arguments: &[String]) -> Option<(&str, &str, u64)> {
    match arguments {
        [path, folder] => Some((path, folder, SEED)),
        [path, folder, seed] => Some((path, folder, seed.parse().ok()?)),
        _ => None,
    }
}

fn all_cases(seed: u64) -> Vec<Case> {
    let mut cases = document01::cases();
    cases.extend(document02::cases());
    cases.extend(condition_order::cases(seed));
    cases.extend(countersignature::cases());
    cases.extend(signature_faults::cases());
    cases.extend(preview::cases());
    cases.extend(preview_faults::cases());
    cases.extend(stated_lengths::cases());
    cases.extend(document000::cases());
    cases.extend(conditions::cases());
    cases.extend(circles::cases(seed));
    cases.extend(tables::cases(seed));
    cases.extend(paths::cases(seed));
    cases.extend(lengths::cases());
    cases.extend(families::cases(seed));
    cases.extend(mixed_in::cases(seed));
    cases
}

/// Journals on which the branch-wise lists stay short.
fn small_cases(seed: u64) -> Vec<Case> {
    let mut cases = document01::cases();
    cases.extend(countersignature::cases());
    cases.extend(document000::cases());
    cases.extend(conditions::cases());
    cases.extend(circles::circles());
    cases.extend(families::small_journals(seed));
    cases.extend(families::waiting_journals(seed));
    cases.extend(families::narrow_journals(seed));
    cases
}

fn check_program(program: &Program, cases: &[Case], seed: u64, report: &mut Report) {
    let results = parallel::map(cases, |case| {
        let reference = listing(&case.journal);
        (checks::check(program, case, &reference, seed), reference)
    });
    let (mut tally, mut generated) = (Tally::default(), Tally::default());
    for (case, (checks, reference)) in cases.iter().zip(&results) {
        tally.add(case.expected_listing(reference));
        if families::VALID.contains(&case.group) {
            generated.add(case.expected_listing(reference));
        }
        report.add(case, checks);
    }
    tally.print();
    let enough = [generated.enough_open(), generated.enough_previews()];
    let all = Case::compared(enough[0].group, "all of them".to_string(), Vec::new());
    report.add(&all, &enough);
}

fn compare_damaged(program: &Program, targets: &[Target], seed: u64, report: &mut Report) {
    let results = parallel::map(targets, |target| damaged_records::compare(program, target, seed));
    for (target, checks) in targets.iter().zip(&results) {
        report.add(&target.case, checks);
    }
}

fn compare_marks(program: &Program, cases: &[Case], report: &mut Report) {
    let results = parallel::map(cases, |case| marks::compare(program, case));
    let (mut truths, mut sayings) = (0, 0);
    for (case, shown) in cases.iter().zip(&results) {
        truths += shown.truths;
        sayings += shown.sayings;
        report.add(case, &shown.checks);
    }
    let journals = cases.len();
    println!("marks shown one by one on {journals} journals: {truths} truths, {sayings} sayings");
}

fn compare_evaluators(cases: &[Case], seed: u64, report: &mut Report) {
    let results = parallel::map(cases, |case| evaluators::compare(case, seed));
    for (case, found) in cases.iter().zip(&results) {
        report.add(case, &found.checks);
    }
    let left: usize = results.iter().map(|found| found.left).sum();
    println!("top-down questions left without an answer (too many steps): {left}");
}
