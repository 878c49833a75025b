//! The panels of journals, and the preview buffers that they leave, through the
//! static library of the crate `panel_boundary`.
//!
//! Usage: panel show JOURNAL
//!        panel compare SEED JOURNAL..
//!
//! `show` prints the panel of a journal: a line for each principal with its
//! number and the words of run and of export in hexadecimal, bit n of a word
//! for pack n; or `refused 8`. `compare` checks the panels of the journals
//! given and of generated ones, and their preview buffers, against the other
//! evaluator.

#![allow(dead_code)]

mod boundary;
#[path = "../compare/src/case.rs"]
mod case;
mod compare;
#[path = "../compare/src/families.rs"]
mod families;
#[path = "../compare/src/generate.rs"]
mod generate;
mod judged;
#[path = "../compare/src/parallel.rs"]
mod parallel;
mod previews;
#[path = "../compare/src/random.rs"]
mod random;
#[path = "../compare/src/write.rs"]
mod write;

use boundary::{panel, Panel};
use judged::Judged;
use std::process::ExitCode;

fn main() -> ExitCode {
    let arguments: Vec<String> = std::env::args().skip(1).collect();
    let arguments: Vec<&str> = arguments.iter().map(String::as_str).collect();
    match arguments[..] {
        ["show", path] => read(path).map_or(ExitCode::FAILURE, |journal| show(&journal)),
        ["compare", seed, ref paths @ ..] => match seed.parse() {
            Ok(seed) => compare(seed, paths),
            Err(_) => usage(),
        },
        _ => usage(),
    }
}

fn usage() -> ExitCode {
    eprintln!("usage: panel show JOURNAL | panel compare SEED JOURNAL..");
    ExitCode::from(2)
}

fn read(path: &str) -> Option<Vec<u8>> {
    std::fs::read(path).map_err(|error| eprintln!("panel: {path}: {error}")).ok()
}

fn show(journal: &[u8]) -> ExitCode {
    for principal in 0..16 {
        let Panel { refusal, run, export } = panel(journal, principal);
        if refusal != 0 {
            println!("refused {refusal}");
            return ExitCode::SUCCESS;
        }
        println!("{principal} {run:08x} {export:08x}");
    }
    ExitCode::SUCCESS
}

fn compare(seed: u64, paths: &[&str]) -> ExitCode {
    let Some(given) = paths.iter().map(|path| read(path)).collect::<Option<Vec<_>>>() else {
        return ExitCode::FAILURE;
    };
    let panels = compare::run(&[compare::generated(seed), given.clone()].concat());
    let buffers = previews::run(&[previews::generated(seed), given].concat());
    match Judged::all([panels, buffers]).report() {
        true => ExitCode::SUCCESS,
        false => ExitCode::FAILURE,
    }
}
