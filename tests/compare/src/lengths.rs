//! The limit of a journal's length.

use crate::case::{nets, Case};
use crate::tables::simple;
use crate::write::*;

/// Journals of exactly 65,536 bytes, and longer ones.
pub fn cases() -> Vec<Case> {
    const GROUP: &str = "journals of 65,536 bytes and more";
    let three = [trust(&simple(0)), trust(&simple(1)), trust(&simple(2))].concat();
    let asks = query(&property(1, 0));
    let filled = [three, asks.repeat(9_358)].concat();
    assert_eq!(filled.len(), 65_536);
    let mut answers = vec![nets("tg", 1, 0); 3];
    answers.extend(vec!["qu permitted".to_string(); 9_358]);
    let turns = [trust(&simple(3)), strike(&simple(3))].concat().repeat(3_275);
    let last = [asks.clone(), asks.clone(), withdraw(0, &simple(3)), withdraw(1, &simple(3))];
    let entered = [turns, last.concat()].concat();
    assert_eq!(entered.len(), 65_536);
    let mut in_turn = vec![[nets("tg", 1, 0), nets("st", -1, 0)]; 3_275].concat();
    in_turn.extend(vec!["qu not permitted".to_string(); 2]);
    in_turn.extend(vec!["refused 7".to_string(); 2]);
    let with = |bytes: &[u8], more: &[u8]| vec![[bytes, more].concat()];
    let mut cut_short = filled[..65_535].to_vec();
    cut_short.insert(0, b'q');
    vec![
        Case::answers(GROUP, "65,536 bytes, queries", &with(&filled, &[]), &answers, 3),
        Case::answers(GROUP, "65,536 bytes, entries", &with(&entered, &[]), &in_turn, 0),
        Case::written(GROUP, "65,537 bytes", &with(&filled, &[0x74]), &["refused 8"]),
        Case::written(GROUP, "65,537 bytes, entries", &with(&entered, b"q"), &["refused 8"]),
        Case::written(GROUP, "a valid record more", &with(&filled, &asks), &["refused 8"]),
        Case::written(GROUP, "200,000 bytes", &[vec![0x41; 200_000]], &["refused 8"]),
        Case::written(
            GROUP,
            "65,536 loose bytes",
            &[vec![0; 65_536]],
            &["1 refused 2", "end 1 marks 0"],
        ),
        Case::compared(GROUP, "65,536 bytes, shifted".to_string(), cut_short),
        Case::compared(GROUP, "65,535 bytes".to_string(), filled[..65_535].to_vec()),
    ]
}
