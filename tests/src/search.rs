//! Emptiness by a search over all cases, breadth first from F backwards. It judges the verdicts of
//! runs in their edition and the lengths of their words, and has only the model in common with the
//! machine.

use crate::acceptance::{accepts_backwards, backward_set};
use crate::image::Model;
use crate::tables::{Answer, Tables};
use std::collections::HashSet;

/// The length of a shortest accepted word, if one is accepted. The cases that words take F back to must not
/// be too many.
pub fn shortest_word(model: &Model) -> Option<usize> {
    let contains_initial = |case: u64| model.initial & !case == 0;
    let mut seen = HashSet::from([model.final_set]);
    let mut reached = vec![model.final_set];
    for length in 0.. {
        if reached.iter().any(|&case| contains_initial(case)) {
            return Some(length);
        }
        let mut next = Vec::new();
        for &case in &reached {
            for symbol in 0..model.symbols() as u8 {
                let backward = backward_set(model, symbol, case);
                if seen.insert(backward) {
                    next.push(backward);
                }
            }
        }
        if next.is_empty() {
            return None;
        }
        assert!(seen.len() <= 1 << 16, "{model}: too many cases");
        reached = next;
    }
    unreachable!("there are only so many cases")
}

/// "The frame is closed: F is a subset of one of its blockers, I of none, and each backward set of a
/// blocker is a subset of a blocker."
pub fn is_closed(model: &Model, frame: &[u64]) -> bool {
    let covered = |case: u64| frame.iter().any(|blocker| case & !blocker == 0);
    let symbols = 0..model.symbols() as u8;
    covered(model.final_set)
        && !covered(model.initial)
        && frame.iter().all(|&blocker| {
            let mut symbols = symbols.clone();
            symbols.all(|symbol| covered(backward_set(model, symbol, blocker)))
        })
}

/// Whether an answer with a verdict of the edition is right and proves itself: by a word that is
/// accepted and as long as the level says, in edition 2 of one symbol or more; by a frame that is
/// closed; or by the empty word, where 5 says that it is accepted.
pub fn proves_itself(model: &Model, edition: u64, answer: &Answer, after: &Tables) -> bool {
    let held = answer.blockers as usize;
    let word = || &after.symbols[..answer.level as usize];
    match (edition, answer.number) {
        (1 | 2, 0) => is_closed(model, &after.masks[..held]),
        (1, 1) => accepts_backwards(model, word()),
        (2, 1) => !word().is_empty() && accepts_backwards(model, word()),
        (2, 5) => accepts_backwards(model, &[]),
        _ => panic!("{answer:?} is no verdict of edition {edition}"),
    }
}

/// The verdict of the edition, its proof and the word's length by the search.
pub fn assert_right(model: &Model, edition: u64, answer: &Answer, after: &Tables) {
    let (number, length) = match (edition, shortest_word(model)) {
        (_, None) => (0, None),
        (2, Some(0)) => (5, None),
        (_, length) => (1, length),
    };
    let word_length = (answer.number == 1).then_some(answer.level as usize);
    assert_eq!(
        (answer.number, word_length),
        (number, length),
        "{model}, edition {edition}\n{answer:?}"
    );
    assert!(
        proves_itself(model, edition, answer, after),
        "{model}, edition {edition}\n{answer:?}\nmasks {:?}\nsymbols {:?}",
        after.masks,
        after.symbols
    );
}
