//! Other images of one automaton: they differ in the order of a symbol's rows and in how often each
//! stands.

use crate::image::Model;
use crate::random::Random;

pub fn shuffled(random: &mut Random, model: &Model) -> Model {
    let mut other = model.clone();
    for rows in &mut other.rows {
        random.shuffle(rows);
    }
    other
}

/// As many rows more as the image has place for, up to `most`.
pub fn repeated(random: &mut Random, model: &Model, most: usize) -> Model {
    let mut other = model.clone();
    let used: Vec<usize> = (0..model.symbols())
        .filter(|&s| !model.rows[s].is_empty())
        .collect();
    if used.is_empty() {
        return other;
    }
    for _ in 0..most.min(4096 - model.row_count()) {
        let rows = &mut other.rows[random.pick(&used)];
        let row = random.pick(rows);
        rows.insert(random.below(rows.len() + 1), row);
    }
    other
}

pub fn without_repeats(model: &Model) -> Model {
    let mut other = model.clone();
    for rows in &mut other.rows {
        rows.sort();
        rows.dedup();
    }
    other
}
