//! The backward set of a case by a symbol, and how many of the symbol's rows are walked for it. What
//! stands in quotes is the requirements'.

use crate::acceptance::backward_set;
use crate::checks::check;
use crate::image::{all_states, Model};

#[derive(Clone, Copy, Debug, PartialEq, Eq)]
pub struct Walk {
    pub set: u64,
    /// "The least number of first rows that brings all n in", if any does.
    pub all_in_after: Option<usize>,
    /// How many the symbol has.
    pub rows: usize,
}

impl Walk {
    /// "Or all rows if they never are."
    pub fn rows_walked(&self) -> usize {
        self.all_in_after.unwrap_or(self.rows)
    }

    /// The set and the rows walked, as the library tells them.
    pub fn numbers(&self) -> [u64; 2] {
        [self.set, self.rows_walked() as u64]
    }
}

/// The walk, or the number under which the image or else the symbol is refused.
pub fn walk(image: &[u8], symbol: u64, case: u64) -> Result<Walk, u64> {
    let head = check(image)?;
    if symbol >= head.k {
        return Err(32);
    }
    Ok(walk_back(&Model::of_image(image), symbol as u8, case))
}

/// "The set stays the same." Each number of first rows is tried for itself, by a backward set of its
/// own.
fn walk_back(model: &Model, symbol: u8, case: u64) -> Walk {
    let rows = model.rows[usize::from(symbol)].len();
    let brings_all_in = |&count: &usize| {
        let first = first_rows(model, symbol, count);
        backward_set(&first, 0, case) == all_states(model.states)
    };
    Walk {
        set: backward_set(model, symbol, case),
        all_in_after: (0..=rows).filter(brings_all_in).min(),
        rows,
    }
}

/// The model with one symbol, which has so many of this one's rows, the first in image order.
fn first_rows(model: &Model, symbol: u8, count: usize) -> Model {
    Model {
        rows: vec![model.rows[usize::from(symbol)][..count].to_vec()],
        ..*model
    }
}
