//! Whether a word is accepted, twice over: by the runs of the definition, forwards, and by backward
//! sets. The two share no code; the tests compare them with each other and with the library.

use crate::image::{all_states, Model};

/// The set of states with a row by the symbol whose case is a subset of `case`.
pub fn backward_set(model: &Model, symbol: u8, case: u64) -> u64 {
    let mut set = 0;
    for row in &model.rows[usize::from(symbol)] {
        if row.case & !case == 0 {
            set |= 1 << row.state;
        }
    }
    set
}

/// F taken back by the word's symbols from last to first.
pub fn word_backward_set(model: &Model, word: &[u8]) -> u64 {
    let back = |case, &symbol: &u8| backward_set(model, symbol, case);
    word.iter().rev().fold(model.final_set, back)
}

pub fn accepts_backwards(model: &Model, word: &[u8]) -> bool {
    model.initial & !word_backward_set(model, word) == 0
}

/// The cases in which runs begin.
#[derive(Clone, Copy, Debug)]
pub enum Start {
    /// Every case that contains I, as the definition says.
    EverySuperset,
    /// I alone, which gives the same answer: in a run from a case that contains I, let the states of
    /// I keep their picks. What they reach lies inside what the whole case reaches, and so on to the
    /// end, where a subset of a final case is final.
    Initial,
}

/// A model laid out for the search of its runs.
pub struct Runs {
    starts: Vec<u64>,
    final_set: u64,
    /// By symbol, then by state, the cases among which the state picks.
    choices: Vec<Vec<Vec<u64>>>,
}

impl Runs {
    pub fn new(model: &Model, start: Start) -> Self {
        let starts = match start {
            Start::Initial => vec![model.initial],
            Start::EverySuperset => {
                assert!(model.states <= 12, "{model}: too many start cases");
                let contains_initial = |case: &u64| model.initial & !case == 0;
                let cases = 0..=all_states(model.states);
                cases.filter(contains_initial).collect()
            }
        };
        let mut choices = vec![vec![Vec::new(); model.states]; model.symbols()];
        for (symbol, rows) in model.rows.iter().enumerate() {
            for row in rows {
                choices[symbol][usize::from(row.state)].push(row.case);
            }
        }
        Runs {
            starts,
            final_set: model.final_set,
            choices,
        }
    }

    /// Whether some run over the word ends in a final case; nothing if more than `cap` picks would
    /// have to be made. No case is left out for being larger than another.
    pub fn accepts(&self, word: &[u8], cap: usize) -> Option<bool> {
        let mut picks_left = cap;
        let mut reached = self.starts.clone();
        for &symbol in word {
            let mut next = Vec::new();
            for &case in &reached {
                next.append(&mut self.steps(symbol, case, &mut picks_left)?);
            }
            next.sort_unstable();
            next.dedup();
            reached = next;
        }
        Some(reached.iter().any(|case| case & !self.final_set == 0))
    }

    /// Whether the cases are those of a run over the word: the first is one in which runs begin, each
    /// steps to the next, and the last is final. Nothing if more than `cap` picks would have to be made.
    pub fn is_run(&self, word: &[u8], cases: &[u64], cap: usize) -> Option<bool> {
        let mut picks_left = cap;
        let (Some(first), Some(last)) = (cases.first(), cases.last()) else {
            return Some(false);
        };
        for (&symbol, pair) in word.iter().zip(cases.windows(2)) {
            let choices = &self.choices[usize::from(symbol)];
            if !union_reaches(choices, pair[0], 0, pair[1], &mut picks_left)? {
                return Some(false);
            }
        }
        let as_long = cases.len() == word.len() + 1;
        Some(as_long && self.starts.contains(first) && last & !self.final_set == 0)
    }

    /// The cases to which `case` steps: one for every way in which its states pick, equal ones once.
    /// The empty case has nobody to pick and steps to itself; a state without a row leaves no way.
    fn steps(&self, symbol: u8, case: u64, picks_left: &mut usize) -> Option<Vec<u64>> {
        let mut unions = vec![0];
        for (state, choices) in self.choices[usize::from(symbol)].iter().enumerate() {
            if case >> state & 1 == 0 {
                continue;
            }
            *picks_left = picks_left.checked_sub(unions.len() * choices.len())?;
            let mut grown = Vec::with_capacity(unions.len() * choices.len());
            for picked in choices {
                grown.extend(unions.iter().map(|union| union | picked));
            }
            grown.sort_unstable();
            grown.dedup();
            unions = grown;
        }
        Some(unions)
    }
}

/// Whether the states of `case` can pick so that the cases picked and `union` are `next` together. Their
/// picks are tried in turn until one way is found.
fn union_reaches(
    choices: &[Vec<u64>],
    case: u64,
    union: u64,
    next: u64,
    picks_left: &mut usize,
) -> Option<bool> {
    if case == 0 {
        return Some(union == next);
    }
    let others = case & (case - 1);
    for &picked in &choices[case.trailing_zeros() as usize] {
        // Who picks what lies outside does not get there.
        if picked & !next == 0 {
            *picks_left = picks_left.checked_sub(1)?;
            if union_reaches(choices, others, union | picked, next, picks_left)? {
                return Some(true);
            }
        }
    }
    Some(false)
}
