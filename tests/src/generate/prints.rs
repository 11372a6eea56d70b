//! Models whose prints tell much: which row is picked depends on the order of rows or on all that
//! remains of the word, or the cases reached are numbers that are known for trouble.

use super::{case_by_chance, small_case};
use crate::acceptance::word_backward_set;
use crate::image::{all_states, Model, Row};
use crate::random::Random;

/// Gives the model an initial case from which the word is accepted: F taken back by the word, or a part
/// of that, which is empty only where all of it is.
pub fn accept(random: &mut Random, model: &mut Model, word: &[u8]) {
    let set = word_backward_set(model, word);
    let (any, fewer) = (random.number(), random.number());
    let part = set & random.pick(&[u64::MAX, any, any & fewer]);
    model.initial = if part == 0 { set } else { part };
}

/// Each state has several rows by each symbol and most states are final, so that mostly some rows of a
/// state fit and others do not.
pub fn choices(random: &mut Random, states: usize, symbols: usize) -> Model {
    let most = (4096 / (states * symbols)).clamp(1, 5);
    let percent = random.pick(&[50, 80, 95]);
    let mut model = Model::plain(states, symbols, 0);
    model.final_set = case_by_chance(random, states, percent);
    for rows in &mut model.rows {
        for state in 0..states as u8 {
            for _ in 0..random.within(1..=most) {
                let count = random.within(0..=3);
                let case = small_case(random, states, count);
                rows.push(Row { state, case });
            }
        }
        random.shuffle(rows);
    }
    model
}

/// Each symbol moves the states about, and up to five are final. Some states have a second row, with one
/// state more than the first: it brings no other state in, so that no backward set grows or dies out.
pub fn moving(random: &mut Random, states: usize, symbols: usize) -> Model {
    let mut model = Model::plain(states, symbols, 0);
    model.final_set = small_case(random, states, 5);
    let mut targets: Vec<usize> = (0..states).collect();
    for rows in &mut model.rows {
        random.shuffle(&mut targets);
        for (state, &target) in targets.iter().enumerate() {
            let (state, case) = (state as u8, 1 << target);
            rows.push(Row { state, case });
            if random.chance(20) {
                let case = case | 1 << random.below(states);
                rows.push(Row { state, case });
            }
        }
        random.shuffle(rows);
    }
    model
}

/// A model whose backward sets hold so many bits: of the states 2i and 2i + 1 just one is in, the first
/// where bit i is 1. Each symbol makes new bits of the old ones and loses nothing, so that every set
/// depends on all of the word behind it, and so does the row that fits. Of the two states after those the
/// first is always in and lets itself go, and the second is never in.
pub fn mixing(random: &mut Random, bits: usize, symbols: usize) -> Model {
    let states = 2 * bits + 2;
    let mut model = Model::plain(states, symbols, 0);
    let value = random.number();
    model.final_set = (0..bits).fold(always_in(states), |set, bit| set | is(bit, value >> bit));
    for rows in &mut model.rows {
        *rows = mixing_rows(random, bits);
        let extra = rows.clone();
        for mut row in extra {
            // A row beside which the same fits with one state more, and one that never fits.
            match random.below(6) {
                0 => row.case |= always_in(states),
                1 => row.case |= never_in(states),
                _ => continue,
            }
            rows.push(row);
        }
        let state = states as u8 - 2;
        rows.push(Row { state, case: 0 });
        random.shuffle(rows);
    }
    model
}

/// Fills the model of a mixing up to so many rows with such as never fit, each at any place.
pub fn fill_up(random: &mut Random, model: &mut Model, row_count: usize) {
    let states = model.states;
    for _ in model.row_count()..row_count {
        let symbol = random.below(model.symbols());
        let rows = &mut model.rows[symbol];
        let row = Row {
            state: random.below(states) as u8,
            case: random.number() & all_states(states) | never_in(states),
        };
        rows.insert(random.below(rows.len() + 1), row);
    }
}

fn always_in(states: usize) -> u64 {
    1 << (states - 2)
}

fn never_in(states: usize) -> u64 {
    1 << (states - 1)
}

/// The case of the state that says that the bit has the lowest bit of `value`.
fn is(bit: usize, value: u64) -> u64 {
    let one = value & 1;
    1 << (2 * bit as u64 + 1 - one)
}

/// Each new bit is an old one, turned or not, and some have another old one added.
fn mixing_rows(random: &mut Random, bits: usize) -> Vec<Row> {
    let mut sources: Vec<usize> = (0..bits).collect();
    random.shuffle(&mut sources);
    let mut rows = Vec::new();
    for (bit, &source) in sources.iter().enumerate() {
        let turned = random.number();
        // Only of those before it, so that the old bits can be told from the new ones.
        let added = match bit {
            0 => None,
            _ => random.chance(40).then(|| sources[random.below(bit)]),
        };
        for value in [0, 1] {
            let state = (2 * bit + 1 - value as usize) as u8;
            let same = is(source, value ^ turned);
            match added {
                None => rows.push(Row { state, case: same }),
                Some(other) => {
                    let differs = is(source, value ^ turned ^ 1);
                    rows.extend([
                        Row {
                            state,
                            case: same | is(other, 0),
                        },
                        Row {
                            state,
                            case: differs | is(other, 1),
                        },
                    ]);
                }
            }
        }
    }
    rows
}

/// Powers of ten and of two with their neighbours, from 0 to 2^64 - 1.
pub fn telling_cases() -> Vec<u64> {
    let powers_of_ten = (0..20).map(|exponent| 10_u64.pow(exponent));
    let powers_of_two = (0..64).map(|exponent| 1 << exponent);
    let about = |power: u64| [power - 1, power, power + 1];
    let mut cases: Vec<u64> = powers_of_ten.chain(powers_of_two).flat_map(about).collect();
    cases.extend([u64::MAX - 1, u64::MAX]);
    cases.sort_unstable();
    cases.dedup();
    cases
}

/// A model of 64 states and a symbol for each of the cases, up to 64 of them: whatever states there are,
/// they reach the symbol's case.
pub fn leading_to(cases: &[u64]) -> Model {
    let rows = |&case: &u64| (0..64).map(|state| Row { state, case }).collect();
    Model {
        states: 64,
        initial: 1,
        final_set: u64::MAX,
        rows: cases.iter().map(rows).collect(),
    }
}
