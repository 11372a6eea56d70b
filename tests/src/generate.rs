//! Models and words to try: random ones, and all words up to a length. Sizes of models are spread over
//! the whole range, and their kinds are such that neither answer of the word test is rare.

use crate::acceptance::word_backward_set;
use crate::image::{all_states, Model, Row};
use crate::random::Random;

pub mod blockers;
pub mod blocks;
pub mod closes;
pub mod copies;
pub mod hints;
pub mod prints;
pub mod records;
pub mod runs;
pub mod stops;
pub mod walks;
pub mod ways;

/// A number of states or symbols.
fn size(random: &mut Random) -> usize {
    match random.below(20) {
        0..=6 => random.within(1..=4),
        7..=11 => random.within(5..=16),
        12..=16 => random.within(1..=64),
        17 => random.within(62..=64),
        18 => 1,
        _ => 64,
    }
}

/// A case with up to `count` states.
fn small_case(random: &mut Random, states: usize, count: usize) -> u64 {
    (0..count).fold(0, |case, _| case | 1 << random.below(states))
}

/// A case with every state in it by the chance.
fn case_by_chance(random: &mut Random, states: usize, percent: usize) -> u64 {
    let members = (0..states).filter(|_| random.chance(percent));
    members.fold(0, |case, state| case | 1 << state)
}

/// Now and then a bit at n or above, if there is any.
fn stray_bit(random: &mut Random, states: usize) -> u64 {
    match states < 64 && random.chance(10) {
        true => 1 << random.within(states..=63),
        false => 0,
    }
}

/// Rows anywhere, few to many.
fn scattered(random: &mut Random, states: usize, symbols: usize) -> Vec<Vec<Row>> {
    let most = random
        .pick(&[1, 4, 16, 64, 512, 4096])
        .min(4 * states * symbols);
    let mut rows = vec![Vec::new(); symbols];
    let largest = random.within(1..=4);
    for _ in 0..random.within(0..=most.min(4096)) {
        let state = random.below(states) as u8;
        let count = random.within(0..=largest);
        let case = small_case(random, states, count);
        rows[random.below(symbols)].push(Row { state, case });
    }
    rows
}

/// Each symbol moves the states about and few rows do more, so that backward sets neither die out
/// nor fill up and long words are told apart.
fn near_permutations(random: &mut Random, states: usize, symbols: usize) -> Vec<Vec<Row>> {
    let odd = random.pick(&[0, 1, 5, 20]);
    let mut targets: Vec<usize> = (0..states).collect();
    let rows = (0..symbols).map(|_| {
        random.shuffle(&mut targets);
        let row = |(state, &target)| {
            let mut case = 1_u64 << target;
            if random.chance(odd) {
                let larger = case | 1 << random.below(states);
                case = random.pick(&[0, larger]);
            }
            let state = state as u8;
            Row { state, case }
        };
        targets.iter().enumerate().map(row).collect()
    });
    rows.collect()
}

/// Up to three rows for each state and symbol.
fn several_each(random: &mut Random, states: usize, symbols: usize) -> Vec<Vec<Row>> {
    let most = random.within(1..=3);
    let largest = random.within(1..=3);
    let mut left = 4096;
    let mut rows = vec![Vec::new(); symbols];
    for rows in &mut rows {
        for state in 0..states as u8 {
            for _ in 0..random.within(0..=most).min(left) {
                let count = random.within(1..=largest);
                let case = small_case(random, states, count);
                rows.push(Row { state, case });
                left -= 1;
            }
        }
        random.shuffle(rows);
    }
    rows
}

/// Large cases, few of which are subsets of anything.
fn large_cases(random: &mut Random, states: usize, symbols: usize) -> Vec<Vec<Row>> {
    let percent = random.pick(&[20, 50, 90]);
    let most = (4096 / symbols).min(3 * states);
    let rows = (0..symbols).map(|_| {
        let rows = (0..random.within(0..=most)).map(|_| Row {
            state: random.below(states) as u8,
            case: case_by_chance(random, states, percent),
        });
        rows.collect()
    });
    rows.collect()
}

pub fn model(random: &mut Random) -> Model {
    let (states, symbols) = (size(random), size(random));
    let rows = match random.below(8) {
        0 => scattered(random, states, symbols),
        1..=3 => near_permutations(random, states, symbols),
        4..=6 => several_each(random, states, symbols),
        _ => large_cases(random, states, symbols),
    };
    let percent = random.pick(&[0, 10, 50, 50, 90, 100]);
    let final_set = case_by_chance(random, states, percent);
    let initial = match random.below(10) {
        0 => 0,
        1..=6 => small_case(random, states, 1),
        7..=8 => small_case(random, states, 3),
        _ => case_by_chance(random, states, 50),
    };
    let model = Model {
        states,
        initial,
        final_set,
        rows,
    };
    assert!(model.row_count() <= 4096);
    model
}

/// Gives the model an initial case from which the word is only just accepted or only just not: a part
/// of F taken back by the word, or that with one state from outside.
pub fn aim(random: &mut Random, model: &mut Model, word: &[u8]) {
    let set = word_backward_set(model, word);
    model.initial = set & random.number();
    let outside = all_states(model.states) & !set;
    if outside != 0 && random.chance(50) {
        let states: Vec<u32> = (0..64).filter(|state| outside >> state & 1 == 1).collect();
        model.initial |= 1 << random.pick(&states);
    }
}

/// The models of two states and one symbol, by number: I is i mod 4, F i / 4 mod 4, the set of state
/// 0's cases i / 16 mod 16 and state 1's i / 256, bit c for case c; rows by state, then by case.
pub fn two_states(i: u64) -> Model {
    let mut rows = Vec::new();
    for (state, cases) in [(0, i / 16 % 16), (1, i / 256)] {
        let chosen = (0..4).filter(|case| cases >> case & 1 == 1);
        rows.extend(chosen.map(|case| Row { state, case }));
    }
    Model {
        states: 2,
        initial: i % 4,
        final_set: i / 4 % 4,
        rows: vec![rows],
    }
}

/// Every word up to the length, shorter ones first.
pub fn every_word(symbols: usize, longest: usize) -> Vec<Vec<u8>> {
    let mut words = vec![Vec::new()];
    let mut extended = 0;
    for _ in 0..longest {
        let level = extended..words.len();
        extended = words.len();
        for place in level {
            for symbol in 0..symbols as u8 {
                let mut word = words[place].clone();
                word.push(symbol);
                words.push(word);
            }
        }
    }
    words
}

/// A length from nothing to some hundreds.
pub fn word_length(random: &mut Random) -> usize {
    match random.below(8) {
        0 => 0,
        1 => 1,
        2 => 2,
        3 => random.within(3..=6),
        4..=5 => random.within(5..=20),
        6 => random.within(21..=80),
        _ => random.within(81..=400),
    }
}

/// A word of symbols below k.
pub fn word(random: &mut Random, symbols: usize) -> Vec<u8> {
    let length = word_length(random);
    (0..length).map(|_| random.below(symbols) as u8).collect()
}

/// A word with one or more symbols of k or above, among others or alone.
pub fn unknown_word(random: &mut Random, symbols: usize) -> Vec<u8> {
    let mut word = word(random, symbols);
    for _ in 0..random.pick(&[1, 1, 1, 2, 5]) {
        let unknown = match random.below(4) {
            0 => symbols,
            1 => 255,
            2 => random.within(symbols..=255),
            _ => symbols | 128,
        };
        let places = [0, word.len(), random.below(word.len() + 1)];
        word.insert(random.pick(&places), unknown as u8);
    }
    word
}
