//! Models that tell the ways of growing a blocker apart by their steps and blockers, and those on which
//! growing through a hitting set takes most.

use super::{near_permutations, small_case};
use crate::image::{Model, Row};
use crate::random::Random;

/// A branch for each of the primes, all of which must accept: after the class Primes(n) of the thesis
/// from which the second way is taken, section 5.1. Its figure of a branch is not to be had, and this
/// one is made so that what the text says of it holds.
///
/// A branch has a cycle of p states, through which the one symbol leads, and an exit, to which the
/// cycle's last state can step too and from which nothing leads on. I has the first state of each
/// cycle, and only exits are final. So a branch accepts the words whose length is a multiple of p.
/// Where the exit of one branch is not final, no case with a state of that branch is, each case reached
/// has one, and no word is accepted.
pub fn primes(primes: &[usize], not_final: Option<usize>) -> Model {
    let mut model = Model::plain(primes.iter().map(|prime| prime + 1).sum(), 1, 0);
    let mut first = 0;
    for (branch, &prime) in primes.iter().enumerate() {
        let exit = first + prime;
        let mut row = |state: usize, next: usize| {
            let (state, case) = (state as u8, 1 << next);
            model.rows[0].push(Row { state, case });
        };
        for place in 0..prime {
            row(first + place, first + (place + 1) % prime);
        }
        row(exit - 1, exit);
        model.initial |= 1 << first;
        if not_final != Some(branch) {
            model.final_set |= 1 << exit;
        }
        first = exit + 1;
    }
    model
}

/// Counters in a row, each with a state for each of its values. Backwards, the one symbol adds one: the
/// first counter goes on to its next value, and another does so where all those before it are at their
/// highest. F has every counter at 0. I has every counter at its highest value, to which the shortest
/// word leads through all others; or it also has another value of the last, which no word leads to.
pub fn counters(sizes: &[usize], is_empty: bool) -> Model {
    let mut model = Model::plain(sizes.iter().sum(), 1, 0);
    let (mut first, mut before_highest) = (0, 0_u64);
    // The states of the counters before that are not their highest: where one is in, nothing is carried.
    let mut waiting = Vec::new();
    for &size in sizes {
        for value in 0..size {
            let next = first + (value + 1) % size;
            let mut row = |state: usize, case: u64| {
                let (state, case) = (state as u8, case | 1 << (first + value));
                model.rows[0].push(Row { state, case });
            };
            row(next, before_highest);
            for &other in &waiting {
                row(first + value, 1_u64 << other);
            }
        }
        let highest = first + size - 1;
        waiting.extend(first..highest);
        before_highest |= 1 << highest;
        model.final_set |= 1 << first;
        first += size;
    }
    model.initial = before_highest;
    if is_empty {
        model.initial |= 1 << (first - 2);
    }
    model
}

/// As many states, rows and forbidden sets as there can be, and as many picks: F is empty, and the
/// cases of the rows, all of one symbol, are sets of three states, evenly spread, all pairs, and last
/// {54}, no two alike. The first blocker must lack a state of each, so all states but one are picked,
/// and the run is over after it. State 52 stays; without the last row 54 would, and without I 53.
pub fn worst() -> Model {
    let mut model = Model::plain(64, 1, 0);
    model.initial = 1 << 53;
    let (mut pairs, mut threes) = (Vec::new(), Vec::new());
    for high in 0..64_u32 {
        for middle in 0..high {
            let pair = 1_u64 << high | 1 << middle;
            pairs.push(pair);
            threes.extend((0..middle).map(|low| ((low + middle + high) % 64, pair | 1 << low)));
        }
    }
    threes.sort_unstable();
    let mut cases: Vec<u64> = threes.iter().map(|&(_, set)| set).collect();
    cases.truncate(4_095 - pairs.len());
    cases.extend(pairs);
    cases.push(1 << 54);
    let row = |(number, &case): (usize, &u64)| Row {
        state: (number % 64) as u8,
        case,
    };
    model.rows[0] = cases.iter().enumerate().map(row).collect();
    model
}

/// As many states and rows as there can be, shared out over so many symbols: no two cases are alike, and
/// the state is in all of them. F is empty.
pub fn one_in_all(state: u32, symbols: usize) -> Model {
    let mut model = Model::plain(64, symbols, 0);
    for number in 0..4_096 {
        // 13 states beside it tell the cases apart.
        let others = (number as u64 + 1).rotate_left(state + 1);
        model.rows[number * symbols / 4_096].push(Row {
            state: (number % 64) as u8,
            case: others | 1 << state,
        });
    }
    model
}

/// As many states and rows as there can be, and a run of many steps, each of whose growths has
/// thousands of forbidden sets.
pub fn largest(random: &mut Random, moving: usize) -> Model {
    mostly_large_cases(random, moving, 4_096)
}

/// As many states as there can be and so many rows: so many symbols move the states about, and the rows of
/// one more have large cases, which seldom fit.
pub fn mostly_large_cases(random: &mut Random, moving: usize, row_count: usize) -> Model {
    let initial = small_case(random, 64, 5);
    let mut model = Model {
        states: 64,
        initial,
        // Not the lowest of I: otherwise a run may end before its first step.
        final_set: small_case(random, 64, 5) & !(initial & initial.wrapping_neg()),
        rows: near_permutations(random, 64, moving),
    };
    let row = |_| {
        let (any, fewer) = (random.number(), random.number());
        let state = random.below(64) as u8;
        let case = random.pick(&[any, any & fewer]);
        Row { state, case }
    };
    let others = (model.row_count()..row_count).map(row).collect();
    model.rows.push(others);
    model
}
