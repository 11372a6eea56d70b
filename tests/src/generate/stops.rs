//! Models whose runs stop in the program's rooms of 256 places, without hints.

use crate::image::{rings, Model, Row};

/// Steps: the run makes the program's 100,000 and has places left. Symbols lead from a case to its
/// backward set.
///
/// Symbol 0 shifts a register of 9 bits, in which each bit is one of two states. F is its first
/// content, and no content comes again within 511 shifts. By symbol 1 a case in which two states
/// exclude each other leads to I, so that no blocker has both: the two states of a bit, of a digit, or
/// the marker and a state of the register. A blocker thus has one content at most, and whenever a level
/// is opened, the contents are blocked anew, each one level above where it was.
///
/// The other symbols stand for the sets of 5 columns, a set after its subsets. From F a set's symbol
/// leads to the marker and the set's columns in stage 0, symbol 0 from stage to stage, and the set's
/// symbol again from the last stage to the set's digits. A blocker has one set's digits at most, so each
/// set is blocked for itself in every stage, and its subsets' blockers leave. From the digits symbol 1
/// leads to the content that is blocked just below them and no higher, so this is done anew as well.
pub fn for_want_of_steps() -> Model {
    const BITS: usize = 9;
    const STAGES: usize = 4;
    const COLUMNS: usize = 5;
    let bit = |place, value| 2 * place + value;
    let initial = 2 * BITS;
    let marker = initial + 1;
    let column = |stage, place| marker + 1 + COLUMNS * stage + place;
    let digit = |place, value| column(STAGES, 0) + 2 * place + value;

    let mut model = Model::plain(digit(COLUMNS, 0), 1 + (1 << COLUMNS), 0);
    let mut row = |symbol: usize, state: usize, case: &[usize]| {
        let case = case.iter().fold(0, |case, state| case | 1 << state);
        let state = state as u8;
        model.rows[symbol].push(Row { state, case });
    };
    let mut content = [1, 0, 0, 0, 0, 0, 0, 0, 0];
    let places = content.iter().enumerate();
    let final_set = places.fold(0, |set, (place, &content)| set | 1 << bit(place, content));
    for _ in 0..STAGES + 2 {
        let entering = content[8] ^ content[4];
        content.rotate_right(1);
        content[0] = entering;
    }
    for value in [0, 1] {
        for place in 1..BITS {
            row(0, bit(place, value), &[bit(place - 1, value)]);
        }
        for other in [0, 1] {
            row(0, bit(0, value ^ other), &[bit(8, value), bit(4, other)]);
        }
        for (place, &content) in content.iter().enumerate() {
            row(1, initial, &[marker, bit(place, value)]);
            row(1, bit(place, content), &[digit(0, value)]);
        }
    }
    row(0, marker, &[marker]);
    for place in 0..BITS {
        row(1, initial, &[bit(place, 0), bit(place, 1)]);
    }
    for place in 0..COLUMNS {
        row(1, initial, &[digit(place, 0), digit(place, 1)]);
        for stage in 1..STAGES {
            row(0, column(stage, place), &[column(stage - 1, place)]);
        }
    }
    for set in 1..1 << COLUMNS {
        let members = || (0..COLUMNS).filter(|place| set >> place & 1 == 1);
        let last_stage: Vec<usize> = members().map(|place| column(STAGES - 1, place)).collect();
        row(set + 1, marker, &[]);
        for place in members() {
            row(set + 1, column(0, place), &[]);
        }
        for place in 0..COLUMNS {
            row(set + 1, digit(place, set >> place & 1), &last_stage);
        }
    }
    model.initial = 1 << initial;
    model.final_set = final_set;
    model
}

/// Blocker room: it is full at level 104, and a shortest word has 209 symbols.
pub fn for_want_of_blocker_room() -> Model {
    rings(&[2, 3, 5, 7])
}

/// Word room: each of 256 levels has one blocker, for which blocker room just suffices. No word is
/// accepted, as no backward set of a state of the second ring has one of the first, where I has two.
pub fn for_want_of_word_room() -> Model {
    let mut model = rings(&[15, 17]);
    model.initial = 1 | 1 << 7 | 1 << 15;
    model.final_set = 1 << 15;
    model
}
