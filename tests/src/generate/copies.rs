//! Models of independent parts: models side by side, and the same with the states numbered backwards.

use super::runs::Earlier;
use crate::image::{all_states, Model, Row};
use crate::tables::Terms;
use crate::text;

/// A feed that stalls.
pub fn stall() -> Model {
    text::read(include_str!("../../../models/stall.txt"))
}

/// The same with the mend, by which its forbidden picture is out of reach.
pub fn mended_stall() -> Model {
    text::read(include_str!("../../../models/stall-mended.txt"))
}

/// So many copies of the feed that stalls.
pub fn copies(count: usize) -> Model {
    side_by_side(&vec![stall(); count])
}

/// So many copies, of which the first has the mend.
pub fn first_mended(count: usize) -> Model {
    let mut models = vec![stall(); count];
    models[0] = mended_stall();
    side_by_side(&models)
}

/// The states and the events of each model come after those of the one before it. An event moves its own
/// model, and each state of the others stays where it is. I and F are all models' together, so that the
/// picture must be forbidden in all of them.
pub fn side_by_side(models: &[Model]) -> Model {
    let states = models.iter().map(|model| model.states).sum();
    let mut joined = Model::plain(states, 0, 0);
    let mut first = 0;
    for model in models {
        joined.initial |= model.initial << first;
        joined.final_set |= model.final_set << first;
        let own = first..first + model.states;
        for rows in &model.rows {
            let others = (0..states).filter(|state| !own.contains(state));
            let stay = others.map(|state| Row {
                state: state as u8,
                case: 1 << state,
            });
            let moved = rows.iter().map(|row| Row {
                state: row.state + first as u8,
                case: row.case << first,
            });
            joined.rows.push(moved.chain(stay).collect());
        }
        first = own.end;
    }
    joined
}

/// The same automaton with the last state as state 0, and so on down.
pub fn numbered_backwards(model: &Model) -> Model {
    let set = |set| set_backwards(model.states, set);
    let row = |row: &Row| Row {
        state: model.states as u8 - 1 - row.state,
        case: set(row.case),
    };
    let rows = model.rows.iter();
    Model {
        states: model.states,
        initial: set(model.initial),
        final_set: set(model.final_set),
        rows: rows.map(|rows| rows.iter().map(row).collect()).collect(),
    }
}

/// A set of such states in the other numbering.
pub fn set_backwards(states: usize, set: u64) -> u64 {
    set.reverse_bits() >> (64 - states)
}

/// The blockers that a run by way 0 makes, in that order.
fn made(model: &Model) -> Vec<u64> {
    let earlier = Earlier::new(&model.image(), Terms::plain(u64::MAX));
    let blocks = earlier.blocks.into_iter();
    blocks.map(|(_, blocker)| blocker).collect()
}

/// Hints for the model: the blockers that are made of it where it is numbered backwards.
pub fn made_backwards(model: &Model) -> Vec<u64> {
    let made = made(&numbered_backwards(model)).into_iter();
    made.map(|set| set_backwards(model.states, set)).collect()
}

/// Hints for copies of which the first has the mend: the blockers that are made of that one alone, each with
/// all states of the others.
pub fn made_alone(copies: &Model) -> Vec<u64> {
    let alone = mended_stall();
    let others = all_states(copies.states) & !all_states(alone.states);
    made(&alone).into_iter().map(|set| set | others).collect()
}
