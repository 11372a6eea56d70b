//! The print of a word's run, made for speed: what the library is measured against. The backward sets of
//! what remains of the word are kept, and each gives its place to the case that is reached inside it.

use super::automaton::{contains, Automaton};
use crate::checks::check;

/// The number, and the length written. Nothing is written before the whole length is known.
pub fn print_run(image: &[u8], word: &[u8], room: &mut [u8]) -> (u64, u64) {
    let head = match check(image) {
        Ok(head) => head,
        Err(number) => return (number, 0),
    };
    if word.iter().any(|&symbol| u64::from(symbol) >= head.k) {
        return (32, 0);
    }
    let automaton = Automaton::new(image, &head);
    let mut cases = remaining_sets(&automaton, word);
    if !contains(cases[0], automaton.initial) {
        return (0, 0);
    }
    let length = step_through(&automaton, word, &mut cases);
    match room.get_mut(..length) {
        None => (35, 0),
        Some(room) => {
            write_lines(word, &cases, room);
            (1, length as u64)
        }
    }
}

/// F taken back by the whole word, by all but its first symbol, and so on to none.
fn remaining_sets(automaton: &Automaton, word: &[u8]) -> Vec<u64> {
    let mut sets = vec![automaton.final_set; word.len() + 1];
    let mut set = automaton.final_set;
    for (place, &symbol) in sets.iter_mut().zip(word).rev() {
        set = automaton.backward_set(symbol.into(), set);
        *place = set;
    }
    sets
}

/// Puts I and the cases reached in the place of the sets, and answers how long their lines are.
fn step_through(automaton: &Automaton, word: &[u8], sets: &mut [u64]) -> usize {
    let mut case = automaton.initial;
    sets[0] = case;
    let mut length = digits(case) + 1;
    for (&symbol, place) in word.iter().zip(&mut sets[1..]) {
        case = automaton.first_picks(symbol.into(), case, *place);
        *place = case;
        length += digits(symbol.into()) + 1 + digits(case) + 1;
    }
    length
}

/// The room is as long as the lines.
fn write_lines(word: &[u8], cases: &[u64], room: &mut [u8]) {
    let mut room = write(room, cases[0], b'\n');
    for (&symbol, &case) in word.iter().zip(&cases[1..]) {
        room = write(room, symbol.into(), b' ');
        room = write(room, case, b'\n');
    }
}

/// Writes the number and the byte, and answers the room behind them.
fn write(room: &mut [u8], mut number: u64, behind: u8) -> &mut [u8] {
    let (decimal, room) = room.split_at_mut(digits(number));
    for digit in decimal.iter_mut().rev() {
        *digit = b'0' + (number % 10) as u8;
        number /= 10;
    }
    room[0] = behind;
    &mut room[1..]
}

fn digits(number: u64) -> usize {
    number.checked_ilog10().unwrap_or(0) as usize + 1
}
