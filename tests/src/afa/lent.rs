//! Guarded memory for all that a run takes: the image, the tables of both rooms, the hints, and the
//! numbers that are written beside the answer. It is mapped once and used for every call.

use super::bytes_of;
use crate::compare::hexadecimal;
use crate::fault;
use crate::guarded::{Edge, ReadOnly, Writable, EDGES};
use crate::tables::{Rooms, Tables, Terms};

/// What is lent in a call, apart from the numbers that it writes.
#[derive(Clone, Copy)]
pub struct Given<'a> {
    pub image: &'a [u8],
    pub before: &'a Tables,
    pub terms: Terms<&'a [u64]>,
}

/// The answer, the numbers that were written beside it, and what the tables hold after it.
pub type Called<const COUNT: usize> = (u64, [u64; COUNT], Tables);

pub struct Memory<const COUNT: usize> {
    image: ReadOnly,
    masks: Writable,
    levels: Writable,
    entered: Writable,
    cases: Writable,
    symbols: Writable,
    hints: ReadOnly,
    numbers: Writable,
}

impl<const COUNT: usize> Memory<COUNT> {
    /// With room for images of 2^18 bytes and tables of 2^18 places.
    pub fn new() -> Self {
        const PLACES: usize = 1 << 18;
        Memory {
            image: ReadOnly::with_room(1 << 18),
            masks: Writable::with_room(PLACES * size_of::<u64>()),
            levels: Writable::with_room(PLACES * size_of::<u32>()),
            entered: Writable::with_room(PLACES * size_of::<u64>()),
            cases: Writable::with_room(PLACES * size_of::<u64>()),
            symbols: Writable::with_room(PLACES),
            hints: ReadOnly::with_room(PLACES * size_of::<u64>()),
            numbers: Writable::with_room(COUNT * size_of::<u64>()),
        }
    }

    /// The call of the function, made with everything at either edge.
    pub fn call(
        &mut self,
        name: &'static str,
        given: Given,
        numbers: [u64; COUNT],
        function: impl Fn(&[u8], Rooms, Terms<&[u64]>, &mut [u64; COUNT]) -> u64,
    ) -> Called<COUNT> {
        let [first, second] = EDGES.map(|edge| self.call_at(edge, name, given, numbers, &function));
        assert!(
            first == second,
            "{name} answers by where the slices stand: {}, rooms {:?}, {:?}, numbers before \
             {numbers:?}: {:?} and {:?}",
            hexadecimal(given.image),
            given.before.lengths(),
            given.terms,
            (first.0, first.1),
            (second.0, second.1)
        );
        first
    }

    fn call_at(
        &mut self,
        edge: Edge,
        name: &'static str,
        given: Given,
        before: [u64; COUNT],
        function: impl Fn(&[u8], Rooms, Terms<&[u64]>, &mut [u64; COUNT]) -> u64,
    ) -> Called<COUNT> {
        let image = self.image.lend(given.image, edge);
        let masks = self.masks.lend(&given.before.masks, edge);
        let levels = self.levels.lend(&given.before.levels, edge);
        let entered = self.entered.lend(&given.before.entered, edge);
        let cases = self.cases.lend(&given.before.cases, edge);
        let symbols = self.symbols.lend(&given.before.symbols, edge);
        let hints = self.hints.lend(given.terms.hints, edge);
        let terms = Terms {
            hints,
            ..given.terms
        };
        let numbers = self.numbers.lend(&before, edge);
        let numbers: &mut [u64; COUNT] = numbers.try_into().expect("as many numbers");
        let answer = {
            let rooms = Rooms {
                masks: &mut *masks,
                levels: &mut *levels,
                entered: &mut *entered,
                cases: &mut *cases,
                symbols: &mut *symbols,
            };
            let lengths = given.before.lengths().map(usize::to_be_bytes);
            let before = before.map(u64::to_be_bytes);
            let lent: [fault::Lent; 7] = [
                ("image", image),
                (
                    "lengths of masks, levels, entered, cases and symbols",
                    lengths.as_flattened(),
                ),
                ("allowance", &terms.allowance.to_be_bytes()),
                ("edition", &terms.edition.to_be_bytes()),
                ("way", &terms.way.to_be_bytes()),
                ("numbers before", before.as_flattened()),
                ("hints, lowest byte first", bytes_of(hints)),
            ];
            fault::on_record(name, &lent, || function(image, rooms, terms, numbers))
        };
        let after = Tables {
            masks: masks.to_vec(),
            levels: levels.to_vec(),
            entered: entered.to_vec(),
            cases: cases.to_vec(),
            symbols: symbols.to_vec(),
        };
        (answer, *numbers, after)
    }
}
