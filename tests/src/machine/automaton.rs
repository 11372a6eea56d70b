//! An automaton as its image has it. Rows are read where they stand; only where each symbol's rows
//! begin and end is taken out of the image beforehand.

use crate::checks::Head;

/// Whether `part` is a subset of `whole`.
pub fn contains(whole: u64, part: u64) -> bool {
    part & !whole == 0
}

/// A state and a case, as an image has them.
type RowBytes = [u8; 9];

pub struct Automaton<'a> {
    states: u32,
    pub initial: u64,
    pub final_set: u64,
    symbols: usize,
    /// The first k are in use.
    rows: [&'a [RowBytes]; 64],
}

impl<'a> Automaton<'a> {
    /// The head is that of the image, which no check refuses.
    pub fn new(image: &'a [u8], head: &Head) -> Self {
        let symbols = head.k as usize;
        let mut rows: [&[RowBytes]; 64] = [&[]; 64];
        let (pairs, _) = image[20..20 + 8 * symbols].as_chunks::<8>();
        for (rows, pair) in rows.iter_mut().zip(pairs) {
            let (offset, length) = pair.split_at(4);
            let [offset, length] = [offset, length]
                .map(|number| u32::from_le_bytes(number.try_into().unwrap()) as usize);
            *rows = image[offset..offset + length].as_chunks().0;
        }
        Automaton {
            states: head.n as u32,
            initial: head.initial,
            final_set: head.final_set,
            symbols,
            rows,
        }
    }

    pub fn states(&self) -> u32 {
        self.states
    }

    pub fn all_states(&self) -> u64 {
        u64::MAX >> (64 - self.states)
    }

    pub fn symbols(&self) -> usize {
        self.symbols
    }

    /// The state and the case of each row by the symbol.
    pub fn rows(&self, symbol: usize) -> impl Iterator<Item = (u8, u64)> + 'a {
        let row = |&[state, ref case @ ..]: &RowBytes| (state, u64::from_le_bytes(*case));
        self.rows[symbol].iter().map(row)
    }

    /// "The backward set of a case X by symbol s is the set of states with a row by s whose case is a
    /// subset of X."
    pub fn backward_set(&self, symbol: usize, case: u64) -> u64 {
        let mut set = 0;
        for &[state, ref row_case @ ..] in self.rows[symbol] {
            let row_case = u64::from_le_bytes(*row_case);
            set |= u64::from(contains(case, row_case)) << state;
        }
        set
    }

    /// The union of the cases that the states pick, each that of the first row by the symbol which has a
    /// subset of `inside`. Rows are walked until the last state has picked.
    pub fn first_picks(&self, symbol: usize, case: u64, inside: u64) -> u64 {
        let (mut to_pick, mut union) = (case, 0);
        for &[state, ref row_case @ ..] in self.rows[symbol] {
            if to_pick == 0 {
                break;
            }
            let row_case = u64::from_le_bytes(*row_case);
            if to_pick >> state & 1 == 1 && contains(inside, row_case) {
                to_pick &= !(1 << state);
                union |= row_case;
            }
        }
        union
    }
}
