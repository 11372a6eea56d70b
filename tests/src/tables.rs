//! What a run is lent, and the five numbers that it returns.

use crate::random::Random;
use std::fmt;

/// Blocker room and word room, lent. For a machine that has no table of when blockers entered, `()`
/// stands in its place.
pub struct Rooms<'a, Entered = &'a mut [u64]> {
    pub masks: &'a mut [u64],
    pub levels: &'a mut [u32],
    pub entered: Entered,
    pub cases: &'a mut [u64],
    pub symbols: &'a mut [u8],
}

impl<'a> Rooms<'a> {
    pub fn without_entered(self) -> Rooms<'a, ()> {
        Rooms {
            masks: self.masks,
            levels: self.levels,
            entered: (),
            cases: self.cases,
            symbols: self.symbols,
        }
    }
}

/// Blocker room and word room, owned. The tables of one room may differ in length.
#[derive(Clone, Debug, PartialEq, Eq)]
pub struct Tables {
    pub masks: Vec<u64>,
    pub levels: Vec<u32>,
    pub entered: Vec<u64>,
    pub cases: Vec<u64>,
    pub symbols: Vec<u8>,
}

impl Tables {
    pub fn cleared(blocker_room: usize, word_room: usize) -> Self {
        Tables {
            masks: vec![0; blocker_room],
            levels: vec![0; blocker_room],
            entered: vec![0; blocker_room],
            cases: vec![0; word_room],
            symbols: vec![0; word_room],
        }
    }

    /// Filled with what no run leaves there: numbers that are not 0.
    pub fn filled(random: &mut Random, blocker_room: usize, word_room: usize) -> Self {
        let [masks, levels, entered] = [blocker_room; 3];
        let [cases, symbols] = [word_room; 2];
        Self::filled_unevenly(random, [masks, levels, entered, cases, symbols])
    }

    /// The same with a length for each table: masks, levels, entered, cases, symbols.
    pub fn filled_unevenly(random: &mut Random, lengths: [usize; 5]) -> Self {
        let [masks, levels, entered, cases, symbols] = lengths;
        let mut number = || random.number() | 0x0101_0101_0101_0101;
        Tables {
            masks: (0..masks).map(|_| number()).collect(),
            levels: (0..levels).map(|_| number() as u32).collect(),
            entered: (0..entered).map(|_| number()).collect(),
            cases: (0..cases).map(|_| number()).collect(),
            symbols: (0..symbols).map(|_| number() as u8).collect(),
        }
    }

    pub fn lend(&mut self) -> Rooms<'_> {
        Rooms {
            masks: &mut self.masks,
            levels: &mut self.levels,
            entered: &mut self.entered,
            cases: &mut self.cases,
            symbols: &mut self.symbols,
        }
    }

    /// Of masks, levels, entered, cases and symbols.
    pub fn lengths(&self) -> [usize; 5] {
        [
            self.masks.len(),
            self.levels.len(),
            self.entered.len(),
            self.cases.len(),
            self.symbols.len(),
        ]
    }

    /// The first places of blocker room, as many as are held.
    pub fn blockers(&self, held: u64) -> Vec<Blocker> {
        let blocker = |place| Blocker {
            mask: self.masks[place],
            level: self.levels[place],
            entered: self.entered[place],
        };
        (0..held as usize).map(blocker).collect()
    }
}

/// An entry of blocker room.
#[derive(Clone, Copy, Debug, PartialEq, Eq)]
pub struct Blocker {
    pub mask: u64,
    pub level: u32,
    /// The count of steps including the block that made it.
    pub entered: u64,
}

/// The editions that there are.
pub const EDITIONS: [u64; 2] = [1, 2];

/// The ways to grow a blocker that there are: state by state, and through a hitting set.
pub const WAYS: [u64; 2] = [0, 1];

/// Each edition with each way.
pub const CHOICES: [[u64; 2]; 4] = [[1, 0], [2, 0], [1, 1], [2, 1]];

/// The terms of a run: hints, which it only reads, how many steps it may make, by which edition a final
/// start is answered, and by which way blockers are grown. The hints are owned, or a slice where they are
/// lent.
#[derive(Clone, Copy, Debug)]
pub struct Terms<Hints = Vec<u64>> {
    pub hints: Hints,
    pub allowance: u64,
    pub edition: u64,
    pub way: u64,
}

impl<Hints: Default> Terms<Hints> {
    /// Those of the program, but for the allowance: no hints, edition 1 and way 0.
    pub fn plain(allowance: u64) -> Self {
        Terms {
            hints: Hints::default(),
            allowance,
            edition: 1,
            way: 0,
        }
    }
}

impl Terms {
    pub fn lend(&self) -> Terms<&[u64]> {
        Terms {
            hints: &self.hints,
            allowance: self.allowance,
            edition: self.edition,
            way: self.way,
        }
    }
}

/// What a run is lent besides its image.
#[derive(Clone, Debug)]
pub struct Lent {
    pub before: Tables,
    pub terms: Terms,
}

#[derive(Clone, Copy, Debug, PartialEq, Eq)]
pub struct Answer {
    pub number: u64,
    pub steps: u64,
    /// N.
    pub level: u64,
    pub blockers: u64,
    pub hints_accepted: u64,
}

impl Answer {
    pub fn of_numbers([number, steps, level, blockers, hints_accepted]: [u64; 5]) -> Self {
        Answer {
            number,
            steps,
            level,
            blockers,
            hints_accepted,
        }
    }

    /// "From 20 up the other four are 0."
    pub fn refused(number: u64) -> Self {
        Self::of_numbers([number, 0, 0, 0, 0])
    }

    /// Whether the number is a verdict; 5 is one of edition 2.
    pub fn is_verdict(&self) -> bool {
        matches!(self.number, 0 | 1 | 5)
    }

    /// Verdict and word length, if there is a verdict.
    pub fn verdict(&self) -> Option<(u64, Option<u64>)> {
        let length = (self.number == 1).then_some(self.level);
        self.is_verdict().then_some((self.number, length))
    }
}

/// The five numbers, as the program prints them.
impl fmt::Display for Answer {
    fn fmt(&self, out: &mut fmt::Formatter<'_>) -> fmt::Result {
        let Answer {
            number,
            steps,
            level,
            blockers,
            hints_accepted,
        } = self;
        write!(out, "{number} {steps} {level} {blockers} {hints_accepted}")
    }
}
