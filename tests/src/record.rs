//! The record of a run that is made step by step. What stands in quotes is the requirements'.

use crate::tables::Answer;
use std::fmt;

/// The answer of a run that goes on: "The answer is 6 (working) until the run ends".
pub const WORKING: u64 = 6;

/// "The run's record (answer, steps, level, whether the level is open, blockers held, pending, blocks
/// made, hints accepted)", any numbers.
#[derive(Clone, Copy, Debug, PartialEq, Eq)]
pub struct Record {
    pub answer: u64,
    pub steps: u64,
    /// N.
    pub level: u64,
    /// 0 or 1, and any other number is read as 1.
    pub open: u64,
    pub held: u64,
    pub pending: u64,
    pub blocks: u64,
    pub accepted: u64,
}

impl Record {
    pub const fn of_numbers(numbers: [u64; 8]) -> Self {
        let [answer, steps, level, open, held, pending, blocks, accepted] = numbers;
        Record {
            answer,
            steps,
            level,
            open,
            held,
            pending,
            blocks,
            accepted,
        }
    }

    pub fn numbers(&self) -> [u64; 8] {
        [
            self.answer,
            self.steps,
            self.level,
            self.open,
            self.held,
            self.pending,
            self.blocks,
            self.accepted,
        ]
    }

    /// The answer and seven 0, as every begin leaves it.
    pub const fn begun(answer: u64) -> Self {
        Self::of_numbers([answer, 0, 0, 0, 0, 0, 0, 0])
    }

    pub fn is_working(&self) -> bool {
        self.answer == WORKING
    }

    /// "A record with an answer above 6, more blockers than room, a level above the word room, more
    /// pending than levels, or more blocks or hints accepted than steps".
    pub fn is_broken(&self, blocker_room: usize, word_room: usize) -> bool {
        self.answer > WORKING
            || self.held > blocker_room as u64
            || self.level > word_room as u64
            || self.pending > self.level
            || self.blocks > self.steps
            || self.accepted > self.steps
    }

    /// The five numbers of a run that ended with this record.
    pub fn five_numbers(&self) -> Answer {
        Answer::of_numbers([
            self.answer,
            self.steps,
            self.level,
            self.held,
            self.accepted,
        ])
    }
}

/// The eight numbers in their order.
impl fmt::Display for Record {
    fn fmt(&self, out: &mut fmt::Formatter<'_>) -> fmt::Result {
        let numbers = self.numbers().map(|number| number.to_string());
        write!(out, "{}", numbers.join(" "))
    }
}
