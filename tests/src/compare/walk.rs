//! The comparison of `afa_walk` with the tests' own count, and what was seen by it.

use crate::afa::walk::{Walker, WALKED_BEFORE};
use crate::compare::hexadecimal;
use crate::walk::{walk, Walk};
use std::collections::BTreeMap;
use std::fmt::{self, Display};

/// How many walks there were, in all and by the rows of their symbol and those walked.
#[derive(Clone, Copy, Debug, Default)]
pub struct Tally {
    pub walks: usize,
    /// The symbol has fewer than four rows, four, or more.
    pub by_size: [usize; 3],
    /// By how many rows the symbol has after its last whole four.
    pub by_rest: [usize; 4],
    /// By how many rows are walked after the last whole four of them.
    pub by_rest_walked: [usize; 4],
}

impl Tally {
    fn walk(&mut self, walk: &Walk) {
        self.walks += 1;
        self.by_size[walk.rows.clamp(3, 5) - 3] += 1;
        self.by_rest[walk.rows % 4] += 1;
        self.by_rest_walked[walk.rows_walked() % 4] += 1;
    }

    fn least(&self) -> usize {
        let rests = self.by_rest.into_iter().chain(self.by_rest_walked);
        self.by_size.into_iter().chain(rests).min().unwrap()
    }
}

impl Display for Tally {
    fn fmt(&self, out: &mut fmt::Formatter<'_>) -> fmt::Result {
        write!(
            out,
            "{} (of under four, four and more rows {:?}, by rest {:?}, by rest walked {:?})",
            self.walks, self.by_size, self.by_rest, self.by_rest_walked
        )
    }
}

/// How often the answers were seen.
#[derive(Clone, Debug, Default)]
pub struct Seen {
    /// All states were in before the last row.
    pub early: Tally,
    /// Of these, after the first or the second row behind the last whole four.
    pub early_in_the_rest: [usize; 2],
    /// All states were in with the last row.
    pub by_the_last: Tally,
    pub never: Tally,
    /// By number.
    pub refused: BTreeMap<u64, usize>,
}

impl Seen {
    fn answer(&mut self, answer: &Result<Walk, u64>) {
        match answer {
            Err(number) => *self.refused.entry(*number).or_default() += 1,
            Ok(walk) => match walk.all_in_after {
                None => self.never.walk(walk),
                Some(count) if count == walk.rows => self.by_the_last.walk(walk),
                Some(count) => {
                    self.early.walk(walk);
                    if count > walk.rows / 4 * 4 {
                        self.early_in_the_rest[count % 4 - 1] += 1;
                    }
                }
            },
        }
    }

    /// Walks of each kind and with each rest came at least so often.
    pub fn assert_each_walk(&self, least: usize) {
        for tally in [&self.early, &self.by_the_last, &self.never] {
            assert!(tally.least() >= least, "too rare: {self}");
        }
        let in_the_rest = self.early_in_the_rest;
        assert!(in_the_rest.iter().all(|&count| count >= least), "{self}");
    }
}

impl Display for Seen {
    fn fmt(&self, out: &mut fmt::Formatter<'_>) -> fmt::Result {
        write!(
            out,
            "all in early {}, in the rest {:?}; by the last row {}; never {}",
            self.early, self.early_in_the_rest, self.by_the_last, self.never
        )?;
        for (number, count) in &self.refused {
            write!(out, "; {count} gave {number}")?;
        }
        Ok(())
    }
}

#[derive(Default)]
pub struct Comparison {
    walker: Walker,
    pub seen: Seen,
}

impl Comparison {
    /// The answer that the library and the tests agree on: the set and the rows walked, or the number of
    /// a refusal, which leaves `walked` as it was.
    pub fn ask(
        &mut self,
        image: &[u8],
        symbol: u64,
        case: u64,
        origin: &dyn Display,
    ) -> Result<[u64; 2], u64> {
        let answer = walk(image, symbol, case);
        self.seen.answer(&answer);
        let answer = answer.map(|walk| walk.numbers());
        let expected = match answer {
            Ok(numbers) => (0, numbers),
            Err(number) => (number, WALKED_BEFORE),
        };
        let answered = self.walker.walk(image, symbol, case);
        assert!(
            answered == expected,
            "afa_walk\n{origin}\nimage {}\nsymbol {symbol}, case {case}\nexpected {expected:?}\n     got \
             {answered:?}",
            hexadecimal(image)
        );
        answer
    }

    /// The same, where the answer is known beforehand.
    pub fn expect(
        &mut self,
        image: &[u8],
        symbol: u64,
        case: u64,
        expected: Result<[u64; 2], u64>,
    ) {
        let answer = self.ask(image, symbol, case, &"expected to be known");
        assert!(
            answer == expected,
            "image {}\nsymbol {symbol}, case {case}\nexpected {expected:?}, the tests' own answer is \
             {answer:?}",
            hexadecimal(image)
        );
    }
}
