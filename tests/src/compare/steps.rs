//! The comparison of `afa_begin` and `afa_step` with the machine, after each call: the answer, all numbers
//! of the record, and every place of the tables. What was seen by it is told of the runs that ended.

use super::run::{differences, Seen};
use crate::afa::step::{Stepped, Stepper};
use crate::compare::hexadecimal;
use crate::machine;
use crate::record::Record;
use crate::tables::{Tables, Terms};
use std::collections::BTreeMap;
use std::fmt::Display;

/// Record and tables, as the call before left them or as they were made up.
#[derive(Clone, Debug, PartialEq, Eq)]
pub struct Standing {
    pub record: Record,
    pub tables: Tables,
}

#[derive(Default)]
pub struct Comparison {
    stepper: Stepper,
    /// Of runs that ended by a step, or with their begin.
    pub seen: Seen,
    /// How often steps gave each number.
    pub steps: BTreeMap<u64, usize>,
}

impl Comparison {
    /// What the begin leaves of tables with anything in them.
    pub fn begin(
        &mut self,
        image: &[u8],
        before: &Tables,
        terms: Terms<&[u64]>,
        origin: &dyn Display,
    ) -> Standing {
        let mut tables = before.clone();
        let record = machine::begin(image, tables.lend(), terms);
        let expected = (record.answer, record, tables);
        let got = self.stepper.begin(image, before, terms);
        let shown = || format!("afa_begin\n{origin}{}", lent(image, before, terms));
        assert_alike(&expected, &got, &shown);
        let (_, record, tables) = expected;
        if !record.is_working() {
            self.seen.answer(&record.five_numbers());
        }
        Standing { record, tables }
    }

    /// The number that the step answers. Record and tables are then as it leaves them.
    pub fn step(
        &mut self,
        image: &[u8],
        standing: &mut Standing,
        terms: Terms<&[u64]>,
        origin: &dyn Display,
    ) -> u64 {
        let before = standing.clone();
        let Standing { record, tables } = standing;
        let was_working = record.is_working();
        let seen = &mut self.seen;
        let number = machine::observed_step(image, tables.lend(), terms, record, |event| {
            seen.event(event, terms.way)
        });
        let got = (self.stepper).step(image, &before.tables, terms, &before.record);
        let expected = (number, *record, tables.clone());
        let shown = || {
            let lent = lent(image, &before.tables, terms);
            format!("afa_step\n{origin}{lent}\nrecord before {}", before.record)
        };
        assert_alike(&expected, &got, &shown);
        *self.steps.entry(number).or_default() += 1;
        if was_working && number < 6 {
            self.seen.answer(&record.five_numbers());
        }
        number
    }

    /// Begin, then steps on the same terms until the run ends.
    pub fn run(
        &mut self,
        image: &[u8],
        before: &Tables,
        terms: Terms<&[u64]>,
        origin: &dyn Display,
    ) -> Standing {
        let mut standing = self.begin(image, before, terms, origin);
        while standing.record.is_working() {
            self.step(image, &mut standing, terms, origin);
        }
        standing
    }

    /// How often steps gave the number.
    pub fn times(&self, number: u64) -> usize {
        self.steps.get(&number).copied().unwrap_or(0)
    }
}

fn assert_alike(expected: &Stepped, got: &Stepped, shown: &dyn Fn() -> String) {
    assert!(
        expected == got,
        "{}\nexpected {}, record {}\n     got {}, record {}{}",
        shown(),
        expected.0,
        expected.1,
        got.0,
        got.1,
        differences(&expected.2, &got.2)
    );
}

/// What a call is lent. Of long tables the lengths must do.
fn lent(image: &[u8], before: &Tables, terms: Terms<&[u64]>) -> String {
    let lengths = before.lengths();
    let tables = match lengths.iter().all(|&length| length <= 100) {
        true => format!("\nbefore {before:x?}"),
        false => String::new(),
    };
    format!(
        "\nimage {}\nlengths of masks, levels, entered, cases and symbols {lengths:?}{tables}\nedition \
         {}, way {}, allowance {}, {} hints {:x?}",
        hexadecimal(image),
        terms.edition,
        terms.way,
        terms.allowance,
        terms.hints.len(),
        &terms.hints[..terms.hints.len().min(200)]
    )
}
