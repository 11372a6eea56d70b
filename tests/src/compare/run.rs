//! The comparison of `afa_run` with the machine, place by place, and what was seen by it.

use crate::afa::run::Runner;
use crate::compare::hexadecimal;
use crate::machine::{self, Event};
use crate::tables::{Answer, Lent, Tables};
use std::collections::BTreeMap;
use std::fmt::{self, Debug, Display};

/// How often the answers and the events of runs were seen.
#[derive(Clone, Debug, Default)]
pub struct Seen {
    pub runs: usize,
    pub by_number: BTreeMap<u64, usize>,
    pub opened_blocked: usize,
    pub extended: usize,
    pub blocked: usize,
    pub by_hint: usize,
    /// Blockers grown by each way.
    pub grown: [usize; 2],
    /// Blocks at which some left.
    pub left: usize,
    /// Blocks into a full table.
    pub room_by_leaving: usize,
    /// Blocks after which F was pending again.
    pub pending_again: usize,
    pub rose: usize,
    pub left_before: usize,
    pub left_behind: usize,
    pub closed: usize,
    pub highest_level: u64,
    pub most_blockers: u64,
    pub most_steps: u64,
}

impl Seen {
    pub(super) fn event(&mut self, event: Event, way: u64) {
        match event {
            Event::Opened { pending } => self.opened_blocked += usize::from(!pending),
            Event::Extended { .. } => self.extended += 1,
            Event::Grown { .. } => self.grown[way as usize] += 1,
            Event::Blocked {
                by_hint,
                left,
                was_full,
                ..
            } => {
                self.blocked += 1;
                self.by_hint += usize::from(by_hint);
                self.left += usize::from(left > 0);
                self.room_by_leaving += usize::from(was_full);
            }
            Event::PendingAgain => self.pending_again += 1,
            Event::Rose {
                left_before,
                left_behind,
            } => {
                self.rose += 1;
                self.left_before += usize::from(left_before > 0);
                self.left_behind += usize::from(left_behind > 0);
            }
            Event::Closed => self.closed += 1,
        }
    }

    pub(super) fn answer(&mut self, answer: &Answer) {
        self.runs += 1;
        *self.by_number.entry(answer.number).or_default() += 1;
        self.highest_level = self.highest_level.max(answer.level);
        self.most_blockers = self.most_blockers.max(answer.blockers);
        self.most_steps = self.most_steps.max(answer.steps);
    }

    /// Each of the numbers 0 to 4, which both editions have, came at least so often.
    pub fn assert_each_number(&self, least: usize) {
        for number in 0..5 {
            let count = self.times(number);
            assert!(count >= least, "{number} came {count} times");
        }
    }

    /// How often the number came.
    pub fn times(&self, number: u64) -> usize {
        self.by_number.get(&number).copied().unwrap_or(0)
    }
}

impl Display for Seen {
    fn fmt(&self, out: &mut fmt::Formatter<'_>) -> fmt::Result {
        write!(out, "{} runs", self.runs)?;
        for (number, count) in &self.by_number {
            write!(out, ", {count} gave {number}")?;
        }
        write!(
            out,
            "; at most {} steps, level {}, {} blockers; {} extends, {} blocks, of which {} by hint, \
             {} where some left, {} into a full table; {} grown by way 0, {} by way 1; {} closes, {} \
             opens with F blocked; {} rises, {} where some left before, {} behind",
            self.most_steps,
            self.highest_level,
            self.most_blockers,
            self.extended,
            self.blocked,
            self.by_hint,
            self.left,
            self.room_by_leaving,
            self.grown[0],
            self.grown[1],
            self.closed,
            self.opened_blocked,
            self.rose,
            self.left_before,
            self.left_behind
        )
    }
}

#[derive(Default)]
pub struct Comparison {
    runner: Runner,
    pub seen: Seen,
}

impl Comparison {
    /// The answer and the tables after it, which the machine and the library agree on.
    pub fn run(&mut self, image: &[u8], lent: &Lent, origin: &dyn Display) -> (Answer, Tables) {
        let mut tables = lent.before.clone();
        let terms = lent.terms.lend();
        let answer = machine::observed_run(image, tables.lend(), terms, |event| {
            self.seen.event(event, terms.way)
        });
        self.seen.answer(&answer);
        let answered = self.runner.run(image, &lent.before, terms);
        assert!(
            answered.0 == answer && answered.1 == tables,
            "afa_run\n{origin}\nimage {}\nlengths of masks, levels, entered, cases and symbols \
             {:?}, edition {}, way {}, allowance {}, {} hints {:x?}\nexpected {answer:?}\n     got \
             {:?}{}",
            hexadecimal(image),
            lent.before.lengths(),
            terms.edition,
            terms.way,
            terms.allowance,
            terms.hints.len(),
            &terms.hints[..terms.hints.len().min(200)],
            answered.0,
            differences(&tables, &answered.1)
        );
        (answer, tables)
    }
}

/// Where the tables first differ.
pub(super) fn differences(expected: &Tables, got: &Tables) -> String {
    first_difference("mask", &expected.masks, &got.masks)
        + &first_difference("level", &expected.levels, &got.levels)
        + &first_difference("entered", &expected.entered, &got.entered)
        + &first_difference("case", &expected.cases, &got.cases)
        + &first_difference("symbol", &expected.symbols, &got.symbols)
}

fn first_difference<T: PartialEq + Debug>(name: &str, expected: &[T], got: &[T]) -> String {
    let mut pairs = expected.iter().zip(got).enumerate();
    match pairs.find(|(_, (expected, got))| expected != got) {
        None => String::new(),
        Some((place, (expected, got))) => {
            format!("\n{name} {place}: expected {expected:?}, got {got:?}")
        }
    }
}
