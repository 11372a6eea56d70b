//! What a stop is worth, and the search over all words that judges it.

use crate::acceptance::{Runs, Start};
use crate::generate::every_word;
use crate::image::{all_states, Model};
use crate::random::Random;
use crate::record::WORKING;
use crate::search::shortest_word;
use crate::tables::{Answer, Tables};
use std::collections::BTreeMap;
use std::fmt::{self, Display};

/// "A run that stops at level N, for want of steps or blocker room, has shown that no word shorter than N is
/// accepted; one that stops at end of tape, none up to the word room's length, that length included": the
/// length that every accepted word has at least. A run by steps that works at level N has shown what it would
/// if it stopped there for want of steps.
pub fn least_length(number: u64, level: u64, word_room: usize) -> usize {
    match number {
        2 | 3 | WORKING => level as usize,
        4 => word_room + 1,
        _ => panic!("{number} is no stop"),
    }
}

/// What can stop a run.
#[derive(Clone, Copy, Debug)]
pub struct Limits {
    pub blocker_room: usize,
    pub word_room: usize,
    pub allowance: u64,
}

impl Limits {
    /// With 2^6 places a room models of up to 6 states reach a verdict.
    pub const AMPLE: Self = Limits {
        blocker_room: 64,
        word_room: 64,
        allowance: u64::MAX,
    };

    pub fn of_steps(steps: usize) -> Self {
        Limits {
            allowance: steps as u64,
            ..Self::AMPLE
        }
    }

    pub fn of_blocker_room(blocker_room: usize) -> Self {
        Limits {
            blocker_room,
            ..Self::AMPLE
        }
    }

    pub fn of_word_room(word_room: usize) -> Self {
        Limits {
            word_room,
            ..Self::AMPLE
        }
    }

    /// Rooms with anything in them.
    pub fn tables(&self, random: &mut Random) -> Tables {
        Tables::filled(random, self.blocker_room, self.word_room)
    }

    /// If the run was stopped: of what its number names, how much it has, and the limit.
    pub fn met(&self, answer: &Answer) -> Option<[u64; 2]> {
        match answer.number {
            2 => Some([answer.steps, self.allowance]),
            3 => Some([answer.blockers, self.blocker_room as u64]),
            4 => Some([answer.level, self.word_room as u64]),
            _ => None,
        }
    }
}

/// A model whose words were searched.
pub struct Words<'a> {
    pub model: &'a Model,
    /// The words up to this length were tested one by one, until one was accepted.
    pub longest: usize,
    /// The length of a shortest accepted word, if one is accepted.
    pub shortest: Option<usize>,
}

impl<'a> Words<'a> {
    /// The search over all cases judges words that are too many to test one by one. Up to the length where
    /// they are not, the two agree.
    pub fn of(model: &'a Model) -> Self {
        let longest = affordable_length(model);
        let shortest = shortest_word(model);
        assert_eq!(
            shortest_tested(model, longest),
            shortest.filter(|&length| length <= longest),
            "{model}\nwords up to length {longest} one by one, and by all cases"
        );
        Words {
            model,
            longest,
            shortest,
        }
    }
}

/// The length up to which there are not many more than 1,000 words; or 2^n - 1, as a shortest word is no
/// longer: its ends take F back to cases that all differ.
fn affordable_length(model: &Model) -> usize {
    const MOST_WORDS: usize = 1_100;
    let needed = all_states(model.states) as usize;
    let (mut words, mut of_length) = (1, 1);
    for length in 0..needed {
        of_length *= model.symbols();
        words += of_length;
        if words > MOST_WORDS {
            return length;
        }
    }
    needed
}

/// Of all words up to the length, shorter ones first, the length of the first that the definition accepts:
/// some run over it ends in a final case. Runs begin in every case that contains I, if these are not too many.
fn shortest_tested(model: &Model, longest: usize) -> Option<usize> {
    let start = match model.states {
        ..=12 => Start::EverySuperset,
        _ => Start::Initial,
    };
    let runs = Runs::new(model, start);
    let accepts = |word: &Vec<u8>| runs.accepts(word, usize::MAX).expect("picks enough");
    let mut words = every_word(model.symbols(), longest).into_iter();
    words.find(accepts).map(|word| word.len())
}

/// What was seen of the stops of one number.
#[derive(Clone, Copy, Debug, Default)]
struct Count {
    stops: usize,
    /// Every word that the stop says is not accepted was tested.
    tested: usize,
    /// A shortest word has just the least length, which is not 0.
    tight: usize,
    /// The greatest least length.
    longest: usize,
}

/// The stops that were judged, by number.
#[derive(Clone, Debug, Default)]
pub struct Stops {
    by_number: BTreeMap<u64, Count>,
}

impl Stops {
    /// No accepted word is shorter than the stop says.
    pub fn judge(&mut self, words: &Words, number: u64, level: u64, word_room: usize) {
        let least = least_length(number, level, word_room);
        let (model, shortest) = (words.model, words.shortest);
        assert!(
            shortest.is_none_or(|length| length >= least),
            "{model}\n{number} at level {level} in a word room of {word_room}: no word is shorter than \
             {least}, and a shortest has {shortest:?}"
        );
        let count = self.by_number.entry(number).or_default();
        count.stops += 1;
        count.tested += usize::from(least <= words.longest + 1);
        count.tight += usize::from(least > 0 && shortest == Some(least));
        count.longest = count.longest.max(least);
    }

    /// At least so many stops of the number were tight: had they said as much of words longer by 1, they
    /// would have been wrong. And of nine in ten every word that they speak of was tested.
    pub fn assert_tight(&self, number: u64, least: usize) {
        let count = self.by_number.get(&number).copied().unwrap_or_default();
        let Count {
            stops,
            tested,
            tight,
            ..
        } = count;
        assert!(tight >= least, "of {number}: {count:?}");
        assert!(
            stops > 0 && tested >= stops / 10 * 9,
            "of {number}: {count:?}"
        );
    }
}

impl Display for Stops {
    fn fmt(&self, out: &mut fmt::Formatter<'_>) -> fmt::Result {
        let mut before = "";
        for (number, count) in &self.by_number {
            let Count {
                stops,
                tested,
                tight,
                longest,
            } = count;
            write!(
                out,
                "{before}{stops} gave {number} ({tested} with every shorter word tested, {tight} tight, \
                 lengths up to {longest})"
            )?;
            before = ", ";
        }
        Ok(())
    }
}
