//! What a run of the library came to, for people to read. The texts for a terminal, for a browser and
//! for programs are all written from this.

#[cfg(test)]
mod tests;

use crate::library;
use crate::model::{decimal, Case, Event};
use crate::numbers::{Failure, Refusal};
use crate::run::{Blocker, Run};

/// The case reached after an event, or before the first.
#[derive(Clone, Copy, Debug, PartialEq, Eq)]
pub struct Moment {
    pub event: Option<Event>,
    pub case: Case,
}

#[derive(Clone, Debug, PartialEq, Eq)]
pub enum Finding {
    /// No word is accepted; the frame shows it by itself.
    Empty { frame: Vec<Blocker> },
    /// A shortest word, and an accepting run over it. In edition 2 a start that is final already is a
    /// slip of the model.
    Nonempty { run: Vec<Moment>, is_slip: bool },
    /// Steps or room ran out, or the run was interrupted: a word that is accepted has at least so many
    /// events.
    Stopped { want: Want, least: u64 },
}

/// What a run that stopped was in want of.
#[derive(Clone, Copy, Debug, PartialEq, Eq)]
pub enum Want {
    /// More than so many.
    Steps(u64),
    /// More than so many places.
    BlockerRoom(u64),
    /// More than so many places.
    WordRoom(u64),
    /// Nothing: it was interrupted.
    Interrupted,
}

/// A finding with the run's five numbers: number, steps, level, blockers held and hints accepted.
pub struct Outcome {
    pub numbers: [u64; 5],
    pub finding: Finding,
}

impl Outcome {
    /// Of a run that has ended or was broken off, with this allowance.
    pub fn of(image: &[u8], run: &Run, allowance: u64) -> Result<Self, Failure> {
        let numbers = run.numbers();
        let [number, _, level, _, _] = numbers;
        let [blocker_places, word_places] = run.places().map(|places| places as u64);
        let stopped = |want, least| Finding::Stopped { want, least };
        let finding = match number {
            0 => Finding::Empty {
                frame: run.blockers(),
            },
            1 => nonempty(image, &run.word(), false)?,
            2 => stopped(Want::Steps(allowance), level),
            3 => stopped(Want::BlockerRoom(blocker_places), level),
            4 => stopped(Want::WordRoom(word_places), word_places + 1),
            5 => nonempty(image, &[], true)?,
            library::WORKING => stopped(Want::Interrupted, level),
            number => return Err(Refusal(number).into()),
        };
        Ok(Outcome { numbers, finding })
    }

    /// What `afa check` answers to a script.
    pub fn status(&self) -> u8 {
        match self.finding {
            Finding::Empty { .. } => 0,
            Finding::Nonempty { .. } => 1,
            Finding::Stopped { .. } => 2,
        }
    }

    /// The finding in a word.
    pub fn verdict(&self) -> &'static str {
        match self.finding {
            Finding::Empty { .. } => "empty",
            Finding::Nonempty { .. } => "nonempty",
            Finding::Stopped { .. } => "stopped",
        }
    }

    /// The finding in a sentence, which goes on from the verdict.
    pub fn sentence(&self) -> String {
        match &self.finding {
            Finding::Empty { .. } => {
                "no sequence of events leads to the forbidden picture".to_owned()
            }
            Finding::Nonempty { is_slip: true, .. } => {
                "the forbidden picture is there before any event, which edition 2 takes for a slip \
                 of the model"
                    .to_owned()
            }
            Finding::Nonempty { run, .. } => match run.len() - 1 {
                0 => "the forbidden picture is there before any event".to_owned(),
                1 => "1 event leads to the forbidden picture".to_owned(),
                length => format!("{length} events lead to the forbidden picture"),
            },
            Finding::Stopped { want, .. } => match *want {
                Want::Steps(allowed) => {
                    format!("for want of steps, with {} allowed", count(allowed, "step"))
                }
                Want::BlockerRoom(places) => {
                    format!("for want of blocker room, with {}", count(places, "place"))
                }
                Want::WordRoom(places) => {
                    format!("for want of word room, with {}", count(places, "place"))
                }
                Want::Interrupted => "it was interrupted".to_owned(),
            },
        }
    }

    /// Steps, level, blockers and hints in words.
    pub fn counts(&self) -> String {
        let [_, steps, level, held, accepted] = self.numbers;
        let steps = count(steps, "step");
        let blockers = count(held, "blocker");
        let hints = count(accepted, "hint");
        format!("{steps}, level {level}, {blockers} held, {hints} accepted")
    }
}

/// The finding of the word that a run ends with. Of a run from its begin on it is accepted.
fn nonempty(image: &[u8], word: &[Event], is_slip: bool) -> Result<Finding, Failure> {
    let run = accepting_run(image, word)?;
    let run = run.ok_or_else(|| "its word is not accepted".to_owned())?;
    Ok(Finding::Nonempty { run, is_slip })
}

/// What a stop has shown of the words that are accepted.
pub fn shown(least: u64) -> String {
    match least {
        0 => "nothing is shown yet of any event sequence".to_owned(),
        _ => format!(
            "no forbidden event sequence has fewer than {}",
            count(least, "event")
        ),
    }
}

fn count(number: u64, what: &str) -> String {
    match number {
        1 => format!("1 {what}"),
        _ => format!("{number} {what}s"),
    }
}

/// An accepting run over a word, as the library prints it; none if the word is not accepted.
pub fn accepting_run(image: &[u8], word: &[Event]) -> Result<Option<Vec<Moment>>, Failure> {
    let symbols: Vec<u8> = word.iter().map(|event| event.0).collect();
    let mut room = vec![0; 21 + 24 * symbols.len()];
    match library::print_run(image, &symbols, &mut room) {
        (0, _) => Ok(None),
        (1, length) => {
            let print = std::str::from_utf8(&room[..length as usize]).ok();
            let moments = print.and_then(|print| print.lines().map(moment).collect());
            let moments = moments.ok_or_else(|| "the library's print is none".to_owned());
            Ok(Some(moments?))
        }
        (number, _) => Err(Refusal(number).into()),
    }
}

/// A line of the library's print: a case, with the symbol that led to it in front, but on the first.
fn moment(line: &str) -> Option<Moment> {
    let words: Vec<&str> = line.split(' ').collect();
    let (event, case) = match words[..] {
        [case] => (None, case),
        [event, case] => (Some(Event(decimal(event)?)), case),
        _ => return None,
    };
    let case = Case(decimal(case)?);
    Some(Moment { event, case })
}
