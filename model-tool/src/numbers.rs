//! The numbers under which the library refuses, and what they mean.

use std::fmt;

/// A number under which the library refuses, 20 or above.
#[derive(Clone, Copy, Debug, PartialEq, Eq)]
pub struct Refusal(pub u64);

impl fmt::Display for Refusal {
    fn fmt(&self, formatter: &mut fmt::Formatter) -> fmt::Result {
        write!(
            formatter,
            "refused under number {}: {}",
            self.0,
            meaning(self.0)
        )
    }
}

/// Why there is no answer: what is to be told, and the number under which the library refused, if it did.
#[derive(Debug, PartialEq, Eq)]
pub struct Failure {
    pub what: String,
    pub refusal: Option<Refusal>,
}

impl Failure {
    /// The same, of what stands in a file.
    pub fn in_file(self, path: &str) -> Self {
        Failure {
            what: format!("{path}: {}", self.what),
            ..self
        }
    }
}

impl From<String> for Failure {
    fn from(what: String) -> Self {
        Failure {
            what,
            refusal: None,
        }
    }
}

impl From<Refusal> for Failure {
    fn from(refusal: Refusal) -> Self {
        Failure {
            what: refusal.to_string(),
            refusal: Some(refusal),
        }
    }
}

fn meaning(number: u64) -> &'static str {
    match number {
        20 => "the image is under 20 bytes",
        21 => "n, the number of states, is 0 or above 64",
        22 => "k, the number of events, is 0 or above 64",
        23 => "m, the number of rows, is above 4,096",
        24 => "the image's length differs from 20 + 8k + 9m",
        25 => "the initial case or the final set has a bit at n or above",
        26 => "a pair breaks the span rule",
        27 => "a row's state or a bit of its case is n or above",
        30 => "the tables of one room differ in length",
        31 => "a room or the table of hints has over 65,536 places",
        32 => "an event is k or above",
        33 => "the record of the run is broken",
        35 => "the room for the print is too short",
        36 => "the edition is neither 1 nor 2",
        37 => "the way is neither 0 nor 1",
        _ => "no known reason",
    }
}
