//! The print of a word's run, event by event from the definition, and a reader of prints that knows
//! nothing of which rows are picked. What stands in quotes is the requirements'.

use crate::acceptance::backward_set;
use crate::checks::check;
use crate::image::{Model, Row};

/// One event of a run.
#[derive(Clone, Copy, Debug, PartialEq, Eq)]
pub struct Event {
    pub symbol: u8,
    /// The case reached.
    pub case: u64,
    /// The one that would be reached if each state picked the last row that fits: to know whether it
    /// matters that the first is picked.
    pub by_the_last: u64,
}

#[derive(Clone, Debug, PartialEq, Eq)]
pub struct Run {
    pub initial: u64,
    pub events: Vec<Event>,
}

impl Run {
    /// "A line with I, then for each event one with the symbol and the case reached." "Numbers are
    /// decimal with one space between, and each line ends in a newline."
    pub fn print(&self) -> String {
        let mut print = self.initial.to_string() + "\n";
        for event in &self.events {
            print += &event.symbol.to_string();
            print += " ";
            print += &event.case.to_string();
            print += "\n";
        }
        print
    }
}

/// The run of a word, or the number of the check that forbids it: "the word test's come first; a word
/// not accepted gives 0".
pub fn run(image: &[u8], word: &[u8]) -> Result<Run, u64> {
    let head = check(image)?;
    if word.iter().any(|&symbol| u64::from(symbol) >= head.k) {
        return Err(32);
    }
    let model = Model::of_image(image);
    let remaining = remaining_sets(&model, word);
    let initial = model.initial;
    if !is_subset(initial, remaining[0]) {
        return Err(0);
    }
    let mut case = initial;
    let events = word.iter().zip(&remaining[1..]).map(|(&symbol, &inside)| {
        let rows = &model.rows[usize::from(symbol)];
        let by_the_last = union_picked(rows.iter().rev(), case, inside);
        case = union_picked(rows.iter(), case, inside);
        Event {
            symbol,
            case,
            by_the_last,
        }
    });
    let events = events.collect();
    Ok(Run { initial, events })
}

/// "The backward set of what remains of the word": before the first event, after it, and so on to the
/// last, after which it is F.
fn remaining_sets(model: &Model, word: &[u8]) -> Vec<u64> {
    let mut set = model.final_set;
    let mut sets = vec![set];
    for &symbol in word.iter().rev() {
        set = backward_set(model, symbol, set);
        sets.push(set);
    }
    sets.reverse();
    sets
}

/// "Each state picks the first row in image order whose case lies inside" the set, and what is reached is
/// the union of the cases picked. The rows are the symbol's, in the order in which they are tried.
fn union_picked<'a>(rows: impl Iterator<Item = &'a Row> + Clone, case: u64, inside: u64) -> u64 {
    let mut union = 0;
    for state in (0..64).filter(|state| case >> state & 1 == 1) {
        let fits = |row: &&Row| row.state == state && is_subset(row.case, inside);
        let picked = rows.clone().find(fits);
        union |= picked.expect("a state of an accepting run has a row").case;
    }
    union
}

fn is_subset(part: u64, whole: u64) -> bool {
    part & !whole == 0
}

/// What the library answers, and what the room that it was lent holds then.
#[derive(Clone, Debug, PartialEq, Eq)]
pub struct Written {
    pub number: u64,
    pub length: u64,
    pub room: Vec<u8>,
}

impl Written {
    /// What a room that holds these bytes gets of the print, or of the number in its place: a room too
    /// short gives 35. "On success [..] (for the print of a word's run, 1) with that length, the bytes
    /// past it staying".
    pub fn new(print: &Result<String, u64>, before: &[u8]) -> Self {
        let print = match print {
            Err(number) => return Self::nothing(*number, before),
            Ok(print) if print.len() > before.len() => return Self::nothing(35, before),
            Ok(print) => print.as_bytes(),
        };
        let mut room = before.to_vec();
        room[..print.len()].copy_from_slice(print);
        Written {
            number: 1,
            length: print.len() as u64,
            room,
        }
    }

    /// "On every other number nothing is written and the length is 0."
    fn nothing(number: u64, before: &[u8]) -> Self {
        Written {
            number,
            length: 0,
            room: before.to_vec(),
        }
    }
}

/// What the lines of a print say.
#[derive(Clone, Debug, PartialEq, Eq)]
pub struct Lines {
    /// That of the first line, then those reached.
    pub cases: Vec<u64>,
    pub symbols: Vec<u8>,
}

impl Lines {
    /// Nothing if the bytes are no print, to the last of them.
    pub fn read(print: &[u8]) -> Option<Self> {
        let print = str::from_utf8(print).ok()?;
        let mut lines = print.strip_suffix('\n')?.split('\n');
        let mut cases = vec![decimal(lines.next()?)?];
        let mut symbols = Vec::new();
        for line in lines {
            let (symbol, case) = line.split_once(' ')?;
            symbols.push(decimal(symbol)?.try_into().ok()?);
            cases.push(decimal(case)?);
        }
        Some(Lines { cases, symbols })
    }
}

/// Digits and nothing else, with no zero in front of others.
fn decimal(text: &str) -> Option<u64> {
    let digits = text.bytes().all(|byte| byte.is_ascii_digit());
    let zero_in_front = text.len() > 1 && text.starts_with('0');
    if !digits || zero_in_front {
        return None;
    }
    text.parse().ok()
}
