//! The comparison of `afa_print_run` with the tests' own print, byte by byte, and what was seen by it.

use crate::acceptance::Runs;
use crate::afa::print::Printer;
use crate::compare::hexadecimal;
use crate::print::{run, Lines, Run, Written};
use std::collections::BTreeMap;
use std::fmt::{self, Display};

/// How often the answers were seen, and what was printed.
#[derive(Clone, Debug, Default)]
pub struct Seen {
    pub asked: usize,
    pub by_number: BTreeMap<u64, usize>,
    /// Prints into a room of just their length.
    pub just_fitting: usize,
    /// Runs, each counted once however many rooms it was printed into.
    pub runs: usize,
    pub events: usize,
    /// Events that lead to another case than the one before.
    pub moved: usize,
    /// Events that would lead elsewhere by the last rows that fit.
    pub first_matters: usize,
    /// The symbols of the longest word printed.
    pub longest: usize,
    /// Cases by how many digits they have, I among them.
    pub by_digits: [usize; 21],
    /// Prints that were found to show a run by the definition.
    pub found: usize,
}

impl Seen {
    fn run(&mut self, run: &Run) {
        self.runs += 1;
        self.events += run.events.len();
        self.longest = self.longest.max(run.events.len());
        self.case(run.initial);
        let mut before = run.initial;
        for event in &run.events {
            self.case(event.case);
            self.moved += usize::from(event.case != before);
            self.first_matters += usize::from(event.case != event.by_the_last);
            before = event.case;
        }
    }

    fn case(&mut self, case: u64) {
        self.by_digits[case.to_string().len()] += 1;
    }

    fn answer(&mut self, written: &Written) {
        self.asked += 1;
        *self.by_number.entry(written.number).or_default() += 1;
        let fits = written.number == 1 && written.length == written.room.len() as u64;
        self.just_fitting += usize::from(fits);
    }

    /// Each of the numbers came at least so often.
    pub fn assert_each(&self, numbers: impl IntoIterator<Item = u64>, least: usize) {
        for number in numbers {
            let count = self.by_number.get(&number).copied().unwrap_or(0);
            assert!(count >= least, "{number} came {count} times");
        }
    }
}

impl Display for Seen {
    fn fmt(&self, out: &mut fmt::Formatter<'_>) -> fmt::Result {
        write!(out, "{} rooms", self.asked)?;
        for (number, count) in &self.by_number {
            write!(out, ", {count} gave {number}")?;
        }
        write!(
            out,
            "; {} prints just fitted; {} runs of {} events, at most {}, of which {} led to another \
             case and {} elsewhere by the last rows; {} found by a search; cases by digits {:?}",
            self.just_fitting,
            self.runs,
            self.events,
            self.longest,
            self.moved,
            self.first_matters,
            self.found,
            &self.by_digits[1..]
        )
    }
}

/// The lengths of the rooms to ask for, by that of the print; it is 0 where there is none.
pub type Rooms = fn(usize) -> Vec<usize>;

/// All up to three bytes more than the print takes.
pub fn every_room(length: usize) -> Vec<usize> {
    (0..=length + 3).collect()
}

/// One without a place, those up to two bytes from the print's length, and one that is much longer.
pub fn rooms_about(length: usize) -> Vec<usize> {
    let mut rooms = vec![0, length + 300];
    rooms.extend(length.saturating_sub(2)..=length + 2);
    rooms
}

/// One that just fits, and one that just does not.
pub fn two_rooms(length: usize) -> Vec<usize> {
    vec![length, length.saturating_sub(1)]
}

/// What a room holds before a call: bytes that no print has, and each of which differs from those about
/// it.
pub fn filling(length: usize) -> Vec<u8> {
    (0..length).map(|place| 128 + (place % 127) as u8).collect()
}

/// A word by its length and its first symbols, up to 500.
pub fn shown(word: &[u8]) -> String {
    let first = &word[..word.len().min(500)];
    format!("word of {} symbols {first:?}", word.len())
}

#[derive(Default)]
pub struct Comparison {
    printer: Printer,
    pub seen: Seen,
}

impl Comparison {
    /// The print that the library and the tests agree on, in each of the rooms; or the number in its
    /// place.
    pub fn ask(
        &mut self,
        image: &[u8],
        word: &[u8],
        rooms: Rooms,
        origin: &dyn Display,
    ) -> Result<String, u64> {
        let run = run(image, word);
        if let Ok(run) = &run {
            self.seen.run(run);
        }
        let print = run.map(|run| run.print());
        for room in rooms(print.as_ref().map_or(0, String::len)) {
            self.ask_room(image, word, &print, room, origin);
        }
        print
    }

    fn ask_room(
        &mut self,
        image: &[u8],
        word: &[u8],
        print: &Result<String, u64>,
        room: usize,
        origin: &dyn Display,
    ) {
        let before = filling(room);
        let expected = Written::new(print, &before);
        self.seen.answer(&expected);
        let answered = self.printer.print_run(image, word, &before);
        assert!(
            answered == expected,
            "afa_print_run\n{origin}\nimage {}\n{}\nroom of {room}\nexpected {} with length {}, got {} \
             with length {}{}",
            hexadecimal(image),
            shown(word),
            expected.number,
            expected.length,
            answered.number,
            answered.length,
            first_difference(&expected.room, &answered.room)
        );
    }

    /// The same in every room, where the print or the number in its place is known beforehand.
    pub fn expect(&mut self, image: &[u8], word: &[u8], expected: Result<&str, u64>) {
        let answer = self.ask(image, word, every_room, &"expected to be known");
        assert!(
            answer == expected.map(String::from),
            "image {}\nword {word:?}\nexpected {expected:?}, the tests' own answer is {answer:?}",
            hexadecimal(image)
        );
    }

    /// That a print shows a run over the word by the definition. It is searched for without regard to
    /// which of its rows a state is to pick.
    pub fn assert_run(&mut self, runs: &Runs, word: &[u8], print: &str, origin: &dyn Display) {
        let lines = Lines::read(print.as_bytes());
        let lines = lines.unwrap_or_else(|| panic!("{origin}\n{}\nis printed amiss", shown(word)));
        // Enough for each state's first pick in each event, and for some to be taken back.
        let cap = 100 * (word.len() + 1);
        let is_run = runs.is_run(word, &lines.cases, cap);
        assert!(
            lines.symbols == word && is_run == Some(true),
            "{origin}\n{}\nits print is of another word or no run: {:?}",
            shown(word),
            &print[..print.len().min(2_000)]
        );
        self.seen.found += 1;
    }
}

/// Where the rooms first differ, and what stands there.
fn first_difference(expected: &[u8], got: &[u8]) -> String {
    let mut pairs = expected.iter().zip(got);
    match pairs.position(|(expected, got)| expected != got) {
        None => String::new(),
        Some(place) => {
            let from = place.saturating_sub(30);
            let shown = |room: &[u8]| {
                room[from..room.len().min(place + 30)]
                    .escape_ascii()
                    .to_string()
            };
            format!(
                "\nbyte {place} of the room, from {from} on expected {}\n{} got {}",
                shown(expected),
                " ".repeat(33),
                shown(got)
            )
        }
    }
}
