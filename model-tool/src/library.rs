//! The functions of `include/afa.h`, each behind a safe one that takes slices. The lengths that the
//! library is told are those of the slices, and a table that it writes is borrowed for it alone: so what
//! the header asks of a caller holds in every call. This is the only module that calls the library.

#[cfg(test)]
mod tests;

use crate::numbers::Refusal;

/// Declares functions of runs: all take the image, the tables and the hints, each with its length, and more.
macro_rules! functions_of_runs {
    ($($function:ident($($more:ident: $kind:ty),+);)+) => {
        extern "C" {
            $(pub fn $function(
                image: *const u8,
                image_len: usize,
                masks: *mut u64,
                masks_len: usize,
                levels: *mut u32,
                levels_len: usize,
                entered: *mut u64,
                entered_len: usize,
                cases: *mut u64,
                cases_len: usize,
                symbols: *mut u8,
                symbols_len: usize,
                hints: *const u64,
                hints_len: usize,
                $($more: $kind),+
            ) -> u64;)+
        }
    };
}

/// As `include/afa.h` declares them.
mod interface {
    extern "C" {
        pub fn afa_read(image: *const u8, image_len: usize, head: *mut u64) -> u64;
        pub fn afa_accepts(
            image: *const u8,
            image_len: usize,
            word: *const u8,
            word_len: usize,
        ) -> u64;
        pub fn afa_print_run(
            image: *const u8,
            image_len: usize,
            word: *const u8,
            word_len: usize,
            room: *mut u8,
            room_len: usize,
            length: *mut u64,
        ) -> u64;
        pub fn afa_why(
            initial: u64,
            masks: *const u64,
            masks_len: usize,
            levels: *const u32,
            levels_len: usize,
            level: u64,
            mask: u64,
            found: *mut u64,
        ) -> u64;
    }

    functions_of_runs! {
        afa_run(allowance: u64, edition: u64, way: u64, counts: *mut u64);
        afa_begin(edition: u64, way: u64, record: *mut u64);
        afa_step(allowance: u64, edition: u64, way: u64, record: *mut u64);
    }
}

/// Calls a function of runs on the image, the tables and the hints, each with its length, and on what
/// else it takes.
macro_rules! on_slices {
    ($function:ident, $image:ident, $rooms:ident, $terms:ident, $($more:expr),+) => {
        interface::$function(
            $image.as_ptr(),
            $image.len(),
            $rooms.masks.as_mut_ptr(),
            $rooms.masks.len(),
            $rooms.levels.as_mut_ptr(),
            $rooms.levels.len(),
            $rooms.entered.as_mut_ptr(),
            $rooms.entered.len(),
            $rooms.cases.as_mut_ptr(),
            $rooms.cases.len(),
            $rooms.symbols.as_mut_ptr(),
            $rooms.symbols.len(),
            $terms.hints.as_ptr(),
            $terms.hints.len(),
            $($more),+
        )
    };
}

/// The answer of a run that works.
pub const WORKING: u64 = 6;

/// The most places that a room may have, and the most hints.
pub const MOST_PLACES: usize = 65_536;

/// The two rooms of a run: masks, levels and entered for blockers, cases and symbols for pending cases
/// and the word.
pub struct Rooms<'a> {
    pub masks: &'a mut [u64],
    pub levels: &'a mut [u32],
    pub entered: &'a mut [u64],
    pub cases: &'a mut [u64],
    pub symbols: &'a mut [u8],
}

/// What a run is given beside its rooms. A begin has no use for the allowance.
#[derive(Clone, Copy, Debug)]
pub struct Terms<'a> {
    pub hints: &'a [u64],
    pub allowance: u64,
    pub edition: u64,
    pub way: u64,
}

/// What a run by steps carries from call to call beside its rooms.
#[derive(Clone, Copy, Debug, Default, PartialEq, Eq)]
pub struct Record {
    pub answer: u64,
    pub steps: u64,
    pub level: u64,
    pub open: u64,
    pub held: u64,
    pub pending: u64,
    pub blocks: u64,
    pub accepted: u64,
}

impl Record {
    pub fn numbers(&self) -> [u64; 8] {
        [
            self.answer,
            self.steps,
            self.level,
            self.open,
            self.held,
            self.pending,
            self.blocks,
            self.accepted,
        ]
    }

    pub fn from_numbers(numbers: [u64; 8]) -> Self {
        let [answer, steps, level, open, held, pending, blocks, accepted] = numbers;
        Record {
            answer,
            steps,
            level,
            open,
            held,
            pending,
            blocks,
            accepted,
        }
    }
}

/// n, k, m, I and F of an image; or why it is refused.
pub fn read(image: &[u8]) -> Result<[u64; 5], Refusal> {
    let mut head = [0; 5];
    // SAFETY: image is good for its length, and head for five numbers.
    let number = unsafe { interface::afa_read(image.as_ptr(), image.len(), head.as_mut_ptr()) };
    match number {
        0 => Ok(head),
        number => Err(Refusal(number)),
    }
}

/// 1 if the word is accepted, 0 if not; or the refusing number.
pub fn accepts(image: &[u8], word: &[u8]) -> u64 {
    // SAFETY: image and word are good for their lengths.
    unsafe { interface::afa_accepts(image.as_ptr(), image.len(), word.as_ptr(), word.len()) }
}

/// The number, and how many bytes of the room were written.
pub fn print_run(image: &[u8], word: &[u8], room: &mut [u8]) -> (u64, u64) {
    let mut length = 0;
    // SAFETY: image, word and room are good for their lengths, and length for one number.
    let number = unsafe {
        interface::afa_print_run(
            image.as_ptr(),
            image.len(),
            word.as_ptr(),
            word.len(),
            room.as_mut_ptr(),
            room.len(),
            &mut length,
        )
    };
    (number, length)
}

/// The run's number, then steps, level, blockers held and hints accepted.
pub fn run(image: &[u8], rooms: Rooms, terms: Terms) -> [u64; 5] {
    let mut counts = [0; 4];
    // SAFETY: every slice is good for its length, those that are written are borrowed for this call
    // alone, and counts is good for four numbers.
    let number = unsafe {
        on_slices!(
            afa_run,
            image,
            rooms,
            terms,
            terms.allowance,
            terms.edition,
            terms.way,
            counts.as_mut_ptr()
        )
    };
    let [steps, level, held, accepted] = counts;
    [number, steps, level, held, accepted]
}

/// The record of a run that was begun, or one whose answer refuses it.
pub fn begin(image: &[u8], rooms: Rooms, terms: Terms) -> Record {
    let mut record = [0; 8];
    // SAFETY: as for a run; record is good for eight numbers.
    unsafe {
        on_slices!(
            afa_begin,
            image,
            rooms,
            terms,
            terms.edition,
            terms.way,
            record.as_mut_ptr()
        );
    }
    Record::from_numbers(record)
}

/// The answer, which is also the record's, or the number that refuses the step.
pub fn step(image: &[u8], rooms: Rooms, terms: Terms, record: &mut Record) -> u64 {
    let mut numbers = record.numbers();
    // SAFETY: as for a run; numbers has eight places.
    let answer = unsafe {
        on_slices!(
            afa_step,
            image,
            rooms,
            terms,
            terms.allowance,
            terms.edition,
            terms.way,
            numbers.as_mut_ptr()
        )
    };
    *record = Record::from_numbers(numbers);
    answer
}

/// Why a case is blocked at a level of these blockers.
#[derive(Clone, Copy, Debug, PartialEq, Eq)]
pub enum Why {
    /// It is not blocked there.
    Not,
    /// By the blocker at this place, from 0, of this level.
    Blocker { place: u64, level: u64 },
    /// At level 0, as it lacks this initial state.
    Start { state: u64 },
}

pub fn why(initial: u64, masks: &[u64], levels: &[u32], level: u64, mask: u64) -> Why {
    let mut found = [0; 2];
    // SAFETY: masks and levels are good for their lengths, and found for two numbers.
    let number = unsafe {
        interface::afa_why(
            initial,
            masks.as_ptr(),
            masks.len(),
            levels.as_ptr(),
            levels.len(),
            level,
            mask,
            found.as_mut_ptr(),
        )
    };
    match (number, found) {
        (1, [place, level]) => Why::Blocker { place, level },
        (2, [state, _]) => Why::Start { state },
        _ => Why::Not,
    }
}
