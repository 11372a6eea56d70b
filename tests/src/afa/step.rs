//! `afa_begin` and `afa_step`, called with every slice and the record in guarded memory. They stand apart
//! from the other functions so that only those who use them need an archive that has them.

use super::lent::{Given, Memory};
use crate::fault;
use crate::guarded::{Edge, Untouchable};
use crate::record::Record;
use crate::tables::{Rooms, Tables, Terms};

/// As `include/afa.h` declares them.
pub mod interface {
    extern "C" {
        pub fn afa_begin(
            image: *const u8,
            image_len: usize,
            masks: *mut u64,
            masks_len: usize,
            levels: *mut u32,
            levels_len: usize,
            entered: *mut u64,
            entered_len: usize,
            cases: *mut u64,
            cases_len: usize,
            symbols: *mut u8,
            symbols_len: usize,
            hints: *const u64,
            hints_len: usize,
            edition: u64,
            way: u64,
            record: *mut u64,
        ) -> u64;
        pub fn afa_step(
            image: *const u8,
            image_len: usize,
            masks: *mut u64,
            masks_len: usize,
            levels: *mut u32,
            levels_len: usize,
            entered: *mut u64,
            entered_len: usize,
            cases: *mut u64,
            cases_len: usize,
            symbols: *mut u8,
            symbols_len: usize,
            hints: *const u64,
            hints_len: usize,
            allowance: u64,
            edition: u64,
            way: u64,
            record: *mut u64,
        ) -> u64;
    }
}

/// `afa_begin` on slices as they are, and not on record. It is given no allowance.
pub fn begin(image: &[u8], rooms: Rooms, terms: Terms<&[u64]>, record: &mut [u64; 8]) -> u64 {
    // SAFETY: the pointers are to as many values as the lengths say, and to eight numbers.
    unsafe {
        on_slices!(
            interface::afa_begin,
            image,
            rooms,
            terms,
            terms.edition,
            terms.way,
            record.as_mut_ptr(),
        )
    }
}

/// `afa_step` on slices as they are, and not on record: the benchmark times it alone.
pub fn step(image: &[u8], rooms: Rooms, terms: Terms<&[u64]>, record: &mut [u64; 8]) -> u64 {
    // SAFETY: the pointers are to as many values as the lengths say, and to eight numbers.
    unsafe {
        on_slices!(
            interface::afa_step,
            image,
            rooms,
            terms,
            terms.allowance,
            terms.edition,
            terms.way,
            record.as_mut_ptr(),
        )
    }
}

/// `afa_begin` with five tables and hints of these lengths that may not be touched, and with an edition
/// and a way, for what must be refused.
pub fn begin_untouchable(
    image: &[u8],
    lengths: [usize; 6],
    [edition, way]: [u64; 2],
    memory: &Untouchable,
    edge: Edge,
    record: &mut [u64; 8],
) -> u64 {
    let shown = lengths.map(usize::to_be_bytes);
    let lent: [fault::Lent; 4] = [
        ("image", image),
        (
            "lengths of masks, levels, entered, cases, symbols and hints",
            shown.as_flattened(),
        ),
        ("edition", &edition.to_be_bytes()),
        ("way", &way.to_be_bytes()),
    ];
    // SAFETY: the pointers are to as many values as the lengths say; whoever touches them ends in a
    // signal, which is what is tested.
    fault::on_record("afa_begin", &lent, || unsafe {
        on_untouchable!(
            interface::afa_begin,
            image,
            lengths,
            memory,
            edge,
            edition,
            way,
            record.as_mut_ptr(),
        )
    })
}

/// `afa_step` with an allowance of 100 and the same, for what must be refused, or is finished.
pub fn step_untouchable(
    image: &[u8],
    lengths: [usize; 6],
    [edition, way]: [u64; 2],
    memory: &Untouchable,
    edge: Edge,
    record: &mut [u64; 8],
) -> u64 {
    let shown = lengths.map(usize::to_be_bytes);
    let before = record.map(u64::to_be_bytes);
    let lent: [fault::Lent; 5] = [
        ("image", image),
        (
            "lengths of masks, levels, entered, cases, symbols and hints",
            shown.as_flattened(),
        ),
        ("edition", &edition.to_be_bytes()),
        ("way", &way.to_be_bytes()),
        ("record", before.as_flattened()),
    ];
    // SAFETY: the pointers are to as many values as the lengths say; whoever touches them ends in a
    // signal, which is what is tested.
    fault::on_record("afa_step", &lent, || unsafe {
        on_untouchable!(
            interface::afa_step,
            image,
            lengths,
            memory,
            edge,
            100,
            edition,
            way,
            record.as_mut_ptr(),
        )
    })
}

/// What the record holds before a begin. It is never an answer.
const RECORD_BEFORE: [u64; 8] = [
    0x1111, 0x2222, 0x3333, 0x4444, 0x5555, 0x6666, 0x7777, 0x8888,
];

/// The answer, the record and the tables after a call.
pub type Stepped = (u64, Record, Tables);

/// The functions with the memory that is lent to them, mapped once and used for every call.
pub struct Stepper {
    memory: Memory<8>,
}

impl Stepper {
    pub fn new() -> Self {
        Stepper {
            memory: Memory::new(),
        }
    }

    pub fn begin(&mut self, image: &[u8], before: &Tables, terms: Terms<&[u64]>) -> Stepped {
        let given = Given {
            image,
            before,
            terms,
        };
        let (answer, record, after) = self.memory.call("afa_begin", given, RECORD_BEFORE, begin);
        (answer, Record::of_numbers(record), after)
    }

    pub fn step(
        &mut self,
        image: &[u8],
        before: &Tables,
        terms: Terms<&[u64]>,
        record: &Record,
    ) -> Stepped {
        let given = Given {
            image,
            before,
            terms,
        };
        let (answer, record, after) = self.memory.call("afa_step", given, record.numbers(), step);
        (answer, Record::of_numbers(record), after)
    }
}

impl Default for Stepper {
    fn default() -> Self {
        Stepper::new()
    }
}
