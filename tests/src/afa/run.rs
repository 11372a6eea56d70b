//! `afa_run`, called with every slice in guarded memory. It stands apart from the other functions so
//! that only those who use it need an archive that has it.

use super::lent::{Given, Memory};
use crate::fault;
use crate::guarded::{Edge, Untouchable};
use crate::tables::{Answer, Rooms, Tables, Terms};

/// As `include/afa.h` declares it.
pub mod interface {
    extern "C" {
        pub fn afa_run(
            image: *const u8,
            image_len: usize,
            masks: *mut u64,
            masks_len: usize,
            levels: *mut u32,
            levels_len: usize,
            entered: *mut u64,
            entered_len: usize,
            cases: *mut u64,
            cases_len: usize,
            symbols: *mut u8,
            symbols_len: usize,
            hints: *const u64,
            hints_len: usize,
            allowance: u64,
            edition: u64,
            way: u64,
            counts: *mut u64,
        ) -> u64;
    }
}

/// `afa_run` on slices as they are, and not on record: the benchmark times it alone.
pub fn run(image: &[u8], rooms: Rooms, terms: Terms<&[u64]>, counts: &mut [u64; 4]) -> u64 {
    // SAFETY: the pointers are to as many values as the lengths say.
    unsafe {
        on_slices!(
            interface::afa_run,
            image,
            rooms,
            terms,
            terms.allowance,
            terms.edition,
            terms.way,
            counts.as_mut_ptr(),
        )
    }
}

/// `afa_run` with five tables and hints of these lengths that may not be touched, and with an edition and
/// a way, for what must be refused.
pub fn run_untouchable(
    image: &[u8],
    lengths: [usize; 6],
    [edition, way]: [u64; 2],
    memory: &Untouchable,
    edge: Edge,
    counts: &mut [u64; 4],
) -> u64 {
    let shown = lengths.map(usize::to_be_bytes);
    let lent: [fault::Lent; 4] = [
        ("image", image),
        (
            "lengths of masks, levels, entered, cases, symbols and hints",
            shown.as_flattened(),
        ),
        ("edition", &edition.to_be_bytes()),
        ("way", &way.to_be_bytes()),
    ];
    // SAFETY: the pointers are to as many values as the lengths say; whoever touches them ends in a
    // signal, which is what is tested.
    fault::on_record("afa_run", &lent, || unsafe {
        on_untouchable!(
            interface::afa_run,
            image,
            lengths,
            memory,
            edge,
            100,
            edition,
            way,
            counts.as_mut_ptr(),
        )
    })
}

/// What `counts` holds before a call.
const COUNTS_BEFORE: [u64; 4] = [0x1111, 0x2222, 0x3333, 0x4444];

/// The function with the memory that is lent to it, mapped once and used for every call.
pub struct Runner {
    memory: Memory<4>,
}

impl Runner {
    pub fn new() -> Self {
        Runner {
            memory: Memory::new(),
        }
    }

    /// The answer, and what the tables hold after it.
    pub fn run(&mut self, image: &[u8], before: &Tables, terms: Terms<&[u64]>) -> (Answer, Tables) {
        let given = Given {
            image,
            before,
            terms,
        };
        let (number, counts, after) = self.memory.call("afa_run", given, COUNTS_BEFORE, run);
        let [steps, level, blockers, hints_accepted] = counts;
        let answer = Answer::of_numbers([number, steps, level, blockers, hints_accepted]);
        (answer, after)
    }
}

impl Default for Runner {
    fn default() -> Self {
        Runner::new()
    }
}
