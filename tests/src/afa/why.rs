//! `afa_why`, called with every slice in guarded memory. It stands apart from the other functions so
//! that only those who use it need an archive that has it.

use super::bytes_of;
use crate::fault;
use crate::guarded::{Edge, ReadOnly, Writable, EDGES};
use crate::why::{Found, Question};

/// As `include/afa.h` declares it.
pub mod interface {
    extern "C" {
        pub fn afa_why(
            initial: u64,
            masks: *const u64,
            masks_len: usize,
            levels: *const u32,
            levels_len: usize,
            level: u64,
            mask: u64,
            found: *mut u64,
        ) -> u64;
    }
}

/// `afa_why` on slices as they are.
pub fn why(question: &Question, found: &mut [u64; 2]) -> u64 {
    why_said_longer(question, question.lengths(), found)
}

/// `afa_why` with lengths of masks and levels of which one may be longer than the slice: as if what
/// stands behind it were lent as well, and not to be touched.
pub fn why_said_longer(question: &Question, lengths: [usize; 2], found: &mut [u64; 2]) -> u64 {
    let Question {
        initial,
        masks,
        levels,
        level,
        case,
    } = *question;
    let [masks_length, levels_length] = lengths;
    let shorter = masks_length.min(levels_length);
    assert!(shorter <= masks.len() && shorter <= levels.len());
    let numbers = [initial, level, case].map(u64::to_be_bytes);
    let shown = lengths.map(usize::to_be_bytes);
    let lent: [fault::Lent; 4] = [
        ("initial, level and mask", numbers.as_flattened()),
        ("lengths of masks and levels", shown.as_flattened()),
        ("masks, lowest byte first", bytes_of(masks)),
        ("levels, lowest byte first", bytes_of(levels)),
    ];
    // SAFETY: the pointers are to as many values as the shorter length says, and two are found; whoever
    // walks on from there in the longer one ends in a signal, which is what is tested.
    fault::on_record("afa_why", &lent, || unsafe {
        interface::afa_why(
            initial,
            masks.as_ptr(),
            masks_length,
            levels.as_ptr(),
            levels_length,
            level,
            case,
            found.as_mut_ptr(),
        )
    })
}

/// What `found` holds before a call. It is never found: no table has so many places.
const FOUND_BEFORE: [u64; 2] = [0x1111_1111_1111_1111, 0x2222_2222_2222_2222];

/// The function with the memory that is lent to it, mapped once and used for every call.
pub struct Asker {
    masks: ReadOnly,
    levels: ReadOnly,
    found: Writable,
}

impl Asker {
    /// With room for tables of 2^18 places.
    pub fn new() -> Self {
        const PLACES: usize = 1 << 18;
        Asker {
            masks: ReadOnly::with_room(PLACES * size_of::<u64>()),
            levels: ReadOnly::with_room(PLACES * size_of::<u32>()),
            found: Writable::with_room(size_of::<[u64; 2]>()),
        }
    }

    /// The answer, and what `found` holds after it.
    pub fn ask(&mut self, question: &Question) -> Found {
        let [first, second] = EDGES.map(|edge| self.ask_at(edge, question));
        assert!(
            first == second,
            "afa_why answers by where the slices stand: {}: {first:?} and {second:?}",
            question.shown()
        );
        first
    }

    fn ask_at(&mut self, edge: Edge, question: &Question) -> Found {
        let lent = Question {
            masks: self.masks.lend(question.masks, edge),
            levels: self.levels.lend(question.levels, edge),
            ..*question
        };
        let found = self.found.lend(&FOUND_BEFORE, edge);
        let found: &mut [u64; 2] = found.try_into().expect("two numbers");
        Found {
            number: why(&lent, found),
            found: *found,
        }
    }
}

impl Default for Asker {
    fn default() -> Self {
        Asker::new()
    }
}
