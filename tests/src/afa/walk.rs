//! `afa_walk`, called with every slice in guarded memory. It is for the tests alone: it stands in an
//! archive of its own, and `include/afa.h` does not declare it.

use crate::compare::hexadecimal;
use crate::fault;
use crate::guarded::{ReadOnly, Writable, EDGES};

pub mod interface {
    extern "C" {
        pub fn afa_walk(
            image: *const u8,
            image_len: usize,
            symbol: u64,
            mask: u64,
            walked: *mut u64,
        ) -> u64;
    }
}

/// `afa_walk` on slices as they are.
pub fn walk(image: &[u8], symbol: u64, case: u64, walked: &mut [u64; 2]) -> u64 {
    let numbers = [symbol, case].map(u64::to_be_bytes);
    let lent: [fault::Lent; 2] = [
        ("image", image),
        ("symbol and mask", numbers.as_flattened()),
    ];
    // SAFETY: the pointers are to as many bytes as the length says, and to two numbers.
    fault::on_record("afa_walk", &lent, || unsafe {
        interface::afa_walk(
            image.as_ptr(),
            image.len(),
            symbol,
            case,
            walked.as_mut_ptr(),
        )
    })
}

/// What `walked` holds before a call. It is never an answer: no symbol has so many rows.
pub const WALKED_BEFORE: [u64; 2] = [0x1111_1111_1111_1111, 0x2222_2222_2222_2222];

/// The function with the memory that is lent to it, mapped once and used for every call.
pub struct Walker {
    image: ReadOnly,
    walked: Writable,
}

impl Walker {
    /// With room for images of 2^18 bytes.
    pub fn new() -> Self {
        Walker {
            image: ReadOnly::with_room(1 << 18),
            walked: Writable::with_room(size_of::<[u64; 2]>()),
        }
    }

    /// The answer, and what `walked` holds after it.
    pub fn walk(&mut self, image: &[u8], symbol: u64, case: u64) -> (u64, [u64; 2]) {
        let answers = EDGES.map(|edge| {
            let image = self.image.lend(image, edge);
            let walked = self.walked.lend(&WALKED_BEFORE, edge);
            let walked: &mut [u64; 2] = walked.try_into().expect("two numbers");
            (walk(image, symbol, case, walked), *walked)
        });
        assert_eq!(
            answers[0],
            answers[1],
            "afa_walk answers by where the slices stand: {}, symbol {symbol}, case {case}",
            hexadecimal(image)
        );
        answers[0]
    }
}

impl Default for Walker {
    fn default() -> Self {
        Walker::new()
    }
}
