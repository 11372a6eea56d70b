//! The library's C functions, and the calls of them with every slice in guarded memory. Each call is
//! made once with the slices at either edge, and both must answer alike. `afa_run`, `afa_begin` with
//! `afa_step`, `afa_print_run`, `afa_why` and `afa_walk` stand in modules of their own.

use crate::compare::hexadecimal;
use crate::fault;
use crate::guarded::{ReadOnly, Writable, EDGES};
use std::slice;

/// Calls a function of runs on the image, the rooms and the hints, each with its length, and on what else
/// it takes.
macro_rules! on_slices {
    ($function:path, $image:ident, $rooms:ident, $terms:ident, $($more:expr),+ $(,)?) => {
        $function(
            $image.as_ptr(),
            $image.len(),
            $rooms.masks.as_mut_ptr(),
            $rooms.masks.len(),
            $rooms.levels.as_mut_ptr(),
            $rooms.levels.len(),
            $rooms.entered.as_mut_ptr(),
            $rooms.entered.len(),
            $rooms.cases.as_mut_ptr(),
            $rooms.cases.len(),
            $rooms.symbols.as_mut_ptr(),
            $rooms.symbols.len(),
            $terms.hints.as_ptr(),
            $terms.hints.len(),
            $($more),+
        )
    };
}

/// The same on rooms and hints of these lengths that may not be touched.
macro_rules! on_untouchable {
    ($function:path, $image:ident, $lengths:ident, $memory:ident, $edge:ident, $($more:expr),+ $(,)?) => {{
        let [masks, levels, entered, cases, symbols, hints] = $lengths;
        $function(
            $image.as_ptr(),
            $image.len(),
            $memory.lend(masks, $edge),
            masks,
            $memory.lend(levels, $edge),
            levels,
            $memory.lend(entered, $edge),
            entered,
            $memory.lend(cases, $edge),
            cases,
            $memory.lend(symbols, $edge),
            symbols,
            $memory.lend(hints, $edge),
            hints,
            $($more),+
        )
    }};
}

mod lent;
pub mod print;
pub mod run;
pub mod step;
pub mod walk;
pub mod why;

/// As `include/afa.h` declares them.
pub mod interface {
    extern "C" {
        pub fn afa_read(image: *const u8, image_len: usize, head: *mut u64) -> u64;
        pub fn afa_accepts(
            image: *const u8,
            image_len: usize,
            word: *const u8,
            word_len: usize,
        ) -> u64;
    }
}

/// `afa_read` on slices as they are.
pub fn read(image: &[u8], head: &mut [u64; 5]) -> u64 {
    // SAFETY: the pointers are to as many bytes and numbers as the interface says.
    fault::on_record("afa_read", &[("image", image)], || unsafe {
        interface::afa_read(image.as_ptr(), image.len(), head.as_mut_ptr())
    })
}

/// `afa_accepts` on slices as they are.
pub fn accepts(image: &[u8], word: &[u8]) -> u64 {
    let lent = [("image", image), ("word", word)];
    // SAFETY: the pointers are to as many bytes as the lengths say.
    fault::on_record("afa_accepts", &lent, || unsafe {
        interface::afa_accepts(image.as_ptr(), image.len(), word.as_ptr(), word.len())
    })
}

/// The bytes of numbers of 32 or 64 bits, as they stand.
fn bytes_of<T: Copy + Into<u64>>(numbers: &[T]) -> &[u8] {
    // SAFETY: these are the same bytes, and any byte is a value.
    unsafe { slice::from_raw_parts(numbers.as_ptr().cast(), size_of_val(numbers)) }
}

/// The library with the memory that is lent to it, mapped once and used for every call.
pub struct Library {
    image: ReadOnly,
    word: ReadOnly,
    head: Writable,
}

impl Library {
    /// With room for images and words of 2^18 bytes.
    pub fn new() -> Self {
        Library {
            image: ReadOnly::with_room(1 << 18),
            word: ReadOnly::with_room(1 << 18),
            head: Writable::with_room(size_of::<[u64; 5]>()),
        }
    }

    /// The answer, and what `head` holds after it.
    pub fn read(&mut self, image: &[u8], head: [u64; 5]) -> (u64, [u64; 5]) {
        let answers = EDGES.map(|edge| {
            let image = self.image.lend(image, edge);
            let head = self.head.lend(&head, edge);
            let head: &mut [u64; 5] = head.try_into().expect("five numbers");
            (read(image, head), *head)
        });
        assert_eq!(
            answers[0],
            answers[1],
            "afa_read answers by where the image stands: {}",
            hexadecimal(image)
        );
        answers[0]
    }

    pub fn accepts(&mut self, image: &[u8], word: &[u8]) -> u64 {
        let answers = EDGES.map(|edge| {
            let image = self.image.lend(image, edge);
            let word = self.word.lend(word, edge);
            accepts(image, word)
        });
        assert_eq!(
            answers[0],
            answers[1],
            "afa_accepts answers by where the slices stand: {}, word {word:?}",
            hexadecimal(image)
        );
        answers[0]
    }
}

impl Default for Library {
    fn default() -> Self {
        Library::new()
    }
}
