//! `afa_print_run`, called with every slice in guarded memory. It stands apart from the other functions
//! so that only those who use it need an archive that has it.

use crate::compare::hexadecimal;
use crate::compare::print::shown;
use crate::fault;
use crate::guarded::{Edge, ReadOnly, Writable, EDGES};
use crate::print::Written;

/// As `include/afa.h` declares it.
pub mod interface {
    extern "C" {
        pub fn afa_print_run(
            image: *const u8,
            image_len: usize,
            word: *const u8,
            word_len: usize,
            room: *mut u8,
            room_len: usize,
            length: *mut u64,
        ) -> u64;
    }
}

/// `afa_print_run` on slices as they are.
pub fn print_run(image: &[u8], word: &[u8], room: &mut [u8], length: &mut [u64; 1]) -> u64 {
    let room_length = room.len();
    print_run_said_longer(image, word, room, room_length, length)
}

/// `afa_print_run` with a length of the room that may be longer than the slice: as if what stands behind
/// it were lent as well, and not to be touched.
pub fn print_run_said_longer(
    image: &[u8],
    word: &[u8],
    room: &mut [u8],
    room_length: usize,
    length: &mut [u64; 1],
) -> u64 {
    assert!(room_length >= room.len());
    let lent: [fault::Lent; 3] = [
        ("image", image),
        ("word", word),
        ("length of the room", &room_length.to_be_bytes()),
    ];
    // SAFETY: the pointers are to as many bytes as the lengths say, but for the room's, and to one
    // number; whoever goes on behind the room's slice ends in a signal, which is what is tested.
    fault::on_record("afa_print_run", &lent, || unsafe {
        interface::afa_print_run(
            image.as_ptr(),
            image.len(),
            word.as_ptr(),
            word.len(),
            room.as_mut_ptr(),
            room_length,
            length.as_mut_ptr(),
        )
    })
}

/// What `length` holds before a call. It is never an answer: no print is so long.
const LENGTH_BEFORE: [u64; 1] = [0x1111_1111_1111_1111];

/// The function with the memory that is lent to it, mapped once and used for every call.
pub struct Printer {
    image: ReadOnly,
    word: ReadOnly,
    room: Writable,
    length: Writable,
}

impl Printer {
    /// With room for images of 2^18 bytes, words of 2^19 symbols and prints of 2^23 bytes.
    pub fn new() -> Self {
        Printer {
            image: ReadOnly::with_room(1 << 18),
            word: ReadOnly::with_room(1 << 19),
            room: Writable::with_room(1 << 23),
            length: Writable::with_room(size_of::<[u64; 1]>()),
        }
    }

    /// The answer, and what the room holds after it.
    pub fn print_run(&mut self, image: &[u8], word: &[u8], before: &[u8]) -> Written {
        let [first, second] = EDGES.map(|edge| self.print_run_at(edge, image, word, before));
        assert!(
            first == second,
            "afa_print_run answers by where the slices stand: {}, {}, room of {}: {} with length {} and \
             {} with length {}",
            hexadecimal(image),
            shown(word),
            before.len(),
            first.number,
            first.length,
            second.number,
            second.length
        );
        first
    }

    fn print_run_at(&mut self, edge: Edge, image: &[u8], word: &[u8], before: &[u8]) -> Written {
        let image = self.image.lend(image, edge);
        let word = self.word.lend(word, edge);
        let room = self.room.lend(before, edge);
        let length = self.length.lend(&LENGTH_BEFORE, edge);
        let length: &mut [u64; 1] = length.try_into().expect("one number");
        let number = print_run(image, word, room, length);
        Written {
            number,
            length: length[0],
            room: room.to_vec(),
        }
    }
}

impl Default for Printer {
    fn default() -> Self {
        Printer::new()
    }
}
