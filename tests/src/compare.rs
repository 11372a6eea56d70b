//! The comparisons of the library with the reference. A comparison that fails says what is needed to
//! make it again.

use crate::acceptance::accepts_backwards;
use crate::afa::Library;
use crate::checks::{check, Head};
use crate::image::Model;
use std::fmt::Display;

pub mod print;
pub mod run;
pub mod steps;
pub mod walk;
pub mod why;

/// What `head` holds before a call, other numbers for other images.
fn filling(image: &[u8]) -> [u64; 5] {
    let seed = image.iter().fold(image.len() as u64, |seed, &byte| {
        seed.rotate_left(5) ^ u64::from(byte)
    });
    [1, 2, 3, 4, 5].map(|place: u64| (seed ^ place).wrapping_mul(0x9e37_79b9_7f4a_7c15))
}

/// `afa_read` on any bytes: the number, and the head's five numbers or what was there before.
pub fn compare_read(
    library: &mut Library,
    image: &[u8],
    origin: &dyn Display,
) -> Result<Head, u64> {
    let before = filling(image);
    let checked = check(image);
    let expected = match &checked {
        Ok(head) => (0, head.numbers()),
        Err(number) => (*number, before),
    };
    let answered = library.read(image, before);
    assert!(
        answered == expected,
        "afa_read\n{origin}\nimage {}\nhead before {before:?}\nexpected {expected:?}\ngot {answered:?}",
        hexadecimal(image)
    );
    checked
}

/// `afa_accepts` on a valid model's image. Answers the number expected.
pub fn compare_word(library: &mut Library, model: &Model, image: &[u8], word: &[u8]) -> u64 {
    let known = |symbol: &u8| usize::from(*symbol) < model.symbols();
    let expected = if word.iter().all(known) {
        u64::from(accepts_backwards(model, word))
    } else {
        32
    };
    let answered = library.accepts(image, word);
    assert!(
        answered == expected,
        "afa_accepts\nmodel {model}\nimage {}\nword {word:?}\nexpected {expected}, got {answered}",
        hexadecimal(image)
    );
    expected
}

/// Both functions on any bytes. Answers the number of the image's checks, or 0.
pub fn compare_image(
    library: &mut Library,
    image: &[u8],
    words: &[Vec<u8>],
    origin: &dyn Display,
) -> u64 {
    match compare_read(library, image, origin) {
        Ok(_) => {
            let model = Model::of_image(image);
            for word in words {
                compare_word(library, &model, image, word);
            }
            0
        }
        Err(number) => {
            for word in words {
                let answered = library.accepts(image, word);
                assert!(
                    answered == number,
                    "afa_accepts\n{origin}\nimage {}\nword {word:?}\nexpected {number}, got {answered}",
                    hexadecimal(image)
                );
            }
            number
        }
    }
}

/// Both functions on any bytes against the checks, and these against the number said.
pub fn expect_number(library: &mut Library, image: &[u8], number: u64) {
    let words = [vec![], vec![0], vec![255]];
    let origin = format!("expected to give {number}");
    let answered = compare_image(library, image, &words, &origin);
    assert!(
        answered == number,
        "image {}\nexpected {number}, the checks give {answered}",
        hexadecimal(image)
    );
}

pub fn hexadecimal(bytes: &[u8]) -> String {
    bytes.iter().map(|byte| format!("{byte:02x}")).collect()
}
