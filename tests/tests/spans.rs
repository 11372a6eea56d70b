//! The span rule: offsets and lengths at every edge, and sums that wrap at 32 bits.

use afa_tests::afa::Library;
use afa_tests::compare::expect_number;
use afa_tests::image::{model_a, Model};

fn put_u32(image: &mut [u8], at: usize, number: u64) {
    image[at..at + 4].copy_from_slice(&u32::try_from(number).unwrap().to_le_bytes());
}

/// Every field of A's pairs at numbers about what it should be and about 2^31 and 2^32.
#[test]
fn numbers_in_pairs() {
    let mut library = Library::new();
    let image = model_a().image();
    for at in [20, 24, 28, 32] {
        let right = u64::from(image[at]);
        let near = (0..100).chain((1 << 31) - 50..(1 << 31) + 50);
        for number in near.chain((1 << 32) - 100..1 << 32) {
            let mut image = image.clone();
            put_u32(&mut image, at, number);
            expect_number(&mut library, &image, if number == right { 0 } else { 26 });
        }
    }
}

/// A first span that ends where it should and begins some rows early or late.
#[test]
fn first_offsets() {
    let mut library = Library::new();
    for (symbols, first_row) in [(1, 28), (2, 36)] {
        let mut image = Model::plain(2, symbols, 8).image();
        let length = u64::from(image[24]);
        for offset in 0..=first_row + length {
            put_u32(&mut image, 20, offset);
            put_u32(&mut image, 24, first_row + length - offset);
            let number = if offset == first_row { 0 } else { 26 };
            expect_number(&mut library, &image, number);
        }
    }
}

/// A bound between two spans at every byte, both lengths fitting it.
#[test]
fn bounds_between_rows() {
    let mut library = Library::new();
    let mut image = Model::plain(2, 2, 6).image();
    for first in 0..=54 {
        put_u32(&mut image, 24, first);
        put_u32(&mut image, 28, 36 + first);
        put_u32(&mut image, 32, 54 - first);
        expect_number(&mut library, &image, if first % 9 == 0 { 0 } else { 26 });
    }
}

/// Spans that fit in every way if sums are taken at 32 bits: nine of 2^32 - 4 bytes lead back by four
/// rows, which the last span makes up for.
#[test]
fn spans_that_wrap() {
    let mut library = Library::new();
    for rows in [0, 1, 4, 5, 100] {
        for symbols in 10..=20 {
            let mut image = Model::plain(3, symbols, rows).image();
            let mut offset = 20 + 8 * symbols as u64;
            for symbol in 0..symbols {
                let length = match symbol {
                    0..=8 => (1 << 32) - 4,
                    _ if symbol == symbols - 1 => image.len() as u64 - offset,
                    _ => 0,
                };
                assert_eq!(length % 9, 0);
                put_u32(&mut image, 20 + 8 * symbol, offset);
                put_u32(&mut image, 24 + 8 * symbol, length);
                offset = (offset + length) % (1 << 32);
            }
            assert_eq!(offset, image.len() as u64);
            expect_number(&mut library, &image, 26);
        }
    }
}
