//! The fields of an image that may be damaged already. What lies beyond its end is read as a number
//! that does no harm, and not written.

use crate::random::Random;

pub fn n(image: &[u8]) -> usize {
    usize::from(image.first().copied().unwrap_or(1))
}

pub fn k(image: &[u8]) -> usize {
    usize::from(image.get(1).copied().unwrap_or(1))
}

pub fn m(image: &[u8]) -> usize {
    match image.get(2..4) {
        Some(bytes) => usize::from(bytes[0]) + 256 * usize::from(bytes[1]),
        None => 0,
    }
}

pub fn put(image: &mut [u8], at: usize, bytes: &[u8]) {
    if let Some(place) = image.get_mut(at..at + bytes.len()) {
        place.copy_from_slice(bytes);
    }
}

pub fn set_m(image: &mut [u8], rows: usize) {
    put(image, 2, &(rows as u16).to_le_bytes());
}

pub fn set_bit(image: &mut [u8], at: usize, bit: usize) {
    if let Some(byte) = image.get_mut(at + bit / 8) {
        *byte |= 1 << (bit % 8);
    }
}

/// Makes the length the one that k and m ask for, as far as that is worth its time.
pub fn fit_length(image: &mut Vec<u8>) {
    let length = 20 + 8 * k(image) + 9 * m(image);
    image.resize(length.min(40_000), 0);
}

/// A number of 32 bits in the pairs, 0 where the image is too short.
pub fn pair_number(image: &[u8], at: usize) -> u32 {
    match image.get(at..at + 4) {
        Some(bytes) => u32::from_le_bytes(bytes.try_into().unwrap()),
        None => 0,
    }
}

/// One of `count` places: the first, the last or any.
pub fn some_place(count: usize, random: &mut Random) -> usize {
    let last = count.max(1) - 1;
    let any = random.within(0..=last);
    random.pick(&[0, last, any])
}

/// The byte at which a pair stands.
pub fn some_pair(image: &[u8], random: &mut Random) -> usize {
    20 + 8 * some_place(k(image), random)
}
