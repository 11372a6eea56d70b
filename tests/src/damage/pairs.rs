//! Damage to the pairs of offset and length.

#![allow(clippy::ptr_arg)] // one type for all damages

use super::fields::{k, pair_number, put, some_pair};
use crate::random::Random;

/// Numbers at which a check could be off by one or wrap.
const TELLING: [u32; 16] = [
    0,
    1,
    8,
    9,
    18,
    20,
    28,
    36,
    0x0000_ffff,
    0x0001_0000,
    0x7fff_ffff,
    0x8000_0000,
    0xffff_fff3, // 2^32 - 13, a multiple of 9
    0xffff_fff7, // 2^32 - 9
    0xffff_fffc, // 2^32 - 4, a multiple of 9
    0xffff_ffff,
];

fn another_number(number: u32, random: &mut Random) -> u32 {
    match random.below(4) {
        0 => random.pick(&TELLING),
        1 => random.number() as u32,
        2 => number.wrapping_add(random.pick(&TELLING)),
        _ => number.wrapping_sub(random.pick(&TELLING)),
    }
}

pub fn change_pair_byte(image: &mut Vec<u8>, random: &mut Random) {
    let at = some_pair(image, random) + random.below(8);
    put(image, at, &[random.byte()]);
}

pub fn change_offset(image: &mut Vec<u8>, random: &mut Random) {
    let at = some_pair(image, random);
    let number = another_number(pair_number(image, at), random);
    put(image, at, &number.to_le_bytes());
}

pub fn change_length(image: &mut Vec<u8>, random: &mut Random) {
    let at = some_pair(image, random) + 4;
    let number = another_number(pair_number(image, at), random);
    put(image, at, &number.to_le_bytes());
}

/// The span before the bound gets what the one after it loses, so that only the multiples of 9 can be
/// amiss; or not even they, and then rows change their symbol.
pub fn move_bound(image: &mut Vec<u8>, random: &mut Random) {
    let at = 20 + 8 * random.below(k(image).max(2) - 1);
    let distance = match random.below(3) {
        0 => 9,
        1 => random.within(1..=8) as u32,
        _ => random.pick(&TELLING),
    };
    let distance = random.pick(&[distance, distance.wrapping_neg()]);
    for (field, change) in [
        (at + 4, distance),
        (at + 8, distance),
        (at + 12, distance.wrapping_neg()),
    ] {
        let number = pair_number(image, field).wrapping_add(change);
        put(image, field, &number.to_le_bytes());
    }
}

pub fn swap_pairs(image: &mut Vec<u8>, random: &mut Random) {
    let (one, other) = (some_pair(image, random), some_pair(image, random));
    if one.max(other) + 8 <= image.len() {
        for byte in 0..8 {
            image.swap(one + byte, other + byte);
        }
    }
}

pub fn move_offsets(image: &mut Vec<u8>, random: &mut Random) {
    let distance = another_number(0, random);
    for pair in 0..k(image) {
        let at = 20 + 8 * pair;
        let number = pair_number(image, at).wrapping_add(distance);
        put(image, at, &number.to_le_bytes());
    }
}

/// Each span begins where the one before ends and the last ends at the image's end, if sums are taken
/// at 32 bits. A length that wraps around and is a multiple of 9 goes back by 4 and some rows, so it
/// takes nine of them until the last length is a multiple of 9 too.
pub fn wrap_spans(image: &mut Vec<u8>, random: &mut Random) {
    let k = k(image).max(1);
    let mut offset = (20 + 8 * k) as u32;
    for pair in 0..k {
        let length = if pair == k - 1 {
            (image.len() as u32).wrapping_sub(offset)
        } else if pair < 9 {
            0xffff_fffc - 9 * random.below(3) as u32
        } else {
            0
        };
        put(image, 20 + 8 * pair, &offset.to_le_bytes());
        put(image, 24 + 8 * pair, &length.to_le_bytes());
        offset = offset.wrapping_add(length);
    }
}
