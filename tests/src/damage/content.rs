//! Damage to single bytes anywhere, to I and F, and to rows; and random bytes.

#![allow(clippy::ptr_arg)] // one type for all damages

use super::fields::{k, m, n, pair_number, put, set_bit, set_m, some_place};
use crate::random::Random;

/// The byte at which a row stands.
fn some_row(image: &[u8], random: &mut Random) -> usize {
    20 + 8 * k(image) + 9 * some_place(m(image), random)
}

/// A bit at n or close above, or any from n on; at times one below n, which does no harm.
fn some_bit(image: &[u8], random: &mut Random) -> usize {
    let n = n(image).min(63);
    match random.below(8) {
        0 => random.below(64),
        1..=3 => n,
        4 => 63,
        _ => random.within(n..=63),
    }
}

pub fn change_byte(image: &mut Vec<u8>, random: &mut Random) {
    let at = random.below(image.len() + 1);
    put(image, at, &[random.byte()]);
}

pub fn change_head_byte(image: &mut Vec<u8>, random: &mut Random) {
    put(image, random.below(20), &[random.byte()]);
}

pub fn add_row(image: &mut Vec<u8>, random: &mut Random) {
    let at = 20 + 8 * k(image).max(1) - 4;
    let length = pair_number(image, at).wrapping_add(9);
    put(image, at, &length.to_le_bytes());
    let m = m(image);
    set_m(image, m + 1);
    image.push(random.below(n(image).max(1)) as u8);
    image.extend([0; 8]);
}

pub fn set_initial_bit(image: &mut Vec<u8>, random: &mut Random) {
    let bit = some_bit(image, random);
    set_bit(image, 4, bit);
}

pub fn set_final_bit(image: &mut Vec<u8>, random: &mut Random) {
    let bit = some_bit(image, random);
    set_bit(image, 12, bit);
}

pub fn change_row_state(image: &mut Vec<u8>, random: &mut Random) {
    let at = some_row(image, random);
    let n = n(image) as u8;
    let others = [
        n,
        n,
        n.wrapping_add(1),
        n.wrapping_sub(1),
        n | 128,
        255,
        random.byte(),
    ];
    put(image, at, &[random.pick(&others)]);
}

pub fn set_row_case_bit(image: &mut Vec<u8>, random: &mut Random) {
    let at = some_row(image, random) + 1;
    let bit = some_bit(image, random);
    set_bit(image, at, bit);
}

pub fn random_bytes(image: &mut Vec<u8>, random: &mut Random) {
    let length = random.within(0..=200);
    *image = random.bytes(length);
}

/// n, k, m and the length are right, and mostly the pairs; the rest is random and mostly in range.
pub fn random_content(image: &mut Vec<u8>, random: &mut Random) {
    let (n, k, m) = (
        random.pick(&[8, 63, 64]),
        random.within(1..=4),
        random.below(10),
    );
    *image = random.bytes(20 + 8 * k + 9 * m);
    put(image, 0, &[n, k as u8, m as u8, 0]);
    let mut masks = vec![4, 12];
    let mut offset = 20 + 8 * k;
    for pair in 0..k {
        let rows = if pair == k - 1 { m } else { 0 };
        if random.chance(90) {
            put(image, 20 + 8 * pair, &(offset as u32).to_le_bytes());
            put(image, 24 + 8 * pair, &(9 * rows as u32).to_le_bytes());
        }
        for row in 0..rows {
            put(image, offset + 9 * row, &[random.byte() % n]);
            masks.push(offset + 9 * row + 1);
        }
        offset += 9 * rows;
    }
    for at in masks {
        if random.chance(90) {
            let case = random.number() >> (64 - n);
            put(image, at, &case.to_le_bytes());
        }
    }
}
