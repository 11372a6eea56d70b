//! Damage to the image's length and to n, k and m.

#![allow(clippy::ptr_arg)] // one type for all damages

use super::fields::{fit_length, k, m, n, put, set_m};
use crate::random::Random;

pub fn cut_anywhere(image: &mut Vec<u8>, random: &mut Random) {
    image.truncate(random.below(image.len() + 1));
}

pub fn cut_under_20(image: &mut Vec<u8>, random: &mut Random) {
    image.truncate(random.below(20));
}

pub fn cut_slightly(image: &mut Vec<u8>, random: &mut Random) {
    image.truncate(image.len().saturating_sub(random.within(1..=18)));
}

pub fn append(image: &mut Vec<u8>, random: &mut Random) {
    let length = random.within(1..=18);
    image.extend(random.bytes(length));
}

pub fn change_n(image: &mut Vec<u8>, random: &mut Random) {
    let n = n(image) as u8;
    let others = [
        0,
        0,
        65,
        65,
        128,
        255,
        n ^ 128,
        n.wrapping_add(1),
        n.wrapping_sub(1),
    ];
    put(image, 0, &[random.pick(&others)]);
}

pub fn change_k(image: &mut Vec<u8>, random: &mut Random) {
    let k = k(image) as u8;
    let others = [
        0,
        0,
        65,
        65,
        128,
        255,
        k ^ 128,
        k.wrapping_add(1),
        k.wrapping_sub(1),
    ];
    put(image, 1, &[random.pick(&others)]);
}

pub fn change_k_and_length(image: &mut Vec<u8>, random: &mut Random) {
    let any = random.within(1..=64);
    let new = random.pick(&[0, 1, 64, 65, k(image) + 1, any]);
    put(image, 1, &[new as u8]);
    fit_length(image);
}

pub fn change_m(image: &mut Vec<u8>, random: &mut Random) {
    let m = m(image);
    let others = [
        0,
        m + 1,
        m.wrapping_sub(1),
        m + 256,
        4096,
        4097,
        4097,
        0xffff,
    ];
    set_m(image, random.pick(&others));
}

pub fn change_m_and_length(image: &mut Vec<u8>, random: &mut Random) {
    let m = m(image);
    let new = random.pick(&[0, m + 1, m.saturating_sub(1), m + 2]);
    set_m(image, new);
    fit_length(image);
}

pub fn exceed_m(image: &mut Vec<u8>, random: &mut Random) {
    let new = random.pick(&[4097, 4097, 4098, 4200]);
    set_m(image, new);
    fit_length(image);
}
