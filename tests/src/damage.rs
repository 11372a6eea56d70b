//! The ways in which an image is damaged. Each can be done to bytes that are damaged already, so that
//! several checks apply at once; some leave a valid image, of another automaton.

use crate::random::Random;
use content::*;
use pairs::*;
use sizes::*;

mod content;
mod fields;
mod pairs;
mod sizes;

pub type Damage = fn(&mut Vec<u8>, &mut Random);

/// Each with the words by which a failing comparison names it.
pub const DAMAGES: [(&str, Damage); 26] = [
    ("cut anywhere", cut_anywhere),
    ("cut under 20 bytes", cut_under_20),
    ("cut by a few bytes", cut_slightly),
    ("bytes appended", append),
    ("a byte changed", change_byte),
    ("a byte before the pairs changed", change_head_byte),
    ("a byte of the pairs changed", change_pair_byte),
    ("n changed", change_n),
    ("k changed", change_k),
    ("k changed with the length", change_k_and_length),
    ("m changed", change_m),
    ("m changed with the length", change_m_and_length),
    ("m above 4,096 with the length", exceed_m),
    ("a row added to the last symbol", add_row),
    ("a bit of I set", set_initial_bit),
    ("a bit of F set", set_final_bit),
    ("an offset changed", change_offset),
    ("a length changed", change_length),
    ("a bound between spans moved", move_bound),
    ("two pairs swapped", swap_pairs),
    ("all offsets moved", move_offsets),
    ("spans that wrap at 32 bits", wrap_spans),
    ("a row's state changed", change_row_state),
    ("a bit of a row's case set", set_row_case_bit),
    ("random bytes", random_bytes),
    ("random bytes in an image's frame", random_content),
];

/// Damages the image so often, and says how.
pub fn damage(image: &mut Vec<u8>, random: &mut Random, times: usize) -> String {
    let mut origin = String::from("damage");
    for _ in 0..times {
        let (name, damage) = random.pick(&DAMAGES);
        damage(image, random);
        origin = origin + ": " + name;
    }
    origin
}
