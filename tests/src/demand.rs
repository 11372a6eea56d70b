//! The demand on speed: "Coprime rings keep us waiting [..] Against a Rust version written from 01's
//! machine, optimised builds, tables cleared before each run, no hints, edition 1, way 0, 1,024 places a
//! room and 4^11 steps allowed, we want at most twice its time and the same five numbers, masks, levels
//! and word (request 10's third table is left out)." The benchmark `runs` measures it; what does not depend
//! on time is a test.

use crate::image::{rings, Model};
use crate::tables::Terms;

/// Of each room.
pub const PLACES: usize = 1_024;

/// The library's time by that of Rust.
pub const MOST: f64 = 2.0;

/// "2, 3 and 5 states, one event that moves each on, I the first state and F the last of each, shortest
/// word 29."
pub fn model() -> Model {
    rings(&[2, 3, 5])
}

pub fn terms() -> Terms {
    Terms::plain(4_u64.pow(11))
}
