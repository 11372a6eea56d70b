//! The third table of blocker room: for each blocker "the count of steps including the block that made
//! it".

use std::ops::Range;

/// The table, or `()` in its place: the benchmark measures a machine that has none.
pub trait EnteredTable {
    /// Whether it is as long as the room's other tables.
    fn has_length(&self, length: usize) -> bool;

    /// The blocker at the place was made by the last of so many steps.
    fn enter(&mut self, place: usize, steps: u64);

    /// The blockers at the places are now those from `to` on, and keep their numbers.
    fn close_up(&mut self, places: Range<usize>, to: usize);

    /// The places are no longer in use.
    fn clear(&mut self, places: Range<usize>);
}

impl EnteredTable for &mut [u64] {
    fn has_length(&self, length: usize) -> bool {
        self.len() == length
    }

    fn enter(&mut self, place: usize, steps: u64) {
        self[place] = steps;
    }

    fn close_up(&mut self, places: Range<usize>, to: usize) {
        self.copy_within(places, to);
    }

    fn clear(&mut self, places: Range<usize>) {
        self[places].fill(0);
    }
}

impl EnteredTable for () {
    fn has_length(&self, _: usize) -> bool {
        true
    }

    fn enter(&mut self, _: usize, _: u64) {}

    fn close_up(&mut self, _: Range<usize>, _: usize) {}

    fn clear(&mut self, _: Range<usize>) {}
}
