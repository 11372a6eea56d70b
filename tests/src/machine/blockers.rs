//! Blocker room: tables of one length, of which the first places are in use. The others are neither
//! read nor, until they come into use, written.

use super::automaton::contains;
use super::entered::EnteredTable;
use std::ops::Range;

pub struct Blockers<'a, Entered> {
    masks: &'a mut [u64],
    levels: &'a mut [u32],
    entered: Entered,
    held: usize,
}

impl<'a, Entered: EnteredTable> Blockers<'a, Entered> {
    /// None are held, whatever the tables have in them.
    pub fn new(masks: &'a mut [u64], levels: &'a mut [u32], entered: Entered) -> Self {
        assert!(levels.len() == masks.len() && entered.has_length(masks.len()));
        Blockers {
            masks,
            levels,
            entered,
            held: 0,
        }
    }

    /// So many are held, as the tables have them.
    pub fn hold(&mut self, held: usize) {
        assert!(held <= self.masks.len());
        self.held = held;
    }

    pub fn count(&self) -> usize {
        self.held
    }

    pub fn is_full(&self) -> bool {
        self.held == self.masks.len()
    }

    /// "A case is blocked at level i >= 1 if it is a subset of a blocker of level i or more; at level
    /// 0 if it does not contain I."
    pub fn block(&self, initial: u64, case: u64, level: u32) -> bool {
        if level == 0 {
            !contains(case, initial)
        } else {
            self.cover(case, level)
        }
    }

    /// Whether the case is a subset of a blocker of this level or more. Most of a run's time is spent
    /// here, and less of it while this is a function of its own.
    #[inline(never)]
    fn cover(&self, case: u64, level: u32) -> bool {
        let covers = |mask, its_level| (its_level >= level) & contains(mask, case);
        self.first(0..self.held, covers).is_some()
    }

    /// The mask of the first blocker, in table order, that is of this level or more and has the case as a
    /// subset. This walk and that of `cover` are not one: the compiler makes less of a shared one.
    pub fn first_covering(&self, case: u64, level: u32) -> Option<u64> {
        let covers = |mask, its_level| (its_level >= level) & contains(mask, case);
        let place = self.first(0..self.held, covers)?;
        Some(self.masks[place])
    }

    /// The masks and the levels that are held.
    pub fn held(&self) -> (&[u64], &[u32]) {
        (&self.masks[..self.held], &self.levels[..self.held])
    }

    pub fn hold_level(&self, level: u32) -> bool {
        self.at_level(level, 0).is_some()
    }

    /// The place and the mask of the first blocker of exactly this level from a place on.
    pub fn at_level(&self, level: u32, from: usize) -> Option<(usize, u64)> {
        let place = self.first(from..self.held, |_, its_level| its_level == level)?;
        Some((place, self.masks[place]))
    }

    /// The last of so many steps is the block that makes it.
    pub fn enter(&mut self, mask: u64, level: u32, steps: u64) {
        self.masks[self.held] = mask;
        self.levels[self.held] = level;
        self.entered.enter(self.held, steps);
        self.held += 1;
    }

    /// Subsets of the mask leave if their level is not above the one given. Answers how many did.
    pub fn leave(&mut self, mask: u64, highest: u32) -> usize {
        self.leave_from(0..self.held, mask, highest)
    }

    /// The blocker at the place rises by one, and other subsets of it of no higher level leave.
    /// Answers how many left from before it and from behind it.
    pub fn rise(&mut self, place: usize) -> (usize, usize) {
        self.levels[place] += 1;
        let (mask, highest) = (self.masks[place], self.levels[place]);
        let left_behind = self.leave_from(place + 1..self.held, mask, highest);
        let left_before = self.leave_from(0..place, mask, highest);
        (left_before, left_behind)
    }

    fn leave_from(&mut self, places: Range<usize>, mask: u64, highest: u32) -> usize {
        let leaves = |its_mask, level| (level <= highest) & contains(mask, its_mask);
        self.remove(places, leaves)
    }

    pub fn keep_above(&mut self, level: u32) {
        self.remove(0..self.held, |_, its_level| its_level <= level);
    }

    /// Those among the places for which the test holds leave, and the rest close up. The places that
    /// this frees become 0. Answers how many left.
    fn remove(&mut self, places: Range<usize>, leaves: impl Fn(u64, u32) -> bool) -> usize {
        let Some(first) = self.first(places.clone(), &leaves) else {
            return 0;
        };
        let mut kept = first;
        for place in first + 1..places.end {
            let (mask, level) = (self.masks[place], self.levels[place]);
            self.masks[kept] = mask;
            self.levels[kept] = level;
            self.entered.close_up(place..place + 1, kept);
            kept += usize::from(!leaves(mask, level));
        }
        self.masks.copy_within(places.end..self.held, kept);
        self.levels.copy_within(places.end..self.held, kept);
        self.entered.close_up(places.end..self.held, kept);
        let left = places.end - kept;
        self.clear(self.held - left..self.held);
        self.held -= left;
        left
    }

    /// No place is in use, and all are 0.
    pub fn clear_all(&mut self) {
        self.clear(0..self.masks.len());
        self.held = 0;
    }

    fn clear(&mut self, places: Range<usize>) {
        self.masks[places.clone()].fill(0);
        self.levels[places.clone()].fill(0);
        self.entered.clear(places);
    }

    /// The first of the places at which the test holds. It is made of four at a time and only then
    /// asked whether it held, so that the compiler has vectors to work on.
    fn first(&self, places: Range<usize>, test: impl Fn(u64, u32) -> bool) -> Option<usize> {
        const FOUR: usize = 4;
        let holds = |(&mask, &level): (&u64, &u32)| test(mask, level);
        let (masks, mask_rest) = self.masks[places.clone()].as_chunks::<FOUR>();
        let (levels, level_rest) = self.levels[places.clone()].as_chunks::<FOUR>();
        let mut place = places.start;
        for (masks, levels) in masks.iter().zip(levels) {
            let entries = || masks.iter().zip(levels);
            if entries().map(holds).fold(false, |any, held| any | held) {
                return Some(place + entries().position(holds)?);
            }
            place += FOUR;
        }
        let rest = mask_rest.iter().zip(level_rest).position(holds)?;
        Some(place + rest)
    }
}
