//! Tables of blockers for a close, small to large, that no run has made: some rise, some just do not, and
//! some leave with those that rise.

use super::blockers::one_of;
use super::{small_case, stray_bit};
use crate::acceptance::backward_set;
use crate::compare::steps::Standing;
use crate::image::{Model, Row};
use crate::random::Random;
use crate::record::{Record, WORKING};
use crate::tables::Tables;

/// A blocker's mask and level.
pub type Entry = (u64, u32);

/// A lead has so many states, and its backward sets too. What is not meant to cover them has fewer.
const LEAD: u32 = 7;

/// Each symbol turns the states about but for the last two. Of these the last has a row to the one before
/// it, and is in no blocker of these tables: so no blocker with the one before it rises.
pub fn turning(states: usize, symbols: usize) -> Model {
    let mut model = Model::plain(states, symbols, 0);
    let (last, turned) = (states - 1, states - 2);
    for (symbol, rows) in model.rows.iter_mut().enumerate() {
        rows.extend((0..turned).map(|state| Row {
            state: state as u8,
            case: 1 << ((state + symbol + 1) % turned),
        }));
    }
    model.rows[symbols - 1].push(Row {
        state: last as u8,
        case: 1 << turned,
    });
    model.initial = 1 << last;
    model
}

/// What a table for a close is to be like, and its record.
#[derive(Clone, Copy, Debug)]
pub struct Wanted {
    pub states: usize,
    pub symbols: usize,
    pub held: usize,
    /// Places of blocker room.
    pub room: usize,
    /// N. If so many are held, each level from 1 to N has one that does not rise.
    pub top: u32,
    /// But for this level, at which there is none.
    pub vacant: Option<u32>,
    /// How many blockers may rise, each with others about it: it leads.
    pub leads: usize,
    /// Where leads are from, up to N.
    pub lowest: u32,
    /// Whether some blockers are of level 0.
    pub level_0: bool,
}

impl Wanted {
    pub fn model(&self) -> Model {
        turning(self.states, self.symbols)
    }

    pub fn standing(&self, random: &mut Random) -> Standing {
        let entries = self.entries(random, &self.model());
        opened(random, &entries, self.room, self.top)
    }

    fn entries(&self, random: &mut Random, model: &Model) -> Vec<Entry> {
        let holding = match self.held >= self.top as usize {
            true => self.top,
            false => self.held as u32 / 2,
        };
        let one_that_stays = |level| {
            let others = small_case(random, self.turned(), 3);
            (1 << self.turned() | others, level)
        };
        let mut entries: Vec<Entry> = (1..=holding).map(one_that_stays).collect();
        let mut sought = Vec::new();
        for _ in 0..self.leads {
            self.lead(random, model, &mut entries, &mut sought);
        }
        entries.retain(|&(_, level)| Some(level) != self.vacant);
        entries.truncate(self.held);
        entries.resize_with(self.held, || self.other(random, &sought));
        random.shuffle(&mut entries);
        entries
    }

    fn turned(&self) -> usize {
        self.states - 2
    }

    /// A lead, what covers its backward sets or just does not, and what may leave with it. The backward
    /// sets are added to those that are sought.
    fn lead(
        &self,
        random: &mut Random,
        model: &Model,
        entries: &mut Vec<Entry>,
        sought: &mut Vec<u64>,
    ) {
        let level = random.within(self.lowest as usize..=self.top as usize) as u32;
        let lead = lead_mask(random, self.states) | stray_bit(random, self.states);
        entries.push((lead, level));
        let first = entries.len();
        let rise_before = level > 1 && random.chance(20);
        for symbol in 0..self.symbols as u8 {
            let backward = backward_set(model, symbol, lead);
            sought.push(backward);
            if rise_before {
                // These are one level short, and rise in time.
                entries.push((backward, level - 1));
                let behind = (0..self.symbols as u8).map(|symbol| {
                    let mask = backward_set(model, symbol, backward);
                    (mask, u32::MAX)
                });
                entries.extend(behind);
            } else {
                entries.push(self.cover(random, backward, level));
            }
        }
        if random.chance(25) {
            let place = first + random.below(entries.len() - first);
            entries[place] = self.miss(random, entries[place], level);
        }
        for _ in 0..random.below(4) {
            entries.push(self.follower(random, lead, level));
        }
    }

    /// Where a level is to be vacant, of a level above N, so that no lead stops there.
    fn cover(&self, random: &mut Random, backward: u64, level: u32) -> Entry {
        let more = backward | small_case(random, self.turned(), 3) | stray_bit(random, self.states);
        let above = [self.top + 1, u32::MAX];
        let levels = [level, level + 1, self.top + 1, u32::MAX];
        let level = match self.vacant {
            Some(_) => random.pick(&above),
            None => random.pick(&levels),
        };
        (random.pick(&[backward, more]), level)
    }

    /// What does not cover any more: for want of one state, or of level alone. Where a level is to be
    /// vacant, by no level by which a lead rises but not to N.
    fn miss(&self, random: &mut Random, (mask, level): Entry, asked: u32) -> Entry {
        let lowest = u32::from(!self.level_0);
        match self.vacant {
            None if asked > lowest && random.chance(30) => {
                let short = random.within(lowest as usize..=asked as usize - 1);
                (mask, short as u32)
            }
            _ => (without_one(random, mask), level),
        }
    }

    /// Of the lead's states, at a level at which it leaves when the lead rises or just does not.
    fn follower(&self, random: &mut Random, lead: u64, level: u32) -> Entry {
        let (some, most) = (lead & random.number(), without_one(random, lead));
        let mask = random.pick(&[lead, lead, most, some, 0]);
        let lowest = u32::from(!self.level_0);
        let next = level + 1;
        let levels = [lowest, level, next, next, level + 2, self.top + 1, u32::MAX];
        (mask, random.pick(&levels))
    }

    /// One of level 0, or one above N.
    fn other(&self, random: &mut Random, sought: &[u64]) -> Entry {
        let (mask, level) = nearly_covering(random, self.states, self.top, sought);
        match self.level_0 && random.chance(10) {
            true => (mask, 0),
            false => (mask, level),
        }
    }
}

/// One above N that covers none of the sets that are sought: it lacks a state of one, or has fewer states than
/// they have.
pub fn nearly_covering(random: &mut Random, states: usize, top: u32, sought: &[u64]) -> Entry {
    let mask = match sought.is_empty() || random.chance(50) {
        true => small_case(random, states - 2, LEAD as usize - 1),
        false => {
            let set = random.pick(sought);
            without_one(random, set)
        }
    };
    let above = top + 1;
    let any = above + (random.number() % u64::from(u32::MAX - above)) as u32;
    let level = random.pick(&[above, above + 1, any, u32::MAX]);
    (mask | stray_bit(random, states), level)
}

/// As many states as a lead has, of those that are turned about.
pub fn lead_mask(random: &mut Random, states: usize) -> u64 {
    let mut mask = 0_u64;
    while mask.count_ones() < LEAD {
        mask |= 1 << random.below(states - 2);
    }
    mask
}

/// The set without one of its states: often one of 32 or above, so that the low halves agree.
pub fn without_one(random: &mut Random, set: u64) -> u64 {
    let high = set & !u64::from(u32::MAX);
    match high != 0 && random.chance(60) {
        true => set & !one_of(random, high),
        false => set & !one_of(random, set),
    }
}

/// A level that is open, with nothing pending and these blockers held. All other places, and the third table,
/// have anything in them.
pub fn opened(random: &mut Random, entries: &[Entry], room: usize, level: u32) -> Standing {
    let word_room = level as usize + random.below(3);
    let mut tables = Tables::filled(random, room, word_room);
    for (place, &(mask, level)) in entries.iter().enumerate() {
        tables.masks[place] = mask;
        tables.levels[place] = level;
    }
    let steps = random.within(10..=1 << 40) as u64;
    let record = Record {
        answer: WORKING,
        steps,
        level: level.into(),
        open: 1,
        held: entries.len() as u64,
        pending: 0,
        blocks: random.number() % steps,
        accepted: 0,
    };
    Standing { record, tables }
}
