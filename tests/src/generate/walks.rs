//! Symbols whose rows bring the last state in at a chosen row, and cases to walk back from.

use super::blockers::one_of;
use crate::image::{all_states, Model, Row};
use crate::random::Random;

/// What the rows of a symbol are to be like.
#[derive(Clone, Copy, Debug)]
pub struct Wanted {
    pub states: usize,
    /// The case walked back from. With one state it is empty, as otherwise every row brings that in.
    pub case: u64,
    /// The state that comes in after all others, or never.
    pub last: u8,
    /// How many first rows bring all states in, if any do; n or more.
    pub all_in_after: Option<usize>,
    /// How many rows there are: n - 1 or more, as the other states come in anyway.
    pub rows: usize,
}

impl Wanted {
    /// The set and the rows walked.
    pub fn numbers(&self) -> [u64; 2] {
        let all = all_states(self.states);
        match self.all_in_after {
            Some(count) => [all, count as u64],
            None => [all & !(1 << self.last), self.rows as u64],
        }
    }

    /// Symbol 1 has the rows. In those of its neighbours the last state comes in, so that whoever
    /// walks there as well is found out.
    pub fn model(&self, random: &mut Random) -> Model {
        let come_in = Row {
            state: self.last,
            case: 0,
        };
        let mut model = Model::plain(self.states, 3, 0);
        model.rows[0] = vec![come_in; random.below(4)];
        model.rows[1] = self.symbol_rows(random);
        model.rows[2] = vec![come_in; random.below(4)];
        model
    }

    fn symbol_rows(&self, random: &mut Random) -> Vec<Row> {
        let before = self.all_in_after.map_or(self.rows, |count| count - 1);
        let others = (0..self.states as u8).filter(|&state| state != self.last);
        let mut rows: Vec<Row> = others.map(|state| self.counting(random, state)).collect();
        assert!(rows.len() <= before && before <= self.rows, "{self:?}");
        assert!(self.states > 1 || self.case == 0, "{self:?}");
        rows.resize_with(before, || self.idle(random));
        random.shuffle(&mut rows);
        if self.all_in_after.is_some() {
            rows.push(self.counting(random, self.last));
            rows.resize_with(self.rows, || self.any(random));
        }
        rows
    }

    /// A row whose case is a subset of the case walked back from.
    fn counting(&self, random: &mut Random, state: u8) -> Row {
        let (any, fewer) = (random.number(), random.number());
        let cases = [0, self.case, self.case & any, self.case & any & fewer];
        let case = random.pick(&cases);
        Row { state, case }
    }

    /// A row whose case is no subset, for one state or for several. There are states outside.
    fn not_counting(&self, random: &mut Random, state: u8) -> Row {
        let outside = all_states(self.states) & !self.case;
        let (one, any) = (one_of(random, outside), random.number());
        let cases = [one, self.case | one, self.case & any | one, outside];
        let case = random.pick(&cases);
        Row { state, case }
    }

    /// A row that does not bring the last state in.
    fn idle(&self, random: &mut Random) -> Row {
        let state = random.below(self.states) as u8;
        let is_last = state == self.last;
        if self.case != all_states(self.states) && (is_last || random.chance(50)) {
            return self.not_counting(random, state);
        }
        let other = (state + u8::from(is_last)) % self.states as u8;
        self.counting(random, other)
    }

    /// Once all states are in, no row changes anything.
    fn any(&self, random: &mut Random) -> Row {
        Row {
            state: random.below(self.states) as u8,
            case: random.number() & random.pick(&[0, self.case, all_states(self.states)]),
        }
    }
}

/// The union of the cases of some rows, one for each state that has any: walked back from this case,
/// those states are in, and walked back from less perhaps not.
fn picked_case(random: &mut Random, rows: &[Row]) -> u64 {
    let mut rows = rows.to_vec();
    random.shuffle(&mut rows);
    rows.sort_by_key(|row| row.state);
    rows.dedup_by_key(|row| row.state);
    rows.iter().fold(0, |union, row| union | row.case)
}

/// A case to walk back from by a symbol with these rows: mostly one about which the last state comes in.
pub fn case(random: &mut Random, states: usize, rows: &[Row]) -> u64 {
    let all = all_states(states);
    let picked = picked_case(random, rows);
    let (one, any) = (1 << random.below(states), random.number());
    match random.below(8) {
        0 => any & all,
        1 => all & !one,
        2..=4 => picked,
        5 => picked & !one,
        6 => picked & any | one,
        _ => picked | any & all,
    }
}
