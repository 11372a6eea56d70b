//! The comparison of `afa_why` with the tests' own answer, and what was seen by it.

use crate::afa::why::Asker;
use crate::why::{why, Found, Question};
use std::fmt::{self, Display};

/// How often the answers were seen.
#[derive(Clone, Debug, Default)]
pub struct Seen {
    pub asked: usize,
    pub by_number: [usize; 3],
    pub highest_place: u64,
    /// Answers by a blocker that has no other behind it.
    pub by_the_last: usize,
    /// Questions about tables of unlike length.
    pub unlike: usize,
}

impl Seen {
    fn answer(&mut self, question: &Question, answer: &Found) {
        let [masks, levels] = question.lengths();
        self.asked += 1;
        self.by_number[answer.number as usize] += 1;
        self.unlike += usize::from(masks != levels);
        if answer.number == 1 {
            let place = answer.found[0];
            self.highest_place = self.highest_place.max(place);
            self.by_the_last += usize::from(place as usize + 1 == masks.min(levels));
        }
    }

    /// Each number came at least so often.
    pub fn assert_each_number(&self, least: usize) {
        for (number, &count) in self.by_number.iter().enumerate() {
            assert!(count >= least, "{number} came {count} times");
        }
    }
}

impl Display for Seen {
    fn fmt(&self, out: &mut fmt::Formatter<'_>) -> fmt::Result {
        let [not_blocked, by_a_blocker, absent] = self.by_number;
        write!(
            out,
            "{} questions, {} of them to tables of unlike length: {not_blocked} not blocked, \
             {by_a_blocker} by a blocker, {} of them by the last, {absent} by a state absent; \
             highest place {}",
            self.asked, self.unlike, self.by_the_last, self.highest_place
        )
    }
}

#[derive(Default)]
pub struct Comparison {
    asker: Asker,
    pub seen: Seen,
}

impl Comparison {
    /// The answer that the library and the tests agree on.
    pub fn ask(&mut self, question: &Question, origin: &dyn Display) -> Found {
        let expected = Found::new(why(question));
        self.seen.answer(question, &expected);
        let answered = self.asker.ask(question);
        assert!(
            answered == expected,
            "afa_why\n{origin}\n{}\nexpected {expected:?}\n     got {answered:?}",
            question.shown()
        );
        expected
    }

    /// The same, where it is known beforehand which blocker is the first that covers, if any does.
    pub fn expect_blocker(&mut self, question: &Question, first: Option<usize>) {
        match first {
            Some(place) => {
                let found = [place as u64, u64::from(question.levels[place])];
                self.expect(question, 1, found);
            }
            None => self.expect(question, 0, [0, 0]),
        }
    }

    /// The same, where the whole answer is known beforehand.
    pub fn expect(&mut self, question: &Question, number: u64, found: [u64; 2]) {
        let answered = self.ask(question, &"expected to be known");
        assert!(
            answered == Found { number, found },
            "{}\nexpected {number} with {found:?}, the tests' own answer is {answered:?}",
            question.shown()
        );
    }
}
