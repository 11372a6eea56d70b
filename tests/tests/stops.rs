//! What a stop is worth: "a run that stops at level N, for want of steps or blocker room, has shown that no
//! word shorter than N is accepted; one that stops at end of tape, none up to the word room's length, that
//! length included." Runs in one call and runs by steps are stopped wherever they can be, and each stop is
//! held against a search over all words.

use afa_tests::compare::run;
use afa_tests::compare::steps::{self, Standing};
use afa_tests::generate::hints::{hints, passing_hints};
use afa_tests::generate::runs::{run_model_of, Earlier};
use afa_tests::generate::two_states;
use afa_tests::image::{model_a, model_b, model_c, rings, Model};
use afa_tests::random::Random;
use afa_tests::record::{Record, WORKING};
use afa_tests::stops::{Limits, Stops, Words};
use afa_tests::tables::{Answer, Lent, Terms, CHOICES, EDITIONS, WAYS};

/// With the lengths of their shortest words. In ample rooms the rings reach a verdict too.
fn known_models() -> [(Model, Option<usize>); 6] {
    [
        (model_a(), None),
        (model_b(), Some(1)),
        (model_c(), Some(2)),
        (rings(&[2, 3]), Some(5)),
        (rings(&[3, 4]), Some(11)),
        (rings(&[2, 3, 5]), Some(29)),
    ]
}

/// A model of up to 6 states and 3 symbols whose runs mostly reach several levels and find a word.
fn random_model(random: &mut Random) -> Model {
    loop {
        let (states, symbols) = (random.within(1..=6), random.within(1..=3));
        let model = run_model_of(random, states, symbols);
        let answer = Earlier::of_either_way(random, &model.image(), u64::MAX).answer;
        let percent = match (answer.number, answer.level) {
            (1, 3..) => 100,
            (1, 2) => 20,
            (0, 2..) => 10,
            _ => 1,
        };
        if random.chance(percent) {
            return model;
        }
    }
}

/// Runs of one sort, and the stops that were seen of them.
struct Stopped<Comparison> {
    random: Random,
    comparison: Comparison,
    stops: Stops,
}

impl<Comparison: Default> Stopped<Comparison> {
    fn seeded(seed: u64) -> Self {
        Stopped {
            random: Random::seeded(seed),
            comparison: Comparison::default(),
            stops: Stops::default(),
        }
    }
}

/// Runs in one call.
type Runs = Stopped<run::Comparison>;

impl Runs {
    /// A run that stops has just as much as the limit, and the stop is judged.
    fn run(&mut self, words: &Words, terms: &Terms, limits: Limits) -> Answer {
        let lent = Lent {
            before: limits.tables(&mut self.random),
            terms: Terms {
                allowance: limits.allowance,
                ..terms.clone()
            },
        };
        let model = words.model;
        let (answer, _) = self.comparison.run(&model.image(), &lent, model);
        if let Some([has, limit]) = limits.met(&answer) {
            assert_eq!(has, limit, "{model}, {limits:?}\n{answer:?}");
            (self.stops).judge(words, answer.number, answer.level, limits.word_room);
        }
        answer
    }

    /// Every allowance, every blocker room and every word room from 0 up to what the run needs to end by
    /// itself, and all three at once.
    fn every_limit(&mut self, words: &Words, terms: &Terms) {
        let model = words.model;
        let ended = self.run(words, terms, Limits::AMPLE);
        assert!(ended.is_verdict(), "{model}\n{ended:?}");
        let mut needed = |number, limits: fn(usize) -> Limits| {
            let mut limit = 0;
            loop {
                let answer = self.run(words, terms, limits(limit));
                if answer == ended {
                    return limit;
                }
                assert_eq!(answer.number, number, "{model}, {:?}", limits(limit));
                limit += 1;
            }
        };
        let steps = needed(2, Limits::of_steps);
        let blockers = needed(3, Limits::of_blocker_room);
        let levels = needed(4, Limits::of_word_room);
        let numbers = [steps, levels].map(|needed| needed as u64);
        assert_eq!(numbers, [ended.steps, ended.level], "{model}");
        for _ in 0..4 {
            let limits = Limits {
                blocker_room: self.random.within(0..=blockers),
                word_room: self.random.within(0..=levels),
                allowance: self.random.within(0..=steps) as u64,
            };
            self.run(words, terms, limits);
        }
    }

    /// Either edition and either way, without hints, with good and bad ones, and with such as pass.
    fn every_choice(&mut self, words: &Words) {
        let (model, image) = (words.model, words.model.image());
        let earlier = Earlier::of_either_way(&mut self.random, &image, u64::MAX);
        for [edition, way] in CHOICES {
            let any = hints(&mut self.random, model, &earlier.blocks);
            let passing = passing_hints(&mut self.random, &image, 60);
            for hints in [Vec::new(), any, passing] {
                let terms = Terms {
                    hints,
                    edition,
                    way,
                    ..Terms::plain(0)
                };
                self.every_limit(words, &terms);
            }
        }
    }
}

#[test]
fn runs_of_known_models() {
    let mut runs = Runs::seeded(160);
    for (model, shortest) in &known_models() {
        let words = Words::of(model);
        assert_eq!(words.shortest, *shortest, "{model}");
        runs.every_choice(&words);
    }
    println!("known models: {}", runs.stops);
    for (number, least) in [(2, 500), (3, 0), (4, 60)] {
        runs.stops.assert_tight(number, least);
    }
}

/// With one symbol nothing is blocked at the level at which a word is found, so that no 3 is tight.
#[test]
fn runs_of_two_states() {
    let mut runs = Runs::seeded(161);
    for i in 0..4096 {
        runs.every_choice(&Words::of(&two_states(i)));
    }
    println!("models of two states: {}", runs.stops);
    for (number, least) in [(2, 20_000), (3, 0), (4, 20_000)] {
        runs.stops.assert_tight(number, least);
    }
}

#[test]
fn runs_of_random_models() {
    const MODELS: usize = 1_000;
    let mut runs = Runs::seeded(162);
    let mut long_words = 0;
    for _ in 0..MODELS {
        let model = random_model(&mut runs.random);
        let words = Words::of(&model);
        let length = words.shortest.unwrap_or(0);
        long_words += usize::from((4..=words.longest).contains(&length));
        runs.every_choice(&words);
    }
    let by_hint = runs.comparison.seen.by_hint;
    println!(
        "{MODELS} models, {long_words} with a shortest word of 4 or more, {by_hint} blocks by hint: {}",
        runs.stops
    );
    for (number, least) in [(2, 30_000), (3, 2_000), (4, 8_000)] {
        runs.stops.assert_tight(number, least);
    }
    assert!(long_words > 150 && by_hint > 500_000);
}

/// Runs by steps, each of which has hints, an allowance, an edition and a way of its own.
type Chains = Stopped<steps::Comparison>;

impl Chains {
    fn terms(&mut self, model: &Model, earlier: &Earlier, allowance: u64) -> Terms {
        Terms {
            hints: hints(&mut self.random, model, &earlier.blocks),
            allowance,
            edition: self.random.pick(&EDITIONS),
            way: self.random.pick(&WAYS),
        }
    }

    /// What a step with the allowance leaves.
    fn step(
        &mut self,
        model: &Model,
        earlier: &Earlier,
        before: &Standing,
        allowance: u64,
    ) -> Standing {
        let terms = self.terms(model, earlier, allowance);
        let mut standing = before.clone();
        (self.comparison).step(&model.image(), &mut standing, terms.lend(), model);
        standing
    }

    /// The answer of a chain in these rooms. As long as it works it can be stopped where it is, by an
    /// allowance that its steps have reached or passed.
    fn chain(&mut self, words: &Words, earlier: &Earlier, rooms: Limits) -> u64 {
        let model = words.model;
        let before = rooms.tables(&mut self.random);
        let terms = self.terms(model, earlier, 0);
        let mut standing = (self.comparison).begin(&model.image(), &before, terms.lend(), model);
        while standing.record.is_working() {
            let Record { steps, level, .. } = standing.record;
            (self.stops).judge(words, WORKING, level, rooms.word_room);
            let passed = self.random.below(steps.max(1) as usize) as u64;
            for allowance in [steps, passed] {
                let stopped = self.step(model, earlier, &standing, allowance);
                let numbers = &stopped.record.numbers()[..3];
                assert_eq!(numbers, [2, steps, level], "{model}\n{}", standing.record);
                self.ended(words, earlier, &stopped, Limits { allowance, ..rooms });
            }
            let allowance = steps + self.random.pick(&[1, 2, u64::MAX >> 1]);
            standing = self.step(model, earlier, &standing, allowance);
        }
        self.ended(words, earlier, &standing, rooms);
        standing.record.answer
    }

    /// A chain that was stopped has just as much as the limit, or more steps than its last one was allowed,
    /// and the stop is judged. No step changes it any more.
    fn ended(&mut self, words: &Words, earlier: &Earlier, standing: &Standing, limits: Limits) {
        let (model, record) = (words.model, standing.record);
        let Some([has, limit]) = limits.met(&record.five_numbers()) else {
            return;
        };
        let passed = record.answer == 2 && has > limit;
        assert!(has == limit || passed, "{model}, {limits:?}\n{record}");
        (self.stops).judge(words, record.answer, record.level, limits.word_room);
        for allowance in [0, u64::MAX] {
            let again = self.step(model, earlier, standing, allowance);
            assert!(again == *standing, "{model}\n{record} to {}", again.record);
        }
    }

    /// Chains in rooms that suffice, and in rooms that are too small for an earlier run. Where the word room
    /// is shorter than a shortest word, 4 is the only end.
    fn every_room(&mut self, words: &Words) {
        let model = words.model;
        let earlier = Earlier::of_either_way(&mut self.random, &model.image(), u64::MAX);
        let number = self.chain(words, &earlier, Limits::AMPLE);
        assert!(matches!(number, 0 | 1 | 5), "{model}: {number}");
        for room in 0..earlier.most_held {
            self.chain(words, &earlier, Limits::of_blocker_room(room));
        }
        for room in 0..earlier.answer.level as usize {
            let number = self.chain(words, &earlier, Limits::of_word_room(room));
            let too_short = words.shortest.is_some_and(|length| room < length);
            assert!(number == 4 || !too_short, "{model}, {room}: {number}");
        }
    }
}

#[test]
fn chains_of_known_models() {
    let mut chains = Chains::seeded(163);
    for (model, _) in &known_models() {
        chains.every_room(&Words::of(model));
    }
    for i in 0..4096 {
        chains.every_room(&Words::of(&two_states(i)));
    }
    println!("chains of known models and of two states: {}", chains.stops);
    for (number, least) in [(2, 2_000), (3, 0), (4, 1_000), (6, 1_000)] {
        chains.stops.assert_tight(number, least);
    }
}

#[test]
fn chains_of_random_models() {
    const MODELS: usize = 1_500;
    let mut chains = Chains::seeded(164);
    for _ in 0..MODELS {
        let model = random_model(&mut chains.random);
        chains.every_room(&Words::of(&model));
    }
    let seen = &chains.comparison.seen;
    println!(
        "chains of {MODELS} models, {} blocks by hint, {:?} grown by each way: {}",
        seen.by_hint, seen.grown, chains.stops
    );
    for (number, least) in [(2, 12_000), (3, 300), (4, 800), (6, 6_000)] {
        chains.stops.assert_tight(number, least);
    }
    assert!(seen.by_hint > 4_000 && seen.grown.iter().all(|&count| count > 4_000));
}
