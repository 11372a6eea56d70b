//! Runs seen after every step: each allowance from 0 to the one at which the run ends by itself. What a
//! step does to the blockers shows when each entered.

use afa_tests::compare::run::Comparison;
use afa_tests::generate::hints::hints;
use afa_tests::generate::runs::{affordable_steps, run_model, Earlier};
use afa_tests::image::{model_a, model_b, model_c, rings, Model};
use afa_tests::random::Random;
use afa_tests::tables::{Answer, Blocker, Lent, Tables, Terms, CHOICES, EDITIONS, WAYS};

const MODELS: usize = 400;

/// How often blockers were seen to enter, rise and leave.
#[derive(Debug, Default)]
struct Steps {
    entered: usize,
    rose: usize,
    left: usize,
    /// Steps at which some rose and others left, other than to give the frame.
    rose_and_left: usize,
}

impl Steps {
    /// The blockers before and after the last step that the answer counts. One that was there keeps its
    /// mask, its number and its order, and does not sink; one that was not stands at the end, its
    /// number is that of this step, and no other rises.
    fn step(&mut self, before: &[Blocker], after: &[Blocker], answer: &Answer, model: &Model) {
        let shown = || format!("{model}\n{answer:?}\n{before:?}\nto {after:?}");
        let stayed = match after {
            [stayed @ .., last] if last.entered == answer.steps => stayed,
            _ => after,
        };
        let mut earlier = before.iter();
        let mut rose = 0;
        for blocker in stayed {
            let was = earlier.find(|was| was.entered == blocker.entered);
            let was = was.unwrap_or_else(|| panic!("{}", shown()));
            assert_eq!(was.mask, blocker.mask, "{}", shown());
            assert!(was.level <= blocker.level, "{}", shown());
            rose += usize::from(was.level < blocker.level);
        }
        let left = before.len() - stayed.len();
        let entered = after.len() - stayed.len();
        assert!(entered == 0 || rose == 0, "{}", shown());
        self.entered += entered;
        self.rose += rose;
        self.left += left;
        self.rose_and_left += usize::from(answer.number != 0 && rose > 0 && left > 0);
    }
}

/// Every allowance up to one more than the run needs, or up to that of the terms. Answers the last.
fn every_allowance(
    comparison: &mut Comparison,
    seen: &mut Steps,
    random: &mut Random,
    model: &Model,
    rooms: (usize, usize),
    terms: &Terms,
) -> Answer {
    let image = model.image();
    let mut ended: Option<(Answer, Tables)> = None;
    let (mut steps, mut blockers) = (0, Vec::new());
    for allowance in 0.. {
        let lent = Lent {
            before: Tables::filled(random, rooms.0, rooms.1),
            terms: Terms {
                allowance,
                ..terms.clone()
            },
        };
        let answered = comparison.run(&image, &lent, model);
        if let Some(ended) = ended {
            assert_eq!(answered, ended, "{model}\nallowance {allowance}");
            return ended.0;
        }
        let (answer, after) = &answered;
        let after = after.blockers(answer.blockers);
        if answer.steps == steps {
            assert_eq!(after, blockers, "{model}\nallowance {allowance}");
        } else {
            assert_eq!(answer.steps, steps + 1, "{model}\nallowance {allowance}");
            seen.step(&blockers, &after, answer, model);
        }
        (steps, blockers) = (answer.steps, after);
        if answered.0.number != 2 {
            ended = Some(answered);
        } else {
            assert_eq!(answered.0.steps, allowance, "{model}");
            if allowance == terms.allowance {
                return answered.0;
            }
        }
    }
    unreachable!("every run ends")
}

#[test]
fn known_models() {
    let mut random = Random::seeded(31);
    let (mut comparison, mut seen) = (Comparison::default(), Steps::default());
    for (model, steps) in [
        (model_a(), [3, 3]),
        (model_b(), [2, 2]),
        (model_c(), [6, 6]),
        (rings(&[2, 3, 5]), [219, 168]),
    ] {
        for [edition, way] in CHOICES {
            let terms = Terms {
                edition,
                way,
                ..Terms::plain(u64::MAX)
            };
            let answer = every_allowance(
                &mut comparison,
                &mut seen,
                &mut random,
                &model,
                (64, 64),
                &terms,
            );
            assert_eq!(answer.steps, steps[way as usize], "{model}, way {way}");
        }
    }
    println!("known models with every allowance: {seen:?}");
    assert!(seen.entered > 0 && seen.rose > 0 && seen.left > 0);
}

#[test]
fn random_models() {
    let mut random = Random::seeded(32);
    let (mut comparison, mut seen) = (Comparison::default(), Steps::default());
    let mut ends = [0_usize; 5];
    let mut models = 0;
    while models < MODELS {
        let model = run_model(&mut random);
        let affordable = affordable_steps(&model, 100_000).min(400);
        let earlier = Earlier::of_either_way(&mut random, &model.image(), affordable);
        if earlier.answer.steps < 16 {
            continue;
        }
        models += 1;
        let terms = Terms {
            hints: hints(&mut random, &model, &earlier.blocks),
            edition: random.pick(&EDITIONS),
            way: random.pick(&WAYS),
            ..Terms::plain(affordable)
        };
        let (held, level) = (earlier.most_held, earlier.answer.level as usize);
        let rooms = match random.below(4) {
            0 => (held / 2, level + 1),
            1 => (held, level / 2),
            _ => (2 * held, 2 * level),
        };
        let answer = every_allowance(
            &mut comparison,
            &mut seen,
            &mut random,
            &model,
            rooms,
            &terms,
        );
        ends[answer.number as usize] += 1;
    }
    println!(
        "{MODELS} models with every allowance, ending in {ends:?}: {seen:?}, {}",
        comparison.seen
    );
    assert!(ends.iter().all(|&count| count > 20));
    assert!(comparison.seen.by_hint > 10_000);
    assert!(seen.entered > 1_000 && seen.rose > 1_000 && seen.left > 1_000);
    assert!(seen.rose_and_left > 20);
}
