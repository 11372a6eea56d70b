//! Runs that are refused: the number, the other four 0, and no lent place changed.

use afa_tests::afa::run::run_untouchable;
use afa_tests::compare::run::Comparison;
use afa_tests::damage::damage;
use afa_tests::generate;
use afa_tests::generate::runs::{choices, run_model};
use afa_tests::guarded::{Untouchable, EDGES};
use afa_tests::image::{broken_model_c, model_c, Model};
use afa_tests::random::Random;
use afa_tests::tables::{Answer, Lent, Tables, Terms, EDITIONS, WAYS};

/// Lengths of masks, levels, entered, cases, symbols and hints, and the number that they give on a valid
/// image.
const LENGTHS: [([usize; 6], Option<u64>); 43] = [
    ([4, 4, 4, 4, 4, 2], None),
    ([0, 0, 0, 0, 0, 0], None),
    ([65_536, 65_536, 65_536, 65_536, 65_536, 65_536], None),
    // One of the three tables of blocker room, longer or shorter than the other two.
    ([5, 4, 4, 4, 4, 0], Some(30)),
    ([4, 5, 4, 4, 4, 0], Some(30)),
    ([4, 4, 5, 4, 4, 0], Some(30)),
    ([3, 4, 4, 4, 4, 0], Some(30)),
    ([4, 3, 4, 4, 4, 0], Some(30)),
    ([4, 4, 3, 4, 4, 0], Some(30)),
    ([1, 0, 0, 0, 0, 0], Some(30)),
    ([0, 1, 0, 0, 0, 0], Some(30)),
    ([0, 0, 1, 0, 0, 0], Some(30)),
    ([0, 1, 1, 0, 0, 0], Some(30)),
    ([1, 0, 1, 0, 0, 0], Some(30)),
    ([1, 1, 0, 0, 0, 0], Some(30)),
    // All three unlike.
    ([3, 4, 5, 4, 4, 0], Some(30)),
    ([5, 3, 4, 4, 4, 0], Some(30)),
    ([4, 5, 3, 4, 4, 0], Some(30)),
    // Word room, and both rooms.
    ([4, 4, 4, 4, 5, 0], Some(30)),
    ([4, 4, 4, 5, 4, 0], Some(30)),
    ([0, 0, 0, 0, 1, 0], Some(30)),
    ([0, 0, 0, 1, 0, 0], Some(30)),
    ([4, 5, 4, 5, 4, 0], Some(30)),
    ([4, 9, 9, 9, 4, 0], Some(30)),
    ([4, 4, 9, 4, 9, 0], Some(30)),
    // Too many places.
    ([65_537, 65_537, 65_537, 4, 4, 0], Some(31)),
    ([4, 4, 4, 65_537, 65_537, 0], Some(31)),
    ([4, 4, 4, 4, 4, 65_537], Some(31)),
    ([65_537; 6], Some(31)),
    ([131_072, 131_072, 131_072, 4, 4, 0], Some(31)),
    ([4, 4, 4, 131_072, 131_072, 131_072], Some(31)),
    // Both, of which unlike lengths come first.
    ([65_537, 65_537, 65_537, 4, 5, 0], Some(30)),
    ([4, 5, 4, 65_537, 65_537, 0], Some(30)),
    ([4, 4, 5, 65_537, 65_537, 0], Some(30)),
    ([4, 5, 4, 4, 4, 65_537], Some(30)),
    ([4, 4, 5, 4, 4, 65_537], Some(30)),
    ([65_537, 65_536, 65_536, 4, 4, 0], Some(30)),
    ([65_536, 65_537, 65_536, 4, 4, 0], Some(30)),
    ([65_536, 65_536, 65_537, 4, 4, 0], Some(30)),
    ([65_537, 65_537, 65_536, 4, 4, 0], Some(30)),
    ([65_540, 4, 4, 4, 4, 0], Some(30)),
    ([4, 4, 65_540, 4, 4, 0], Some(30)),
    ([4, 4, 4, 4, 65_540, 0], Some(30)),
];

fn lent(random: &mut Random, lengths: [usize; 6], [edition, way]: [u64; 2]) -> Lent {
    let [masks, levels, entered, cases, symbols, hints] = lengths;
    Lent {
        before: Tables::filled_unevenly(random, [masks, levels, entered, cases, symbols]),
        terms: Terms {
            hints: (0..hints).map(|_| random.number()).collect(),
            allowance: random.pick(&[0, 1, 100_000, u64::MAX]),
            edition,
            way,
        },
    }
}

fn expect_refused(comparison: &mut Comparison, image: &[u8], lent: &Lent, number: u64) {
    let (answer, after) = comparison.run(image, lent, &"expected to be refused");
    assert_eq!(answer, Answer::of_numbers([number, 0, 0, 0, 0]));
    assert!(after == lent.before);
}

#[test]
fn lengths() {
    let mut random = Random::seeded(61);
    let mut comparison = Comparison::default();
    let image = model_c().image();
    for (lengths, number) in LENGTHS {
        for (choice, unknown) in choices(&mut random) {
            let lent = lent(&mut random, lengths, choice);
            match number.or(unknown) {
                Some(number) => expect_refused(&mut comparison, &image, &lent, number),
                None => {
                    let (answer, _) = comparison.run(&image, &lent, &"expected to run");
                    assert!(answer.number < 20);
                }
            }
        }
    }
}

/// A start that is final, an allowance of 0 and rooms of nothing do not come before the checks.
#[test]
fn checks_come_first() {
    let mut random = Random::seeded(62);
    let mut comparison = Comparison::default();
    let accepting = Model::plain(1, 1, 0);
    for (lengths, number) in [
        ([1, 0, 0, 0, 0, 0], Some(30)),
        ([0, 1, 0, 0, 0, 0], Some(30)),
        ([0, 0, 1, 0, 0, 0], Some(30)),
        ([0, 0, 0, 1, 0, 0], Some(30)),
        ([65_537, 65_537, 65_537, 0, 0, 0], Some(31)),
        ([0, 0, 0, 65_537, 65_537, 0], Some(31)),
        ([0, 0, 0, 0, 0, 65_537], Some(31)),
        ([0, 0, 0, 0, 0, 0], None),
        ([4, 4, 4, 4, 4, 4], None),
    ] {
        for (choice, unknown) in choices(&mut random) {
            for allowance in [0, 1] {
                if let Some(number) = number.or(unknown) {
                    let mut lent = lent(&mut random, lengths, choice);
                    lent.terms.allowance = allowance;
                    expect_refused(&mut comparison, &accepting.image(), &lent, number);
                }
            }
        }
    }
}

/// Each check of an image broken or not, in all ways, with rooms, editions and ways of growing that are
/// refused and those that are not.
#[test]
fn order_of_checks() {
    let mut random = Random::seeded(63);
    let mut comparison = Comparison::default();
    let mut beside_unknown = [[0_usize; 40]; 2];
    for broken in 0..1 << 8 {
        let is_broken = |number: u64| broken >> (number - 20) & 1 == 1;
        let mask_at = random.pick(&[4, 12]);
        let (n, k) = (random.pick(&[0, 65]), random.pick(&[0, 65]));
        let mut image = broken_model_c(is_broken, mask_at, n, k);
        if is_broken(20) {
            image.truncate(19);
        }
        let first = (20..=27).find(|&number| is_broken(number));
        for (lengths, number) in LENGTHS {
            // Long tables take long, and with a broken image a few of them do.
            let long = lengths.iter().any(|&length| length > 1_000);
            for (choice, unknown) in choices(&mut random) {
                let Some(number) = first.or(number).or(unknown) else {
                    continue;
                };
                if long && first.is_some() && !random.chance(1) {
                    continue;
                }
                let lent = lent(&mut random, lengths, choice);
                expect_refused(&mut comparison, &image, &lent, number);
                let [edition, way] = choice;
                let unknown = [!EDITIONS.contains(&edition), !WAYS.contains(&way)];
                for (beside, unknown) in beside_unknown.iter_mut().zip(unknown) {
                    beside[number as usize] += usize::from(unknown);
                }
            }
        }
    }
    let seen = comparison.seen;
    println!("order of checks, by number: {:?}", seen.by_number);
    assert!((20..28).all(|number| seen.times(number) > 100));
    assert!(seen.times(30) > 100 && seen.times(31) > 40);
    for (name, beside) in ["edition", "way"].iter().zip(&beside_unknown) {
        println!("beside an unknown {name}: {:?}", &beside[20..]);
        assert!(beside[20..28].iter().all(|&count| count > 40));
        assert!(beside[30] > 40 && beside[31] > 10);
    }
}

#[test]
fn damaged_images() {
    let mut random = Random::seeded(64);
    let mut comparison = Comparison::default();
    let mut images: Vec<Vec<u8>> = (0..200)
        .map(|_| generate::model(&mut random).image())
        .collect();
    images.extend((0..200).map(|_| run_model(&mut random).image()));
    for _ in 0..30_000 {
        let mut image = images[random.below(images.len())].clone();
        let damages = random.pick(&[1, 1, 2, 3]);
        let origin = damage(&mut image, &mut random, damages);
        let [blocker_room, word_room, hints] = [6, 6, 12].map(|bound| random.below(bound));
        let [masks, levels, entered] = [blocker_room; 3];
        let lengths = [masks, levels, entered, word_room, word_room, hints];
        let choices = choices(&mut random);
        let (choice, _) = random.pick(&choices);
        let mut lent = lent(&mut random, lengths, choice);
        lent.terms.allowance = lent.terms.allowance.min(20);
        match random.below(20) {
            0 => lent.before.masks.push(7),
            1 => lent.before.levels.push(7),
            2 => lent.before.entered.push(7),
            3 => lent.before.cases.push(7),
            4 => lent.before.symbols.push(7),
            _ => {}
        }
        let (answer, after) = comparison.run(&image, &lent, &origin);
        if answer.number >= 20 {
            assert_eq!(answer, Answer::refused(answer.number));
            assert!(after == lent.before, "{origin}");
        }
    }
    let seen = comparison.seen;
    println!("30000 damaged images, by number: {:?}", seen.by_number);
    assert!((20..28).all(|number| seen.times(number) > 300));
    assert!([30, 36, 37].iter().all(|&number| seen.times(number) > 300));
}

/// Lengths that would fit if they were cut down to 32 bits, in every edition and by every way.
#[test]
fn lengths_that_fit_when_cut() {
    const LONG: usize = (1 << 32) + 4;
    let mut random = Random::seeded(65);
    let image = model_c().image();
    let memory = Untouchable::with_room(LONG * size_of::<u64>());
    for (lengths, number) in [
        ([LONG, LONG, LONG, 4, 4, 4], 31),
        ([4, 4, 4, LONG, LONG, 4], 31),
        ([4, 4, 4, 4, 4, LONG], 31),
        ([LONG; 6], 31),
        ([LONG, 4, 4, 4, 4, 4], 30),
        ([4, LONG, 4, 4, 4, 4], 30),
        ([4, 4, LONG, 4, 4, 4], 30),
        ([LONG, LONG, 4, 4, 4, 4], 30),
        ([4, 4, 4, LONG, 4, 4], 30),
        ([4, 4, 4, 4, LONG, 4], 30),
    ] {
        for (choice, _) in choices(&mut random) {
            for edge in EDGES {
                let mut counts = [7; 4];
                let answered = run_untouchable(&image, lengths, choice, &memory, edge, &mut counts);
                let lent = format!("{lengths:?}, edition and way {choice:?}");
                assert_eq!((answered, counts), (number, [0; 4]), "{lent}");
            }
        }
    }
}
