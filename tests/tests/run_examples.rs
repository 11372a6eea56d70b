//! Runs whose five numbers are known beforehand, with every place that they leave, in either edition and
//! by either way: models A to D, the rings, and the largest sizes and their neighbours.

use afa_tests::compare::run::Comparison;
use afa_tests::image::{model_a, model_b, model_c, model_d, rings, Model};
use afa_tests::random::Random;
use afa_tests::search::{is_closed, shortest_word};
use afa_tests::tables::{Answer, Lent, Tables, Terms, EDITIONS, WAYS};

/// What a run is lent, which is as in the program where a line does not say otherwise.
#[derive(Clone, Copy)]
struct Loan<'a> {
    blocker_room: usize,
    word_room: usize,
    hints: &'a [u64],
    allowance: u64,
    way: u64,
}

const PROGRAM: Loan = Loan {
    blocker_room: 256,
    word_room: 256,
    hints: &[],
    allowance: 100_000,
    way: 0,
};

/// The same but for the way.
const BY_HITTING_SETS: Loan = Loan { way: 1, ..PROGRAM };

impl Loan<'_> {
    fn lent(self, edition: u64) -> Lent {
        Lent {
            before: Tables::filled(&mut Random::seeded(1), self.blocker_room, self.word_room),
            terms: Terms {
                hints: self.hints.to_vec(),
                allowance: self.allowance,
                edition,
                way: self.way,
            },
        }
    }
}

/// A blocker's mask, its level and the step at which it entered.
type Entry = (u64, u32, u64);

/// The five numbers, the entries and the word, the same in either edition; all other places are 0.
fn expect(model: &Model, loan: Loan, numbers: [u64; 5], entries: &[Entry], word: &[u8]) {
    let mut expected = Tables::cleared(loan.blocker_room, loan.word_room);
    for (place, &(mask, level, entered)) in entries.iter().enumerate() {
        expected.masks[place] = mask;
        expected.levels[place] = level;
        expected.entered[place] = entered;
    }
    expected.symbols[..word.len()].copy_from_slice(word);
    for edition in EDITIONS {
        let lent = loan.lent(edition);
        let (answer, after) = Comparison::default().run(&model.image(), &lent, model);
        let shown = format!("{model}, edition {edition}, way {}", loan.way);
        assert_eq!(answer, Answer::of_numbers(numbers), "{shown}");
        assert_eq!(after, expected, "{shown}");
    }
}

/// The number and four zeros in either edition, and every place as it was.
fn expect_refused(image: &[u8], loan: Loan, number: u64) {
    for edition in EDITIONS {
        let lent = loan.lent(edition);
        let origin = format!("expected to give {number}");
        let (answer, after) = Comparison::default().run(image, &lent, &origin);
        assert_eq!(answer, Answer::of_numbers([number, 0, 0, 0, 0]));
        assert!(after == lent.before, "{origin}");
    }
}

/// The two states outside F must be picked, each for its own: by both ways F itself is the blocker.
#[test]
fn a() {
    let a = model_a();
    for program in [PROGRAM, BY_HITTING_SETS] {
        expect(&a, program, [0, 3, 1, 1, 0], &[(4, 2, 2)], &[]);
        let one_place = Loan {
            blocker_room: 1,
            word_room: 1,
            allowance: 3,
            ..program
        };
        expect(&a, one_place, [0, 3, 1, 1, 0], &[(4, 2, 2)], &[]);
    }
    assert!(is_closed(&a, &[4]));
}

#[test]
fn a_stops() {
    for (blocker_room, word_room, allowance, numbers, blockers) in [
        (256, 256, 0, [2, 0, 0, 0, 0], &[][..]),
        (256, 256, 1, [2, 1, 1, 0, 0], &[]),
        (256, 256, 2, [2, 2, 1, 1, 0], &[(4, 1, 2)]),
        (0, 256, 100_000, [3, 1, 1, 0, 0], &[]),
        (0, 256, 2, [3, 1, 1, 0, 0], &[]),
        (0, 256, 1, [2, 1, 1, 0, 0], &[]),
        (256, 0, 100_000, [4, 0, 0, 0, 0], &[]),
        (256, 0, 1, [4, 0, 0, 0, 0], &[]),
        (256, 0, 0, [2, 0, 0, 0, 0], &[]),
    ] {
        for way in WAYS {
            let loan = Loan {
                blocker_room,
                word_room,
                allowance,
                way,
                ..PROGRAM
            };
            expect(&model_a(), loan, numbers, blockers, &[]);
        }
    }
}

#[test]
fn b() {
    expect(&model_b(), PROGRAM, [1, 2, 1, 0, 0], &[], &[0]);
    expect(&model_b(), BY_HITTING_SETS, [1, 2, 1, 0, 0], &[], &[0]);
    assert_eq!(shortest_word(&model_b()), Some(1));
}

#[test]
fn c() {
    let (c, program) = (model_c(), PROGRAM);
    let (grown, hinted) = ([(2, 1, 2)], [(4, 1, 2)]);
    expect(&c, program, [1, 6, 2, 1, 0], &grown, &[0, 1]);
    let with_hints = |hints| Loan { hints, ..program };
    expect(&c, with_hints(&[6]), [1, 6, 2, 1, 0], &grown, &[0, 1]);
    expect(&c, with_hints(&[4]), [1, 6, 2, 1, 1], &hinted, &[0, 1]);
    // The second block never comes, and it is not the first that the second hint is for.
    expect(&c, with_hints(&[4, 2]), [1, 6, 2, 1, 1], &hinted, &[0, 1]);
    expect(&c, with_hints(&[6, 4]), [1, 6, 2, 1, 0], &grown, &[0, 1]);
    // The backward sets of 12 are those of 4, but there is no state 3.
    expect(&c, with_hints(&[12]), [1, 6, 2, 1, 0], &grown, &[0, 1]);
    assert_eq!(shortest_word(&c), Some(2));
}

/// Three blocks, of which the first leaves for the third: hint t is asked at the block before which t
/// were made, and each that passes counts.
#[test]
fn three_blocks() {
    let model = Model::new(2, 3, 2, &[&[(0, 0)]]);
    let frame = [(1, 3, 6), (2, 3, 7)];
    for program in [PROGRAM, BY_HITTING_SETS] {
        for (hints, accepted) in [
            (&[][..], 0),
            (&[2], 1),
            (&[0, 1], 1),
            (&[0, 1, 2], 2),
            (&[2, 1, 2, 2], 3),
            (&[1, 2, 1], 0),
        ] {
            let loan = Loan { hints, ..program };
            expect(&model, loan, [0, 8, 2, 2, accepted], &frame, &[]);
        }
    }
    assert!(is_closed(&model, &[1, 2]));
}

/// Through a hitting set of {0} and {1, 2}, in which state 1 is picked of the second: so state 2 stays.
#[test]
fn c_by_hitting_sets() {
    let (c, program) = (model_c(), BY_HITTING_SETS);
    let (grown, hinted) = ([(4, 1, 2)], [(2, 1, 2)]);
    expect(&c, program, [1, 6, 2, 1, 0], &grown, &[0, 1]);
    let with_hints = |hints| Loan { hints, ..program };
    expect(&c, with_hints(&[6]), [1, 6, 2, 1, 0], &grown, &[0, 1]);
    expect(&c, with_hints(&[2]), [1, 6, 2, 1, 1], &hinted, &[0, 1]);
    expect(&c, with_hints(&[4]), [1, 6, 2, 1, 1], &grown, &[0, 1]);
    expect(&c, with_hints(&[0]), [1, 6, 2, 1, 1], &[(0, 1, 2)], &[0, 1]);
    expect(&c, with_hints(&[6, 2]), [1, 6, 2, 1, 0], &grown, &[0, 1]);
    expect(&c, with_hints(&[10]), [1, 6, 2, 1, 0], &grown, &[0, 1]);
}

/// Its start is final, which the editions answer by numbers of their own.
#[test]
fn d() {
    let (d, program) = (model_d(), PROGRAM);
    let nothing = Loan {
        blocker_room: 0,
        word_room: 0,
        allowance: 0,
        ..program
    };
    let no_steps = Loan {
        allowance: 0,
        ..program
    };
    for loan in [nothing, program, no_steps, BY_HITTING_SETS] {
        for (edition, number) in [(1, 1), (2, 5)] {
            let (answer, after) = Comparison::default().run(&d.image(), &loan.lent(edition), &d);
            assert_eq!(answer, Answer::of_numbers([number, 0, 0, 0, 0]));
            assert_eq!(after, Tables::cleared(loan.blocker_room, loan.word_room));
        }
    }
}

#[test]
fn nineteen_bytes() {
    expect_refused(&[0; 19], PROGRAM, 20);
    expect_refused(&model_c().image()[..19], PROGRAM, 20);
}

/// k 1, no rows, I state 63 and F state 0: the frame is all states but 63, if there are 64.
#[test]
fn n_64_and_65() {
    let mut model = Model::new(64, 1 << 63, 1, &[&[]]);
    let frame = [((1 << 63) - 1, 2, 2)];
    expect(&model, PROGRAM, [0, 3, 1, 1, 0], &frame, &[]);
    expect(&model, BY_HITTING_SETS, [0, 3, 1, 1, 0], &frame, &[]);
    model.states = 65;
    expect_refused(&model.image(), PROGRAM, 21);
}

/// The longest image, with I state 1 and F empty; all its rows are (0, 0), so the frame is all states
/// but 1. Then the same with one row more.
#[test]
fn m_4096_and_4097() {
    let mut model = Model::plain(64, 64, 4096);
    model.initial = 2;
    assert_eq!(model.image().len(), 37_396);
    let frame = [(u64::MAX - 2, 2, 2)];
    expect(&model, PROGRAM, [0, 3, 1, 1, 0], &frame, &[]);
    expect(&model, BY_HITTING_SETS, [0, 3, 1, 1, 0], &frame, &[]);
    let mut longer = Model::plain(64, 64, 4097);
    longer.initial = 2;
    expect_refused(&longer.image(), PROGRAM, 23);
}

/// C in rooms of 65,536 places and with as many hints, of which only the first is asked for.
#[test]
fn most_places() {
    for (blocker_room, word_room, hint_count) in [
        (65_536, 256, 0),
        (256, 65_536, 0),
        (65_536, 65_536, 0),
        (256, 256, 65_536),
        (65_536, 65_536, 65_536),
    ] {
        for hint in [0, 4, 6] {
            let loan = Loan {
                blocker_room,
                word_room,
                hints: &vec![hint; hint_count],
                ..PROGRAM
            };
            let (accepted, blocker) = match (hint_count, hint) {
                (0, _) | (_, 6) => (0, 2),
                _ => (1, hint),
            };
            let numbers = [1, 6, 2, 1, accepted];
            expect(&model_c(), loan, numbers, &[(blocker, 1, 2)], &[0, 1]);
        }
    }
}

#[test]
fn one_place_too_many() {
    for (blocker_room, word_room, hint_count) in [
        (65_537, 256, 0),
        (256, 65_537, 0),
        (65_537, 65_537, 0),
        (256, 256, 65_537),
        (65_537, 65_537, 65_537),
    ] {
        let loan = Loan {
            blocker_room,
            word_room,
            hints: &vec![0; hint_count],
            ..PROGRAM
        };
        expect_refused(&model_c().image(), loan, 31);
    }
}

/// What the run of the rings of 2, 3 and 5 states holds at its end, each blocker as mask@level:entered.
const RINGS_2_3_5: &str = "\
    927@1:2 799@2:5 543@3:8 983@1:14 911@2:15 827@3:16 599@4:17 59@4:35 87@5:36 143@6:37 283@7:38 \
    535@8:39 171@5:46 339@6:47 647@7:48 299@8:49 595@9:50 43@9:68 83@10:69 135@11:70 267@12:71 \
    531@13:72 989@1:88 958@2:89 861@3:90 702@4:91 377@5:92 726@6:93 397@7:94 794@8:95 533@9:96 \
    46@10:97 89@11:98 150@12:99 269@13:100 538@14:101 561@9:113 102@10:114 201@11:115 402@12:116 \
    773@13:117 554@14:118 113@15:119 198@16:120 393@17:121 786@18:122 38@14:168 73@15:169 \
    146@16:170 261@17:171 522@18:172 49@19:173 70@20:174 137@21:175 274@22:176 517@23:177 \
    42@24:178 81@25:179 134@26:180 265@27:181 530@28:182";

/// The same through hitting sets.
const RINGS_2_3_5_BY_HITTING_SETS: &str = "\
    1017@1:6 1014@2:7 1001@3:11 1010@4:12 989@1:33 958@2:34 889@3:35 758@4:36 973@3:46 954@4:47 \
    965@5:61 938@6:62 881@7:63 742@8:64 489@9:65 978@10:66 901@11:76 810@12:77 625@13:78 230@14:79 \
    457@15:80 914@16:81 773@17:99 554@18:100 113@19:101 198@20:102 393@21:103 786@22:104 517@23:122 \
    42@24:123 81@25:124 134@26:125 265@27:126 530@28:127";

#[test]
fn rings_2_3_5() {
    let entry = |entry: &str| {
        let (mask, rest) = entry.split_once('@').unwrap();
        let (level, entered) = rest.split_once(':').unwrap();
        let [mask, entered] = [mask, entered].map(|number| number.parse().unwrap());
        (mask, level.parse().unwrap(), entered)
    };
    let model = rings(&[2, 3, 5]);
    for (loan, numbers, entries) in [
        (PROGRAM, [1, 219, 29, 61, 0], RINGS_2_3_5),
        (
            BY_HITTING_SETS,
            [1, 168, 29, 34, 0],
            RINGS_2_3_5_BY_HITTING_SETS,
        ),
    ] {
        let entries: Vec<Entry> = entries.split_whitespace().map(entry).collect();
        expect(&model, loan, numbers, &entries, &[0; 29]);
    }
}

/// With 1,024 places and 4^11 steps. The last has levels that one byte does not hold.
#[test]
fn coprime_rings() {
    for (sizes, way, numbers) in [
        (&[2, 3, 5][..], 0, [1, 219, 29, 61, 0]),
        (&[2, 3, 5, 7], 0, [1, 1901, 209, 490, 0]),
        (&[2, 3, 5, 11], 0, [1, 3155, 329, 781, 0]),
        (&[2, 3, 5], 1, [1, 168, 29, 34, 0]),
        (&[2, 3, 5, 7], 1, [1, 1473, 209, 280, 0]),
        (&[2, 3, 5, 11], 1, [1, 2069, 329, 400, 0]),
    ] {
        let model = rings(sizes);
        for edition in EDITIONS {
            let lent = Lent {
                before: Tables::filled(&mut Random::seeded(3), 1024, 1024),
                terms: Terms {
                    edition,
                    way,
                    ..Terms::plain(1 << 22)
                },
            };
            let (answer, after) = Comparison::default().run(&model.image(), &lent, &model);
            assert_eq!(answer, Answer::of_numbers(numbers), "rings {sizes:?}");
            assert_eq!(sizes.iter().product::<usize>() as u64, answer.level + 1);
            assert!(after.symbols.iter().all(|&symbol| symbol == 0));
        }
    }
}
