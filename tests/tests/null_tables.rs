//! Null pointers where a length is 0, which `include/afa.h` allows: each answer is that on an empty
//! slice.

use afa_tests::afa::interface::{afa_accepts, afa_read};
use afa_tests::afa::print::interface::afa_print_run;
use afa_tests::afa::run::interface::afa_run;
use afa_tests::afa::step::interface::{afa_begin, afa_step};
use afa_tests::afa::walk::interface::afa_walk;
use afa_tests::afa::why::interface::afa_why;
use afa_tests::image::{model_a, model_b, model_c, model_d};
use afa_tests::machine;
use afa_tests::record::Record;
use afa_tests::tables::{Answer, Tables, Terms, CHOICES};
use std::ptr::{null, null_mut};

#[test]
fn read() {
    let mut head = [7; 5];
    // SAFETY: what is null has no elements, and the head has five.
    let number = unsafe { afa_read(null(), 0, head.as_mut_ptr()) };
    assert_eq!((number, head), (20, [7; 5]));
}

#[test]
fn accepts() {
    for (model, number) in [(model_c(), 0), (model_d(), 1)] {
        let image = model.image();
        // SAFETY: what is null has no elements, and the image as many as it says.
        let answered = unsafe { afa_accepts(image.as_ptr(), image.len(), null(), 0) };
        assert_eq!(answered, number, "{model}, the empty word");
    }
    let word = [0, 1];
    // SAFETY: what is null has no elements, and the word as many as it says.
    unsafe {
        assert_eq!(afa_accepts(null(), 0, word.as_ptr(), word.len()), 20);
        assert_eq!(afa_accepts(null(), 0, null(), 0), 20);
    }
}

/// The slice's pointer, or null if it is empty.
fn pointer<T>(slice: &[T]) -> *const T {
    match slice {
        [] => null(),
        _ => slice.as_ptr(),
    }
}

fn pointer_mut<T>(slice: &mut [T]) -> *mut T {
    match slice {
        [] => null_mut(),
        _ => slice.as_mut_ptr(),
    }
}

/// Calls a function of runs on the image, the tables and the hints, each null if empty, and on what else it
/// takes.
macro_rules! on_tables {
    ($function:path, $image:ident, $tables:ident, $terms:ident, $($more:expr),+ $(,)?) => {
        $function(
            pointer($image),
            $image.len(),
            pointer_mut(&mut $tables.masks),
            $tables.masks.len(),
            pointer_mut(&mut $tables.levels),
            $tables.levels.len(),
            pointer_mut(&mut $tables.entered),
            $tables.entered.len(),
            pointer_mut(&mut $tables.cases),
            $tables.cases.len(),
            pointer_mut(&mut $tables.symbols),
            $tables.symbols.len(),
            pointer($terms.hints),
            $terms.hints.len(),
            $($more),+
        )
    };
}

/// Tables of these lengths with 9 in every place.
fn nines([masks, levels, entered, cases, symbols]: [usize; 5]) -> Tables {
    Tables {
        masks: vec![9; masks],
        levels: vec![9; levels],
        entered: vec![9; entered],
        cases: vec![9; cases],
        symbols: vec![9; symbols],
    }
}

/// A run with rooms of these lengths and on these terms, each table and the hints null if empty, against
/// the machine.
fn expect(image: &[u8], lengths: [usize; 5], terms: Terms<&[u64]>, numbers: [u64; 5]) {
    let before = nines(lengths);
    let mut expected = before.clone();
    let answer = machine::run(image, expected.lend(), terms);
    let known = Answer::of_numbers(numbers);
    assert_eq!(answer, known, "{lengths:?}, {terms:?}");
    let mut tables = before;
    let mut counts = [7; 4];
    // SAFETY: what is null has no elements, and the rest as many as it says.
    let number = unsafe {
        on_tables!(
            afa_run,
            image,
            tables,
            terms,
            terms.allowance,
            terms.edition,
            terms.way,
            counts.as_mut_ptr(),
        )
    };
    let [steps, level, blockers, accepted] = counts;
    let answered = [number, steps, level, blockers, accepted];
    assert_eq!(answered, numbers, "{lengths:?}, {terms:?}");
    assert_eq!(tables, expected, "{lengths:?}, {terms:?}");
}

#[test]
fn run() {
    let models = [model_a(), model_b(), model_c(), model_d()];
    let [a, b, c, d] = models.map(|model| model.image());
    let nothing = [0; 5];
    for [edition, way] in CHOICES {
        let terms = |hints: &'static [u64], allowance| Terms {
            hints,
            allowance,
            edition,
            way,
        };
        expect(&[], nothing, terms(&[], 100), [20, 0, 0, 0, 0]);
        expect(&[], [4; 5], terms(&[4], 100), [20, 0, 0, 0, 0]);
        // No room at all: enough where no step is needed.
        let final_start = [if edition == 2 { 5 } else { 1 }, 0, 0, 0, 0];
        expect(&d, nothing, terms(&[], 0), final_start);
        expect(&d, nothing, terms(&[4], u64::MAX), final_start);
        expect(&a, nothing, terms(&[], 0), [2, 0, 0, 0, 0]);
        expect(&a, nothing, terms(&[], 100), [4, 0, 0, 0, 0]);
        expect(&a, [4, 4, 4, 0, 0], terms(&[], 100), [4, 0, 0, 0, 0]);
        expect(&a, [0, 0, 0, 4, 4], terms(&[], 100), [3, 1, 1, 0, 0]);
        expect(&a, [0, 0, 0, 4, 4], terms(&[2], 1), [2, 1, 1, 0, 0]);
        // A word that is found before any block.
        expect(&b, [0, 0, 0, 1, 1], terms(&[], 100), [1, 2, 1, 0, 0]);
        // Hints alone.
        expect(&a, [4; 5], terms(&[], 100), [0, 3, 1, 1, 0]);
        expect(&c, [4; 5], terms(&[], 100), [1, 6, 2, 1, 0]);
        // Some tables of a room and not the others.
        for lengths in [
            [0, 4, 4, 4, 4],
            [4, 0, 4, 4, 4],
            [4, 4, 0, 4, 4],
            [4, 0, 0, 4, 4],
            [0, 4, 0, 4, 4],
            [0, 0, 4, 4, 4],
            [4, 4, 4, 0, 4],
            [4, 4, 4, 4, 0],
        ] {
            expect(&c, lengths, terms(&[], 100), [30, 0, 0, 0, 0]);
        }
    }
    for (edition, way, number) in [(3, 0, 36), (3, 2, 36), (1, 2, 37), (2, 2, 37)] {
        let unknown = Terms {
            edition,
            way,
            ..Terms::plain(100)
        };
        for image in [&a, &d] {
            expect(image, nothing, unknown, [number, 0, 0, 0, 0]);
            expect(image, [4; 5], unknown, [number, 0, 0, 0, 0]);
        }
        expect(&[], nothing, unknown, [20, 0, 0, 0, 0]);
        expect(&a, [0, 4, 4, 4, 4], unknown, [30, 0, 0, 0, 0]);
    }
}

/// A begin with rooms of these lengths, and then steps of what it leaves, each table and the hints null if
/// empty, against the machine. The last step's record is the one said.
fn expect_steps(image: &[u8], lengths: [usize; 5], terms: Terms<&[u64]>, numbers: [u64; 8]) {
    let mut tables = nines(lengths);
    let mut expected = tables.clone();
    let mut expected_record = machine::begin(image, expected.lend(), terms);
    let mut record = [7; 8];
    // SAFETY: what is null has no elements, the rest as many as it says, and the record eight.
    let mut number = unsafe {
        on_tables!(
            afa_begin,
            image,
            tables,
            terms,
            terms.edition,
            terms.way,
            record.as_mut_ptr(),
        )
    };
    let mut expected_number = expected_record.answer;
    // One more than there are to make.
    for _ in 0..8 {
        assert_eq!(number, expected_number, "{lengths:?}, {terms:?}");
        assert_eq!(
            Record::of_numbers(record),
            expected_record,
            "{lengths:?}, {terms:?}"
        );
        assert_eq!(tables, expected, "{lengths:?}, {terms:?}");
        expected_number = machine::step(image, expected.lend(), terms, &mut expected_record);
        // SAFETY: as above.
        number = unsafe {
            on_tables!(
                afa_step,
                image,
                tables,
                terms,
                terms.allowance,
                terms.edition,
                terms.way,
                record.as_mut_ptr(),
            )
        };
    }
    assert_eq!(record, numbers, "{lengths:?}, {terms:?}");
}

#[test]
fn begin_and_step() {
    let models = [model_a(), model_b(), model_c(), model_d()];
    let [a, b, c, d] = models.map(|model| model.image());
    let refused = |number| [number, 0, 0, 0, 0, 0, 0, 0];
    let nothing = [0; 5];
    for [edition, way] in CHOICES {
        let terms = |hints: &'static [u64], allowance| Terms {
            hints,
            allowance,
            edition,
            way,
        };
        expect_steps(&[], nothing, terms(&[], 100), refused(20));
        expect_steps(&[], [4; 5], terms(&[4], 100), refused(20));
        let final_start = [if edition == 2 { 5 } else { 1 }, 0, 0, 0, 0, 0, 0, 0];
        expect_steps(&d, nothing, terms(&[], 0), final_start);
        expect_steps(&d, nothing, terms(&[4], u64::MAX), final_start);
        expect_steps(&a, nothing, terms(&[], 0), [2, 0, 0, 0, 0, 0, 0, 0]);
        expect_steps(&a, nothing, terms(&[], 100), [4, 0, 0, 0, 0, 0, 0, 0]);
        let [no_word_room, no_blocker_room] = [[4, 4, 4, 0, 0], [0, 0, 0, 4, 4]];
        expect_steps(&a, no_word_room, terms(&[], 100), [4, 0, 0, 0, 0, 0, 0, 0]);
        expect_steps(
            &a,
            no_blocker_room,
            terms(&[], 100),
            [3, 1, 1, 1, 0, 0, 0, 0],
        );
        expect_steps(
            &a,
            no_blocker_room,
            terms(&[2], 1),
            [2, 1, 1, 1, 0, 0, 0, 0],
        );
        expect_steps(
            &b,
            [0, 0, 0, 1, 1],
            terms(&[], 100),
            [1, 2, 1, 1, 0, 0, 0, 0],
        );
        expect_steps(&c, [4; 5], terms(&[], 100), [1, 6, 2, 1, 1, 0, 1, 0]);
        for lengths in [
            [0, 4, 4, 4, 4],
            [4, 0, 4, 4, 4],
            [4, 4, 0, 4, 4],
            [4, 4, 4, 0, 4],
        ] {
            expect_steps(&c, lengths, terms(&[], 100), refused(30));
        }
    }
    for (edition, way, number) in [(3, 0, 36), (3, 2, 36), (1, 2, 37), (2, 2, 37)] {
        let unknown = Terms {
            edition,
            way,
            ..Terms::plain(100)
        };
        expect_steps(&a, nothing, unknown, refused(number));
        expect_steps(&d, [4; 5], unknown, refused(number));
    }
}

/// No image, the empty word, and no room, in which no print has a place.
#[test]
fn print_run() {
    let [c, d] = [model_c(), model_d()].map(|model| model.image());
    for (image, word, room_length, number, print) in [
        (&[][..], &[][..], 0, 20, ""),
        (&[], &[], 20, 20, ""),
        (&[], &[0, 1], 0, 20, ""),
        (&[], &[0, 1], 20, 20, ""),
        (&c, &[], 0, 0, ""),
        (&c, &[], 20, 0, ""),
        (&c, &[2], 0, 32, ""),
        (&c, &[1, 0], 0, 0, ""),
        (&c, &[0, 1], 0, 35, ""),
        (&d, &[], 0, 35, ""),
        (&d, &[], 1, 35, ""),
        (&d, &[], 2, 1, "0\n"),
        (&d, &[], 20, 1, "0\n"),
        (&d, &[0], 0, 35, ""),
    ] {
        let mut expected = vec![9; room_length];
        expected[..print.len()].copy_from_slice(print.as_bytes());
        let (mut room, mut length) = (vec![9; room_length], 7);
        // SAFETY: what is null has no elements, the rest as many as it says, and one length is written.
        let answered = unsafe {
            afa_print_run(
                pointer(image),
                image.len(),
                pointer(word),
                word.len(),
                pointer_mut(&mut room),
                room_length,
                &mut length,
            )
        };
        let lent = format!("{} bytes, {word:?}, room of {room_length}", image.len());
        assert_eq!((answered, length), (number, print.len() as u64), "{lent}");
        assert_eq!(room, expected, "{lent}");
    }
}

/// Of no blockers, or of some masks or levels alone.
#[test]
fn why() {
    let (masks, levels) = ([u64::MAX; 9], [1; 9]);
    for (masks, levels) in [
        (&[][..], &[][..]),
        (&masks[..1], &[]),
        (&masks, &[]),
        (&[], &levels[..1]),
        (&[], &levels),
    ] {
        for (level, case, number, expected) in [
            (0, 0, 2, [1, 0]),
            (0, 2, 2, [63, 0]),
            (0, u64::MAX, 0, [0, 0]),
            (1, 0, 0, [0, 0]),
            (1, u64::MAX, 0, [0, 0]),
            (u64::MAX, 0, 0, [0, 0]),
        ] {
            let mut found = [7; 2];
            // SAFETY: what is null has no elements, the rest as many as it says, and two are found.
            let answered = unsafe {
                afa_why(
                    2 | 1 << 63,
                    pointer(masks),
                    masks.len(),
                    pointer(levels),
                    levels.len(),
                    level,
                    case,
                    found.as_mut_ptr(),
                )
            };
            assert_eq!((answered, found), (number, expected), "{level}, {case:x}");
        }
    }
}

/// Not declared there, and lent an image like the others.
#[test]
fn walk() {
    for symbol in [0, 1, u64::MAX] {
        let mut walked = [7; 2];
        // SAFETY: what is null has no elements, and two numbers are walked.
        let number = unsafe { afa_walk(null(), 0, symbol, 1, walked.as_mut_ptr()) };
        assert_eq!((number, walked), (20, [7; 2]), "symbol {symbol}");
    }
}
