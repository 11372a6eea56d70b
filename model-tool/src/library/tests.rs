//! Every function on model C of `docs/FORMAT.md`, and the lengths of slices, each told as it is.

use super::*;
use crate::image;
use crate::text;

fn image_of_c() -> Vec<u8> {
    let text = "states 3\nevents 2\ninitial 0\nfinal\nrow 0 0 : 1 2\nrow 1 1 :\nrow 2 1 :\n";
    image::write(&text::read(text.as_bytes()).unwrap())
}

/// Tables of these lengths, filled with 9.
struct Tables(Vec<u64>, Vec<u32>, Vec<u64>, Vec<u64>, Vec<u8>);

impl Tables {
    fn new(lengths: [usize; 5]) -> Self {
        let [masks, levels, entered, cases, symbols] = lengths;
        Tables(
            vec![9; masks],
            vec![9; levels],
            vec![9; entered],
            vec![9; cases],
            vec![9; symbols],
        )
    }

    fn lend(&mut self) -> Rooms<'_> {
        Rooms {
            masks: &mut self.0,
            levels: &mut self.1,
            entered: &mut self.2,
            cases: &mut self.3,
            symbols: &mut self.4,
        }
    }

    fn hold(&self, masks: &[u64], levels: &[u32], entered: &[u64], cases: &[u64], symbols: &[u8]) {
        let held = (
            &self.0[..],
            &self.1[..],
            &self.2[..],
            &self.3[..],
            &self.4[..],
        );
        assert_eq!(held, (masks, levels, entered, cases, symbols));
    }
}

const TERMS: Terms = Terms {
    hints: &[],
    allowance: 100,
    edition: 1,
    way: 0,
};

#[test]
fn reading() {
    let image = image_of_c();
    assert_eq!(read(&image), Ok([3, 2, 3, 1, 0]));
    assert_eq!(read(&image[..62]), Err(Refusal(24)));
    assert_eq!(read(&[]), Err(Refusal(20)));
}

#[test]
fn word_tests() {
    let image = image_of_c();
    for (word, number) in [(&[0, 1][..], 1), (&[0], 0), (&[], 0), (&[1, 2], 32)] {
        assert_eq!(accepts(&image, word), number, "{word:?}");
    }
    assert_eq!(accepts(&image[1..], &[0, 1]), 24);
}

#[test]
fn prints() {
    let image = image_of_c();
    let mut room = [9; 11];
    assert_eq!(print_run(&image, &[0, 1], &mut room), (1, 10));
    assert_eq!(&room, b"1\n0 6\n1 0\n\x09");
    assert_eq!(print_run(&image, &[0, 1], &mut room[..9]), (35, 0));
    assert_eq!(print_run(&image, &[0], &mut room), (0, 0));
}

#[test]
fn runs() {
    let image = image_of_c();
    let mut tables = Tables::new([3, 3, 3, 2, 2]);
    assert_eq!(run(&image, tables.lend(), TERMS), [1, 6, 2, 1, 0]);
    tables.hold(&[2, 0, 0], &[1, 0, 0], &[2, 0, 0], &[0, 0], &[0, 1]);
    let mut tables = Tables::new([1, 1, 1, 1, 1]);
    assert_eq!(run(&image, tables.lend(), TERMS), [4, 3, 1, 1, 0]);
    let terms = Terms {
        allowance: 2,
        ..TERMS
    };
    assert_eq!(run(&image, tables.lend(), terms), [2, 2, 1, 1, 0]);
    let terms = Terms {
        hints: &[4],
        ..TERMS
    };
    let mut tables = Tables::new([2; 5]);
    assert_eq!(run(&image, tables.lend(), terms), [1, 6, 2, 1, 1]);
    assert_eq!(tables.0, [4, 0]);
    let terms = Terms { way: 1, ..TERMS };
    assert_eq!(run(&image, tables.lend(), terms), [1, 6, 2, 1, 0]);
    assert_eq!(tables.0, [4, 0]);
}

/// The table of `docs/FORMAT.md`, call by call.
#[test]
fn begins_and_steps() {
    let image = image_of_c();
    let mut tables = Tables::new([2; 5]);
    let mut record = begin(&image, tables.lend(), TERMS);
    assert_eq!(record.numbers(), [6, 0, 0, 0, 0, 0, 0, 0]);
    tables.hold(&[0, 0], &[0, 0], &[0, 0], &[0, 0], &[0, 0]);
    for (numbers, mask, case, symbol) in [
        ([6, 1, 1, 1, 0, 1, 0, 0], 0, 0, 0),
        ([6, 2, 1, 1, 1, 0, 1, 0], 2, 0, 0),
        ([6, 3, 1, 0, 1, 0, 1, 0], 2, 0, 0),
        ([6, 4, 2, 1, 1, 1, 1, 0], 2, 0, 0),
        ([6, 5, 2, 1, 1, 2, 1, 0], 2, 6, 1),
        ([1, 6, 2, 1, 1, 0, 1, 0], 2, 0, 1),
        ([1, 6, 2, 1, 1, 0, 1, 0], 2, 0, 1),
    ] {
        let answer = step(&image, tables.lend(), TERMS, &mut record);
        assert_eq!((answer, record.numbers()), (numbers[0], numbers));
        tables.hold(
            &[mask, 0],
            &[mask as u32 / 2, 0],
            &[mask, 0],
            &[0, case],
            &[0, symbol],
        );
    }
    record.answer = 7;
    let broken = record;
    assert_eq!(step(&image, tables.lend(), TERMS, &mut record), 33);
    assert_eq!(record, broken);
}

#[test]
fn reasons() {
    let (masks, levels) = (&[2, 0][..], &[1, 0][..]);
    let blocker = Why::Blocker { place: 0, level: 1 };
    assert_eq!(why(1, masks, levels, 1, 2), blocker);
    assert_eq!(why(1, masks, levels, 1, 6), Why::Not);
    assert_eq!(why(1, masks, levels, 0, 6), Why::Start { state: 0 });
    assert_eq!(why(1, &[], levels, 1, 2), Why::Not);
    assert_eq!(why(1, masks, &[], 1, 2), Why::Not);
}

/// Each length that the library is told is that of its slice: one that differs is refused, and nothing is
/// written.
#[test]
fn lengths() {
    let image = image_of_c();
    for place in 0..5 {
        let mut lengths = [3, 3, 3, 2, 2];
        lengths[place] += 1;
        let mut tables = Tables::new(lengths);
        assert_eq!(run(&image, tables.lend(), TERMS), [30, 0, 0, 0, 0]);
        let record = begin(&image, tables.lend(), TERMS);
        assert_eq!(record.numbers(), [30, 0, 0, 0, 0, 0, 0, 0]);
        let mut record = Record::from_numbers([6, 0, 0, 0, 0, 0, 0, 0]);
        assert_eq!(step(&image, tables.lend(), TERMS, &mut record), 30);
        assert_eq!(tables.0, vec![9; lengths[0]]);
    }
    let hints = vec![0; 65_537];
    let terms = Terms {
        hints: &hints,
        ..TERMS
    };
    let mut tables = Tables::new([1; 5]);
    assert_eq!(run(&image, tables.lend(), terms), [31, 0, 0, 0, 0]);
    assert_eq!(begin(&image, tables.lend(), terms).answer, 31);
    let terms = Terms {
        hints: &hints[1..],
        ..TERMS
    };
    assert_eq!(begin(&image, tables.lend(), terms).answer, 6);
}

#[test]
fn editions_and_ways() {
    let image = image_of_c();
    let mut tables = Tables::new([1; 5]);
    for (edition, way, number) in [(3, 0, 36), (0, 2, 36), (2, 2, 37), (2, 1, 4)] {
        let terms = Terms {
            edition,
            way,
            ..TERMS
        };
        assert_eq!(run(&image, tables.lend(), terms)[0], number);
        let begun = begin(&image, tables.lend(), terms).answer;
        assert_eq!(begun, if number < 20 { 6 } else { number });
    }
}
