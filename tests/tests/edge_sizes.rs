//! The smallest and largest sizes and their neighbours.

use afa_tests::afa::{self, Library};
use afa_tests::checks::check;
use afa_tests::compare::{compare_read, compare_word, expect_number};
use afa_tests::guarded::{ReadOnly, Writable, EDGES};
use afa_tests::image::{model_c, Model, Row};

#[test]
fn lengths_about_20() {
    let mut library = Library::new();
    let image = model_c().image();
    for length in 0..20 {
        expect_number(&mut library, &image[..length], 20);
        expect_number(&mut library, &vec![0; length], 20);
        expect_number(&mut library, &vec![255; length], 20);
    }
    expect_number(&mut library, &image[..20], 24);
    expect_number(&mut library, &[0; 20], 21);
    let mut head_alone = [0; 20];
    head_alone[0] = 1;
    expect_number(&mut library, &head_alone, 22);
    head_alone[1] = 1;
    expect_number(&mut library, &head_alone, 24);
    head_alone[2..4].copy_from_slice(&4097_u16.to_le_bytes());
    expect_number(&mut library, &head_alone, 23);
    for length in 20..image.len() {
        expect_number(&mut library, &image[..length], 24);
    }
}

/// Every n with every k, the length fitting wherever it can.
#[test]
fn every_n_and_k() {
    let mut library = Library::new();
    for k in 0..=255 {
        let mut image = Model::plain(1, k, 0).image();
        for n in 0..=255 {
            image[0] = n;
            let number = match (n, k) {
                (0 | 65.., _) => 21,
                (_, 0 | 65..) => 22,
                _ => 0,
            };
            let read = compare_read(&mut library, &image, &"every n and k");
            assert_eq!(read.err().unwrap_or(0), number, "n {n}, k {k}");
            let word = [(k.max(1) - 1) as u8];
            let answer = if number == 0 { 1 } else { number };
            assert_eq!(library.accepts(&image, &word), answer, "n {n}, k {k}");
        }
    }
}

/// Every m with one length, so that at most one fits.
#[test]
fn every_m() {
    let mut library = Library::new();
    let mut image = Model::plain(1, 1, 5).image();
    for m in 0..=u16::MAX {
        image[2..4].copy_from_slice(&m.to_le_bytes());
        let number = match m {
            5 => 0,
            4097.. => 23,
            _ => 24,
        };
        let read = compare_read(&mut library, &image, &"every m");
        assert_eq!(read.err().unwrap_or(0), number, "m {m}");
    }
}

#[test]
fn m_about_4096() {
    let mut library = Library::new();
    for symbols in [1, 2, 64] {
        for (rows, number, longer) in [
            (4095, 0, 24),
            (4096, 0, 24),
            (4097, 23, 23),
            (4098, 23, 23),
            (8192, 23, 23),
        ] {
            let mut image = Model::plain(64, symbols, rows).image();
            expect_number(&mut library, &image, number);
            image.push(0);
            expect_number(&mut library, &image, longer);
        }
    }
}

#[test]
fn largest_image() {
    let mut library = Library::new();
    let mut model = Model::plain(64, 64, 0);
    for (symbol, rows) in model.rows.iter_mut().enumerate() {
        // Symbol s moves every state by s places.
        rows.extend((0..64).map(|state| Row {
            state,
            case: 1 << ((usize::from(state) + symbol) % 64),
        }));
    }
    model.initial = 1 << 63;
    model.final_set = 1 << 5;
    let mut image = model.image();
    assert_eq!(image.len(), 37_396);
    assert_eq!(
        check(&image).unwrap().numbers(),
        [64, 64, 4096, 1 << 63, 1 << 5]
    );
    expect_number(&mut library, &image, 0);
    for (word, answer) in [
        (vec![6], 1),
        (vec![5], 0),
        (vec![63, 7], 1),
        (vec![1; 6], 1),
    ] {
        assert_eq!(compare_word(&mut library, &model, &image, &word), answer);
    }
    let last = image.len() - 9;
    image[last] = 64;
    expect_number(&mut library, &image, 27);
    image[last] = 63;
    image.push(0);
    expect_number(&mut library, &image, 24);
}

/// Lengths that would fit if they were cut down to 16 or 32 bits.
#[test]
fn lengths_that_fit_when_cut() {
    let mut library = Library::new();
    let image = model_c().image();
    let mut longer = image.clone();
    longer.resize(image.len() + (1 << 16), 0);
    expect_number(&mut library, &longer, 24);
    longer.truncate(1 << 16);
    expect_number(&mut library, &longer, 24);

    let length = image.len() + (1 << 32);
    let mut long_memory = ReadOnly::with_room(length);
    let mut word_memory = ReadOnly::with_room(2);
    let mut head_memory = Writable::with_room(40);
    for edge in EDGES {
        let image = long_memory.lend_longer(&image, length, edge);
        let head: &mut [u64; 5] = head_memory.lend(&[7; 5], edge).try_into().unwrap();
        assert_eq!(afa::read(image, head), 24);
        assert_eq!(*head, [7; 5]);
        assert_eq!(afa::accepts(image, word_memory.lend(&[0, 1], edge)), 24);
    }
}

/// Every single bit of I, of F and of a row's case, and every state of a row, with every n.
#[test]
fn every_bit_with_every_n() {
    let mut library = Library::new();
    for states in 1..=64 {
        let image = Model::plain(states, 1, 3).image();
        for bit in 0..64 {
            let beyond = bit >= states;
            for (at, number) in [(4, 25), (12, 25), (29, 27), (38, 27), (47, 27)] {
                let mut image = image.clone();
                image[at + bit / 8] |= 1 << (bit % 8);
                expect_number(&mut library, &image, if beyond { number } else { 0 });
            }
        }
        for state in 0..=255 {
            for at in [28, 37, 46] {
                let mut image = image.clone();
                image[at] = state;
                let number = if usize::from(state) < states { 0 } else { 27 };
                expect_number(&mut library, &image, number);
            }
        }
    }
}

/// Every byte as a symbol with every k.
#[test]
fn every_symbol_with_every_k() {
    let mut library = Library::new();
    for symbols in 1..=64 {
        let model = Model::plain(1, symbols, 0);
        let image = model.image();
        for symbol in 0..=255 {
            let answer = compare_word(&mut library, &model, &image, &[symbol]);
            let known = usize::from(symbol) < symbols;
            assert_eq!(answer, if known { 1 } else { 32 });
        }
    }
}

/// Words about and over 2^8 and 2^16 symbols long, on a model that accepts lengths by their remainder
/// by 3, so that a length cut down to 8 or 16 bits shows.
#[test]
fn long_words() {
    let mut library = Library::new();
    let model = Model::new(3, 1, 2, &[&[(0, 2), (1, 4), (2, 1)]]);
    let image = model.image();
    for length in [255, 256, 257, 258, 65_535, 65_536, 65_537, 65_538, 200_000] {
        let mut word = vec![0; length];
        let answer = compare_word(&mut library, &model, &image, &word);
        assert_eq!(answer, u64::from(length % 3 == 1));
        for place in [0, length / 2, length - 1] {
            word[place] = 1;
            assert_eq!(compare_word(&mut library, &model, &image, &word), 32);
            word[place] = 0;
        }
    }
}
