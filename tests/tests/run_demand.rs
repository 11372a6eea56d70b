//! The demand on speed but for the time: its run on its terms, by the library and in Rust.

use afa_tests::acceptance::accepts_backwards;
use afa_tests::afa;
use afa_tests::demand::{model, terms, PLACES};
use afa_tests::machine;
use afa_tests::search::shortest_word;
use afa_tests::tables::{Answer, Tables};

/// "The same five numbers, masks, levels and word (request 10's third table is left out)", and those that
/// are known.
#[test]
fn same_numbers_masks_levels_and_word() {
    let (model, terms) = (model(), terms());
    let image = model.image();
    assert_eq!(terms.allowance, 1 << 22);
    assert_eq!((terms.edition, terms.way, terms.hints.len()), (1, 0, 0));
    assert_eq!(PLACES, 1_024);

    let mut library = Tables::cleared(PLACES, PLACES);
    let mut counts = [0; 4];
    let number = afa::run::run(&image, library.lend(), terms.lend(), &mut counts);
    let [steps, level, blockers, hints_accepted] = counts;
    let answer = Answer::of_numbers([number, steps, level, blockers, hints_accepted]);

    let mut rust = Tables::cleared(PLACES, PLACES);
    let expected = machine::run_without_entered(&image, rust.lend(), terms.lend());
    assert_eq!(answer, expected);
    assert_eq!(library.masks, rust.masks);
    assert_eq!(library.levels, rust.levels);
    assert_eq!(library.symbols, rust.symbols);

    // The word is the one symbol 29 times, so that the whole table is 0.
    assert_eq!(answer, Answer::of_numbers([1, 219, 29, 61, 0]));
    assert_eq!(library.symbols, [0; PLACES]);
    assert_eq!(shortest_word(&model), Some(29));
    assert!(accepts_backwards(&model, &library.symbols[..29]));
}
