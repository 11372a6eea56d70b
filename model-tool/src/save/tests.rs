//! Saved runs are read as they were written; what is wrong with one is told with its line and column.

use super::*;

fn example() -> Saved {
    let model = "states 3\nevents 2\ninitial 0\nfinal\nrow 0 0 : 1 2\nrow 1 1 :\nrow 2 1 :\n";
    let model = crate::text::read(model.as_bytes()).unwrap();
    let blocker = |mask, level, entered| Blocker {
        case: Case(mask),
        level,
        entered,
    };
    let pending = |mask, symbol| Pending {
        case: Case(mask),
        symbol,
    };
    Saved {
        image: crate::image::write(&model),
        places: [4, 8],
        settings: Settings {
            hints: vec![5, 0],
            edition: 1,
            way: 1,
        },
        paused: Paused {
            record: Record::from_numbers([6, 12, 3, 1, 2, 1, 2, 1]),
            blockers: vec![blocker(2, 1, 2), blocker(6, 3, 9)],
            pending: vec![pending(7, 1)],
        },
    }
}

fn sealed(above: &str) -> String {
    format!("{above}digest {:016x}\n", digest(above.as_bytes()))
}

/// The fault of the example with a line, from 1, in place of another, and the digest made right.
fn fault_with(line: usize, text: &str) -> String {
    let written = write(&example());
    let mut lines: Vec<&str> = written.lines().collect();
    lines.pop();
    lines[line - 1] = text;
    read(sealed(&(lines.join("\n") + "\n")).as_bytes())
        .unwrap_err()
        .to_string()
}

#[test]
fn written_and_read() {
    let expected = "saved-run 1\n\
         image 03020300010000000000000000000000000000002400000009000000\
         2d0000001200000000060000000000000001000000000000000002000000000000000\u{30}\n\
         rooms 4 8\nedition 1\nway 1\nhints 2\nrecord 6 12 3 1 2 1 2 1\n\
         hint 5\nhint 0\nblocker 2 1 2\nblocker 6 3 9\npending 7 1\n";
    assert_eq!(write(&example()), sealed(expected));
    assert_eq!(read(write(&example()).as_bytes()), Ok(example()));
}

#[test]
fn faults_with_a_right_digest() {
    let bytes = "expected bytes, two hexadecimal digits each";
    let few = "refused under number 20: the image is under 20 bytes";
    for (line, text, fault) in [
        (2, "image 0g", format!("2:7: {bytes}")),
        (2, "image 012", format!("2:7: {bytes}")),
        (2, "image +1", format!("2:7: {bytes}")),
        (2, "image", format!("2:6: {bytes}")),
        (2, "image 00", format!("2:7: {few}")),
        (
            3,
            "rooms 4",
            "3:8: expected: rooms BLOCKERS WORD".to_owned(),
        ),
        (
            3,
            "rooms 4 8 9",
            "3:11: expected: rooms BLOCKERS WORD".to_owned(),
        ),
        (
            3,
            "rooms 65537 8",
            "3:7: 65537: expected 0 to 65536".to_owned(),
        ),
        (
            3,
            "rooms 4 65537",
            "3:9: 65537: expected 0 to 65536".to_owned(),
        ),
        (4, "editio 1", "4:1: expected: edition EDITION".to_owned()),
        (4, "edition 3", "4:9: 3: expected 1 to 2".to_owned()),
        (5, "way 2", "5:5: 2: expected 0 to 1".to_owned()),
        (5, "way x", "5:5: 'x': expected a decimal number".to_owned()),
        (
            6,
            "hints 65537",
            "6:7: 65537: expected 0 to 65536".to_owned(),
        ),
        (
            6,
            "hints 1",
            "9:1: expected: blocker MASK LEVEL STEP".to_owned(),
        ),
        (8, "hint 8", "8:6: 8: expected 0 to 7".to_owned()),
        (10, "blocker 8 1 2", "10:9: 8: expected 0 to 7".to_owned()),
        (
            10,
            "blocker 2 0 2",
            "10:11: 0: expected 1 to 4294967295".to_owned(),
        ),
        (
            10,
            "blocker 2 1 13",
            "10:13: 13: expected 1 to 12".to_owned(),
        ),
        (12, "pending 7 2", "12:11: 2: expected 0 to 1".to_owned()),
    ] {
        assert_eq!(fault_with(line, text), fault, "{text}");
    }
    let most = u64::MAX;
    let number = format!("{most}0");
    let fault = format!("5:5: '{number}': expected a decimal number");
    assert_eq!(fault_with(5, &format!("way {number}")), fault);
}

/// Each bound of a record, as the library checks them, and what stands in the lines below it.
#[test]
fn records_that_are_none() {
    for (record, fault) in [
        ("1 12 3 1 2 1 2 1", "7:8: 1: expected 6"),
        ("7 12 3 1 2 1 2 1", "7:8: 7: expected 0 to 6"),
        ("6 12 9 1 2 1 2 1", "7:13: 9: expected 0 to 8"),
        ("6 12 3 2 2 1 2 1", "7:15: 2: expected 0 to 1"),
        ("6 12 3 1 5 1 2 1", "7:17: 5: expected 0 to 4"),
        ("6 12 3 1 2 4 2 1", "7:19: 4: expected 0 to 3"),
        ("6 12 3 1 2 1 13 1", "7:21: 13: expected 0 to 12"),
        ("6 12 3 1 2 1 2 13", "7:23: 13: expected 0 to 12"),
        ("6 12 3 1 2 1 2", "7:22: expected: record EIGHT NUMBERS"),
        ("6 12 3 1 2 2 2 1", "13:1: expected: pending MASK SYMBOL"),
        (
            "6 12 3 1 2 0 2 1",
            "12:1: a line too many: expected the digest",
        ),
        ("6 12 3 1 1 1 2 1", "11:1: expected: pending MASK SYMBOL"),
    ] {
        assert_eq!(fault_with(7, &format!("record {record}")), fault);
    }
}

#[test]
fn damage() {
    let written = write(&example());
    let fault = |bytes: &[u8]| read(bytes).unwrap_err().to_string();
    let no_run = "1:1: no saved run: expected the line 'saved-run 1'";
    assert_eq!(fault(b""), no_run);
    assert_eq!(fault(b"saved-run 2\n"), no_run);
    let cut = "1:1: the file is cut short: expected its last line 'digest ..'";
    assert_eq!(fault(b"saved-run 1\n"), cut);
    let damaged = "13:1: the file is damaged: the lines above have another digest";
    assert_eq!(fault(written.replace("way 1", "way 0").as_bytes()), damaged);
    for place in 0..written.len() {
        for bit in 0..8 {
            let mut bytes = written.clone().into_bytes();
            bytes[place] ^= 1 << bit;
            assert!(read(&bytes).is_err(), "bit {bit} of byte {place}");
        }
        assert!(
            read(&written.as_bytes()[..place]).is_err(),
            "cut at {place}"
        );
    }
}
