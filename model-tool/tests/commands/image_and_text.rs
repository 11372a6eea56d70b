//! `afa image` and `afa text`: there and back, and images that are refused.

use super::*;

/// What a command that succeeds writes to standard output, which may be no text.
fn bytes(words: &[&str]) -> Vec<u8> {
    let ended = program().args(words).output().unwrap();
    assert_eq!(ended.status.code(), Some(0), "{words:?}");
    assert!(ended.stderr.is_empty(), "{words:?}");
    ended.stdout
}

#[test]
fn an_image_is_kept_on_the_way_to_text_and_back() {
    let folder = scratch("commands-image");
    for (number, model) in models().iter().enumerate() {
        let image = bytes(&["image", model]);
        let path = file(&folder, &format!("{number}.image"), &image);
        let text = afa(&["text", &path]);
        assert_eq!((text.status, text.errors.as_str()), (0, ""), "{model}");
        assert_eq!(afa_reading(&["text", "-"], &image), text, "{model}");
        let path = file(&folder, &format!("{number}.txt"), &text.output);
        assert_eq!(bytes(&["image", &path]), image, "{model}");
        assert_eq!(afa(&["check", &path]).status, afa(&["check", model]).status);
    }
}

#[test]
fn the_image_of_c_is_that_of_the_page_on_formats() {
    let page = text_of("docs/FORMAT.md");
    let lines = page
        .lines()
        .skip_while(|line| !line.starts_with("     0: 03"));
    let lines = lines.take_while(|line| !line.is_empty());
    let bytes_of = |line: &str| {
        let (_, behind) = line.split_once(": ").unwrap();
        let (digits, _) = behind.split_once("   ").unwrap();
        let digits: Vec<&str> = digits.split(' ').collect();
        digits
            .into_iter()
            .map(|digits| u8::from_str_radix(digits, 16).unwrap())
            .collect::<Vec<_>>()
    };
    let expected: Vec<u8> = lines.flat_map(bytes_of).collect();
    assert_eq!(expected.len(), 63);
    assert_eq!(bytes(&["image", "models/c.txt"]), expected);
}

#[test]
fn an_image_that_is_refused() {
    let folder = scratch("commands-refused");
    let image = bytes(&["image", "models/c.txt"]);
    let with = |place: usize, byte: u8| {
        let mut image = image.clone();
        image[place] = byte;
        image
    };
    for (name, number, image) in [
        ("nothing", 20, Vec::new()),
        ("short", 20, image[..19].to_vec()),
        ("no-states", 21, with(0, 0)),
        ("states", 21, with(0, 65)),
        ("no-events", 22, with(1, 0)),
        ("events", 22, with(1, 65)),
        ("rows", 23, with(3, 17)),
        ("length", 24, image[..62].to_vec()),
        ("initial", 25, with(4, 8)),
        ("final", 25, with(19, 1)),
        ("span", 26, with(20, 0x23)),
        ("state", 27, with(36, 3)),
        ("case", 27, with(37, 8)),
    ] {
        let path = file(&folder, name, &image);
        let expected = format!("{path}: refused under number {number}: ");
        assert_no_answer(&afa(&["text", &path]), &[&expected]);
        let expected = format!("afa: standard input: refused under number {number}: ");
        assert_no_answer(&afa_reading(&["text", "-"], &image), &[&expected]);
    }
}

#[test]
fn a_file_that_is_not_there_or_a_folder() {
    for command in COMMANDS {
        let level: &[&str] = if command == "why" {
            &["--level", "1"]
        } else {
            &[]
        };
        let none = afa(&[&[command, "models/none.txt"], level].concat());
        assert_no_answer(&none, &["models/none.txt: "]);
        assert_no_answer(&afa(&[&[command, "models"], level].concat()), &["models: "]);
    }
}
