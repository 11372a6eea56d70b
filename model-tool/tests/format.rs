//! The examples of `docs/FORMAT.md`: its texts are read, and the bytes are those of `models/c.txt`.

mod common;

use common::{file, program, root, scratch};
use std::fs;

/// The indented lines after the line that begins so, up to the next one that is not indented.
fn example(begins: &str) -> String {
    let page = fs::read_to_string(root().join("docs/FORMAT.md")).unwrap();
    let lines = page.lines().skip_while(|line| !line.starts_with(begins));
    let lines = lines.skip(1).skip_while(|line| !line.starts_with("    "));
    let lines = lines.map_while(|line| line.strip_prefix("    "));
    lines.map(|line| line.to_owned() + "\n").collect()
}

fn image(model: &str) -> Vec<u8> {
    let ended = program().args(["image", model]).output().unwrap();
    assert!(ended.status.success(), "{ended:?}");
    ended.stdout
}

/// The image of a text of the page.
fn image_of_example(name: &str, begins: &str) -> Vec<u8> {
    let folder = scratch(&format!("format-{name}"));
    image(&file(&folder, name, example(begins)))
}

#[test]
fn texts() {
    let image_of_c = image("models/c.txt");
    assert_eq!(image_of_example("c.txt", "`models/c.txt` says"), image_of_c);
    let other = image_of_example("format.txt", "## A model as text");
    assert_eq!(other[..4], [3, 2, 1, 0]);
    assert_eq!(other[36..], [0, 6, 0, 0, 0, 0, 0, 0, 0]);
}

#[test]
fn bytes() {
    let mut bytes = Vec::new();
    for line in example("Its image has").lines() {
        let (place, rest) = line.split_once(':').expect("a place");
        assert_eq!(place.trim().parse(), Ok(bytes.len()), "{line}");
        // What follows the bytes stands behind more than one space.
        let (digits, _) = rest.trim_start().split_once("  ").expect("what they say");
        let byte = |word| u8::from_str_radix(word, 16).expect("two digits");
        bytes.extend(digits.split(' ').map(byte));
    }
    assert_eq!(bytes.len(), 63);
    assert_eq!(bytes, image("models/c.txt"));
}
