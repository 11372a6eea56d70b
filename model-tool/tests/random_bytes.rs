//! Bytes at random, and damaged files, as each of the four kinds of file that the program reads: it says
//! what is wrong, and never panics.

mod common;

use common::{afa, assert_refused, models, on_two_threads, program, root, scratch, with_digest};
use common::{Ended, Random};
use std::fs;
use std::path::Path;
use std::sync::atomic::{AtomicUsize, Ordering};

#[derive(Clone, Copy, Debug, PartialEq, Eq)]
enum Kind {
    Model,
    Image,
    Hints,
    Save,
}

const KINDS: [Kind; 4] = [Kind::Model, Kind::Image, Kind::Hints, Kind::Save];

/// Where the bytes come from.
#[derive(Clone, Copy, Debug, PartialEq, Eq)]
enum Source {
    /// Any bytes.
    Raw,
    /// Words of the format in any order.
    Drawn,
    /// A good file with some changes.
    Damaged,
}

const SOURCES: [(Source, usize); 3] = [
    (Source::Raw, 1000),
    (Source::Drawn, 750),
    (Source::Damaged, 750),
];

/// The model that hints and saved runs are read for.
const MODEL: &str = "models/stall.txt";

/// Few steps in small rooms, should there be a run.
const FEW: [&str; 6] = ["--allowance", "200", "--blockers", "32", "--word", "32"];

/// Lets the program read a file of this kind.
fn read(kind: Kind, file: &str) -> Ended {
    let (words, few) = match kind {
        Kind::Model => (vec!["check", file], &FEW[..]),
        Kind::Image => (vec!["text", file], &[][..]),
        Kind::Hints => (vec!["check", MODEL, "--hints", file], &FEW[..]),
        // The rooms are those of the file.
        Kind::Save => (vec!["check", MODEL, "--resume", file], &FEW[..2]),
    };
    afa(&[&words, few].concat())
}

/// That a file was refused by a message that says where.
fn assert_told(kind: Kind, ended: &Ended, file: &str, context: &str) {
    assert_refused(ended, file, context);
    let (_, message) = ended.errors.split_at("afa: ".len() + file.len());
    if kind == Kind::Image {
        assert!(
            message.starts_with(": refused under number 2"),
            "{context}: {ended:?}"
        );
    } else {
        let place: Vec<&str> = message.splitn(4, ':').collect();
        let is_number = |word: &str| word.parse::<u32>().is_ok_and(|number| number > 0);
        assert!(
            is_number(place[1]) && is_number(place[2]),
            "{context}: {ended:?}"
        );
        let says = ["xpected", "the file is damaged", "refused under number 2"];
        assert!(
            says.iter().any(|words| message.contains(words)),
            "{context}: {ended:?}"
        );
    }
}

/// Good files of one kind.
fn good(kind: Kind, folder: &Path) -> Vec<Vec<u8>> {
    let text = |path: &str| fs::read_to_string(root().join(path)).unwrap();
    match kind {
        // Changes of comments would hardly be noticed.
        Kind::Model => models()
            .iter()
            .map(|path| without_comments(&text(path)))
            .collect(),
        Kind::Image => {
            let image = |path: &String| program().args(["image", path]).output().unwrap().stdout;
            models().iter().map(image).collect()
        }
        Kind::Hints => vec![
            b"{flowing, empty, young}\nfeed old shown\n0 1 12\n".to_vec(),
            b"shown, stamp\n\n{}\n{ screen current }\n".to_vec(),
        ],
        Kind::Save => {
            let save = folder.join("good.run");
            let save = save.to_str().unwrap();
            let stopped = |stop: &usize| {
                afa(&[
                    "check",
                    MODEL,
                    "--allowance",
                    &stop.to_string(),
                    "--save",
                    save,
                ]);
                fs::read(save).unwrap()
            };
            [0, 9, 30, 60].iter().map(stopped).collect()
        }
    }
}

fn without_comments(text: &str) -> Vec<u8> {
    let said = text
        .lines()
        .map(|line| line.split('#').next().unwrap().trim_end());
    let said: Vec<&str> = said.filter(|line| !line.is_empty()).collect();
    (said.join("\n") + "\n").into_bytes()
}

/// A length: mostly some hundreds, and sometimes thousands.
fn length(random: &mut Random) -> usize {
    match random.below(50) {
        0 => random.below(10_001),
        _ => random.below(400),
    }
}

/// One of the good files with some changes.
fn damaged(random: &mut Random, good: &[Vec<u8>]) -> Vec<u8> {
    let good = &good[random.below(good.len())];
    let mut bytes = good.clone();
    while bytes == *good {
        for _ in 0..1 + random.below(6) {
            damage(random, &mut bytes);
        }
    }
    bytes
}

fn damage(random: &mut Random, bytes: &mut Vec<u8>) {
    let place = random.below(bytes.len() + 1);
    let end = bytes.len().min(place + 1 + random.below(12));
    match random.below(6) {
        0 if place < end => bytes[place] = random.number() as u8,
        1 if place < end => bytes[place] ^= 1 << random.below(8),
        2 => drop(bytes.drain(place..end)),
        3 => bytes.insert(place, random.number() as u8),
        4 => drop(bytes.splice(place..place, bytes[place..end].to_vec())),
        _ if random.below(4) == 0 => bytes.truncate(place),
        _ => {}
    }
}

const MODEL_WORDS: [&str; 30] = [
    "states",
    "events",
    "initial",
    "final",
    "part",
    "row",
    "\nrow",
    "\npart",
    "\ninitial",
    "\nfinal",
    ":",
    ":",
    "a",
    "b",
    "c",
    "x",
    "y",
    "0",
    "1",
    "2",
    "64",
    "65",
    "99999999999999999999",
    "#",
    "\n",
    "\n",
    "\t",
    "\r\n",
    "ä-9_",
    "{",
];

const MODEL_LINES: [&str; 22] = [
    "initial 0",
    "initial a b",
    "initial p",
    "final 1 2",
    "final",
    "final 1 1",
    "row 0 0 : 1 2",
    "row 1 1 :",
    "row 2 1 : 0",
    "row 2 1 : 3",
    "row 2 2 : 0",
    "row 2 : 0",
    "row a x : b",
    "row c y : p",
    "row 0 0 : 0 0",
    "part q : 0",
    "part q : 0 1",
    "part a : 0",
    "part r :",
    "states 3",
    "# a line that says nothing",
    "\t",
];

const HINT_WORDS: [&str; 20] = [
    "flowing", "stalled", "empty", "young", "feed", "queue", "shown", "{", "}", ",", "0", "7",
    "12", "13", "#", "\n", "\n", "}\n{", "screeen", "\u{202e}",
];

const SAVE_LINES: [&str; 22] = [
    "saved-run 1",
    "saved-run 2",
    "image",
    "image 0",
    "image 0g",
    "image 0d08",
    "rooms 9 9",
    "rooms 9",
    "rooms 65537 9",
    "edition 1",
    "edition x",
    "way 0",
    "way -1",
    "hints 0",
    "hints 1",
    "record 6 0 0 0 0 0 0 0",
    "record 0 0 0 0 0 0 0 0",
    "record 6 0 0 0 1 0 0 0",
    "record 6 0 0 0 0 0 0 99999999999999999999",
    "hint 3",
    "blocker 1 1 1",
    "digest 0000000000000000",
];

fn drawn(random: &mut Random, kind: Kind, good: &[Vec<u8>]) -> Vec<u8> {
    match kind {
        Kind::Model if random.below(2) == 0 => drawn_words(random, &MODEL_WORDS),
        Kind::Model => drawn_model(random),
        Kind::Image => drawn_image(random),
        Kind::Hints => drawn_words(random, &HINT_WORDS),
        Kind::Save => {
            let honest = std::str::from_utf8(&good[0]).unwrap();
            drawn_save(random, honest)
        }
    }
}

fn drawn_words(random: &mut Random, words: &[&str]) -> Vec<u8> {
    let length = length(random) / 4;
    let mut text = String::new();
    for _ in 0..1 + length {
        text += words[random.below(words.len())];
        text += [" ", " ", " ", ""][random.below(4)];
    }
    text.into_bytes()
}

/// Lines of a model, in an order that may be right.
fn drawn_model(random: &mut Random) -> Vec<u8> {
    let heads = [
        "states a b c\nevents x y\n",
        "states 3\nevents 2\npart p : 1 2\n",
    ];
    let mut text = heads[random.below(2)].to_owned();
    for _ in 0..random.below(12) {
        text += MODEL_LINES[random.below(MODEL_LINES.len())];
        text += "\n";
    }
    text.into_bytes()
}

/// A head that may be right, pairs that mostly are, and rows of small numbers.
fn drawn_image(random: &mut Random) -> Vec<u8> {
    let [states, events, rows] = [random.below(6), random.below(4), random.below(5)];
    let small = [0, 0, 0, 0, 0, 0, 1, 2, 3, 9];
    let mut some = |count: usize| -> Vec<u8> {
        (0..count)
            .map(|_| small[random.below(small.len())])
            .collect()
    };
    let mut image = vec![states as u8, events as u8, rows as u8, 0];
    image.extend([some(1), vec![0; 7], some(1), vec![0; 7]].concat());
    let mut begin = 20 + 8 * events;
    for event in 0..events {
        let length = if event + 1 == events { 9 * rows } else { 0 };
        image.extend([begin as u32, length as u32].map(u32::to_le_bytes).concat());
        begin += length;
    }
    for _ in 0..rows {
        image.extend([some(2), vec![0; 7]].concat());
    }
    if random.below(4) == 0 {
        let place = random.below(image.len());
        image[place] = random.number() as u8;
    }
    image
}

/// Lines of a saved run, in their order or not, some of them of an honest one, with a right digest or not.
fn drawn_save(random: &mut Random, honest: &str) -> Vec<u8> {
    let honest: Vec<&str> = honest.lines().collect();
    let mut lines = vec![honest[0]];
    for line in &honest[1..honest.len() - 1] {
        match random.below(8) {
            0 => lines.push(SAVE_LINES[random.below(SAVE_LINES.len())]),
            1 => {}
            _ => lines.push(line),
        }
    }
    for _ in 0..random.below(4) {
        let place = random.below(lines.len() + 1);
        lines.insert(place, SAVE_LINES[random.below(SAVE_LINES.len())]);
    }
    let text = lines.join("\n") + "\n";
    match random.below(4) {
        0 => text.into_bytes(),
        _ => with_digest(&text).into_bytes(),
    }
}

#[test]
fn ten_thousand_files_are_read_or_refused() {
    let folder = scratch("random-bytes");
    let mut random = Random(2026);
    let mut files: Vec<(Kind, Source, Vec<u8>)> = Vec::new();
    for kind in KINDS {
        let good = good(kind, &folder);
        for (source, count) in SOURCES {
            for _ in 0..count {
                let bytes = match source {
                    // A few bytes may be hints: a digit is a state's number, and a blank line says nothing.
                    Source::Raw if kind == Kind::Hints => {
                        let length = 8 + length(&mut random);
                        random.bytes(length)
                    }
                    Source::Raw => {
                        let length = length(&mut random);
                        random.bytes(length)
                    }
                    Source::Drawn => drawn(&mut random, kind, &good),
                    Source::Damaged => damaged(&mut random, &good),
                };
                files.push((kind, source, bytes));
            }
        }
    }
    assert_eq!(files.len(), 10_000);

    let well_formed: [[AtomicUsize; 3]; 4] = Default::default();
    on_two_threads(files.len(), |thread, place| {
        let (kind, source, bytes) = &files[place];
        let path = folder.join(format!("{thread}.bytes"));
        fs::write(&path, bytes).unwrap();
        let path = path.to_str().unwrap();
        let ended = read(*kind, path);
        if ended.status == 3 {
            let context = format!("{kind:?} {source:?} {place}");
            return assert_told(*kind, &ended, path, &context);
        }
        assert!((0..=2).contains(&ended.status) && !ended.output.is_empty());
        assert_eq!(ended.errors, "");
        well_formed[*kind as usize][*source as usize].fetch_add(1, Ordering::Relaxed);
    });
    for kind in KINDS {
        for (source, count) in SOURCES {
            let found = well_formed[kind as usize][source as usize].load(Ordering::Relaxed);
            println!("{kind:?} {source:?}: {found} of {count} well formed");
            if source == Source::Raw || (kind, source) == (Kind::Save, Source::Damaged) {
                assert_eq!(found, 0);
            }
            assert!(found * 10 < count * 9, "too few are wrong");
        }
    }
}

#[test]
fn ten_thousand_bytes_at_random_are_refused() {
    let folder = scratch("random-bytes-one");
    let path = folder.join("bytes");
    let path = path.to_str().unwrap();
    fs::write(path, Random(10_000).bytes(10_000)).unwrap();
    for kind in KINDS {
        assert_told(kind, &read(kind, path), path, "10,000 bytes");
    }
}

#[test]
fn an_empty_file_is_no_hint_and_nothing_else() {
    let folder = scratch("random-bytes-none");
    let path = folder.join("bytes");
    let path = path.to_str().unwrap();
    fs::write(path, "").unwrap();
    for kind in [Kind::Model, Kind::Image, Kind::Save] {
        assert_told(kind, &read(kind, path), path, "no bytes");
    }
    let without = afa(&[&["check", MODEL], &FEW[..]].concat());
    assert_eq!(read(Kind::Hints, path), without);
}

#[test]
fn long_words_are_cut_in_messages() {
    let folder = scratch("random-bytes-words");
    let path = folder.join("words");
    let path = path.to_str().unwrap();
    let long = "x".repeat(5000);
    let stopped = good(Kind::Save, &folder);
    let (lines, _) = stopped[0].split_at(stopped[0].len() - "digest 0123456789abcdef\n".len());
    let lines = std::str::from_utf8(lines).unwrap();
    for (kind, text) in [
        (Kind::Model, long.clone()),
        (Kind::Model, format!("states -{long}\n")),
        (Kind::Model, format!("states 3\nevents 1\ninitial {long}\n")),
        (
            Kind::Model,
            format!("states 3\nevents 1\nrow 0 {long} : 0\n"),
        ),
        (Kind::Model, format!("states {long} {long}\n")),
        (Kind::Hints, long.clone()),
        (Kind::Save, long.clone()),
        (
            Kind::Save,
            with_digest(&lines.replace("way 0", &format!("way {long}"))),
        ),
        (Kind::Save, with_digest(&lines.replace("way 0", &long))),
    ] {
        fs::write(path, text).unwrap();
        assert_told(kind, &read(kind, path), path, "a long word");
    }
}

/// Names may be as long as one likes, and there may be 64 of them.
#[test]
fn messages_stay_short_whatever_the_names_are() {
    let folder = scratch("random-bytes-names");
    let path = folder.join("model.txt");
    let path = path.to_str().unwrap();
    let name = |number: usize| format!("{}{number}", "long".repeat(30));
    let names: Vec<String> = (0..64).map(name).collect();
    let names = names.join(" ");
    for line in [
        "initial unknown\n",
        "initial\nfinal\nrow 0 unknown : 0\n",
        "initial\nfinal\nrow unknown 0 : 0\n",
        "part p : unknown\n",
    ] {
        fs::write(path, format!("states {names}\nevents {names}\n{line}")).unwrap();
        assert_told(Kind::Model, &read(Kind::Model, path), path, line);
    }
}
