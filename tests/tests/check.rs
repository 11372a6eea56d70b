//! `bash model-tool/check`, the script of README's first command, on models whose runs stop: the limit
//! that was hit, and what it says the run has shown.

use afa_tests::generate::stops::{
    for_want_of_blocker_room, for_want_of_steps, for_want_of_word_room,
};
use afa_tests::text;
use std::fs;
use std::path::Path;
use std::process::Command;

/// The rooms and the allowance of the program `emptiness`, whose own stops are known.
const ROOMS: [&str; 6] = [
    "--blockers",
    "256",
    "--word",
    "256",
    "--allowance",
    "100000",
];

#[test]
fn stops() {
    for (name, model, told) in [
        (
            "steps",
            for_want_of_steps(),
            "stopped: for want of steps, with 100000 steps allowed\n\
             no forbidden event sequence has fewer than 199 events\n\
             100000 steps, level 199, 244 blockers held, 0 hints accepted\n",
        ),
        (
            "blocker-room",
            for_want_of_blocker_room(),
            "stopped: for want of blocker room, with 256 places\n\
             no forbidden event sequence has fewer than 104 events\n\
             992 steps, level 104, 256 blockers held, 0 hints accepted\n",
        ),
        (
            "word-room",
            for_want_of_word_room(),
            "stopped: for want of word room, with 256 places\n\
             no forbidden event sequence has fewer than 257 events\n\
             783 steps, level 256, 256 blockers held, 0 hints accepted\n",
        ),
    ] {
        let written = text::write(&model);
        assert_eq!(text::read(&written), model, "{name}");
        let path = Path::new(env!("CARGO_TARGET_TMPDIR")).join(format!("{name}.txt"));
        fs::write(&path, written).expect("a place to write");
        let root = Path::new(env!("CARGO_MANIFEST_DIR")).join("..");
        let mut check = Command::new("bash");
        let check = check.arg("model-tool/check").arg(path).args(ROOMS);
        let check = check.current_dir(root);
        let ended = check.output().expect("bash starts");
        assert_eq!(String::from_utf8_lossy(&ended.stdout), told, "{ended:?}");
        assert_eq!(ended.status.code(), Some(2), "{name}: {ended:?}");
    }
}
