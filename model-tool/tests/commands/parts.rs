//! Parts of a model, by name in every set.

use super::*;

const NAMED: &str = "states a b c d\nevents x\npart left : a b\npart right: c d\n";

fn image(text: &str) -> Vec<u8> {
    let folder = scratch("commands-parts");
    let path = file(&folder, "model.txt", text);
    let ended = program().args(["image", &path]).output().unwrap();
    assert!(ended.status.success(), "{text}: {ended:?}");
    ended.stdout
}

#[test]
fn a_part_stands_for_all_of_its_states() {
    let by_parts = format!("{NAMED}initial left\nfinal right b\nrow a x : right\nrow b x: left right\nrow c x : left d\n");
    let by_states = "states a b c d\nevents x\ninitial a b\nfinal b c d\nrow a x : c d\nrow b x: a b c d\nrow c x : a b d\n";
    assert_eq!(image(&by_parts), image(by_states));
}

#[test]
fn a_part_stands_for_its_states_in_hints() {
    let folder = scratch("commands-parts-hints");
    let [parts, states] = [
        "feed stale waiting shown\n{feed, screen}\n{feed, cache}\n",
        "quiet live stale waiting shown\n{quiet, live, blank, waiting, shown}\n{1 2 3 4}\n",
    ];
    let ended = [parts, states].map(|hints| {
        let path = file(&folder, "hints", hints);
        afa(&["check", "models/screen-mended.txt", "--hints", &path])
    });
    assert_eq!(ended[0], ended[1]);
    assert_ne!(ended[0], afa(&["check", "models/screen-mended.txt"]));
    assert!(!ended[0].output.contains(" 0 hints"), "{ended:?}");
}

#[test]
fn a_part_is_shown_by_its_name_where_all_of_it_is_meant() {
    let folder = scratch("commands-parts-shown");
    let path = file(
        &folder,
        "model.txt",
        format!("{NAMED}part one : 0\n").replace("a b c d", "o a b c d") + "initial a\nfinal\n",
    );
    for (states, shown) in [
        (&["a", "b"][..], "{left}"),
        (&["d", "b", "c"], "{b, right}"),
        (&["right", "left", "0"], "{left, right, o}"),
        (&["one"], "{o}"),
        (&[], "{}"),
    ] {
        let ended = afa(&[&["why", &path, "--level", "5"], states].concat());
        let expected = format!("not blocked: no blocker of level 5 or more contains {shown}\n");
        assert!(ended.output.starts_with(&expected), "{shown}: {ended:?}");
    }
}
