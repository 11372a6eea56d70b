//! `afa check`: status, verdict and word by every way and in every edition, with a page and an object.

use super::*;

#[test]
fn the_status_is_the_verdict() {
    for model in models() {
        let ended = afa(&["check", &model]);
        let status = match shortest(&Model::read(&text_of(&model))) {
            None => 0,
            Some(_) => 1,
        };
        assert_eq!(verdict(&ended), ["empty", "nonempty"][status], "{model}");
        assert_eq!(ended.status, status as i32, "{model}: {ended:?}");
        assert_eq!(ended.errors, "", "{model}");
    }
}

#[test]
fn ways_and_editions_agree() {
    for model in models() {
        let length = shortest(&Model::read(&text_of(&model)));
        for (way, edition) in [("0", "1"), ("0", "2"), ("1", "1"), ("1", "2")] {
            let found = found(&[&model, "--way", way, "--edition", edition]);
            let case = format!("{model} by way {way} in edition {edition}: {found:?}");
            let Some(length) = length else {
                assert_eq!(found.get("number").number(), 0, "{case}");
                continue;
            };
            let is_slip = edition == "2" && length == 0;
            assert_eq!(found.get("verdict").text(), "nonempty", "{case}");
            assert_eq!(
                found.get("number").number(),
                if is_slip { 5 } else { 1 },
                "{case}"
            );
            assert_eq!(found.get("word").list().len(), length, "{case}");
            assert_eq!(found.get("least").number(), length as u64, "{case}");
            let says_slip = found.get("sentence").text().contains("slip");
            assert_eq!(says_slip, is_slip, "{case}");
        }
    }
}

#[test]
fn a_slip_is_told_in_edition_2_alone() {
    for (edition, says_slip) in [("1", false), ("2", true)] {
        let ended = afa(&["check", "models/d.txt", "--edition", edition]);
        assert_eq!(ended.status, 1);
        assert_eq!(ended.output.contains("a slip of the model"), says_slip);
    }
}

#[test]
fn json_and_html_do_not_change_the_status() {
    let folder = scratch("commands-status");
    for (number, model) in models().iter().enumerate() {
        let page = folder.join(format!("{number}.html"));
        let page = page.to_str().unwrap();
        let plain = afa(&["check", model]);
        let json = afa(&["check", model, "--json"]);
        let html = afa(&["check", model, "--html", page]);
        assert_eq!(json.status, plain.status, "{model}");
        assert_eq!(html, plain, "{model}");
        assert!(fs::read_to_string(page).unwrap().ends_with("</html>\n"));
    }
}

#[test]
fn a_page_takes_the_place_of_an_older_one() {
    let folder = scratch("commands-older");
    let page = file(&folder, "page.html", "older");
    assert_no_answer(&afa(&["check", "models/none.txt", "--html", &page]), &[]);
    assert_eq!(fs::read_to_string(&page).unwrap(), "older");
    assert_eq!(afa(&["check", "models/b.txt", "--html", &page]).status, 1);
    assert!(fs::read_to_string(&page).unwrap().contains("b.txt"));
    assert_eq!(fs::read_dir(&folder).unwrap().count(), 1);
}
