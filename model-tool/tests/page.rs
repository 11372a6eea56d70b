//! The page that `check --html` writes is whole, says what `check --json` says, and needs nothing from
//! elsewhere.

mod common;

use common::json::{object, Value};
use common::reader::{Model, Set};
use common::{afa, afa_reading, file, models, scratch, text_of, Ended};
use std::fs;
use std::path::Path;

#[derive(Debug)]
enum Node {
    Text(String),
    Element(Element),
}

#[derive(Debug, Default)]
struct Element {
    name: String,
    attributes: Vec<(String, String)>,
    inside: Vec<Node>,
}

impl Element {
    fn text(&self) -> String {
        let text = |node: &Node| match node {
            Node::Text(text) => text.clone(),
            Node::Element(element) => element.text(),
        };
        self.inside.iter().map(text).collect()
    }

    fn attribute(&self, name: &str) -> Option<&str> {
        let found = self.attributes.iter().find(|(known, _)| known == name);
        found.map(|(_, value)| value.as_str())
    }

    fn class(&self) -> &str {
        self.attribute("class").unwrap_or_default()
    }

    fn elements(&self) -> impl Iterator<Item = &Element> {
        self.inside.iter().filter_map(|node| match node {
            Node::Text(_) => None,
            Node::Element(element) => Some(element),
        })
    }

    /// All elements of this name, at whatever depth, in their order.
    fn all(&self, name: &str) -> Vec<&Element> {
        let mut found = Vec::new();
        for element in self.elements() {
            if element.name == name {
                found.push(element);
            }
            found.extend(element.all(name));
        }
        found
    }

    fn only(&self, name: &str) -> &Element {
        let found = self.all(name);
        assert_eq!(found.len(), 1, "{name}");
        found[0]
    }

    fn of_class(&self, name: &str, class: &str) -> Vec<&Element> {
        let is_of = |element: &&Element| element.class().split(' ').any(|word| word == class);
        self.all(name).into_iter().filter(is_of).collect()
    }
}

/// A reader of pages that takes less than a browser does: each tag is closed, each attribute is quoted and
/// stands once, and only `meta` has no end.
struct Reader<'a> {
    rest: &'a str,
}

impl<'a> Reader<'a> {
    fn page(text: &'a str) -> Element {
        let rest = text
            .strip_prefix("<!DOCTYPE html>\n")
            .expect("the first line");
        let mut reader = Reader { rest };
        let html = reader.element();
        assert_eq!((html.name.as_str(), reader.rest), ("html", "\n"));
        html
    }

    fn take(&mut self, expected: &str) {
        let rest = self.rest.strip_prefix(expected);
        self.rest = rest.unwrap_or_else(|| panic!("no {expected:?} before {:.80}", self.rest));
    }

    fn until(&mut self, end: &str) -> &'a str {
        let place = self
            .rest
            .find(end)
            .unwrap_or_else(|| panic!("no {end:?} behind {:.80}", self.rest));
        let (before, rest) = self.rest.split_at(place);
        self.rest = rest;
        before
    }

    fn name(&mut self) -> String {
        let is_name = |letter: char| letter.is_ascii_lowercase() || letter.is_ascii_digit();
        let length = self.rest.find(|letter| !is_name(letter)).expect("an end");
        assert!(length > 0, "no name before {:.80}", self.rest);
        let (name, rest) = self.rest.split_at(length);
        self.rest = rest;
        name.to_owned()
    }

    fn element(&mut self) -> Element {
        self.take("<");
        let mut element = Element {
            name: self.name(),
            ..Element::default()
        };
        while self.rest.starts_with(' ') {
            self.take(" ");
            let name = self.name();
            self.take("=\"");
            let value = plain(self.until("\""));
            self.take("\"");
            assert!(element.attribute(&name).is_none(), "{name} twice");
            element.attributes.push((name, value));
        }
        self.take(">");
        match element.name.as_str() {
            "meta" => return element,
            "style" => {
                let style = self.until("</");
                assert!(!style.contains('<'), "{style}");
                element.inside.push(Node::Text(style.to_owned()));
            }
            _ => element.inside = self.inside(),
        }
        self.take(&format!("</{}>", element.name));
        element
    }

    fn inside(&mut self) -> Vec<Node> {
        let mut nodes = Vec::new();
        loop {
            let text = self.until("<");
            assert!(!text.contains('>'), "{text}");
            nodes.push(Node::Text(plain(text)));
            if self.rest.starts_with("</") {
                return nodes;
            }
            nodes.push(Node::Element(self.element()));
        }
    }
}

/// A text with its entities replaced by what they stand for.
fn plain(text: &str) -> String {
    let mut pieces = text.split('&');
    let mut written = pieces.next().unwrap().to_owned();
    for piece in pieces {
        let (entity, rest) = piece
            .split_once(';')
            .unwrap_or_else(|| panic!("a bare & in {text}"));
        written.push(match entity {
            "amp" => '&',
            "lt" => '<',
            "gt" => '>',
            "quot" => '"',
            _ => panic!("&{entity};"),
        });
        written += rest;
    }
    written
}

/// Whatever a browser would fetch, and whatever could act.
const FROM_ELSEWHERE: [&str; 14] = [
    "http:",
    "https:",
    "//",
    "src=",
    "href=",
    "url(",
    "@import",
    "<script",
    "<link",
    "<img",
    "<iframe",
    "<object",
    "javascript:",
    " on",
];

/// What `check` says of one model in three ways.
struct Checked {
    plain: Ended,
    json: Value,
    html: Element,
}

/// Checks a model with these options. The three agree in what every page has.
fn check(folder: &Path, model: &str, options: &[&str]) -> Checked {
    let path = folder.join("page.html");
    let path = path.to_str().unwrap();
    let plain = afa(&[&["check", model], options].concat());
    let json = afa(&[&["check", model, "--json"], options].concat());
    let html = afa(&[&["check", model, "--html", path], options].concat());
    assert_eq!(html, plain, "{model}");
    let page = fs::read_to_string(path).unwrap();
    let name = Path::new(model).file_name().unwrap().to_str().unwrap();
    let checked = Checked {
        plain,
        json: object(&json.output),
        html: Reader::page(&page),
    };
    assert_head(&checked, name);
    assert_alone(&page);
    checked
}

/// It needs nothing from elsewhere.
fn assert_alone(page: &str) {
    let tags = page
        .split('<')
        .skip(1)
        .map(|tag| tag.split('>').next().unwrap());
    let attributes: String = tags.map(|tag| format!("<{tag}>")).collect();
    for word in FROM_ELSEWHERE {
        let place = if word == " on" { &attributes } else { page };
        assert!(!place.to_lowercase().contains(word), "{word}");
    }
}

/// Name, verdict, sentence and numbers.
fn assert_head(checked: &Checked, name: &str) {
    let Checked { plain, json, html } = checked;
    let (verdict, sentence) = (json.get("verdict").text(), json.get("sentence").text());
    assert_eq!(html.attribute("lang"), Some("en"));
    let [head, body] = html.elements().collect::<Vec<_>>()[..] else {
        panic!("expected head and body");
    };
    assert_eq!((head.name.as_str(), body.name.as_str()), ("head", "body"));
    assert_eq!(
        head.elements().next().unwrap().attribute("charset"),
        Some("utf-8")
    );
    assert_eq!(head.only("title").text(), format!("{name}: {verdict}"));
    assert_eq!(body.only("h1").text(), name);
    let shown = body.of_class("p", "verdict");
    assert_eq!(shown.len(), 1);
    assert_eq!(shown[0].text(), verdict);
    assert_eq!(shown[0].class(), format!("verdict {verdict}"));
    assert_eq!(body.of_class("p", "sentence")[0].text(), sentence);
    let footer = body.only("footer").text();
    match plain.status {
        3 => assert!(!footer.contains("steps"), "{footer}"),
        _ => {
            let counts = plain.output.lines().last().unwrap();
            assert!(footer.starts_with(&format!("{counts}. ")), "{footer}");
        }
    }
}

/// The columns that a table of these cases has: the parts, and what is in none of them where it is needed.
fn columns(model: &Model, cases: &[Set]) -> Vec<(String, Set)> {
    let mut columns = model.parts.clone();
    let rest = (0..model.states.len())
        .filter(|state| !columns.iter().any(|(_, part)| part.contains(state)));
    let rest: Set = rest.collect();
    let is_needed = cases.iter().any(|case| !case.is_disjoint(&rest));
    if columns.is_empty() {
        columns.push(("case".to_owned(), rest));
    } else if is_needed {
        columns.push(("other states".to_owned(), rest));
    }
    columns
}

/// What a cell must say of a case.
fn shown(model: &Model, case: &Set, column: &Set) -> String {
    let names = model.names(&case.intersection(column).copied().collect());
    match names[..] {
        [] => "\u{2013}".to_owned(),
        _ => names.join(" "),
    }
}

fn heads(table: &Element) -> Vec<String> {
    let heads = table.only("thead").all("th");
    heads.into_iter().map(Element::text).collect()
}

fn lines(table: &Element) -> Vec<Vec<&Element>> {
    let lines = table.only("tbody").all("tr");
    lines
        .into_iter()
        .map(|line| line.elements().collect())
        .collect()
}

/// All events and cases in their order, what has changed is marked, and the last line is.
fn assert_run(checked: &Checked, model: &Model) {
    let Checked { plain, json, html } = checked;
    let run = json.get("run").list();
    let cases: Vec<Set> = run
        .iter()
        .map(|moment| model.set(&moment.get("case").texts()))
        .collect();
    let columns = columns(model, &cases);
    let table = html.only("table");
    let names = columns.iter().map(|(name, _)| name.clone());
    let expected: Vec<String> = ["".to_owned(), "event".to_owned()]
        .into_iter()
        .chain(names)
        .collect();
    assert_eq!(heads(table), expected);
    let lines = lines(table);
    assert_eq!(lines.len(), run.len());
    for (number, line) in lines.iter().enumerate() {
        let [place, event, cells @ ..] = &line[..] else {
            panic!("{line:?}");
        };
        assert_eq!(place.text(), number.to_string());
        let expected = match number {
            0 => "start",
            _ => run[number].get("event").text(),
        };
        assert_eq!(
            (event.name.as_str(), event.text().as_str()),
            ("th", expected)
        );
        assert_eq!(cells.len(), columns.len());
        for (cell, (_, column)) in cells.iter().zip(&columns) {
            let expected = shown(model, &cases[number], column);
            assert_eq!(cell.text(), expected, "line {number}");
            let is_changed = number > 0 && shown(model, &cases[number - 1], column) != expected;
            assert_eq!(
                cell.class(),
                if is_changed { "changed" } else { "" },
                "line {number}: {expected}"
            );
        }
    }
    let classes: Vec<&str> = table
        .only("tbody")
        .all("tr")
        .into_iter()
        .map(Element::class)
        .collect();
    let (last, others) = classes.split_last().unwrap();
    assert_eq!(*last, "last");
    assert!(others.iter().all(|class| class.is_empty()), "{classes:?}");
    let picture = html.of_class("p", "picture");
    let expected = plain
        .output
        .lines()
        .find(|line| line.starts_with("forbidden: "));
    assert_eq!(picture.len(), 1);
    assert_eq!(Some(picture[0].text().as_str()), expected);
}

/// The sets of the frame in their order, with the parts marked of which a set has all states.
fn assert_frame(checked: &Checked, model: &Model) {
    let Checked { json, html, .. } = checked;
    let frame = json.get("frame").list().iter();
    let frame: Vec<Set> = frame.map(|set| model.set(&set.texts())).collect();
    let columns = columns(model, &frame);
    let table = html.only("table");
    let names = columns.iter().map(|(name, _)| name.clone());
    assert_eq!(
        heads(table),
        ["".to_owned()].into_iter().chain(names).collect::<Vec<_>>()
    );
    let lines = lines(table);
    assert_eq!(lines.len(), frame.len());
    for (number, (line, set)) in lines.iter().zip(&frame).enumerate() {
        assert_eq!(line[0].text(), number.to_string());
        assert_eq!(line.len(), 1 + columns.len());
        for (cell, (_, column)) in line[1..].iter().zip(&columns) {
            assert_eq!(cell.text(), shown(model, set, column), "line {number}");
            let is_all = column.len() > 1 && column.is_subset(set);
            assert_eq!(
                cell.class(),
                if is_all { "any" } else { "some" },
                "line {number}"
            );
        }
    }
    let sentence =
        "o sequence of events leads into any of these sets, and the final set lies in one of them";
    assert!(html.text().contains(sentence));
    assert!(html.of_class("p", "picture").is_empty());
}

fn assert_model(folder: &Path, path: &str, text: &str, options: &[&str]) -> Checked {
    let checked = check(folder, path, options);
    let model = Model::read(text);
    match checked.plain.status {
        0 => assert_frame(&checked, &model),
        1 => assert_run(&checked, &model),
        _ => assert!(checked.html.all("table").is_empty()),
    }
    checked
}

#[test]
fn the_reader_of_the_tests_is_strict() {
    let page = |body: &str| format!("<!DOCTYPE html>\n<html><body>{body}</body></html>\n");
    let read = |body: &str| {
        let page = page(body);
        std::panic::catch_unwind(move || Reader::page(&page).text()).ok()
    };
    assert_eq!(
        read("<p class=\"a\">x &lt;&amp; y</p>").as_deref(),
        Some("x <& y")
    );
    for wrong in [
        "<p>",
        "</p>",
        "<p></b>",
        "<p class=a></p>",
        "<br>",
        "a & b",
        "&nbsp;",
        "a > b",
        "<p a=\"1\" a=\"2\"></p>",
        "<P></P>",
        "<b><i></b></i>",
    ] {
        assert_eq!(read(wrong), None, "{wrong}");
    }
}

#[test]
fn every_model() {
    let folder = scratch("page-models");
    for model in models() {
        for way in ["0", "1"] {
            let checked = assert_model(&folder, &model, &text_of(&model), &["--way", way]);
            assert!(checked.plain.status < 2, "{model}");
        }
    }
}

#[test]
fn a_stop_says_what_was_shown() {
    let folder = scratch("page-stops");
    let model = "models/screen.txt";
    for (option, limit) in [
        ("--allowance", "0"),
        ("--allowance", "1"),
        ("--allowance", "9"),
        ("--blockers", "2"),
        ("--word", "3"),
    ] {
        let checked = assert_model(&folder, model, &text_of(model), &[option, limit]);
        assert_eq!(checked.plain.status, 2);
        let shown = checked.plain.output.lines().nth(1).unwrap();
        let text = checked.html.only("main").text();
        assert!(
            text.to_lowercase().contains(&format!("{shown}.")),
            "{shown}: {text}"
        );
        assert!(checked.html.of_class("p", "picture").is_empty());
    }
}

#[test]
fn a_slip_of_the_model() {
    let folder = scratch("page-slip");
    let checked = assert_model(
        &folder,
        "models/d.txt",
        &text_of("models/d.txt"),
        &["--edition", "2"],
    );
    assert_eq!(checked.plain.status, 1);
    assert!(checked
        .html
        .only("main")
        .text()
        .contains("a slip of the model"));
    let checked = assert_model(&folder, "models/d.txt", &text_of("models/d.txt"), &[]);
    assert!(!checked.html.only("main").text().contains("slip"));
}

/// There is nothing to show, so no page is written and an older one stays.
#[test]
fn a_refused_run() {
    let folder = scratch("page-refused");
    let page = common::file(&folder, "page.html", "older");
    let ended = common::afa(&["check", "models/b.txt", "--way", "2", "--html", &page]);
    assert_eq!(ended.status, 3, "{ended:?}");
    assert_eq!(std::fs::read_to_string(&page).unwrap(), "older");
    assert_eq!(std::fs::read_dir(&folder).unwrap().count(), 1);
}

#[test]
fn states_in_no_part() {
    let folder = scratch("page-other");
    let start = "states a b c d e\nevents go \u{fc}ben\npart left : a b\npart one : c\n";
    for rest in [
        "initial a d\nfinal b e\nrow a go : b\nrow d go : d e\nrow d 1 : e\nrow e 1 : e\nrow b 1 : b\n",
        "initial d\nfinal b c\nrow d go : a\nrow a 1 : b c\n",
        "initial a d\nfinal left c e\nrow a go : a b\nrow d go : d\nrow e go : e\n",
        "initial a\nfinal d e\nrow b go : d\n",
    ] {
        let text = format!("{start}{rest}");
        let path = file(&folder, "model.txt", &text);
        assert_model(&folder, &path, &text, &[]);
    }
}

#[test]
fn names_of_files_are_escaped() {
    let folder = scratch("page-names");
    for name in [
        "a<b>&\"c'.txt",
        "<script>alert(1)<",
        "&amp;lt;",
        "\u{e4}\u{65e5} \u{1f600}",
        "a\nb",
    ] {
        for model in ["models/b.txt", "models/a.txt"] {
            let path = file(&folder, name, text_of(model));
            let page = folder.join("page.html");
            let ended = afa(&["check", &path, "--html", page.to_str().unwrap()]);
            let html = Reader::page(&fs::read_to_string(&page).unwrap());
            let verdict = ended.output.split(':').next().unwrap();
            assert_eq!(html.only("h1").text(), name);
            assert_eq!(html.only("title").text(), format!("{name}: {verdict}"));
        }
    }
}

#[test]
fn a_name_has_no_letter_that_a_browser_reads_as_more() {
    let folder = scratch("page-letters");
    let path = file(&folder, "a<b>&\"c", text_of("models/b.txt"));
    let page = folder.join("page.html");
    afa(&["check", &path, "--html", page.to_str().unwrap()]);
    let page = fs::read_to_string(page).unwrap();
    assert_eq!(page.matches("a&lt;b&gt;&amp;&quot;c").count(), 2);
    assert!(!page.contains("a<b"));
}

#[test]
fn a_model_from_standard_input() {
    let folder = scratch("page-input");
    let page = folder.join("page.html");
    let text = text_of("models/b.txt");
    let ended = afa_reading(
        &["check", "-", "--html", page.to_str().unwrap()],
        text.as_bytes(),
    );
    assert_eq!(ended.status, 1);
    let html = Reader::page(&fs::read_to_string(&page).unwrap());
    assert_eq!(html.only("h1").text(), "standard input");
}
