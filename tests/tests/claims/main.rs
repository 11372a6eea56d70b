//! The names that the pages cite: each stands where its page says. And `docs/CLAIMS.md` leaves out no
//! must-fail edit, no test of the library and no promise.

mod names;
mod page;
mod repository;
mod rules;

use names::PROMISES;
use repository::Repository;
use rules::{look_up, Cited, EXCEPTIONS};
use std::collections::BTreeSet;
use std::fs;
use std::path::{Path, PathBuf};

const CLAIMS: &str = "docs/CLAIMS.md";

const PAGES: [&str; 5] = [
    CLAIMS,
    "docs/DECISIONS.md",
    "docs/FORMAT.md",
    "docs/BENCHMARKS.md",
    "README.md",
];

fn root() -> PathBuf {
    let package = Path::new(env!("CARGO_MANIFEST_DIR"));
    package.parent().expect("a folder above").to_owned()
}

fn cited(repository: &Repository, title: &str) -> Cited {
    let page = fs::read_to_string(root().join(title)).expect("a page");
    look_up(repository, title, &page)
}

#[test]
fn every_name_is_there() {
    let repository = Repository::read(&root());
    let is_built = |file: &str| file.starts_with("crates/") && file.contains("/out/");
    assert!(
        !repository.files().any(is_built),
        "a crate's out/ declares nothing"
    );
    let mut wrong = Vec::new();
    let mut exceptions = BTreeSet::new();
    for title in PAGES {
        let cited = cited(&repository, title);
        println!("{title}: {} names", cited.names.len());
        wrong.extend(cited.complaints);
        exceptions.extend(cited.exceptions);
    }
    assert!(wrong.is_empty(), "\n{}", wrong.join("\n"));
    for (exception, reason) in EXCEPTIONS {
        let is_cited = exceptions.contains(exception);
        assert!(is_cited, "`{exception}` ({reason}) is cited no more");
    }
}

#[test]
fn nothing_is_left_out() {
    let repository = Repository::read(&root());
    let cited = cited(&repository, CLAIMS);
    let mut left_out = Vec::new();
    let (mut edits, mut tests, mut promises) = (0, 0, 0);
    for file in repository.files() {
        if file.ends_with(".edit") {
            edits += 1;
            left_out.extend((!cited.edits.contains(file)).then_some(file));
        }
        let test = file.strip_prefix("tests/tests/");
        if let Some(test) = test.and_then(|test| test.split(['.', '/']).next()) {
            tests += 1;
            left_out.extend((!cited.tests.contains(test)).then_some(file));
        }
    }
    for record in repository.names(|found| found.file == PROMISES) {
        if record.ends_with("Promises") || ["Rules", "Decides"].contains(&record) {
            let fields = repository.members(record);
            promises += fields.len();
            left_out.extend(fields.iter().filter(|field| !cited.names.contains(**field)));
        }
    }
    println!("{edits} edits, {tests} files of tests, {promises} promises");
    let left_out = left_out.join("\n");
    assert_eq!(left_out, "", "{CLAIMS} leaves out");
    assert!(edits > 80 && tests > 35 && promises > 80);
}

/// A repository of a few lines, by whose names the rules are tried.
fn small_repository() -> Repository {
    let files = [
        (
            "crates/lists/src/lib.rt",
            "pub struct Kept {\n    pub held: usize,\n}\n\nimpl Kept {\n    pub fn more(self) -> Kept \
             {\n        called(self)\n    }\n}\n\npub fn first(list: &[u8]) -> u8\n    ensures \
             { .. }\n{\n}\n\npub extern \"C\" fn last(list: &[u8]) -> u8\n    requires few { .. }\n    \
             ensures byte { .. }\n    ensures near { .. }\n{\n}\n\nfn plain() {\n    first(ensures)\n}\n",
        ),
        ("crates/lists/src/walks.rt", "pub(crate) fn walk() {\n}\n"),
        (
            "crates/lists/src/lent.rt",
            "pub struct Lent<'a> {\n    pub table: &'a [u8],\n}\n\nimpl<'a> Lent<'a> {\n    pub fn length(&self) \
             -> usize\n        ensures { .. }\n    {\n    }\n}\n\npub trait Sized {\n    fn size(&self) -> usize;\n}\n\n\
             impl<T: Into<u8>> From<T> for Lent<'_> {\n    fn from(it: T) -> Self {\n    }\n}\n",
        ),
        ("crates/lists/must-fail/last_found.edit", ""),
        (
            "crates/lists/specs/Answers.antt",
            "infixr 35 ◌both◌\nunfoldable pub ◌both◌ : Bool → Bool → Bool\na both b = a\n\npub data Found \
             : Type 0 where\n  pub nowhere : Found\n",
        ),
        (
            "crates/lists/proofs/walks/walk/Answers.antt",
            "pub returns : goal.returns\nreturns c = search rules\n",
        ),
        (
            "crates/lists/proofs/walks/walk/Invariants.antt",
            "abbrev pub invariant_loop : goal.invariant_loop\n",
        ),
        (
            PROMISES,
            "-- gone : said in a comment\npub record Rules : Type 0 where\n  pub empty : ℕ\n\npub \
             record Promises : Type 0 where\n  pub runs : (image : List ℕ)\n      → Rules image\n\n\
             abbrev pub held_by : ℕ → ℕ\nheld_by n =\n    let local : ℕ = n in local\n",
        ),
        ("include/afa.h", "/* afa_gone(0) */\nuint64_t afa_read(const uint8_t *image);\n"),
        ("model-tool/src/help.rs", "const CHECK: &str = \"--json\";\n"),
        ("tests/tests/examples.rs", "#[test]\nfn by_hand() {}\n"),
        ("tests/tests/spans/main.rs", "#[test]\nfn near() {}\n"),
    ];
    let owned = |(path, text): (&str, &str)| (path.to_owned(), text.to_owned());
    Repository::of(files.map(owned).into())
}

/// What is wrong with a page. A line stands before it: for rows, the names of their columns.
fn complaints(page: &str) -> Vec<String> {
    let page = match page.starts_with('|') {
        true => format!("| sentence | statement | noticed by |\n{page}"),
        false => format!("\n{page}"),
    };
    look_up(&small_repository(), "page", &page).complaints
}

#[test]
fn names_that_stand() {
    for page in [
        "| a | b | lists: `last_found`; test `examples`: `by_hand`, `spans`: `near` |",
        "| a | promise `runs` .`empty`; contracts of `first` and `lists` | `spans`: near 0 |",
        "Noticed by lists: `last_found`; tests `spans`, `examples`. The test `spans` (`near`)",
        "`first` and `Kept::more` in\n`lists/src/lib.rt`, `held` of `Kept`, `walk` of `lists::walks`",
        "`lists::walks::walk`, `lists::Kept::more`, `Kept::more`, `walks::walk`, `lists::walks`",
        "`lists::lent::Lent::length`, `Lent::from`, `Sized::size`, `Sized`",
        "`table` of `Lent`; contract of `Lent::length`",
        "`afa_read`, `held_by`, `Rules`, `lists`, `walks`, `lists/src/`, `include/afa.h`, `src/`",
        "`first (held_by x) 5`, `--json`, `first LIST ..`",
        "`both`. `nowhere` of `Found` and `Found` in `lists/specs/Answers.antt`; contract of `last`",
        "`byte` and `near` of `last`, `near` of `lists::last`",
        "    `an example`\n",
        "Chosen: `first`, of `Kept`: `more`. It tests `held`",
    ] {
        assert_eq!(complaints(page), [""; 0], "{page}");
    }
}

#[test]
fn names_that_do_not() {
    for (page, name, wrong) in [
        (
            "| a | b | lists: `_` |",
            "first_found",
            "is no edit of `lists`",
        ),
        (
            "| a | b | gone: `_` |",
            "last_found",
            "is no edit of `gone`",
        ),
        (
            "| a | b | lists: `last_found`, `_` |",
            "spans",
            "is no edit of `lists`",
        ),
        ("Noticed by lists: `_`.", "spans", "is no edit of `lists`"),
        ("| a | b | test `_` |", "last_found", "is no test"),
        ("| a | b | `_` |", "near", "is no test"),
        (
            "| a | b | tests `spans`, `_` |",
            "by_hand",
            "is no test, and not in `spans`",
        ),
        ("| a | promises `runs`, `_` | |", "held", "is no promise"),
        ("| a | contract of `_` | |", "plain", "has no contract"),
        ("`runs` .`_`", "held", "is no field of `runs`"),
        (
            "`_` in `lists/src/walks.rt`",
            "first",
            "is not in `lists/src/walks.rt`",
        ),
        (
            "`_` and `walk` in\n`lists/src/walks.rt`",
            "first",
            "is not in `lists/src/walks.rt`",
        ),
        ("`_` of `lists::walks`", "first", "is not in `lists::walks`"),
        ("`_` of `Kept`", "first", "is not in `Kept`"),
        ("`_` of `last`", "first", "is not in `last`"),
        ("`_` of `last`", "few", "is not in `last`"),
        ("`_`", "lists/src/gone.rt", "is no file"),
        ("`_`", "gone/", "is no file"),
        ("`_`", "lists::walks::first", "is declared nowhere"),
        ("`_`", "lists::Kept::first", "is declared nowhere"),
        ("`_`", "Kept::first", "is declared nowhere"),
        ("`_`", "Lent::size", "is declared nowhere"),
        ("`_`", "Sized::from", "is declared nowhere"),
        ("`_`", "gone", "is declared nowhere"),
        ("`_`", "called", "is declared nowhere"),
        ("`_`", "byte", "is declared nowhere"),
        ("`_`", "returns", "is declared nowhere"),
        ("`_`", "invariant_loop", "is declared nowhere"),
        ("`_`", "held-by", "is declared nowhere"),
        ("`_`", "held_by'", "is declared nowhere"),
        ("`_`", "local", "is declared nowhere"),
        ("`_`", "afa_gone", "is declared nowhere"),
        ("`_`", "first gone", "is declared nowhere"),
        ("`_`", "--yaml", "is declared nowhere"),
        ("`_`", "", "is declared nowhere"),
    ] {
        let page = page.replace("`_`", &format!("`{name}`"));
        let complaint = format!("page:2: `{name}` {wrong}");
        assert_eq!(complaints(&page), [complaint], "{page}");
    }
    let complaint = "page:4: `gone` is declared nowhere";
    assert_eq!(complaints("text\n\nmore `gone`"), [complaint]);
    let complaint = "page:3: a backquote without another";
    assert_eq!(complaints("`first`\n`first"), [complaint]);
}
