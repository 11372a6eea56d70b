//! How a name in backquotes is looked up: by what its page says that it is, and else among all names.

use crate::names::{is_letter, is_path, Names};
use crate::page::{spans, Span};
use crate::repository::Repository;
use std::collections::BTreeSet;

/// What pages have in backquotes though the repository does not declare it, and why: spans, or words of
/// phrases.
pub const EXCEPTIONS: [(&str, &str); 24] = [
    ("pub", RATTLE),
    ("requires", RATTLE),
    ("let", RATTLE),
    ("else", RATTLE),
    ("for", RATTLE),
    ("mut", RATTLE),
    ("true", RATTLE),
    ("search", RATTLE),
    ("&&", RATTLE),
    ("let Ok(..) = .. else", RATTLE),
    ("rt", COMMAND),
    ("ci", COMMAND),
    ("cargo", COMMAND),
    ("bench", COMMAND),
    ("--bench", COMMAND),
    ("bash", COMMAND),
    ("check model && release", COMMAND),
    ("[profile.bench]", "a part of tests/Cargo.toml"),
    ("N passed, 0 failed", "what the gate prints"),
    ("crates/emptiness/out/emptiness", BUILT),
    ("crates/exports/out/libexports.a", BUILT),
    ("model-tool/target/release/afa", BUILT),
    ("31 0a 30 20 36 0a 31 20 30 0a", "the bytes of an example"),
    ("{}", "the empty set in a file of hints"),
];

const RATTLE: &str = "a word of Rattle, or an example in it";
const COMMAND: &str = "a command of the kit, of cargo or of the shell, or an example of one";
const BUILT: &str = "what is built there";

/// What stands between the names of a list, or between a name and its field.
pub const JOINTS: [&str; 5] = [", ", " and ", ", and ", " or ", " ."];

/// What a page cites, and what is wrong with it.
#[derive(Default)]
pub struct Cited {
    /// Each with line and name.
    pub complaints: Vec<String>,
    pub names: BTreeSet<String>,
    /// Their files.
    pub edits: BTreeSet<String>,
    pub tests: BTreeSet<String>,
    pub exceptions: BTreeSet<&'static str>,
}

impl Cited {
    pub fn is_exception(&mut self, word: &str) -> bool {
        let mut exceptions = EXCEPTIONS.iter().map(|(exception, _)| *exception);
        let exception = exceptions.find(|exception| *exception == word);
        self.exceptions.extend(exception);
        exception.is_some()
    }
}

/// Looks up every name that a page has in backquotes.
pub fn look_up(repository: &Repository, title: &str, page: &str) -> Cited {
    let mut cited = Cited::default();
    for (number, line) in page.lines().enumerate() {
        if line.matches('`').count() % 2 == 1 {
            let complaint = format!("{title}:{}: a backquote without another", number + 1);
            cited.complaints.push(complaint);
        }
    }
    let spans = spans(page);
    let mut sort = Sort::Anything;
    for (at, span) in spans.iter().enumerate() {
        sort = sort.next(repository, span);
        let names = Names(repository);
        if let Err(wrong) = judge(&names, &spans, at, &mut sort, &mut cited) {
            let complaint = format!("{title}:{}: `{}` {wrong}", span.line, span.text);
            cited.complaints.push(complaint);
        }
        cited.names.insert(span.text.clone());
    }
    cited
}

/// What a page says that the names of a list are.
enum Sort {
    Anything,
    /// Must-fail edits of a crate.
    Edits(String),
    /// Tests, and after each names of what is in it.
    Tests(Option<String>),
    Promises,
    /// Functions that have one, and crates.
    Contracts,
}

impl Sort {
    /// What the span is, after one of this sort. The column "noticed by" has "CRATE:" and edits, or "test"
    /// and tests, each up to a semicolon; so has a paragraph after "Noticed by".
    fn next(self, repository: &Repository, span: &Span) -> Self {
        let before = span.before.as_str();
        let goes_on = match self {
            Self::Anything => false,
            Self::Edits(_) | Self::Tests(_) => !before.contains([';', '|']),
            Self::Promises | Self::Contracts => JOINTS.contains(&before),
        };
        if goes_on && !span.is_first {
            return self;
        }
        let notices = span.column.as_deref() == Some("noticed by");
        let in_prose = span.column.is_none();
        let clause = before.rsplit([';', '|']).next().unwrap_or(before);
        let clause = clause.trim_start();
        let last = clause.rsplit("Noticed by ").next().unwrap_or(clause);
        if let Some(word) = last.strip_suffix(": ").filter(|word| is_word(word)) {
            let is_crate = repository.is_folder(&format!("crates/{word}"));
            if notices || in_prose && is_crate {
                return Self::Edits(word.to_owned());
            }
        }
        match clause {
            "" | "test " | "tests " if notices => Self::Tests(None),
            "tests " if in_prose && before.contains(';') => Self::Tests(None),
            _ if in_prose && clause.ends_with(" The test ") => Self::Tests(None),
            _ if ends(clause, ["promise ", "promises "]) => Self::Promises,
            _ if ends(clause, ["contract of ", "contracts of "]) => Self::Contracts,
            _ => Self::Anything,
        }
    }
}

fn ends(clause: &str, ends: [&str; 2]) -> bool {
    ends.iter().any(|end| clause.ends_with(end))
}

fn is_word(text: &str) -> bool {
    !text.is_empty() && text.chars().all(|c| c.is_ascii_lowercase())
}

/// What is wrong with the name of a span.
fn judge(
    names: &Names,
    spans: &[Span],
    at: usize,
    sort: &mut Sort,
    cited: &mut Cited,
) -> Result<(), String> {
    let name = spans[at].text.as_str();
    if is_letter(name) || cited.is_exception(name) {
        return Ok(());
    }
    if spans[at].before == " ." && !spans[at].is_first {
        let of = &spans[at - 1].text;
        expect(names.is_field(of, name), format!("is no field of `{of}`"))?;
    }
    if is_path(name) {
        return expect(names.is_there(name), "is no file".into());
    }
    if let Some(place) = names.place(&spans[at..]) {
        return expect(names.stands_in(name, place), format!("is not in `{place}`"));
    }
    match sort {
        Sort::Edits(of) => {
            let file = format!("crates/{of}/must-fail/{name}.edit");
            cited.edits.insert(file.clone());
            expect(names.0.is_file(&file), format!("is no edit of `{of}`"))
        }
        Sort::Tests(last) if names.is_test(name) => {
            cited.tests.insert(name.to_owned());
            *last = Some(name.to_owned());
            Ok(())
        }
        Sort::Tests(Some(last)) => {
            let is_there = names.is_in_test(last, name);
            expect(is_there, format!("is no test, and not in `{last}`"))
        }
        Sort::Tests(None) => Err("is no test".into()),
        Sort::Promises => expect(names.is_promise(name), "is no promise".into()),
        Sort::Contracts => expect(names.has_contract(name), "has no contract".into()),
        Sort::Anything => expect(names.is_known(name, cited), "is declared nowhere".into()),
    }
}

fn expect(holds: bool, wrong: String) -> Result<(), String> {
    match holds {
        true => Ok(()),
        false => Err(wrong),
    }
}
