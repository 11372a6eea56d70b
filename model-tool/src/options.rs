//! The words of a command line: options, which may stand anywhere, and the others in their order.

use crate::fault::{expected_one_of, quoted};
use crate::model::decimal;

/// Whether a page is asked for.
pub fn asks_for_help(words: &[String]) -> bool {
    let mut options = words.iter().take_while(|word| *word != "--");
    options.any(|word| word == "--help")
}

/// An option's name, and what it takes, if anything.
pub type Known = (&'static str, Option<&'static str>);

#[derive(Debug, Default)]
pub struct Words {
    options: Vec<(&'static str, String)>,
    pub others: Vec<String>,
}

impl Words {
    /// `--name VALUE` and `--name=VALUE` are the same; what stands behind `--` is no option.
    pub fn parse(words: &[String], known: &[Known]) -> Result<Self, String> {
        let mut parsed = Words::default();
        let mut rest = words.iter();
        while let Some(word) = rest.next() {
            if word == "--" {
                parsed.others.extend(rest.cloned());
                break;
            }
            if !word.starts_with("--") {
                parsed.others.push(word.clone());
                continue;
            }
            let (name, value) = match word.split_once('=') {
                Some((name, value)) => (name, Some(value.to_owned())),
                None => (word.as_str(), None),
            };
            let Some(&(name, takes)) = known.iter().find(|(known, _)| *known == name) else {
                let known = known.iter().map(|&(name, _)| name);
                let known = known.chain(["--help"]).collect();
                let expected = expected_one_of(name, known);
                return Err(format!("{} is no option here{expected}", quoted(name)));
            };
            let value = match (takes, value) {
                (None, None) => String::new(),
                (None, Some(_)) => return Err(format!("{name} takes no value")),
                (Some(_), Some(value)) => value,
                (Some(what), None) => {
                    let value = rest.next().cloned();
                    value.ok_or_else(|| format!("{name}: expected {what} behind it"))?
                }
            };
            if parsed.value(name).is_some() {
                return Err(format!("{name} stands twice: expected it once"));
            }
            parsed.options.push((name, value));
        }
        Ok(parsed)
    }

    pub fn value(&self, name: &str) -> Option<&str> {
        let found = self.options.iter().find(|(known, _)| *known == name);
        found.map(|(_, value)| value.as_str())
    }

    pub fn has(&self, name: &str) -> bool {
        self.value(name).is_some()
    }

    pub fn number(&self, name: &str) -> Result<Option<u64>, String> {
        let number = |value| {
            let wrong = || {
                format!(
                    "{name} {}: expected a number from 0 to 2^64 - 1",
                    quoted(value)
                )
            };
            decimal(value).ok_or_else(wrong)
        };
        self.value(name).map(number).transpose()
    }
}
