//! A strict reader of JSON: one value and nothing else, no key twice, no number in another form.

use std::iter::Peekable;
use std::str::Chars;

/// The keys of the object that `check --json` prints, in their order.
pub const KEYS: [&str; 12] = [
    "model", "verdict", "sentence", "number", "steps", "level", "blockers", "hints", "least",
    "word", "run", "frame",
];

#[derive(Clone, Debug, PartialEq, Eq)]
pub enum Value {
    Null,
    Bool(bool),
    /// As it is written.
    Number(String),
    Text(String),
    List(Vec<Value>),
    Object(Vec<(String, Value)>),
}

impl Value {
    /// The value of a key, which must be there.
    pub fn get(&self, key: &str) -> &Value {
        let Value::Object(fields) = self else {
            panic!("no object: {self:?}");
        };
        let found = fields.iter().find(|(name, _)| name == key);
        &found.unwrap_or_else(|| panic!("no {key}: {self:?}")).1
    }

    pub fn keys(&self) -> Vec<&str> {
        let Value::Object(fields) = self else {
            panic!("no object: {self:?}");
        };
        fields.iter().map(|(name, _)| name.as_str()).collect()
    }

    pub fn number(&self) -> u64 {
        match self {
            Value::Number(digits) => digits.parse().expect("a number without a fraction"),
            _ => panic!("no number: {self:?}"),
        }
    }

    pub fn text(&self) -> &str {
        match self {
            Value::Text(text) => text,
            _ => panic!("no string: {self:?}"),
        }
    }

    pub fn list(&self) -> &[Value] {
        match self {
            Value::List(values) => values,
            _ => panic!("no list: {self:?}"),
        }
    }

    pub fn texts(&self) -> Vec<String> {
        let texts = self.list().iter().map(|value| value.text().to_owned());
        texts.collect()
    }

    pub fn is_null(&self) -> bool {
        *self == Value::Null
    }
}

/// The one value of a text, or what is wrong with it.
pub fn parse(text: &str) -> Result<Value, String> {
    let mut reader = Reader {
        letters: text.chars().peekable(),
    };
    let value = reader.value()?;
    reader.skip_space();
    match reader.letters.next() {
        None => Ok(value),
        Some(letter) => Err(format!("{letter:?} behind the value")),
    }
}

/// The one object of a text.
pub fn object(text: &str) -> Value {
    let value = parse(text).unwrap_or_else(|wrong| panic!("{wrong} in {text}"));
    assert!(matches!(value, Value::Object(_)), "no object: {text}");
    value
}

struct Reader<'a> {
    letters: Peekable<Chars<'a>>,
}

impl Reader<'_> {
    fn skip_space(&mut self) {
        let is_space = |letter: &char| [' ', '\t', '\n', '\r'].contains(letter);
        while self.letters.next_if(is_space).is_some() {}
    }

    fn expect(&mut self, expected: char) -> Result<(), String> {
        match self.letters.next() {
            Some(letter) if letter == expected => Ok(()),
            found => Err(format!("{found:?} where {expected:?} must stand")),
        }
    }

    fn word(&mut self, word: &str, value: Value) -> Result<Value, String> {
        word.chars().try_for_each(|letter| self.expect(letter))?;
        Ok(value)
    }

    fn value(&mut self) -> Result<Value, String> {
        self.skip_space();
        match self.letters.peek() {
            Some('n') => self.word("null", Value::Null),
            Some('t') => self.word("true", Value::Bool(true)),
            Some('f') => self.word("false", Value::Bool(false)),
            Some('"') => self.text().map(Value::Text),
            Some('[') => self.list(),
            Some('{') => self.object(),
            Some('-' | '0'..='9') => self.number(),
            found => Err(format!("{found:?} where a value must stand")),
        }
    }

    /// What stands between two brackets, with a comma between two of them and none behind the last.
    fn between(
        &mut self,
        open: char,
        close: char,
        mut item: impl FnMut(&mut Self) -> Result<(), String>,
    ) -> Result<(), String> {
        self.expect(open)?;
        self.skip_space();
        if self.letters.next_if_eq(&close).is_some() {
            return Ok(());
        }
        loop {
            item(self)?;
            self.skip_space();
            if self.letters.next_if_eq(&close).is_some() {
                return Ok(());
            }
            self.expect(',')?;
        }
    }

    fn list(&mut self) -> Result<Value, String> {
        let mut values = Vec::new();
        self.between('[', ']', |reader| {
            values.push(reader.value()?);
            Ok(())
        })?;
        Ok(Value::List(values))
    }

    fn object(&mut self) -> Result<Value, String> {
        let mut fields: Vec<(String, Value)> = Vec::new();
        self.between('{', '}', |reader| {
            reader.skip_space();
            let key = reader.text()?;
            reader.skip_space();
            reader.expect(':')?;
            let value = reader.value()?;
            if fields.iter().any(|(known, _)| *known == key) {
                return Err(format!("the key {key:?} twice"));
            }
            fields.push((key, value));
            Ok(())
        })?;
        Ok(Value::Object(fields))
    }

    fn digits(&mut self, into: &mut String) -> Result<(), String> {
        let before = into.len();
        while let Some(digit) = self.letters.next_if(char::is_ascii_digit) {
            into.push(digit);
        }
        match into.len() > before {
            true => Ok(()),
            false => Err("no digit where one must stand".to_owned()),
        }
    }

    fn number(&mut self) -> Result<Value, String> {
        let mut number: String = self.letters.next_if_eq(&'-').into_iter().collect();
        match self.letters.next_if_eq(&'0') {
            Some(zero) => number.push(zero),
            None => self.digits(&mut number)?,
        }
        if let Some(point) = self.letters.next_if_eq(&'.') {
            number.push(point);
            self.digits(&mut number)?;
        }
        if let Some(power) = self.letters.next_if(|letter| ['e', 'E'].contains(letter)) {
            number.push(power);
            number.extend(self.letters.next_if(|letter| ['+', '-'].contains(letter)));
            self.digits(&mut number)?;
        }
        Ok(Value::Number(number))
    }

    fn text(&mut self) -> Result<String, String> {
        self.expect('"')?;
        let mut text = String::new();
        loop {
            match self.letters.next() {
                None => return Err("a string without an end".to_owned()),
                Some('"') => return Ok(text),
                Some('\\') => text.push(self.escaped()?),
                Some(letter) if letter < ' ' => return Err(format!("{letter:?} in a string")),
                Some(letter) => text.push(letter),
            }
        }
    }

    fn escaped(&mut self) -> Result<char, String> {
        Ok(match self.letters.next() {
            Some(letter @ ('"' | '\\' | '/')) => letter,
            Some('b') => '\u{8}',
            Some('f') => '\u{c}',
            Some('n') => '\n',
            Some('r') => '\r',
            Some('t') => '\t',
            Some('u') => {
                let first = self.unit()?;
                if !(0xd800..0xdc00).contains(&first) {
                    return char::from_u32(first).ok_or(format!("\\u{first:04x} alone"));
                }
                self.expect('\\')?;
                self.expect('u')?;
                let second = self.unit()?;
                if !(0xdc00..0xe000).contains(&second) {
                    return Err(format!("\\u{second:04x} behind \\u{first:04x}"));
                }
                let letter = 0x10000 + ((first - 0xd800) << 10) + (second - 0xdc00);
                char::from_u32(letter).ok_or("no letter")?
            }
            found => return Err(format!("{found:?} behind a backslash")),
        })
    }

    fn unit(&mut self) -> Result<u32, String> {
        let mut unit = 0;
        for _ in 0..4 {
            let digit = self.letters.next().and_then(|letter| letter.to_digit(16));
            unit = 16 * unit + digit.ok_or("no four digits behind \\u")?;
        }
        Ok(unit)
    }
}
