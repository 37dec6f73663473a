//! Values of JSON, read from a line.

/// The most lists and objects inside each other; what the program prints has four.
const DEEPEST: usize = 16;

/// What is wrong where a line ends too early.
const UNENDED: &str = "what is written as JSON does not end on its line";

/// A value of JSON. A text is as it stands between its quotation marks; lists and objects are read again where their parts
/// are asked for, so that long ones take no room.
#[derive(Debug, Clone, Copy, PartialEq, Eq)]
pub enum Value<'a> {
    /// `true`, `false` or `null`.
    Word,
    /// A number.
    Number(&'a str),
    /// A text.
    Text(&'a str),
    /// A list.
    List(&'a str),
    /// An object.
    Object(&'a str),
}

/// A member of an object: its name and its value.
pub type Member<'a> = (&'a str, Value<'a>);

impl<'a> Value<'a> {
    /// The one value that a line is, or what is wrong with it.
    pub fn read(line: &'a str) -> Result<Value<'a>, String> {
        let mut reader = Reader::of(line);
        let value = reader.value()?;
        match reader.rest.trim_ascii().is_empty() {
            true => Ok(value),
            false => Err(reader.unexpected()),
        }
    }

    /// The values of a list; of anything else none.
    pub fn items(self) -> Vec<Value<'a>> {
        match self {
            Value::List(list) => Reader::of(list).list(Reader::value).unwrap_or_default(),
            _ => Vec::new(),
        }
    }

    /// The members of an object; of anything else none.
    pub fn members(self) -> Vec<Member<'a>> {
        match self {
            Value::Object(object) => Reader::of(object).object().unwrap_or_default(),
            _ => Vec::new(),
        }
    }
}

/// What is left of a line, and how many lists and objects are open there.
struct Reader<'a> {
    rest: &'a str,
    open: usize,
}

impl<'a> Reader<'a> {
    /// All of a text.
    fn of(text: &'a str) -> Reader<'a> {
        let (rest, open) = (text, 0);
        Reader { rest, open }
    }

    /// The value that comes next.
    fn value(&mut self) -> Result<Value<'a>, String> {
        let text = self.rest.trim_ascii_start();
        self.rest = text;
        let value = match text.bytes().next() {
            Some(b'[') => self.list(|reader| reader.value().map(drop)).map(drop),
            Some(b'{') => self.object().map(drop),
            Some(b'"') => return Ok(Value::Text(self.text()?)),
            Some(b'-' | b'0'..=b'9') => return Ok(Value::Number(self.number()?)),
            _ => return self.word(),
        };
        value?;
        let passed = &text[..text.len() - self.rest.len()];
        Ok(match passed.starts_with('[') {
            true => Value::List(passed),
            false => Value::Object(passed),
        })
    }

    /// What the items of the list that comes next are read as.
    fn list<T>(
        &mut self,
        item: impl Fn(&mut Reader<'a>) -> Result<T, String>,
    ) -> Result<Vec<T>, String> {
        self.between('[', ']', item)
    }

    /// The members of the object that comes next; no two of them have one name.
    fn object(&mut self) -> Result<Vec<Member<'a>>, String> {
        let members = self.between('{', '}', |reader| {
            let name = reader.text()?;
            reader.want(':')?;
            Ok((name, reader.value()?))
        })?;
        let mut names: Vec<_> = members.iter().map(|(name, _)| name).collect();
        names.sort();
        match names.windows(2).find(|pair| pair[0] == pair[1]) {
            Some(pair) => Err(format!("{:?} stands twice in an object of JSON", pair[0])),
            None => Ok(members),
        }
    }

    /// What stands between two brackets, with commas between.
    fn between<T>(
        &mut self,
        from: char,
        to: char,
        item: impl Fn(&mut Reader<'a>) -> Result<T, String>,
    ) -> Result<Vec<T>, String> {
        self.want(from)?;
        self.open += 1;
        if self.open > DEEPEST {
            return Err(format!("JSON has more than {DEEPEST} levels"));
        }
        let mut items = Vec::new();
        if !self.take(to) {
            items.push(item(self)?);
            while !self.take(to) {
                self.want(',')?;
                items.push(item(self)?);
            }
        }
        self.open -= 1;
        Ok(items)
    }

    /// The text that comes next.
    fn text(&mut self) -> Result<&'a str, String> {
        self.want('"')?;
        let mut at = 0;
        loop {
            at += match &self.rest.as_bytes()[at..] {
                [] => return Err(UNENDED.to_owned()),
                [b'"', ..] => break,
                [0..b' ', ..] => return Err("JSON has a control character in a text".to_owned()),
                [b'\\', b'u', digits @ ..] if is_hexadecimal(digits) => 6,
                [b'\\', b'"' | b'\\' | b'/' | b'b' | b'f' | b'n' | b'r' | b't', ..] => 2,
                [b'\\', ..] => {
                    return Err("JSON has no such character behind a backslash".to_owned())
                }
                _ => 1,
            };
        }
        let text = &self.rest[..at];
        self.rest = &self.rest[at + 1..];
        Ok(text)
    }

    /// The number that comes next.
    fn number(&mut self) -> Result<&'a str, String> {
        let part = |character: char| matches!(character, '0'..='9' | '+' | '-' | '.' | 'e' | 'E');
        let behind = self.rest.trim_start_matches(part);
        let number = &self.rest[..self.rest.len() - behind.len()];
        self.rest = behind;
        match behind_number(number) {
            Some("") => Ok(number),
            _ => Err(format!("{number:?} is no number of JSON")),
        }
    }

    /// The word that comes next.
    fn word(&mut self) -> Result<Value<'a>, String> {
        let words = ["true", "false", "null"];
        let found = words.iter().find_map(|word| self.rest.strip_prefix(word));
        self.rest = found.ok_or_else(|| self.unexpected())?;
        Ok(Value::Word)
    }

    /// Goes behind a character, if it comes next.
    fn take(&mut self, character: char) -> bool {
        let behind = self.rest.trim_ascii_start().strip_prefix(character);
        self.rest = behind.unwrap_or(self.rest);
        behind.is_some()
    }

    /// Goes behind a character, which must come next.
    fn want(&mut self, character: char) -> Result<(), String> {
        match self.take(character) {
            true => Ok(()),
            false => Err(self.unexpected()),
        }
    }

    /// What is wrong where something else must come next.
    fn unexpected(&self) -> String {
        let start: String = self.rest.trim_ascii().chars().take(20).collect();
        match start.is_empty() {
            true => UNENDED.to_owned(),
            false => format!("JSON does not go on with {start:?}"),
        }
    }
}

/// Whether bytes begin with four hexadecimal digits.
fn is_hexadecimal(bytes: &[u8]) -> bool {
    bytes.len() >= 4 && bytes[..4].iter().all(u8::is_ascii_hexdigit)
}

/// What stands behind a number of JSON with which a text begins.
fn behind_number(text: &str) -> Option<&str> {
    let whole = text.strip_prefix('-').unwrap_or(text);
    let rest = match whole.strip_prefix('0') {
        Some(rest) => rest,
        None => behind_digits(whole)?,
    };
    let rest = match rest.strip_prefix('.') {
        Some(digits) => behind_digits(digits)?,
        None => rest,
    };
    match rest.strip_prefix(['e', 'E']) {
        Some(power) => behind_digits(power.strip_prefix(['+', '-']).unwrap_or(power)),
        None => Some(rest),
    }
}

/// What stands behind the digits, one or more, with which a text begins.
fn behind_digits(text: &str) -> Option<&str> {
    let rest = text.trim_start_matches(|character: char| character.is_ascii_digit());
    (rest.len() < text.len()).then_some(rest)
}

#[cfg(test)]
mod tests {
    use super::*;

    #[test]
    fn values_are_read() {
        let line = r#" {"a" : [1, -2.5e-3 ,[]],"b\"":{"c":"x\\"}, "d":true,"e":null} "#;
        let value = Value::read(line).unwrap();
        let (list, inner) = ("[1, -2.5e-3 ,[]]", r#"{"c":"x\\"}"#);
        let members = [
            ("a", Value::List(list)),
            (r#"b\""#, Value::Object(inner)),
            ("d", Value::Word),
            ("e", Value::Word),
        ];
        assert_eq!(value.members(), members);
        let numbers = [Value::Number("1"), Value::Number("-2.5e-3")];
        assert_eq!(Value::List(list).items()[..2], numbers);
        assert_eq!(Value::List(list).items()[2], Value::List("[]"));
        let text = ("c", Value::Text(r"x\\"));
        assert_eq!(Value::Object(inner).members(), [text]);
    }

    #[test]
    fn what_has_no_parts_has_none() {
        for value in [
            Value::Word,
            Value::Number("1"),
            Value::Text("[1]"),
            Value::List("[ ]"),
        ] {
            assert_eq!((value.items(), value.members()), (vec![], vec![]));
        }
    }

    #[test]
    fn numbers_and_texts_are_those_of_json() {
        for line in [
            "0",
            "-0",
            "10",
            "0.5",
            "1e5",
            "1E+5",
            "-1.25e-07",
            "\"\"",
            r#""\u00e9\n\/é""#,
        ] {
            assert!(Value::read(line).is_ok(), "{line}");
        }
        for line in [
            "01", "-", "+1", "1.", ".5", "-.5", "1e", "1e+", "1-2", "--1", "1.5.5", "0x1", "NaN",
        ] {
            assert!(Value::read(line).is_err(), "{line}");
        }
        for line in [
            "\"a",
            r#""a\""#,
            r#""\x""#,
            r#""\u12""#,
            r#""\u12g4""#,
            "\"\t\"",
        ] {
            assert!(Value::read(line).is_err(), "{line}");
        }
    }

    #[test]
    fn what_is_no_json_is_a_fault() {
        for line in [
            "", " ", "{", "[", "[1", "[1,", "[1,]", "[,1]", "[1 2]", "[1}", "{]", "{,}", "{1:2}",
            "truth", "nul", "x", "[1]]", "[[1]", "[{]}", "[\"a]",
        ] {
            assert!(Value::read(line).is_err(), "{line}");
        }
        for line in [
            r#"{"a"}"#,
            r#"{"a":}"#,
            r#"{"a" 1}"#,
            r#"{"a":1,}"#,
            r#"{"a":1"#,
            r#"{"a":1}}"#,
            r#"{"a":1} b"#,
            r#"{"a":1 "b":2}"#,
            r#"{"a":1,"a":1}"#,
            r#"[{"a":1,"b":2,"a":1}]"#,
        ] {
            assert!(Value::read(line).is_err(), "{line}");
        }
    }

    #[test]
    fn the_depth_is_bounded() {
        let nested = |depth| "[".repeat(depth) + &"]".repeat(depth);
        assert!(Value::read(&nested(DEEPEST)).is_ok());
        assert!(Value::read(&nested(DEEPEST + 1)).is_err());
        assert!(Value::read(&"[".repeat(1 << 20)).is_err());
    }
}
