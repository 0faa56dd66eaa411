//! JSON: values, from text and to text.

use std::fmt;

/// How deep lists and objects may be nested in a text.
const DEEPEST: usize = 100;

/// A value of JSON.
#[derive(Clone, Debug, PartialEq)]
pub enum Value {
    Null,
    Bool(bool),
    Number(f64),
    Text(String),
    List(Vec<Value>),
    /// Names and values, in their order.
    Object(Vec<(String, Value)>),
}

use Value::{Bool, List, Null, Number, Object, Text};

impl Value {
    /// The value of a name in an object. `Null` if there is none, or it is no object.
    pub fn get(&self, name: &str) -> &Value {
        let fields = match self {
            Object(fields) => &fields[..],
            _ => &[],
        };
        let found = fields.iter().find(|(it, _)| it == name);
        found.map_or(&Null, |(_, value)| value)
    }

    /// Whether an object has the name.
    pub fn has(&self, name: &str) -> bool {
        matches!(self, Object(fields) if fields.iter().any(|(it, _)| it == name))
    }

    /// A text, if it is one.
    pub fn text(&self) -> Option<&str> {
        match self {
            Text(text) => Some(text),
            _ => None,
        }
    }

    /// A number, cut to a whole one from 0 on, if it is one.
    pub fn number(&self) -> Option<usize> {
        match self {
            Number(number) => Some(*number as usize),
            _ => None,
        }
    }

    /// A list, and an empty one if it is none.
    pub fn list(&self) -> &[Value] {
        match self {
            List(values) => values,
            _ => &[],
        }
    }
}

/// An object of these names and values.
pub fn object<const N: usize>(fields: [(&str, Value); N]) -> Value {
    Object(fields.map(|(name, value)| (name.to_string(), value)).into())
}

impl From<&str> for Value {
    fn from(text: &str) -> Value {
        Text(text.to_string())
    }
}

impl From<String> for Value {
    fn from(text: String) -> Value {
        Text(text)
    }
}

impl From<usize> for Value {
    fn from(number: usize) -> Value {
        Number(number as f64)
    }
}

impl From<bool> for Value {
    fn from(is: bool) -> Value {
        Bool(is)
    }
}

impl From<Vec<Value>> for Value {
    fn from(values: Vec<Value>) -> Value {
        List(values)
    }
}

/// As JSON, on one line.
impl fmt::Display for Value {
    fn fmt(&self, f: &mut fmt::Formatter<'_>) -> fmt::Result {
        match self {
            Null => f.write_str("null"),
            Bool(is) => write!(f, "{is}"),
            Number(number) => write!(f, "{number}"),
            Text(text) => quoted(text, f),
            List(values) => {
                f.write_str("[")?;
                for (at, value) in values.iter().enumerate() {
                    write!(f, "{}{value}", if at > 0 { "," } else { "" })?;
                }
                f.write_str("]")
            }
            Object(fields) => {
                f.write_str("{")?;
                for (at, (name, value)) in fields.iter().enumerate() {
                    f.write_str(if at > 0 { "," } else { "" })?;
                    quoted(name, f)?;
                    write!(f, ":{value}")?;
                }
                f.write_str("}")
            }
        }
    }
}

fn quoted(text: &str, f: &mut fmt::Formatter<'_>) -> fmt::Result {
    f.write_str("\"")?;
    let mut written = 0;
    for (at, byte) in text.bytes().enumerate() {
        if byte == b'"' || byte == b'\\' || byte < b' ' {
            f.write_str(&text[written..at])?;
            write!(f, "\\u{byte:04x}")?;
            written = at + 1;
        }
    }
    f.write_str(&text[written..])?;
    f.write_str("\"")
}

/// Reads a text of JSON. `None` if it is none, or nested deeper than 100.
pub fn parse(text: &str) -> Option<Value> {
    let mut reader = Reader { text, at: 0 };
    let value = reader.value(0)?;
    reader.blanks();
    (reader.at == text.len()).then_some(value)
}

struct Reader<'a> {
    text: &'a str,
    at: usize,
}

impl Reader<'_> {
    fn byte(&self) -> Option<u8> {
        self.text.as_bytes().get(self.at).copied()
    }

    fn blanks(&mut self) {
        while matches!(self.byte(), Some(b' ' | b'\t' | b'\n' | b'\r')) {
            self.at += 1;
        }
    }

    /// Passes a word, if it is next.
    fn takes(&mut self, word: &str) -> bool {
        let is_next = self.text.as_bytes()[self.at..].starts_with(word.as_bytes());
        self.at += if is_next { word.len() } else { 0 };
        is_next
    }

    /// Passes blanks and then a word, if it is next behind them.
    fn takes_sign(&mut self, sign: &str) -> bool {
        self.blanks();
        self.takes(sign)
    }

    fn value(&mut self, depth: usize) -> Option<Value> {
        if depth > DEEPEST {
            return None;
        }
        self.blanks();
        match self.byte()? {
            b'"' => self.string().map(Text),
            b'[' => self.values(depth),
            b'{' => self.fields(depth),
            b't' => self.takes("true").then_some(Bool(true)),
            b'f' => self.takes("false").then_some(Bool(false)),
            b'n' => self.takes("null").then_some(Null),
            _ => self.digits(),
        }
    }

    fn values(&mut self, depth: usize) -> Option<Value> {
        let mut values = Vec::new();
        self.at += 1;
        if self.takes_sign("]") {
            return Some(List(values));
        }
        loop {
            values.push(self.value(depth + 1)?);
            if self.takes_sign("]") {
                return Some(List(values));
            }
            self.takes(",").then_some(())?;
        }
    }

    fn fields(&mut self, depth: usize) -> Option<Value> {
        let mut fields = Vec::new();
        self.at += 1;
        if self.takes_sign("}") {
            return Some(Object(fields));
        }
        loop {
            self.blanks();
            let name = self.string()?;
            self.takes_sign(":").then_some(())?;
            fields.push((name, self.value(depth + 1)?));
            if self.takes_sign("}") {
                return Some(Object(fields));
            }
            self.takes(",").then_some(())?;
        }
    }

    /// A number: a minus, digits without a zero in front, a fraction, an exponent.
    fn digits(&mut self) -> Option<Value> {
        let from = self.at;
        self.takes("-");
        let whole = self.at;
        self.pass_digits()?;
        if self.at > whole + 1 && self.text.as_bytes()[whole] == b'0' {
            return None;
        }
        if self.takes(".") {
            self.pass_digits()?;
        }
        if self.takes("e") || self.takes("E") {
            let _is_signed = self.takes("-") || self.takes("+");
            self.pass_digits()?;
        }
        let number: f64 = self.text[from..self.at].parse().ok()?;
        number.is_finite().then_some(Number(number))
    }

    fn pass_digits(&mut self) -> Option<()> {
        let from = self.at;
        while matches!(self.byte(), Some(b'0'..=b'9')) {
            self.at += 1;
        }
        (self.at > from).then_some(())
    }

    fn string(&mut self) -> Option<String> {
        self.takes("\"").then_some(())?;
        let mut text = String::new();
        loop {
            let from = self.at;
            while !matches!(self.byte()?, b'"' | b'\\' | 0..=31) {
                self.at += 1;
            }
            text.push_str(&self.text[from..self.at]);
            match self.byte()? {
                b'"' => {
                    self.at += 1;
                    return Some(text);
                }
                b'\\' => text.push(self.escape()?),
                _ => return None,
            }
        }
    }

    /// The character of an escape. A half of a pair of UTF-16 without the other is U+FFFD.
    fn escape(&mut self) -> Option<char> {
        self.at += 1;
        let byte = self.byte()?;
        self.at += 1;
        Some(match byte {
            b'"' | b'\\' | b'/' => char::from(byte),
            b'b' => '\u{8}',
            b'f' => '\u{c}',
            b'n' => '\n',
            b'r' => '\r',
            b't' => '\t',
            b'u' => {
                let first = self.unit()?;
                let behind = self.at;
                if (0xd800..0xdc00).contains(&first) && self.takes("\\u") {
                    let second = self.unit()?;
                    if let Some(Ok(pair)) = char::decode_utf16([first, second]).next() {
                        return Some(pair);
                    }
                    self.at = behind;
                }
                char::from_u32(first.into()).unwrap_or('\u{fffd}')
            }
            _ => return None,
        })
    }

    /// A unit of UTF-16 in four hexadecimal digits.
    fn unit(&mut self) -> Option<u16> {
        let digits = self.text.get(self.at..self.at + 4)?;
        self.at += 4;
        let is_hexadecimal = digits.bytes().all(|it| it.is_ascii_hexdigit());
        is_hexadecimal.then(|| u16::from_str_radix(digits, 16).ok())?
    }
}

#[cfg(test)]
mod tests {
    use super::*;

    #[test]
    fn values_are_read() {
        let text =
            " {\"a\" : [1, -2.5e1, true, null], \"b\\u00e9\\ud83d\\ude00\\n\": \"\\\"\\ud83dx\"} ";
        let value = parse(text).unwrap();
        assert_eq!(
            value.get("a").list(),
            [Number(1.0), Number(-25.0), Bool(true), Null]
        );
        assert_eq!(value.get("bé😀\n").text(), Some("\"\u{fffd}x"));
        assert_eq!(value.get("c"), &Null);
        assert!(value.has("a") && !value.has("c"));
        assert_eq!(parse("[]"), Some(List(vec![])));
        assert_eq!(parse("{ }"), Some(Object(vec![])));
        assert_eq!(parse("0"), Some(Number(0.0)));
    }

    #[test]
    fn other_texts_are_refused() {
        for text in [
            "",
            " ",
            "[",
            "[1,]",
            "[1 2]",
            "{\"a\"}",
            "{\"a\":1,}",
            "{a:1}",
            "01",
            "-",
            "1.",
            ".5",
            "1e",
            "1e999",
            "+1",
            "tru",
            "\"",
            "\"\n\"",
            "\"\\x\"",
            "\"\\u12g4\"",
            "\"\\u+123\"",
            "1 2",
            "nan",
            "\"a\" b",
        ] {
            assert_eq!(parse(text), None, "{text}");
        }
        assert!(parse(&("[".repeat(101) + &"]".repeat(101))).is_some());
        assert!(parse(&("[".repeat(102) + &"]".repeat(102))).is_none());
        assert!(parse(&"[".repeat(1_000_000)).is_none());
    }

    #[test]
    fn what_is_written_is_read() {
        let value = object([
            ("a\"\\\n\u{1}é😀", Text("\u{7f}\r".into())),
            (
                "b",
                List(vec![
                    Number(3.0),
                    Number(0.5),
                    Bool(false),
                    Null,
                    object([]),
                ]),
            ),
        ]);
        let text = value.to_string();
        assert_eq!(
            text,
            "{\"a\\u0022\\u005c\\u000a\\u0001é😀\":\"\u{7f}\\u000d\",\"b\":[3,0.5,false,null,{}]}"
        );
        assert_eq!(parse(&text), Some(value));
    }
}
