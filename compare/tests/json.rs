//! A tiny JSON parser for the vectors: objects, arrays, strings without escapes, whole numbers, true,
//! false and null. Anything else makes it panic, which fails the test.
#![allow(dead_code)]

#[derive(Clone, Debug, PartialEq)]
pub enum Json {
    Null,
    Bool(bool),
    Number(i128),
    Text(String),
    List(Vec<Json>),
    Object(Vec<(String, Json)>),
}

impl Json {
    pub fn parse(text: &str) -> Json {
        let mut parser = Parser { bytes: text.as_bytes(), at: 0 };
        let value = parser.value();
        parser.blanks();
        assert_eq!(parser.at, parser.bytes.len(), "text after the value");
        value
    }

    pub fn has(&self, key: &str) -> bool {
        self.members().iter().any(|(name, _)| name == key)
    }

    pub fn get(&self, key: &str) -> &Json {
        let found = self.members().iter().find(|(name, _)| name == key);
        &found.unwrap_or_else(|| panic!("no {key}")).1
    }

    pub fn members(&self) -> &[(String, Json)] {
        match self {
            Json::Object(members) => members,
            other => panic!("not an object: {other:?}"),
        }
    }

    pub fn list(&self) -> &[Json] {
        match self {
            Json::List(items) => items,
            other => panic!("not a list: {other:?}"),
        }
    }

    pub fn text(&self) -> &str {
        match self {
            Json::Text(text) => text,
            other => panic!("not a text: {other:?}"),
        }
    }

    pub fn number(&self) -> i128 {
        match self {
            Json::Number(number) => *number,
            other => panic!("not a number: {other:?}"),
        }
    }

    pub fn bool(&self) -> bool {
        match self {
            Json::Bool(value) => *value,
            other => panic!("not a truth value: {other:?}"),
        }
    }
}

struct Parser<'a> {
    bytes: &'a [u8],
    at: usize,
}

impl Parser<'_> {
    fn blanks(&mut self) {
        while self.at < self.bytes.len() && self.bytes[self.at].is_ascii_whitespace() {
            self.at += 1;
        }
    }

    fn peek(&mut self) -> u8 {
        self.blanks();
        self.bytes[self.at]
    }

    fn take(&mut self, expected: u8) {
        assert_eq!(self.peek(), expected, "at {}", self.at);
        self.at += 1;
    }

    fn word(&mut self, word: &str, value: Json) -> Json {
        assert!(self.bytes[self.at..].starts_with(word.as_bytes()), "at {}", self.at);
        self.at += word.len();
        value
    }

    fn value(&mut self) -> Json {
        match self.peek() {
            b'{' => self.object(),
            b'[' => self.items(),
            b'"' => Json::Text(self.string()),
            b'n' => self.word("null", Json::Null),
            b't' => self.word("true", Json::Bool(true)),
            b'f' => self.word("false", Json::Bool(false)),
            _ => self.whole_number(),
        }
    }

    fn object(&mut self) -> Json {
        let mut members = Vec::new();
        self.take(b'{');
        while self.peek() != b'}' {
            if !members.is_empty() {
                self.take(b',');
                self.blanks();
            }
            let name = self.string();
            self.take(b':');
            members.push((name, self.value()));
        }
        self.take(b'}');
        Json::Object(members)
    }

    fn items(&mut self) -> Json {
        let mut items = Vec::new();
        self.take(b'[');
        while self.peek() != b']' {
            if !items.is_empty() {
                self.take(b',');
            }
            items.push(self.value());
        }
        self.take(b']');
        Json::List(items)
    }

    fn string(&mut self) -> String {
        self.take(b'"');
        let start = self.at;
        while self.bytes[self.at] != b'"' {
            assert_ne!(self.bytes[self.at], b'\\', "escapes aren't read");
            self.at += 1;
        }
        self.at += 1;
        String::from_utf8(self.bytes[start..self.at - 1].to_vec()).unwrap()
    }

    fn whole_number(&mut self) -> Json {
        let start = self.at;
        while self.at < self.bytes.len() && matches!(self.bytes[self.at], b'-' | b'0'..=b'9') {
            self.at += 1;
        }
        let digits = std::str::from_utf8(&self.bytes[start..self.at]).unwrap();
        Json::Number(digits.parse().unwrap())
    }
}

#[test]
fn parses_what_the_vectors_hold() {
    let value = Json::parse(r#" {"a": [1, -2, 9223372036854775808], "b": null, "c": "x", "d": {"e": false}} "#);
    assert_eq!(value.get("a").list()[2].number(), 1i128 << 63);
    assert_eq!(value.get("a").list()[1].number(), -2);
    assert_eq!(value.get("b"), &Json::Null);
    assert_eq!(value.get("c").text(), "x");
    assert!(!value.get("d").get("e").bool());
    assert!(!value.has("f"));
}
