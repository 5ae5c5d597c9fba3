//! A small JSON reader for the vectors: few escapes in strings, whole numbers only.

use std::collections::BTreeMap;

pub enum Json {
    Null,
    Bool(bool),
    Number(i64),
    Text(String),
    List(Vec<Json>),
    Object(BTreeMap<String, Json>),
}

impl Json {
    pub fn parse(text: &str) -> Json {
        let mut parser = Parser(text.as_bytes());
        let value = parser.value();
        parser.space();
        assert!(parser.0.is_empty(), "bytes after the JSON value");
        value
    }

    pub fn get(&self, name: &str) -> &Json {
        match self {
            Json::Object(object) => object
                .get(name)
                .unwrap_or_else(|| panic!("no entry {name}")),
            _ => panic!("{name} wanted of something else than an object"),
        }
    }

    pub fn list(&self) -> &[Json] {
        match self {
            Json::List(list) => list,
            _ => panic!("not a list"),
        }
    }

    pub fn text(&self) -> &str {
        match self {
            Json::Text(text) => text,
            _ => panic!("not a text"),
        }
    }

    pub fn number(&self) -> i64 {
        match self {
            Json::Number(number) => *number,
            _ => panic!("not a number"),
        }
    }

    pub fn is_null(&self) -> bool {
        matches!(self, Json::Null)
    }

    /// The bytes of a text of hexadecimal digits.
    pub fn bytes(&self) -> Vec<u8> {
        let digits = self.text().as_bytes();
        assert_eq!(digits.len() % 2, 0);
        digits
            .chunks(2)
            .map(|pair| u8::from_str_radix(std::str::from_utf8(pair).unwrap(), 16).unwrap())
            .collect()
    }
}

struct Parser<'a>(&'a [u8]);

impl Parser<'_> {
    fn space(&mut self) {
        self.0 = self.0.trim_ascii_start();
    }

    /// Takes the word if it comes next.
    fn take(&mut self, word: &str) -> bool {
        self.space();
        match self.0.strip_prefix(word.as_bytes()) {
            Some(rest) => {
                self.0 = rest;
                true
            }
            None => false,
        }
    }

    fn expect(&mut self, word: &str) {
        assert!(self.take(word), "{word} expected");
    }

    fn value(&mut self) -> Json {
        if self.take("null") {
            Json::Null
        } else if self.take("true") {
            Json::Bool(true)
        } else if self.take("false") {
            Json::Bool(false)
        } else if self.take("{") {
            self.object()
        } else if self.take("[") {
            self.list()
        } else if self.take("\"") {
            Json::Text(self.rest_of_text())
        } else {
            self.number()
        }
    }

    fn object(&mut self) -> Json {
        let mut object = BTreeMap::new();
        if self.take("}") {
            return Json::Object(object);
        }
        loop {
            self.expect("\"");
            let name = self.rest_of_text();
            self.expect(":");
            object.insert(name, self.value());
            if self.take("}") {
                return Json::Object(object);
            }
            self.expect(",");
        }
    }

    fn list(&mut self) -> Json {
        let mut list = Vec::new();
        if self.take("]") {
            return Json::List(list);
        }
        loop {
            list.push(self.value());
            if self.take("]") {
                return Json::List(list);
            }
            self.expect(",");
        }
    }

    fn rest_of_text(&mut self) -> String {
        let mut text = Vec::new();
        loop {
            let byte = self.byte();
            match byte {
                b'"' => return String::from_utf8(text).unwrap(),
                b'\\' => match self.byte() {
                    b'n' => text.push(b'\n'),
                    same @ (b'"' | b'\\' | b'/') => text.push(same),
                    _ => panic!("an escape this reader does not know"),
                },
                _ => text.push(byte),
            }
        }
    }

    fn byte(&mut self) -> u8 {
        let (&byte, rest) = self.0.split_first().expect("the JSON text ends early");
        self.0 = rest;
        byte
    }

    fn number(&mut self) -> Json {
        let end = self
            .0
            .iter()
            .position(|byte| !matches!(byte, b'-' | b'0'..=b'9'))
            .unwrap_or(self.0.len());
        let (digits, rest) = self.0.split_at(end);
        self.0 = rest;
        let digits = std::str::from_utf8(digits).unwrap();
        Json::Number(digits.parse().expect("a whole number"))
    }
}
