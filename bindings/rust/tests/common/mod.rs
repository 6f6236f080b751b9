//! What the tests share: a reader of JSON lines, the corpus, and answers as three numbers.
#![allow(dead_code)]
use ruby_marshal_tables::{Counts, Refusal};
use std::collections::HashMap;
use std::path::Path;

#[derive(Debug, PartialEq)]
pub enum Json {
    Number(i64),
    Text(String),
    List(Vec<Json>),
    Object(HashMap<String, Json>),
}

struct Reader<'a> {
    text: &'a [u8],
    at: usize,
}

impl Reader<'_> {
    fn skip(&mut self) -> u8 {
        while self.text[self.at].is_ascii_whitespace() {
            self.at += 1;
        }
        self.text[self.at]
    }

    fn take(&mut self, byte: u8) {
        assert_eq!(self.skip(), byte, "at {}", self.at);
        self.at += 1;
    }

    // Is the byte next? Then it is taken.
    fn next_is(&mut self, byte: u8) -> bool {
        let is = self.skip() == byte;
        self.at += usize::from(is);
        is
    }

    fn text(&mut self) -> String {
        self.take(b'"');
        let mut bytes = Vec::new();
        loop {
            let byte = self.text[self.at];
            self.at += 1;
            match byte {
                b'"' => return String::from_utf8(bytes).expect("UTF-8"),
                b'\\' => {
                    bytes.push(match self.text[self.at] {
                        b'n' => b'\n',
                        b't' => b'\t',
                        own @ (b'"' | b'\\' | b'/') => own,
                        other => panic!("escape {}", other as char),
                    });
                    self.at += 1;
                }
                _ => bytes.push(byte),
            }
        }
    }

    fn value(&mut self) -> Json {
        match self.skip() {
            b'"' => Json::Text(self.text()),
            b'[' => {
                self.take(b'[');
                let mut list = Vec::new();
                while !self.next_is(b']') {
                    list.push(self.value());
                    self.next_is(b',');
                }
                Json::List(list)
            }
            b'{' => {
                self.take(b'{');
                let mut fields = HashMap::new();
                while !self.next_is(b'}') {
                    let name = self.text();
                    self.take(b':');
                    fields.insert(name, self.value());
                    self.next_is(b',');
                }
                Json::Object(fields)
            }
            _ => {
                let start = self.at;
                while self.text.get(self.at).is_some_and(|b| b.is_ascii_digit() || *b == b'-') {
                    self.at += 1;
                }
                let digits = std::str::from_utf8(&self.text[start..self.at]).unwrap();
                Json::Number(digits.parse().unwrap_or_else(|e| panic!("number {digits:?}: {e}")))
            }
        }
    }
}

impl Json {
    pub fn read(text: &str) -> Json {
        Reader { text: text.as_bytes(), at: 0 }.value()
    }

    pub fn number(&self) -> i64 {
        let Json::Number(n) = self else { panic!("no number: {self:?}") };
        *n
    }

    pub fn text(&self) -> &str {
        let Json::Text(text) = self else { panic!("no text: {self:?}") };
        text
    }

    pub fn list(&self) -> &[Json] {
        let Json::List(list) = self else { panic!("no list: {self:?}") };
        list
    }

    pub fn words(&self) -> Vec<u32> {
        self.list().iter().map(|n| n.number().try_into().expect("a word")).collect()
    }

    pub fn bytes(&self) -> Vec<u8> {
        let digits = self.text().as_bytes();
        digits.chunks(2).map(|d| u8::from_str_radix(std::str::from_utf8(d).unwrap(), 16).expect("hex")).collect()
    }
}

/// A case of the corpus.
pub struct Case(HashMap<String, Json>);

impl Case {
    pub fn has(&self, name: &str) -> bool {
        self.0.contains_key(name)
    }

    pub fn field(&self, name: &str) -> &Json {
        self.0.get(name).unwrap_or_else(|| panic!("no field {name}"))
    }

    pub fn id(&self) -> &str {
        self.field("id").text()
    }

    pub fn size(&self, name: &str) -> usize {
        self.field(name).number() as usize
    }

    pub fn limit(&self) -> u32 {
        self.field("limit").number() as u32
    }

    pub fn bytes(&self, name: &str) -> Vec<u8> {
        self.0.get(name).map_or(Vec::new(), Json::bytes)
    }

    pub fn words(&self, name: &str) -> Vec<u32> {
        self.0.get(name).map_or(Vec::new(), Json::words)
    }

    pub fn counts(&self, name: &str) -> Counts {
        let [nodes, references, bytes, root] = self.field(name).list() else { panic!("four counts") };
        let size = |n: &Json| n.number() as usize;
        Counts { nodes: size(nodes), references: size(references), bytes: size(bytes), root: root.number() as u32 }
    }

    /// An answer's three numbers.
    pub fn three(&self, name: &str) -> (u32, i64, u64) {
        let [number, first, second] = self.field(name).list() else { panic!("three numbers") };
        (number.number() as u32, first.number(), second.number() as u64)
    }

    /// The answer's.
    pub fn answer(&self) -> (u32, i64, u64) {
        self.three("answer")
    }
}

/// A refusal's number and details; 0, 0, 0 where there is none.
pub fn numbers<A>(answer: &Result<A, Refusal>) -> (u32, i64, u64) {
    match answer {
        Ok(_) => (0, 0, 0),
        Err(refusal) => {
            let (first, second) = refusal.details();
            (refusal.number(), first, second)
        }
    }
}

/// The cases of a file in the corpus's folder, which RUBY_MARSHAL_CORPUS names; none where it is not set.
pub fn corpus(file: &str) -> Vec<Case> {
    let Some(folder) = std::env::var_os("RUBY_MARSHAL_CORPUS") else {
        println!("{file}: RUBY_MARSHAL_CORPUS is not set");
        return Vec::new();
    };
    let path = Path::new(&folder).join(format!("{file}.jsonl"));
    let text = std::fs::read_to_string(&path).unwrap_or_else(|e| panic!("{}: {e}", path.display()));
    let case = |line: &str| match Json::read(line) {
        Json::Object(fields) => Case(fields),
        other => panic!("no object: {other:?}"),
    };
    text.lines().map(case).collect()
}

/// Words and bytes that are no zeros.
pub fn junk(n: usize) -> Vec<u32> {
    (0..n as u32).map(|i| i.wrapping_mul(0x9E37_79B9) | 1).collect()
}

pub fn junk_bytes(n: usize) -> Vec<u8> {
    (0..n).map(|i| (i as u8).wrapping_mul(37) | 1).collect()
}

/// The list, then zeros, n in all.
pub fn padded<T: Clone + Default>(mut list: Vec<T>, n: usize) -> Vec<T> {
    assert!(list.len() <= n);
    list.resize(n, T::default());
    list
}
