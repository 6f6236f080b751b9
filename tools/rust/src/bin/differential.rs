// Runs load and dump of the Rattle crates and of the Rust crate on the same inputs and compares what they answer: the refusal
// and its details, the bytes used, the arena node by node, the bytes dumped, and that these load and dump to themselves; and
// that ours says yes to dump form exactly where the Rust dumps the bytes used. The measuring and the hashed load must answer and
// leave what load does, and count what a walk over the input finds; the bucket table, of just as many words as the node table has
// nodes, must be zero then.
//
// usage: differential [CORPUS]    after tools/rust/build; CORPUS is a folder with load.jsonl
//
// Allowed, and counted apart: ours refuses with 11 an input of more bytes than the limit has levels (the Rust has no limit),
// or with 12 counts of more references than the larger table has, where the Rust refuses later. Left out of the comparison,
// and counted apart:
//
// Inputs in which load comes to an integer with a size byte of the other sign, which the Rust reads; a walk over the input
// finds them. What can be asked of them: ours must be refused with 19 and the size byte, as soon as the data bytes are there and
// not before; with the other size byte the Rust must read the same, and that input is compared.
//
// Other inputs in which load comes to a Float or a Bignum, which the Rust refuses as an unknown kind. What can be asked of
// them: with strings for both such an input is compared, and ours must answer to both alike but for the node, the form of a
// Bignum and `I`; with empty arrays for them, on which `I` is refused as on both, the Rust must give our answer; and where load
// comes to a Bignum that is refused, ours must give the answer of a reader of Bignums written after the document.
//
// Other inputs in which load comes to a class (`C`), which the Rust refuses likewise. What can be asked of them: with a
// user-defined value for a string in a class, which reads the name and the bytes alike, and without a class whose name is a link,
// such an input is compared, and ours must answer to both alike but for the nodes. With the name as the first member of an array
// or hash, where it is written out, the answer and the dump form must be the same; what may not be in a class must be refused
// with 22.
use beside_rust::bignum::{bignum, Bignum};
use beside_rust::measure::{counted, integer, wrong_sign_met, Counted, Role};
use beside_rust::random::{damaged, value, Random, ALPHABET};
use beside_rust::room::Room;
use beside_rust::{inputs, Answer, Tables};
use ruby_marshal::{Error, SymbolValue, TypedValueHandle, Value, ValueArena, ValueHandle};
use ruby_marshal_tables::NODE_WORDS;
use std::collections::HashSet;
use std::panic::{catch_unwind, AssertUnwindSafe};

#[global_allocator]
static ROOM: Room = Room;

const LIMIT: u32 = 128;
const REFERENCES: [usize; 2] = [4096, 1 << 18];
const SHOWN: usize = 20;
// What the bucket table holds before a call.
const JUNK: u32 = 0xA5A5_A5A5;
const STACK: usize = 512 << 20;

const LETTERS: &[u8] = b"0i:;@I[}o\"uf\x00\x06\x07\xFA";
const PIECES: &[&[u8]] = &[
    b"0", b"T", b"i\x06", b":\x06a", b":\x06b", b";\x00", b";\x06", b"@\x00", b"@\x06", b"I", b"[\x06", b"[\x07", b"{\x06", b"}\x00",
    b"o", b"\"\x06x", b"u", b"f\x061", b"l-\x06\x01\x00", b"\x00", b"\x06",
];
// A Bignum's bytes, and what may stand around it.
const AROUND: &[u8] = b"l+-0[@I\x00\x01\x06\x07\x0A\xFA";
// A class, names, and what may be in one or around it.
const CLASSED: &[&[u8]] = &[
    b"C", b":\x06a", b":\x06b", b";\x00", b";\x06", b"\"\x00", b"[\x00", b"[\x06", b"[\x07", b"{\x06", b"}\x00", b"I", b"@\x00",
    b"@\x06", b"u", b"0", b"\x00",
];
// What stands before an integer: a Fixnum, the lengths, the counts, the indices.
const PLACES: &[&[u8]] = &[
    b"i", b":", b"\"", b"u:\x06a", b"f", b"[", b"{", b"}", b"o:\x06a", b"I\"\x00", b"l+", b"l-", b";", b"@",
];
// Integers with size bytes of the other sign and of their own, cut off too, and what may stand around them.
const SIGNED: &[&[u8]] = &[
    b"\x04\x00\x00\x00\x80", b"\x04\x01\x00\x00", b"\x00", b"\xFC\x01\x00\x00\x00", b"\xFC\xFF\xFF\xFF", b"\xFF",
    b"\x06", b"i", b"@", b";", b":", b"[", b"}", b"I", b"u", b"f", b"l-",
];

// How an input came out where nothing disagrees.
#[derive(Clone, Copy, PartialEq)]
enum Outcome {
    /// whether it is in dump form
    Accepted(bool),
    Refused(u64),
    TooDeep,
    NoSpace,
    /// load comes to a Float, a Bignum or a class: the kind of the first, the number of our answer, and whether it is in dump form
    Later(u8, u64, bool),
    /// load comes to a size byte of the other sign, and what it reads the integer for
    WrongSign(u8, Role),
    Panic,
}

// What the table of refusals gives for the Rust's error; 6 has a value there, and the Rust's has none.
fn refusal(error: &Error, ours: Answer) -> Option<Answer> {
    let (number, first, second) = match *error {
        Error::InvalidVersion { major, minor } => (3, major as i64, minor as u64),
        Error::Io { .. } => (4, 0, 0),
        Error::InvalidValueKind { kind } => (5, kind as i64, 0),
        Error::FixnumInvalidUSize { .. } => (6, ours.first.min(-1), 0),
        Error::MissingSymbolLink { index } => (7, index as i64, 0),
        Error::MissingObjectLink { index } => (8, index as i64, 0),
        Error::UnexpectedValueKind { actual, .. } => (9, actual as i64, 0),
        Error::NotAnObject => (10, 0, 0),
        _ => return None,
    };
    Some(Answer { number, first, second })
}

// A handle's place in the order of insertion, as its text shows it: nothing is ever removed, so it is the node's number.
fn number(handle: impl Into<ValueHandle>) -> Option<u32> {
    let text = format!("{:?}", handle.into());
    let slot = text.strip_prefix("ValueHandle { index: DefaultKey(")?.strip_suffix("v1) }")?;
    slot.parse::<u32>().ok()?.checked_sub(1)
}

// A value of the Rust's arena as a node: its words, where a start is left 0, its bytes and the members of its list.
struct Node<'a> {
    words: [u32; NODE_WORDS],
    bytes: Option<&'a [u8]>,
    members: Option<Vec<ValueHandle>>,
}

type Pair<A> = (A, ValueHandle);

fn flat<A: Copy + Into<ValueHandle>>(pairs: &[Pair<A>]) -> Option<Vec<ValueHandle>> {
    Some(pairs.iter().flat_map(|&(a, b)| [a.into(), b]).collect())
}

// A string or user-defined.
fn text_node<'a>(kind: u32, bytes: &'a [u8], variables: Option<&[Pair<TypedValueHandle<SymbolValue>>]>, name: u32) -> Node<'a> {
    let count = variables.map_or(0, |v| v.len() as u32);
    let words = [kind, 0, bytes.len() as u32, 0, count, name, variables.is_some() as u32, 0];
    Node { words, bytes: Some(bytes), members: variables.and_then(flat) }
}

fn node(value: &Value) -> Option<Node<'_>> {
    let plain = |kind, n| Node { words: [kind, n, 0, 0, 0, 0, 0, 0], bytes: None, members: None };
    let list = |kind, n: usize, name, default, members| Node { words: [kind, 0, 0, 0, n as u32, name, default, 0], bytes: None, members };
    Some(match value {
        Value::Nil(_) => plain(0, 0),
        Value::Bool(v) => plain(1, v.value() as u32),
        Value::Fixnum(v) => plain(2, v.value() as u32),
        Value::Symbol(v) => text_node(3, v.value(), None, 0),
        Value::Array(v) => list(4, v.len(), 0, 0, Some(v.value().to_vec())),
        Value::Hash(v) => {
            let default = v.default_value().map_or(Some(0), |d| Some(number(d)? + 1))?;
            list(5, v.value().len(), 0, default, flat(v.value()))
        }
        Value::Object(v) => list(6, v.instance_variables().len(), number(v.name())?, 0, flat(v.instance_variables())),
        Value::String(v) => text_node(7, v.value(), v.instance_variables(), 0),
        Value::UserDefined(v) => text_node(8, v.value(), v.instance_variables(), number(v.name())?),
    })
}

// Whether our node of that number is the Rust's: every word but the starts, the bytes, and the members by number.
fn same_node(tables: &Tables, n: usize, theirs: &Node) -> bool {
    let [nodes, references, bytes, _] = tables.counts;
    let Some(ours) = tables.nodes[..nodes * NODE_WORDS].chunks(NODE_WORDS).nth(n) else { return false };
    let mut words = theirs.words;
    if let Some(text) = theirs.bytes {
        words[1] = ours[1];
        let start = ours[1] as usize;
        if tables.bytes[..bytes].get(start..start + text.len()) != Some(text) {
            return false;
        }
    }
    if let Some(members) = &theirs.members {
        words[3] = ours[3];
        let start = ours[3] as usize;
        let Some(list) = tables.references[..references].get(start..start + members.len()) else { return false };
        if list.iter().zip(members).any(|(&a, &b)| Some(a) != number(b)) {
            return false;
        }
    }
    words == *ours
}

// Tables whose arena the input fills at most, kept for the next input of that length.
struct Lent {
    length: usize,
    references: usize,
    tables: Tables,
}

impl Lent {
    fn new(references: usize) -> Lent {
        Lent { length: 0, references, tables: Tables::new(0, 0, 0, 0) }
    }

    // Tables for inputs of that length.
    fn fit(&mut self, n: usize) -> &mut Tables {
        if self.length != n || self.tables.nodes.is_empty() {
            self.length = n;
            self.tables = Tables::new(n + 1, n * 2 + self.references, n, n * 4 + 2);
        }
        &mut self.tables
    }

    fn load(&mut self, input: &[u8]) -> Answer {
        self.fit(input.len()).load(input, LIMIT)
    }
}

// What an accepted load leaves: counts and bytes used, the used part of each table; and its dump.
#[derive(PartialEq)]
struct Held {
    counts: [usize; 4],
    used: usize,
    dump_form: bool,
    nodes: Vec<u32>,
    references: Vec<u32>,
    bytes: Vec<u8>,
    dumped: Answer,
    written: Vec<u8>,
}

impl Held {
    fn of(tables: &mut Tables) -> Held {
        let dumped = tables.dump(LIMIT);
        let [nodes, references, bytes, _] = tables.counts;
        Held {
            counts: tables.counts,
            used: tables.used,
            dump_form: tables.dump_form,
            nodes: tables.nodes[..nodes * NODE_WORDS].to_vec(),
            references: tables.references[..references].to_vec(),
            bytes: tables.bytes[..bytes].to_vec(),
            dumped,
            written: tables.output[..tables.written].to_vec(),
        }
    }

    // Strings for Floats and Bignums and user-defined values for strings in classes, as `with_strings` has them, in nodes, bytes
    // and dump, and no other classes; how many they were. None where a node is not as load makes it: its bytes after those of the
    // nodes before it.
    fn exchange(&mut self) -> Option<[usize; 3]> {
        let plain = with_strings(&self.written).ok()?;
        self.written = if plain.alike { plain.input } else { vec![] };
        let (mut bytes, mut at, mut count) = (Vec::new(), 0, [0; 3]);
        for words in self.nodes.chunks_mut(NODE_WORDS) {
            let start = bytes.len() as u32;
            let class = std::mem::take(&mut words[7]);
            count[2] += (class > 0) as usize;
            match words[0] {
                SYMBOL_NODE | STRING_NODE | USER_DEFINED_NODE | FLOAT_NODE => {
                    let end = at + words[2] as usize;
                    bytes.extend(self.bytes.get(at..end).filter(|_| words[1] as usize == at)?);
                    words[1] = start;
                    at = end;
                    if words[0] == FLOAT_NODE {
                        words[0] = STRING_NODE;
                        count[0] += 1;
                    } else if class > 0 {
                        (words[0], words[5]) = (USER_DEFINED_NODE, class - 1);
                    }
                }
                BIGNUM_NODE => {
                    let text = Bignum::of_words(words)?.text();
                    words.copy_from_slice(&[STRING_NODE, start, text.len() as u32, 0, 0, 0, 0, 0]);
                    bytes.extend(text);
                    count[1] += 1;
                }
                _ => (),
            }
        }
        self.counts[2] = bytes.len();
        let old = std::mem::replace(&mut self.bytes, bytes);
        (at == old.len()).then_some(count)
    }
}

// An input with other values for its Floats, Bignums and classes: how many they were, whether each Bignum, link and count that is
// not in it any more was as dump writes it, and whether the same nodes are made of it, in their order.
struct Exchanged {
    input: Vec<u8>,
    count: [usize; 3],
    form: bool,
    alike: bool,
}

// The input, changed at each Float, Bignum and class that load comes to until there is none: the Rust stops right after the kind
// byte. What load must answer, where it comes to a Bignum or a class that is refused.
fn exchanged(
    input: &[u8],
    float: impl Fn(&mut Vec<u8>, usize),
    other: impl Fn(Bignum) -> Vec<u8>,
) -> Result<Exchanged, Answer> {
    let mut made = Exchanged { input: input.to_vec(), count: [0; 3], form: true, alike: true };
    loop {
        let mut rest = &made.input[..];
        let Err(Error::InvalidValueKind { kind: kind @ (FLOAT | BIGNUM | CLASS) }) = ruby_marshal::load(&mut rest) else {
            return Ok(made);
        };
        let place = made.input.len() - rest.len() - 1;
        match kind {
            FLOAT => float(&mut made.input, place),
            BIGNUM => {
                let (found, end, in_form) = bignum(&made.input, place + 1)?;
                made.input.splice(place..end, other(found));
                made.form &= in_form;
            }
            _ => made.without_class(place)?,
        }
        made.count[LATER.iter().position(|&later| later == kind).expect("a later kind")] += 1;
    }
}

impl Exchanged {
    // The class at a place is taken out: its string is made a user-defined value, its name is left out where it is a link, and is
    // else the first member, of a hash with nil. A name that is refused is so as that of a user-defined value.
    fn without_class(&mut self, place: usize) -> Result<(), Answer> {
        self.input[place] = USER_DEFINED;
        let Some(end) = name_end(&self.input, place + 1) else { return Ok(()) };
        let mut named = &self.input[..end];
        if !matches!(ruby_marshal::load(&mut named), Err(Error::Io { .. })) {
            return Ok(());
        }
        let (name, linked) = (self.input[place + 1..end].to_vec(), self.input[place + 1] == SYMBOL_LINK);
        match self.input.get(end).copied() {
            None => (),
            Some(STRING) => drop(self.input.remove(end)),
            Some(b'[' | b'{' | b'}') if linked => {
                self.form &= integer(&name, 1).is_some_and(|(n, _)| name == dumped(SYMBOL_LINK, n));
                self.input.drain(place..end);
            }
            Some(kind @ (b'[' | b'{' | b'}')) => match integer(&self.input, end + 1) {
                Some((n @ 0..0xFF_FFFF, after)) => {
                    self.form &= self.input[end..after] == dumped(kind, n);
                    let nil: &[u8] = if kind == b'[' { b"" } else { b"0" };
                    self.input.splice(place..after, [&dumped(kind, n + 1), &name, nil].concat());
                    self.alike = false;
                }
                // load ends at such a count
                _ => drop(self.input.drain(place..end)),
            },
            Some(other) => return Err(Answer { number: 22, first: other.into(), second: 0 }),
        }
        Ok(())
    }
}

// A kind byte and an integer from zero up as dump writes them.
fn dumped(kind: u8, n: i32) -> Vec<u8> {
    let mut out = vec![kind];
    inputs::integer(n, &mut out);
    out
}

// Where the name at a place ends, if it is whole.
fn name_end(input: &[u8], place: usize) -> Option<usize> {
    match *input.get(place)? {
        SYMBOL => byte_string_end(input, place + 1),
        SYMBOL_LINK => integer(input, place + 1).map(|(_, end)| end),
        _ => None,
    }
}

// For a Bignum a string of its sign and its fewest units: never longer, and another for another number.
fn with_strings(input: &[u8]) -> Result<Exchanged, Answer> {
    let string = |found: Bignum| {
        let text = found.text();
        [&[STRING, text.len() as u8 + 5], &text[..]].concat()
    };
    exchanged(input, |out, place| out[place] = STRING, string)
}

// Empty arrays; a string where the Float is not whole, since load ends there.
fn with_arrays(input: &[u8]) -> Result<Exchanged, Answer> {
    let float = |out: &mut Vec<u8>, place| match byte_string_end(out, place + 1) {
        Some(end) => drop(out.splice(place..end, *b"[\x00")),
        None => out[place] = STRING,
    };
    exchanged(input, float, |_| b"[\x00".to_vec())
}

// What the Rust makes of an input with strings for its Floats and Bignums: the bytes used, and the dump or the error.
fn read_by_rust(input: &[u8]) -> Result<(usize, Result<Vec<u8>, String>), Answer> {
    let plain = with_strings(input)?.input;
    let (mut rest, mut written) = (&plain[..], vec![]);
    let read = ruby_marshal::load(&mut rest).and_then(|arena| ruby_marshal::dump(&mut written, &arena));
    Ok((plain.len() - rest.len(), read.map(|()| written).map_err(|e| format!("{e:?}"))))
}

// Where the byte string at a place ends, if it is whole.
fn byte_string_end(input: &[u8], place: usize) -> Option<usize> {
    let (length, start) = integer(input, place)?;
    let end = start + usize::try_from(length).ok()?;
    (end <= input.len()).then_some(end)
}

const FLOAT: u8 = b'f';
const BIGNUM: u8 = b'l';
const CLASS: u8 = b'C';
// The kinds besides the Rust's.
const LATER: [u8; 3] = [FLOAT, BIGNUM, CLASS];
const STRING: u8 = b'"';
const USER_DEFINED: u8 = b'u';
const SYMBOL: u8 = b':';
const SYMBOL_LINK: u8 = b';';
const SYMBOL_NODE: u32 = 3;
const STRING_NODE: u32 = 7;
const USER_DEFINED_NODE: u32 = 8;
const FLOAT_NODE: u32 = 9;
const BIGNUM_NODE: u32 = 10;
const SIZES: [u8; 2] = [0x04, 0xFC];
const ACCEPTED: Answer = Answer { number: 0, first: 0, second: 0 };
const SHORT_INPUT: Answer = Answer { number: 4, first: 0, second: 0 };
const NOT_AN_OBJECT: Answer = Answer { number: 10, first: 0, second: 0 };
const TOO_DEEP: Answer = Answer { number: 11, first: LIMIT as i64, second: 0 };
const NO_REFERENCES: Answer = Answer { number: 12, first: 2, second: 0 };

struct Run {
    lent: [Lent; 2],
    /// the measuring load's
    measured: [Lent; 2],
    /// the hashed load's
    hashed: [Lent; 2],
    again: Lent,
    /// accepted inputs in which names are compared, and their bytes compared
    compared: [u64; 2],
    /// accepted inputs in which names are searched for by the hashed load, and the words that it looks at
    looked: [u64; 2],
    /// nodes compared, by kind
    kinds: [usize; 9],
    /// Floats, Bignums and classes in accepted inputs
    later: [usize; 3],
    /// refusals that agree, by number
    refused: [usize; 11],
    /// refusals of inputs with Floats, Bignums or classes, by number
    later_refused: [usize; 23],
    /// inputs that are refused for a size byte, by it and by what the integer is read for
    signs: [[usize; 4]; 2],
    inputs: usize,
    disagree: usize,
    /// of the class of inputs: inputs, accepted, refused, too deep, no space, with a Float, with a Bignum, with a class, with a
    /// wrong sign, panics, disagreeing; those in dump form
    row: [usize; 12],
}

impl Run {
    // The answers of both to one input.
    fn compare(&mut self, input: &[u8]) -> Result<Outcome, String> {
        let mut room = 0;
        let mut ours = self.lent[0].load(input);
        if ours == NO_REFERENCES {
            room = 1;
            ours = self.lent[1].load(input);
        }
        if ours.number != 0 && self.lent[room].tables.dump_form {
            return Err(format!("load: {ours:?}, and in dump form"));
        }
        self.compare_other_loads(input, room, ours)?;
        if let Some(at) = wrong_sign_met(input, LIMIT, self.lent[room].tables.references.len()) {
            return self.compare_wrong_sign(input, at, room, ours);
        }
        let loaded = catch_unwind(|| {
            let mut rest = input;
            let loaded = ruby_marshal::load(&mut rest);
            (loaded, input.len() - rest.len())
        });
        match loaded {
            Err(_) => Ok(Outcome::Panic),
            Ok((Err(Error::InvalidValueKind { kind: kind @ (FLOAT | BIGNUM | CLASS) }), _)) => {
                self.compare_later(kind, input, room, ours)
            }
            _ if ours == TOO_DEEP && input.len() > LIMIT as usize => Ok(Outcome::TooDeep),
            Ok((Err(_), _)) if ours == NO_REFERENCES => Ok(Outcome::NoSpace),
            Ok((Err(e), _)) if refusal(&e, ours) == Some(ours) => Ok(Outcome::Refused(ours.number)),
            Ok((Ok(arena), used)) if ours.number == 0 && used == self.lent[room].tables.used => {
                self.compare_accepted(arena, &input[..used], room)
            }
            Ok((Ok(_), used)) => Err(format!("load: {ours:?} with {} used, the Rust accepts with {used}", self.lent[room].tables.used)),
            Ok((Err(e), _)) => Err(format!("load: {ours:?}, the Rust {e:?}")),
        }
    }

    // Answer and tables of the measuring and of the hashed load are load's; their counts are what the walk finds, and 0 where it
    // is refused.
    fn compare_other_loads(&mut self, input: &[u8], room: usize, ours: Answer) -> Result<(), String> {
        let [measured, hashed] = [&mut self.measured, &mut self.hashed].map(|lent| lent[room].fit(input.len()));
        hashed.buckets.fill(JUNK);
        let answers = [measured.load_measured(input, LIMIT), hashed.load_hashed(input, LIMIT)];
        let lent = &self.lent[room].tables;
        if answers != [ours; 2] || !measured.filled_alike(lent) || !hashed.filled_alike(lent) {
            return Err(format!("load_measured and load_hashed {answers:?}, load {ours:?}; or the tables differ"));
        }
        if hashed.buckets.iter().any(|&word| word != 0) {
            return Err("load_hashed: the bucket table is not zero".into());
        }
        let expected = if ours.number == 0 { counted(input, hashed.buckets.len()) } else { Some(Counted::default()) };
        let (measures, looked) = (measured.measures, hashed.looked);
        if expected != Some(Counted { used: lent.used, measures, looked }) {
            return Err(format!("load_measured {measures:?}, load_hashed {looked}, walked {expected:?}"));
        }
        for (sum, n) in [(&mut self.compared, measures.compared), (&mut self.looked, looked)] {
            *sum = [sum[0] + (n > 0) as u64, sum[1] + n];
        }
        Ok(())
    }

    // What ours answers to an input with a size byte of the other sign at a place, and the same input with the other size byte.
    fn compare_wrong_sign(&mut self, input: &[u8], at: (usize, Role), room: usize, ours: Answer) -> Result<Outcome, String> {
        let (place, role) = at;
        let size = input[place];
        let tables = &mut self.lent[room].tables;
        let [before, after] = [4, 5].map(|n| tables.load(&input[..place + n], LIMIT));
        let refused = Answer { number: 19, first: size.into(), second: 0 };
        if [before, after, ours] != [SHORT_INPUT, refused, refused] {
            return Err(format!("load: {ours:?} for the integer at {place}; cut off in it {before:?}, after it {after:?}"));
        }
        let mut other = input.to_vec();
        other[place] = size.wrapping_neg();
        match catch_unwind(|| read_by_rust(input) == read_by_rust(&other)) {
            Err(_) => return Ok(Outcome::Panic),
            Ok(false) => return Err(format!("the Rust reads another integer at {place} with the other size byte")),
            Ok(true) => (),
        }
        Ok(match self.compare(&other)? {
            Outcome::Panic => Outcome::Panic,
            _ => Outcome::WrongSign(size, role),
        })
    }

    // What ours answers to an input with Floats, Bignums or classes, beside the same input with strings and with empty arrays for
    // Floats and Bignums, and without classes.
    fn compare_later(&mut self, kind: u8, input: &[u8], room: usize, ours: Answer) -> Result<Outcome, String> {
        let held = (ours.number == 0).then(|| Held::of(&mut self.lent[room].tables));
        let outcome = Outcome::Later(kind, ours.number, self.lent[room].tables.dump_form);
        let made = catch_unwind(|| {
            let arrays = with_arrays(input).map(|arrays| ruby_marshal::load(&arrays.input[..]).map(|_| ()));
            (with_strings(input), arrays)
        });
        let Ok((plain, arrays)) = made else { return Ok(Outcome::Panic) };
        let known = ours == TOO_DEEP && input.len() > LIMIT as usize || ours == NO_REFERENCES;
        let theirs = arrays.map_or_else(Some, |loaded| loaded.map_or_else(|e| refusal(&e, ours), |()| Some(ACCEPTED)));
        if theirs != Some(ours) && !known {
            return Err(format!("load: {ours:?}, the Rust with arrays for Floats and Bignums {theirs:?}"));
        }
        // A Bignum or a class that is refused is the end.
        let Ok(plain) = plain else { return Ok(outcome) };
        if self.compare(&plain.input)? == Outcome::Panic {
            return Ok(Outcome::Panic);
        }
        let length = if plain.alike { input.len() } else { plain.input.len() };
        let answer = self.lent[room].fit(length).load(&plain.input, LIMIT);
        // A name that is made a member has a level and takes a reference.
        if !plain.alike && [TOO_DEEP, NO_REFERENCES].contains(&answer) {
            return Ok(outcome);
        }
        if ours != answer && ours != NOT_AN_OBJECT {
            return Err(format!("load: {ours:?}, with others for Floats, Bignums and classes {answer:?}"));
        }
        if let Some(mut held) = held {
            if held.dumped.number == 0 {
                self.comes_back(&held.written)?;
            }
            let mut strings = Held::of(&mut self.lent[room].tables);
            if held.dump_form != (strings.dump_form && plain.form) {
                return Err(format!("dump form: {}, with others for Floats, Bignums and classes {}", held.dump_form, strings.dump_form));
            }
            let count = held.exchange();
            held.dump_form = strings.dump_form;
            held.used = held.used + plain.input.len() - input.len();
            if held.written.is_empty() {
                strings.written.clear();
            }
            if plain.alike && (count != Some(plain.count) || held != strings) || held.used != strings.used {
                return Err(format!("tables or dump: not as with others for Floats, Bignums and classes; {count:?} of {:?}", plain.count));
            }
            for (sum, n) in self.later.iter_mut().zip(plain.count) {
                *sum += n;
            }
        }
        Ok(outcome)
    }

    fn compare_accepted(&mut self, mut arena: ValueArena, used: &[u8], room: usize) -> Result<Outcome, String> {
        self.compare_arenas(&arena, room)?;
        let mut theirs = Vec::new();
        let dumped = catch_unwind(AssertUnwindSafe(|| ruby_marshal::dump(&mut theirs, &arena)));
        let Ok(dumped) = dumped else { return Ok(Outcome::Panic) };
        dumped.map_err(|e| format!("the Rust's dump: {e:?}"))?;
        let counted = self.lent[room].tables.counts[0];
        let made = number(arena.create_nil());
        if made != Some(counted as u32) {
            return Err(format!("{counted} nodes, the Rust {made:?}"));
        }
        let form = self.lent[room].tables.dump_form;
        if form != (theirs == used) {
            return Err(format!("dump form: {form}, the Rust dumps {}", hex(&theirs)));
        }
        self.compare_dumps(&theirs, room)
    }

    // From the roots down: the numbers pair the nodes, so sharing is compared too.
    fn compare_arenas(&mut self, arena: &ValueArena, room: usize) -> Result<(), String> {
        let tables = &self.lent[room].tables;
        let mut met = vec![false; tables.counts[0]];
        let mut open = vec![arena.root()];
        if number(arena.root()) != Some(tables.counts[3] as u32) {
            return Err(format!("root {}, the Rust {:?}", tables.counts[3], arena.root()));
        }
        while let Some(handle) = open.pop() {
            let n = number(handle).unwrap_or(u32::MAX) as usize;
            if met.get(n) == Some(&true) {
                continue;
            }
            let theirs = arena.get(handle).and_then(node).ok_or(format!("the Rust's {handle:?}"))?;
            if !same_node(tables, n, &theirs) {
                return Err(format!("node {n}: {:?}, the Rust {:?}", tables.nodes.chunks(NODE_WORDS).nth(n), arena.get(handle)));
            }
            met[n] = true;
            self.kinds[theirs.words[0] as usize] += 1;
            match arena.get(handle) {
                Some(Value::Object(v)) => open.push(v.name().into()),
                Some(Value::UserDefined(v)) => open.push(v.name().into()),
                Some(Value::Hash(v)) => open.extend(v.default_value()),
                _ => (),
            }
            open.extend(theirs.members.unwrap_or_default());
        }
        Ok(())
    }

    // What is dumped is the Rust's, and loads and dumps to itself.
    fn compare_dumps(&mut self, theirs: &[u8], room: usize) -> Result<Outcome, String> {
        let tables = &mut self.lent[room].tables;
        let ours = tables.dump(LIMIT);
        if ours == TOO_DEEP && theirs.len() > LIMIT as usize {
            return Ok(Outcome::TooDeep);
        }
        let written = &tables.output[..tables.written];
        if ours.number != 0 || written != theirs {
            return Err(format!("dump: {ours:?} {}, the Rust {}", hex(written), hex(theirs)));
        }
        self.comes_back(theirs)?;
        Ok(Outcome::Accepted(self.lent[room].tables.dump_form))
    }

    // What was dumped loads and dumps to itself.
    fn comes_back(&mut self, written: &[u8]) -> Result<(), String> {
        let again = self.again.load(written);
        let tables = &mut self.again.tables;
        if again.number != 0 || tables.used != written.len() || !tables.dump_form {
            let Tables { used, dump_form, .. } = tables;
            return Err(format!("load of what was dumped: {again:?}, {used} used, dump form {dump_form}, of {}", hex(written)));
        }
        let again = tables.dump(LIMIT);
        if again.number != 0 || tables.output[..tables.written] != *written {
            return Err(format!("dump again: {again:?} {} of {}", hex(&tables.output[..tables.written]), hex(written)));
        }
        Ok(())
    }

    // Compares and counts; a disagreement is named.
    fn input(&mut self, input: &[u8]) -> Option<Outcome> {
        let outcome = self.compare(input);
        let column = match outcome {
            Ok(Outcome::Accepted(_)) => 1,
            Ok(Outcome::Refused(n)) => {
                self.refused[n as usize] += 1;
                2
            }
            Ok(Outcome::TooDeep) => 3,
            Ok(Outcome::NoSpace) => 4,
            Ok(Outcome::Later(kind, n, _)) => {
                self.later_refused[n as usize] += 1;
                5 + LATER.iter().position(|&later| later == kind).expect("a later kind")
            }
            Ok(Outcome::WrongSign(size, role)) => {
                self.signs[(size == SIZES[1]) as usize][role as usize] += 1;
                8
            }
            Ok(Outcome::Panic) => 9,
            Err(_) => 10,
        };
        self.row[0] += 1;
        self.row[column] += 1;
        self.row[11] += matches!(outcome, Ok(Outcome::Accepted(true) | Outcome::Later(_, _, true))) as usize;
        self.inputs += 1;
        if let Err(what) = &outcome {
            self.disagree += 1;
            if self.disagree <= SHOWN {
                println!("disagree: {}: {what}", hex(input));
            }
        }
        outcome.ok()
    }

    // The class that was run, as a line of the table.
    fn end_class(&mut self, name: &str) {
        let [all, accepted, refused, deep, space, later @ .., panics, disagree, formed] = std::mem::take(&mut self.row);
        let [floats, bignums, classes, signs] = later;
        print!("{name:<34}{all:>9}{accepted:>9}{refused:>9}{deep:>9}{space:>9}");
        println!("{floats:>9}{bignums:>9}{classes:>9}{signs:>9}{panics:>7}{disagree:>9}{formed:>10}");
    }

    // Every word of that length over the letters, after what is there.
    fn words(&mut self, word: &mut Vec<u8>, letters: &[u8], length: usize) {
        if length == 0 {
            self.input(word);
            return;
        }
        for &letter in letters {
            word.push(letter);
            self.words(word, letters, length - 1);
            word.pop();
        }
    }

    // Every row of up to that many pieces of which no shorter beginning is accepted, or refused with other than 4.
    fn undecided(&mut self, row: &mut Vec<u8>, pieces: &[&[u8]], most: usize) {
        let length = row.len();
        for piece in pieces {
            row.extend(*piece);
            let outcome = self.input(row);
            if most > 1 && matches!(outcome, Some(Outcome::Refused(4) | Outcome::Later(_, 4, _))) {
                self.undecided(row, pieces, most - 1);
            }
            row.truncate(length);
        }
    }

    fn exhaustive(&mut self) {
        let bytes: Vec<u8> = (0..=255).collect();
        for length in 0..=2 {
            self.words(&mut vec![], &bytes, length);
        }
        for n in 0..=0xFFFF_u16 {
            self.input(&[(n >> 8) as u8, n as u8, b'0']);
        }
        self.end_class("headers");
        for length in 0..=2 {
            self.words(&mut vec![4, 8], &bytes, length);
        }
        self.end_class("2 bytes");
        for place in PLACES {
            for size in [1, 2, 3, 4, -1, -2, -3, -4_i8] {
                let length = size.unsigned_abs() as usize;
                let mut word = [&[4, 8], *place, &[size as u8]].concat();
                self.words(&mut word, b"\x00\x01\x7A\x7B\x7F\x80\x84\xFF", length);
            }
        }
        self.end_class("integers of 1 to 4 bytes");
        for sign in b"+-" {
            for units in 0..=4 {
                let count = if units == 0 { 0 } else { units as u8 + 5 };
                for length in 0..=2 * units {
                    self.words(&mut vec![4, 8, BIGNUM, *sign, count], b"\x00\x01\x7F\x80\xFF", length);
                }
            }
        }
        self.end_class("Bignums of 0 to 4 units");
        for length in 0..=5 {
            self.words(&mut vec![4, 8], ALPHABET, length);
        }
        self.end_class("5 of 28 bytes");
        let letters: Vec<&[u8]> = LETTERS.chunks(1).collect();
        self.undecided(&mut vec![4, 8], &letters, 7);
        self.end_class("7 of 16 bytes, till decided");
        self.undecided(&mut vec![4, 8], PIECES, 7);
        self.end_class("7 of 21 pieces, till decided");
        let around: Vec<&[u8]> = AROUND.chunks(1).collect();
        self.undecided(&mut vec![4, 8], &around, 7);
        self.end_class("7 of 13 bytes around l, likewise");
        self.undecided(&mut vec![4, 8], CLASSED, 6);
        self.end_class("6 of 17 pieces around C, likewise");
        self.undecided(&mut vec![4, 8], SIGNED, 6);
        self.end_class("6 of 17 pieces around 04, likewise");
    }

    // Inputs as they are, then each damaged that many times.
    fn with_damage(&mut self, name: &str, inputs: &[Vec<u8>], times: usize, random: &mut Random) {
        for input in inputs {
            self.input(input);
        }
        self.end_class(name);
        for input in inputs {
            for _ in 0..times {
                self.input(&damaged(random, input));
            }
        }
        self.end_class(&format!("{name}, damaged"));
    }
}

fn hex(bytes: &[u8]) -> String {
    bytes.iter().map(|b| format!("{b:02X}")).collect()
}

// The bytes of the field "in" of each line that has one, each input once.
fn saved(path: &str) -> Vec<Vec<u8>> {
    let text = std::fs::read_to_string(path).unwrap_or_else(|e| panic!("{path}: {e}"));
    let field = |line: &str| -> Option<Vec<u8>> {
        let (_, rest) = line.split_once("\"in\":\"")?;
        let digits = rest.split('"').next().unwrap_or("").as_bytes();
        Some(digits.chunks(2).map(|d| u8::from_str_radix(std::str::from_utf8(d).unwrap(), 16).expect("hex")).collect())
    };
    let mut met = HashSet::new();
    text.lines().filter_map(field).filter(|input| met.insert(input.clone())).collect()
}

fn made() -> Vec<Vec<u8>> {
    let mut all = vec![inputs::recipes(300), inputs::batches(300), inputs::objects(300), inputs::names(130)];
    all.extend([inputs::setpoints(300, FLOAT), inputs::counters(300, BIGNUM), inputs::classes(300)]);
    all.extend(["arrays", "hashes", "defaults", "objects", "variables"].map(inputs::nested));
    all
}

fn run(corpus: Option<String>) -> usize {
    let [lent, measured, hashed] = [REFERENCES; 3].map(|sizes| sizes.map(Lent::new));
    let again = Lent::new(REFERENCES[0]);
    let (compared, looked, kinds, later, refused, later_refused) = ([0; 2], [0; 2], [0; 9], [0; 3], [0; 11], [0; 23]);
    let (signs, inputs, disagree, row) = ([[0; 4]; 2], 0, 0, [0; 12]);
    let mut run = Run {
        lent, measured, hashed, again, compared, looked, kinds, later, refused, later_refused, signs, inputs, disagree, row,
    };
    let mut random = Random(48);
    println!(
        "{:<34}{:>9}{:>9}{:>9}{:>9}{:>9}{:>9}{:>9}{:>9}{:>9}{:>7}{:>9}{:>10}",
        "", "inputs", "accepted", "refused", "too deep", "no space", "Float", "Bignum", "class", "sign", "panics", "disagree", "dump form"
    );
    run.exhaustive();
    let classes: [(_, _, &[u8]); 4] = [
        ("random", 400_000, b""),
        ("random with Floats", 100_000, b"f"),
        ("random with Bignums too", 100_000, b"fll"),
        ("random with classes too", 100_000, b"flCCCC"),
    ];
    for (name, number, later) in classes {
        let values: Vec<Vec<u8>> = (0..number).map(|_| value(&mut random, later)).collect();
        run.with_damage(name, &values, 4, &mut random);
    }
    run.with_damage("made", &made(), 20_000, &mut random);
    if let Some(folder) = corpus {
        run.with_damage("load", &saved(&format!("{folder}/load.jsonl")), 100, &mut random);
    }
    println!("nodes compared, kinds 0 to 8: {:?}; Floats, Bignums and classes: {:?}", run.kinds, run.later);
    let (refused, later) = (&run.refused[3..], &run.later_refused[3..]);
    println!("refusals 3 to 10 that agree: {refused:?}; with Floats, Bignums or classes, 3 to 22: {later:?}");
    for (size, roles) in SIZES.iter().zip(run.signs) {
        println!("size byte {size:02X} of the other sign, at a Fixnum, a length, a count, an index: {roles:?}");
    }
    let [inputs, bytes] = run.compared;
    println!("bytes compared in searches for names: {bytes}, in {inputs} loads");
    let [inputs, words] = run.looked;
    println!("words of the bucket table looked at: {words}, in {inputs} loads");
    println!("{} inputs, {} disagree", run.inputs, run.disagree);
    run.disagree
}

fn main() {
    let corpus = std::env::args().nth(1);
    let thread = std::thread::Builder::new().stack_size(STACK).spawn(|| run(corpus));
    let disagree = thread.expect("a thread").join().expect("a run to the end");
    std::process::exit((disagree > 0) as i32);
}
