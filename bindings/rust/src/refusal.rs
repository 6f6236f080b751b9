//! Why a call is refused.
use core::fmt;

/// What [`Refusal::BadTables`] and [`Refusal::NoSpace`] name.
#[derive(Clone, Copy, Debug, PartialEq, Eq, Hash)]
#[non_exhaustive]
pub enum Slice {
    /// The node table: words, a whole number of nodes, at least one node.
    Nodes,
    /// The reference table.
    References,
    /// The byte table.
    Bytes,
    /// The symbol list.
    Symbols,
    /// The object list.
    Objects,
    /// The output.
    Output,
    /// No slice: the limit, which is at most [`MAX_LIMIT`](crate::MAX_LIMIT).
    Limit,
    /// The input, or a builder's byte string.
    Input,
    /// A builder's members or pairs.
    List,
    /// Dump's scratch: at least one word for each node that the node table can hold.
    Scratch,
    /// The bucket table: likewise.
    Buckets,
    /// A number that this crate doesn't know: the archive is of another version.
    Other(u32),
}

impl Slice {
    fn of(number: u64) -> Slice {
        match number {
            1 => Slice::Nodes,
            2 => Slice::References,
            3 => Slice::Bytes,
            4 => Slice::Symbols,
            5 => Slice::Objects,
            6 => Slice::Output,
            7 => Slice::Limit,
            8 => Slice::Input,
            9 => Slice::List,
            10 => Slice::Scratch,
            11 => Slice::Buckets,
            n => Slice::Other(n as u32),
        }
    }

    /// The slice's number in document 01.
    pub fn number(self) -> u32 {
        match self {
            Slice::Nodes => 1,
            Slice::References => 2,
            Slice::Bytes => 3,
            Slice::Symbols => 4,
            Slice::Objects => 5,
            Slice::Output => 6,
            Slice::Limit => 7,
            Slice::Input => 8,
            Slice::List => 9,
            Slice::Scratch => 10,
            Slice::Buckets => 11,
            Slice::Other(n) => n,
        }
    }
}

impl fmt::Display for Slice {
    fn fmt(&self, f: &mut fmt::Formatter<'_>) -> fmt::Result {
        f.write_str(match self {
            Slice::Nodes => "nodes",
            Slice::References => "references",
            Slice::Bytes => "bytes",
            Slice::Symbols => "symbol list",
            Slice::Objects => "object list",
            Slice::Output => "output",
            Slice::Limit => "limit",
            Slice::Input => "input",
            Slice::List => "member or pair list",
            Slice::Scratch => "scratch",
            Slice::Buckets => "bucket table",
            Slice::Other(n) => return write!(f, "slice {n}"),
        })
    }
}

/// What is not well formed.
#[derive(Clone, Copy, Debug, PartialEq, Eq, Hash)]
pub enum Fault {
    /// The counts don't fit the tables, or the root isn't below the node count.
    Counts,
    /// The lowest node that breaks a rule.
    Node(u32),
}

/// Why a call is refused: the twenty-one numbers of documents 01 and 02 with their details.
#[derive(Clone, Copy, Debug, PartialEq, Eq, Hash)]
#[non_exhaustive]
pub enum Refusal {
    /// A slice of a wrong size, a limit above [`MAX_LIMIT`](crate::MAX_LIMIT), or an odd pair list.
    BadTables(Slice),
    /// The arena is not well formed.
    BadArena(Fault),
    /// The header is of another version.
    InvalidVersion {
        /// Only 4 is read.
        major: u8,
        /// At most 8 is read.
        minor: u8,
    },
    /// The input ends where a byte is wanted.
    ShortInput,
    /// An unknown kind byte.
    InvalidKind(u8),
    /// A length, count or index below 0.
    NegativeCount(i32),
    /// An index past the symbols so far.
    MissingSymbol(u32),
    /// An index past the objects so far.
    MissingObject(u32),
    /// Another kind byte where a symbol is wanted.
    NotASymbol(u8),
    /// Instance variables on another kind than string or user-defined.
    NotAnObject,
    /// A level above this limit.
    TooDeep(u32),
    /// The next item doesn't fit the slice.
    NoSpace(Slice),
    /// A handle that is not below the node count.
    BadHandle(u32),
    /// A node that is no symbol where one is wanted, or that takes no class.
    WrongKind(u32),
    /// A bignum's sign byte that is neither `+` nor `-`.
    BadSign(u8),
    /// A bignum of this many units: more than 4, or a magnitude above 2^63 − 1, which takes 4.
    TooBig(u32),
    /// A node that reads as no number where a weight is wanted, or a dry weight below 0.
    NotAWeight(u32),
    /// A moisture below 0 or above 0.5.
    BadMoisture,
    /// An integer below 0 after this size byte, 4, or not below 0 after 252.
    WrongSign(u8),
    /// A node that is no hash where a recipe or prices are wanted, a key of theirs that is no symbol, a value that is no fixnum
    /// from 0 up, or a recipe of more than [`MAX_RECIPE_PAIRS`](crate::MAX_RECIPE_PAIRS) pairs.
    NotARecipe(u32),
    /// A key of the recipe whose name has no price.
    NoPrice(u32),
    /// A class on another kind byte than a string's, an array's or a hash's.
    NotWrappable(u8),
    /// A number that this crate doesn't know: the archive is of another version.
    Other {
        /// What was returned.
        number: u32,
        /// The first detail.
        first: i64,
        /// The second detail.
        second: u64,
    },
}

impl Refusal {
    /// What a returned number and the answer words say; 0 is accepted.
    pub(crate) fn of(number: u32, answer: &[u64]) -> Result<(), Refusal> {
        let (first, second) = (answer[0], answer[1]);
        Err(match number {
            0 => return Ok(()),
            1 => Refusal::BadTables(Slice::of(first)),
            2 if first == u64::MAX => Refusal::BadArena(Fault::Counts),
            2 => Refusal::BadArena(Fault::Node(first as u32)),
            3 => Refusal::InvalidVersion { major: first as u8, minor: second as u8 },
            4 => Refusal::ShortInput,
            5 => Refusal::InvalidKind(first as u8),
            6 => Refusal::NegativeCount(first as i32),
            7 => Refusal::MissingSymbol(first as u32),
            8 => Refusal::MissingObject(first as u32),
            9 => Refusal::NotASymbol(first as u8),
            10 => Refusal::NotAnObject,
            11 => Refusal::TooDeep(first as u32),
            12 => Refusal::NoSpace(Slice::of(first)),
            13 => Refusal::BadHandle(first as u32),
            14 => Refusal::WrongKind(first as u32),
            15 => Refusal::BadSign(first as u8),
            16 => Refusal::TooBig(first as u32),
            17 => Refusal::NotAWeight(first as u32),
            18 => Refusal::BadMoisture,
            19 => Refusal::WrongSign(first as u8),
            20 => Refusal::NotARecipe(first as u32),
            21 => Refusal::NoPrice(first as u32),
            22 => Refusal::NotWrappable(first as u8),
            _ => Refusal::Other { number, first: first as i64, second },
        })
    }

    /// The number in documents 01 and 02, 1 to 22.
    pub fn number(self) -> u32 {
        match self {
            Refusal::BadTables(_) => 1,
            Refusal::BadArena(_) => 2,
            Refusal::InvalidVersion { .. } => 3,
            Refusal::ShortInput => 4,
            Refusal::InvalidKind(_) => 5,
            Refusal::NegativeCount(_) => 6,
            Refusal::MissingSymbol(_) => 7,
            Refusal::MissingObject(_) => 8,
            Refusal::NotASymbol(_) => 9,
            Refusal::NotAnObject => 10,
            Refusal::TooDeep(_) => 11,
            Refusal::NoSpace(_) => 12,
            Refusal::BadHandle(_) => 13,
            Refusal::WrongKind(_) => 14,
            Refusal::BadSign(_) => 15,
            Refusal::TooBig(_) => 16,
            Refusal::NotAWeight(_) => 17,
            Refusal::BadMoisture => 18,
            Refusal::WrongSign(_) => 19,
            Refusal::NotARecipe(_) => 20,
            Refusal::NoPrice(_) => 21,
            Refusal::NotWrappable(_) => 22,
            Refusal::Other { number, .. } => number,
        }
    }

    /// The two details; those that a refusal doesn't use are 0.
    pub fn details(self) -> (i64, u64) {
        match self {
            Refusal::BadTables(slice) | Refusal::NoSpace(slice) => (slice.number().into(), 0),
            Refusal::BadArena(Fault::Counts) => (-1, 0),
            Refusal::InvalidVersion { major, minor } => (major.into(), minor.into()),
            Refusal::ShortInput | Refusal::NotAnObject | Refusal::BadMoisture => (0, 0),
            Refusal::InvalidKind(byte)
            | Refusal::NotASymbol(byte)
            | Refusal::BadSign(byte)
            | Refusal::WrongSign(byte)
            | Refusal::NotWrappable(byte) => (byte.into(), 0),
            Refusal::NegativeCount(value) => (value.into(), 0),
            Refusal::BadArena(Fault::Node(n))
            | Refusal::MissingSymbol(n)
            | Refusal::MissingObject(n)
            | Refusal::TooDeep(n)
            | Refusal::BadHandle(n)
            | Refusal::WrongKind(n)
            | Refusal::TooBig(n)
            | Refusal::NotAWeight(n)
            | Refusal::NotARecipe(n)
            | Refusal::NoPrice(n) => (n.into(), 0),
            Refusal::Other { first, second, .. } => (first, second),
        }
    }

    /// The name in the documents.
    pub fn name(self) -> &'static str {
        match self {
            Refusal::BadTables(_) => "BAD-TABLES",
            Refusal::BadArena(_) => "BAD-ARENA",
            Refusal::InvalidVersion { .. } => "INVALID-VERSION",
            Refusal::ShortInput => "SHORT-INPUT",
            Refusal::InvalidKind(_) => "INVALID-KIND",
            Refusal::NegativeCount(_) => "NEGATIVE-COUNT",
            Refusal::MissingSymbol(_) => "MISSING-SYMBOL",
            Refusal::MissingObject(_) => "MISSING-OBJECT",
            Refusal::NotASymbol(_) => "NOT-A-SYMBOL",
            Refusal::NotAnObject => "NOT-AN-OBJECT",
            Refusal::TooDeep(_) => "TOO-DEEP",
            Refusal::NoSpace(_) => "NO-SPACE",
            Refusal::BadHandle(_) => "BAD-HANDLE",
            Refusal::WrongKind(_) => "WRONG-KIND",
            Refusal::BadSign(_) => "BAD-SIGN",
            Refusal::TooBig(_) => "TOO-BIG",
            Refusal::NotAWeight(_) => "NOT-A-WEIGHT",
            Refusal::BadMoisture => "BAD-MOISTURE",
            Refusal::WrongSign(_) => "WRONG-SIGN",
            Refusal::NotARecipe(_) => "NOT-A-RECIPE",
            Refusal::NoPrice(_) => "NO-PRICE",
            Refusal::NotWrappable(_) => "NOT-WRAPPABLE",
            Refusal::Other { .. } => "?",
        }
    }
}

impl fmt::Display for Refusal {
    fn fmt(&self, f: &mut fmt::Formatter<'_>) -> fmt::Result {
        match *self {
            Refusal::BadTables(slice) => write!(f, "wrong size: {slice}"),
            Refusal::BadArena(Fault::Counts) => f.write_str("the arena's counts do not fit its tables"),
            Refusal::BadArena(Fault::Node(n)) => write!(f, "the arena's node {n} is not well formed"),
            Refusal::InvalidVersion { major, minor } => write!(f, "version {major}.{minor}, not 4.0 to 4.8"),
            Refusal::ShortInput => f.write_str("the input ends too early"),
            Refusal::InvalidKind(byte) => write!(f, "unknown kind byte {byte:02X}"),
            Refusal::NegativeCount(value) => write!(f, "a length, count or index of {value}"),
            Refusal::MissingSymbol(index) => write!(f, "no symbol {index} so far"),
            Refusal::MissingObject(index) => write!(f, "no object {index} so far"),
            Refusal::NotASymbol(byte) => write!(f, "kind byte {byte:02X} where a symbol is wanted"),
            Refusal::NotAnObject => f.write_str("instance variables on a value that takes none"),
            Refusal::TooDeep(limit) => write!(f, "more than {limit} levels"),
            Refusal::NoSpace(slice) => write!(f, "no space: {slice}"),
            Refusal::BadHandle(handle) => write!(f, "no node {handle}"),
            Refusal::WrongKind(handle) => write!(f, "node {handle} is of another kind than is wanted"),
            Refusal::BadSign(byte) => write!(f, "sign byte {byte:02X}, neither + nor -"),
            Refusal::TooBig(units) => write!(f, "a bignum of {units} units is too big"),
            Refusal::NotAWeight(handle) => write!(f, "node {handle} is no weight"),
            Refusal::BadMoisture => f.write_str("moisture below 0 or above 0.5"),
            Refusal::WrongSign(size) => write!(f, "size byte {size:02X} on an integer of the other sign"),
            Refusal::NotARecipe(handle) => write!(f, "node {handle} does not belong in a recipe or in prices"),
            Refusal::NoPrice(handle) => write!(f, "the name of node {handle} has no price"),
            Refusal::NotWrappable(byte) => write!(f, "a class on kind byte {byte:02X}"),
            Refusal::Other { number, first, second } => write!(f, "refusal {number}, {first}, {second}"),
        }
    }
}

impl core::error::Error for Refusal {}
