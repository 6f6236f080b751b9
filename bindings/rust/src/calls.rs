//! The archive's functions on slices and counts, in the order of include/ruby_marshal.h, which says what each takes and leaves.
//!
//! They take whatever the slices and counts hold: tables that are no arena are refused. Every call but the loads and [`new`]
//! looks through the whole arena first; an [`Arena`](crate::Arena) is read without that.
use crate::{sys, Counts, Measures, Reading, Refusal, Weighing, NODE_WORDS};

/// What [`load`] answers.
#[derive(Clone, Copy, Debug, PartialEq, Eq)]
pub struct Loaded {
    /// Accepted, or why not.
    pub answer: Result<(), Refusal>,
    /// The arena's counts; of zeroed tables, 1, 0, 0, 0, after a refusal but for [`Refusal::BadTables`].
    pub counts: Counts,
    /// Bytes of input used, 0 when refused.
    pub used: usize,
    /// Whether [`dump`] of the arena, under the same limit and with enough output, writes the very bytes that were used. It
    /// does not depend on the tables or the limit; false when refused.
    pub dump_form: bool,
}

/// What [`load_measured`] answers.
#[derive(Clone, Copy, Debug, PartialEq, Eq)]
pub struct Measured {
    /// What [`load`] answers.
    pub load: Loaded,
    /// Both 0 when refused.
    pub measures: Measures,
}

/// What [`load_hashed`] answers.
#[derive(Clone, Copy, Debug, PartialEq, Eq)]
pub struct Hashed {
    /// What [`load`] answers.
    pub load: Loaded,
    /// Words of the bucket table looked at, 0 when refused.
    pub looked: u64,
}

/// What [`new`] answers.
#[derive(Clone, Copy, Debug, PartialEq, Eq)]
pub struct Begun {
    /// Accepted, or why not.
    pub answer: Result<(), Refusal>,
    /// The arena's counts.
    pub counts: Counts,
}

/// What the builder's functions, [`replace_root`] and [`replace_class`] answer.
#[derive(Clone, Copy, Debug, PartialEq, Eq)]
pub struct Created {
    /// Accepted, or why not.
    pub answer: Result<(), Refusal>,
    /// The new node, or the old root; 0 when refused.
    pub handle: u32,
    /// The counts as they now are: those given, when refused.
    pub counts: Counts,
}

// Words 2 to 5.
fn counts(words: &[u64]) -> Counts {
    Counts { nodes: words[2] as usize, references: words[3] as usize, bytes: words[4] as usize, root: words[5] as u32 }
}

// The first eight words.
fn loaded(number: u32, words: &[u64]) -> Loaded {
    let answer = Refusal::of(number, words);
    Loaded { answer, counts: counts(words), used: words[6] as usize, dump_form: words[7] == 1 }
}

fn created(told: sys::Told<7>) -> Created {
    let words = &told.words;
    Created { answer: Refusal::of(told.number, words), handle: words[6] as u32, counts: counts(words) }
}

fn number(told: sys::Told<3>) -> Result<u32, Refusal> {
    Refusal::of(told.number, &told.words)?;
    Ok(told.words[2] as u32)
}

/// Reads input into the tables.
pub fn load(
    input: &[u8],
    nodes: &mut [u32],
    references: &mut [u32],
    bytes: &mut [u8],
    symbols: &mut [u32],
    objects: &mut [u32],
    limit: u32,
) -> Loaded {
    let told = sys::load(input, nodes, references, bytes, symbols, objects, limit);
    loaded(told.number, &told.words)
}

/// [`load`], and what it copied and compared.
pub fn load_measured(
    input: &[u8],
    nodes: &mut [u32],
    references: &mut [u32],
    bytes: &mut [u8],
    symbols: &mut [u32],
    objects: &mut [u32],
    limit: u32,
) -> Measured {
    let told = sys::load_measured(input, nodes, references, bytes, symbols, objects, limit);
    let words = &told.words;
    Measured { load: loaded(told.number, words), measures: Measures { copied: words[8], compared: words[9] } }
}

/// [`load`], with names searched for by a bucket table, and how many of its words were looked at.
#[allow(clippy::too_many_arguments)]
pub fn load_hashed(
    input: &[u8],
    nodes: &mut [u32],
    references: &mut [u32],
    bytes: &mut [u8],
    symbols: &mut [u32],
    objects: &mut [u32],
    buckets: &mut [u32],
    limit: u32,
) -> Hashed {
    let told = sys::load_hashed(input, nodes, references, bytes, symbols, objects, buckets, limit);
    Hashed { load: loaded(told.number, &told.words), looked: told.words[8] }
}

/// Writes the arena's root into output; the number of bytes written.
#[allow(clippy::too_many_arguments)]
pub fn dump(
    nodes: &[u32],
    references: &[u32],
    bytes: &[u8],
    counts: Counts,
    scratch: &mut [u32],
    output: &mut [u8],
    limit: u32,
) -> Result<usize, Refusal> {
    let told = sys::dump(nodes, references, bytes, counts, scratch, output, limit);
    Refusal::of(told.number, &told.words)?;
    Ok(told.words[2] as usize)
}

/// The root's node. An accepted call says that the arena is well formed.
pub fn root(nodes: &[u32], references: &[u32], bytes: &[u8], counts: Counts) -> Result<u32, Refusal> {
    number(sys::root(nodes, references, bytes, counts))
}

/// A node's kind: its word 0.
pub fn kind(nodes: &[u32], references: &[u32], bytes: &[u8], counts: Counts, handle: u32) -> Result<u32, Refusal> {
    number(sys::kind(nodes, references, bytes, counts, handle))
}

/// A node's words.
pub fn get(nodes: &[u32], references: &[u32], bytes: &[u8], counts: Counts, handle: u32) -> Result<[u32; NODE_WORDS], Refusal> {
    let told = sys::get(nodes, references, bytes, counts, handle);
    Refusal::of(told.number, &told.words)?;
    let [_, _, words @ ..] = told.words;
    Ok(words.map(|word| word as u32))
}

/// Where a symbol's bytes start, and how many they are.
pub fn get_symbol(nodes: &[u32], references: &[u32], bytes: &[u8], counts: Counts, handle: u32) -> Result<(u32, u32), Refusal> {
    let told = sys::get_symbol(nodes, references, bytes, counts, handle);
    Refusal::of(told.number, &told.words)?;
    Ok((told.words[2] as u32, told.words[3] as u32))
}

/// What a node reads as.
pub fn reading(nodes: &[u32], references: &[u32], bytes: &[u8], counts: Counts, handle: u32) -> Result<Reading, Refusal> {
    let sys::WithDoubles { told, doubles } = sys::reading(nodes, references, bytes, counts, handle);
    Refusal::of(told.number, &told.words)?;
    Ok(match told.words[2] {
        1 => Reading::Whole(told.words[3] as i32),
        2 => Reading::Double(doubles[0]),
        _ => Reading::NotANumber,
    })
}

/// The weighing of a dry and a moisture node.
pub fn wet_weight(
    nodes: &[u32],
    references: &[u32],
    bytes: &[u8],
    counts: Counts,
    dry: u32,
    moisture: u32,
) -> Result<Weighing, Refusal> {
    let sys::WithDoubles { told, doubles } = sys::wet_weight(nodes, references, bytes, counts, dry, moisture);
    Refusal::of(told.number, &told.words)?;
    let [dry, moisture, wet] = doubles;
    Ok(Weighing { dry, moisture, wet })
}

/// What a recipe costs at prices, in cents.
pub fn batch_cost(
    nodes: &[u32],
    references: &[u32],
    bytes: &[u8],
    counts: Counts,
    recipe: u32,
    prices: u32,
) -> Result<u64, Refusal> {
    let told = sys::batch_cost(nodes, references, bytes, counts, recipe, prices);
    Refusal::of(told.number, &told.words)?;
    Ok(told.words[2])
}

/// An arena that holds nil.
pub fn new(nodes: &mut [u32], references: &mut [u32], bytes: &mut [u8]) -> Begun {
    let told = sys::new(nodes, references, bytes);
    Begun { answer: Refusal::of(told.number, &told.words), counts: counts(&told.words) }
}

/// The root replaced; the old one is answered.
pub fn replace_root(nodes: &[u32], references: &[u32], bytes: &[u8], counts: Counts, handle: u32) -> Created {
    created(sys::replace_root(nodes, references, bytes, counts, handle))
}

/// The class of an array, a hash or a string replaced; it is 0 for none, else its name's node + 1. The old word is answered.
pub fn replace_class(nodes: &mut [u32], references: &[u32], bytes: &[u8], counts: Counts, handle: u32, class: u32) -> Created {
    created(sys::replace_class(nodes, references, bytes, counts, handle, class))
}

/// A nil.
pub fn create_nil(nodes: &mut [u32], references: &[u32], bytes: &[u8], counts: Counts) -> Created {
    created(sys::create_nil(nodes, references, bytes, counts))
}

/// A bool.
pub fn create_bool(nodes: &mut [u32], references: &[u32], bytes: &[u8], counts: Counts, value: bool) -> Created {
    created(sys::create_bool(nodes, references, bytes, counts, value))
}

/// A fixnum.
pub fn create_fixnum(nodes: &mut [u32], references: &[u32], bytes: &[u8], counts: Counts, value: i32) -> Created {
    created(sys::create_fixnum(nodes, references, bytes, counts, value))
}

/// The lowest symbol with that name, or a new one.
pub fn create_symbol(nodes: &mut [u32], references: &[u32], bytes: &mut [u8], counts: Counts, name: &[u8]) -> Created {
    created(sys::create_symbol(nodes, references, bytes, counts, name))
}

/// A new symbol.
pub fn create_new_symbol(nodes: &mut [u32], references: &[u32], bytes: &mut [u8], counts: Counts, name: &[u8]) -> Created {
    created(sys::create_new_symbol(nodes, references, bytes, counts, name))
}

/// An array of members.
pub fn create_array(nodes: &mut [u32], references: &mut [u32], bytes: &[u8], counts: Counts, members: &[u32]) -> Created {
    created(sys::create_array(nodes, references, bytes, counts, members))
}

/// A hash of keys and values in turn; the default is 0 for none, else its node + 1.
pub fn create_hash(
    nodes: &mut [u32],
    references: &mut [u32],
    bytes: &[u8],
    counts: Counts,
    pairs: &[u32],
    default: u32,
) -> Created {
    created(sys::create_hash(nodes, references, bytes, counts, pairs, default))
}

/// An object of the class of that name, with variables' names and values in turn.
pub fn create_object(
    nodes: &mut [u32],
    references: &mut [u32],
    bytes: &[u8],
    counts: Counts,
    name: u32,
    pairs: &[u32],
) -> Created {
    created(sys::create_object(nodes, references, bytes, counts, name, pairs))
}

/// A string without variables.
pub fn create_string(nodes: &mut [u32], references: &[u32], bytes: &mut [u8], counts: Counts, value: &[u8]) -> Created {
    created(sys::create_string(nodes, references, bytes, counts, value))
}

/// A user-defined value of the class of that name, without variables.
pub fn create_user_defined(
    nodes: &mut [u32],
    references: &[u32],
    bytes: &mut [u8],
    counts: Counts,
    name: u32,
    value: &[u8],
) -> Created {
    created(sys::create_user_defined(nodes, references, bytes, counts, name, value))
}

/// A float with that text.
pub fn create_float(nodes: &mut [u32], references: &[u32], bytes: &mut [u8], counts: Counts, value: &[u8]) -> Created {
    created(sys::create_float(nodes, references, bytes, counts, value))
}

/// A bignum: minus or not, and the low and high 32 bits of its magnitude. Zero is plus.
#[allow(clippy::too_many_arguments)]
pub fn create_bignum(
    nodes: &mut [u32],
    references: &[u32],
    bytes: &[u8],
    counts: Counts,
    minus: bool,
    low: u32,
    high: u32,
) -> Created {
    created(sys::create_bignum(nodes, references, bytes, counts, minus, low, high))
}
