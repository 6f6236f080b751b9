//! Ruby Marshal 4.8 in lent tables: a safe interface to `libmarshal_c.a`.
//!
//! The archive's functions are proved to answer, and to leave in the tables, what their definitions say, for every input.
//! This crate is not proved: it declares them, calls them, and reads the tables that they fill.
//!
//! [`load`] reads bytes into [`Tables`] and gives an [`Arena`]; [`Arena::root`] and the views below it ([`Node`], [`Value`])
//! read it in place; [`Arena::dump`] writes it, and [`Arena::dump_form`] tells whether the input was already as it writes; a
//! [`Builder`] makes one node by node. [`Arena::reading`] reads a node as a number, [`Arena::wet_weight`] gives wet weight
//! from dry weight and moisture, and [`Arena::batch_cost`] a recipe's cost at given prices. [`load_measured`] also counts what
//! a load copied and compared; [`load_hashed`] searches for names by a bucket table, which thousands of names are better for.
//! Nothing is allocated, except by what the feature `alloc` adds (`OwnedTables`, whose load is the hashed one, and
//! `Arena::dump_to_vec`). [`calls`] has the functions themselves, on slices and counts.
//!
//! An [`Arena`] is well formed: only an accepted load or builder call, or the archive's own check, makes one, and while it lives
//! its tables are borrowed. So a view looks at the words of its node alone, and the archive is not called. (For a reading, a
//! weighing, a cost and a dump it is, and looks through the whole arena first.)
//!
//! A value may hold itself, as `a = []; a << a` does in Ruby. Every iterator here ends, since it goes over one node's list;
//! a walk that goes on into the members has to see for itself that it ends, for instance by [`Node::handle`].
//!
//! ```
//! use ruby_marshal_tables::{load, Lists, Tables, Value, MAX_LIMIT};
//!
//! let (mut nodes, mut references, mut bytes) = ([0; 8 * 16], [0; 16], [0; 64]);
//! let (mut symbols, mut objects) = ([0; 16], [0; 16]);
//! let tables = Tables { nodes: &mut nodes, references: &mut references, bytes: &mut bytes };
//! let lists = Lists { symbols: &mut symbols, objects: &mut objects };
//! let arena = load(b"\x04\x08{\x06:\x09sandi\x02\x6c\x02", tables, lists, MAX_LIMIT)?;
//! let Value::Hash(recipe) = arena.root().value() else { panic!("no hash") };
//! for (name, amount) in recipe.pairs() {
//!     assert_eq!(name.as_symbol(), Some(&b"sand"[..]));
//!     assert_eq!(amount.as_fixnum(), Some(620));
//! }
//! # Ok::<(), ruby_marshal_tables::Refusal>(())
//! ```
#![no_std]
#![deny(unsafe_code)]
#![warn(missing_docs)]

#[cfg(feature = "alloc")]
extern crate alloc;

mod arena;
mod builder;
pub mod calls;
#[cfg(feature = "alloc")]
mod owned;
mod refusal;
#[allow(unsafe_code)]
#[rustfmt::skip]
mod sys;
mod value;

pub use arena::{load, load_hashed, load_measured, load_prefix, Arena, Lists, Tables};
pub use builder::Builder;
#[cfg(feature = "alloc")]
pub use owned::OwnedTables;
pub use refusal::{Fault, Refusal, Slice};
pub use value::{Array, Float, Hash, Kind, Members, Node, Nodes, Object, Pairs, Text, UserDefined, Value, Variables};

/// The greatest limit: levels of nesting.
pub const MAX_LIMIT: u32 = 128;

/// The most pairs of a recipe: [`Arena::batch_cost`].
pub const MAX_RECIPE_PAIRS: usize = 512;

/// How many words a node has.
pub const NODE_WORDS: usize = 8;

/// How much of the three tables is used, and the root's node.
#[derive(Clone, Copy, Debug, Default, PartialEq, Eq, Hash)]
pub struct Counts {
    /// Nodes, of eight words each.
    pub nodes: usize,
    /// Words of the reference table.
    pub references: usize,
    /// Bytes of the byte table.
    pub bytes: usize,
    /// The root's node.
    pub root: u32,
}

/// What a load did with bytes, beside reading them once.
#[derive(Clone, Copy, Debug, Default, PartialEq, Eq, Hash)]
pub struct Measures {
    /// Bytes copied to the byte table, of strings, user-defined values, floats and new names: as many as it then holds.
    pub copied: u64,
    /// Bytes compared in searches for names. A name that is written out is compared with each symbol of its length so far, in
    /// the order of nodes, up to and including the first difference, and the search ends at the symbol of that name. A link
    /// to a name compares nothing.
    pub compared: u64,
}

/// A node read as a number.
///
/// A float reads as a double where its text is an optional minus, then 1 to 15 digits, with at most one point among them and a
/// digit on each side of it. Ruby writes 100.0 as `1e2` and 1200.0 as `1.2e3`, which read as no number; a whole number of
/// kilograms that is saved as a fixnum reads.
#[derive(Clone, Copy, Debug, PartialEq)]
pub enum Reading {
    /// A fixnum.
    Whole(i32),
    /// A float: the double nearest to the decimal; `-0` is negative zero.
    Double(f64),
    /// Another kind, a bignum too, or another text.
    NotANumber,
}

/// Dry weight, moisture and wet weight; whole numbers are converted exactly.
#[derive(Clone, Copy, Debug, PartialEq)]
pub struct Weighing {
    /// Not below 0.
    pub dry: f64,
    /// From 0 to 0.5.
    pub moisture: f64,
    /// dry ÷ (1 − moisture)
    pub wet: f64,
}

/// A node's number: nodes count from 0 in the order in which they were added.
#[derive(Clone, Copy, Debug, PartialEq, Eq, PartialOrd, Ord, Hash)]
#[repr(transparent)]
pub struct Handle(u32);

impl Handle {
    /// The handle of that number, of which calls say whether there is such a node.
    pub const fn new(number: u32) -> Handle {
        Handle(number)
    }

    /// The node's number.
    pub const fn number(self) -> u32 {
        self.0
    }

    /// The node's number, as an index.
    pub const fn index(self) -> usize {
        self.0 as usize
    }
}
