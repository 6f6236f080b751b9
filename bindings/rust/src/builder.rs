//! An arena made node by node.
use crate::{calls, sys, Arena, Counts, Handle, Lists, Refusal, Tables};
use core::fmt;

/// An arena that can be added to.
///
/// A node is appended, and nothing else changes; the root is nil until [`Builder::replace_root`], and no node has a class until
/// [`Builder::replace_class`]. A refused call changes nothing.
/// Each call has the archive look through the whole arena first, so building takes time with the square of its size.
pub struct Builder<'t> {
    tables: Tables<'t>,
    counts: Counts,
}

// The word of a default or of a class. It would wrap at u32::MAX, which is never a node's number.
fn optional_word(node: Option<Handle>) -> Result<u32, Refusal> {
    node.map_or(Ok(0), |handle| handle.number().checked_add(1).ok_or(Refusal::BadHandle(u32::MAX)))
}

impl<'t> Builder<'t> {
    /// An arena that holds nil.
    pub fn new(tables: Tables<'t>) -> Result<Builder<'t>, Refusal> {
        let begun = calls::new(tables.nodes, tables.references, tables.bytes);
        begun.answer?;
        Ok(Builder { tables, counts: begun.counts })
    }

    /// What [`load`](crate::load) fills, to be added to.
    pub fn load(input: &[u8], tables: Tables<'t>, lists: Lists<'_>, limit: u32) -> Result<Builder<'t>, Refusal> {
        let Tables { nodes, references, bytes } = tables;
        let loaded = calls::load(input, nodes, references, bytes, lists.symbols, lists.objects, limit);
        loaded.answer?;
        Ok(Builder { tables: Tables { nodes, references, bytes }, counts: loaded.counts })
    }

    /// What the tables hold, if it is well formed.
    pub fn check(tables: Tables<'t>, counts: Counts) -> Result<Builder<'t>, Refusal> {
        calls::root(tables.nodes, tables.references, tables.bytes, counts)?;
        Ok(Builder { tables, counts })
    }

    /// The arena so far.
    pub fn arena(&self) -> Arena<'_> {
        Arena::well_formed(self.tables.nodes, self.tables.references, self.tables.bytes, self.counts)
    }

    /// The arena, for as long as its tables are lent.
    pub fn into_arena(self) -> Arena<'t> {
        Arena::well_formed(self.tables.nodes, self.tables.references, self.tables.bytes, self.counts)
    }

    /// How much of the tables is used, and the root.
    pub fn counts(&self) -> Counts {
        self.counts
    }

    fn created(&mut self, created: calls::Created) -> Result<Handle, Refusal> {
        created.answer?;
        self.counts = created.counts;
        Ok(Handle::new(created.handle))
    }

    /// Makes a node the root, and gives the old root.
    pub fn replace_root(&mut self, handle: Handle) -> Result<Handle, Refusal> {
        let t = &self.tables;
        let created = calls::replace_root(t.nodes, t.references, t.bytes, self.counts, handle.number());
        self.created(created)
    }

    /// Gives an array, a hash or a string the class with that symbol for a name, or none; and gives the old class's.
    pub fn replace_class(&mut self, handle: Handle, class: Option<Handle>) -> Result<Option<Handle>, Refusal> {
        let t = &mut self.tables;
        let word = optional_word(class)?;
        let created = calls::replace_class(t.nodes, t.references, t.bytes, self.counts, handle.number(), word);
        created.answer?;
        Ok(created.handle.checked_sub(1).map(Handle::new))
    }

    /// A nil.
    pub fn create_nil(&mut self) -> Result<Handle, Refusal> {
        let t = &mut self.tables;
        let created = calls::create_nil(t.nodes, t.references, t.bytes, self.counts);
        self.created(created)
    }

    /// A bool.
    pub fn create_bool(&mut self, value: bool) -> Result<Handle, Refusal> {
        let t = &mut self.tables;
        let created = calls::create_bool(t.nodes, t.references, t.bytes, self.counts, value);
        self.created(created)
    }

    /// An integer of 32 bits.
    pub fn create_fixnum(&mut self, value: i32) -> Result<Handle, Refusal> {
        let t = &mut self.tables;
        let created = calls::create_fixnum(t.nodes, t.references, t.bytes, self.counts, value);
        self.created(created)
    }

    /// The lowest symbol with that name, or a new one.
    pub fn create_symbol(&mut self, name: &[u8]) -> Result<Handle, Refusal> {
        let t = &mut self.tables;
        let created = calls::create_symbol(t.nodes, t.references, t.bytes, self.counts, name);
        self.created(created)
    }

    /// A new symbol, also where there is one with that name.
    pub fn create_new_symbol(&mut self, name: &[u8]) -> Result<Handle, Refusal> {
        let t = &mut self.tables;
        let created = calls::create_new_symbol(t.nodes, t.references, t.bytes, self.counts, name);
        self.created(created)
    }

    /// An array.
    pub fn create_array(&mut self, members: &[Handle]) -> Result<Handle, Refusal> {
        let t = &mut self.tables;
        let created = calls::create_array(t.nodes, t.references, t.bytes, self.counts, sys::words_of(members));
        self.created(created)
    }

    /// A hash of keys and values, with a default or without.
    pub fn create_hash(&mut self, pairs: &[[Handle; 2]], default: Option<Handle>) -> Result<Handle, Refusal> {
        let t = &mut self.tables;
        let word = optional_word(default)?;
        let created =
            calls::create_hash(t.nodes, t.references, t.bytes, self.counts, sys::words_of(pairs.as_flattened()), word);
        self.created(created)
    }

    /// An object of the class with that symbol for a name, with variables' symbols and values.
    pub fn create_object(&mut self, name: Handle, pairs: &[[Handle; 2]]) -> Result<Handle, Refusal> {
        let t = &mut self.tables;
        let words = sys::words_of(pairs.as_flattened());
        let created = calls::create_object(t.nodes, t.references, t.bytes, self.counts, name.number(), words);
        self.created(created)
    }

    /// A string without variables.
    pub fn create_string(&mut self, value: &[u8]) -> Result<Handle, Refusal> {
        let t = &mut self.tables;
        let created = calls::create_string(t.nodes, t.references, t.bytes, self.counts, value);
        self.created(created)
    }

    /// A user-defined value of the class with that symbol for a name, without variables.
    pub fn create_user_defined(&mut self, name: Handle, value: &[u8]) -> Result<Handle, Refusal> {
        let t = &mut self.tables;
        let created = calls::create_user_defined(t.nodes, t.references, t.bytes, self.counts, name.number(), value);
        self.created(created)
    }

    /// A float with that text, which is kept and not read.
    pub fn create_float(&mut self, value: &[u8]) -> Result<Handle, Refusal> {
        let t = &mut self.tables;
        let created = calls::create_float(t.nodes, t.references, t.bytes, self.counts, value);
        self.created(created)
    }

    /// A bignum, however small. [`i64::MIN`] is [`Refusal::TooBig`]: magnitudes go to 2^63 − 1.
    pub fn create_bignum(&mut self, value: i64) -> Result<Handle, Refusal> {
        let t = &mut self.tables;
        let (minus, magnitude) = (value < 0, value.unsigned_abs());
        let (low, high) = (magnitude as u32, (magnitude >> 32) as u32);
        let created = calls::create_bignum(t.nodes, t.references, t.bytes, self.counts, minus, low, high);
        self.created(created)
    }
}

impl fmt::Debug for Builder<'_> {
    fn fmt(&self, f: &mut fmt::Formatter<'_>) -> fmt::Result {
        f.debug_struct("Builder").field("counts", &self.counts).finish_non_exhaustive()
    }
}
