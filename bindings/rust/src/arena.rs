//! Tables that are lent, and the arena that they hold.
use crate::value::{Node, Nodes};
use crate::{calls, Counts, Handle, Measures, Reading, Refusal, Weighing, NODE_WORDS};
use core::fmt;

/// An arena's three tables, lent.
pub struct Tables<'t> {
    /// Eight words a node; a whole number of nodes, at least one.
    pub nodes: &'t mut [u32],
    /// Lists of nodes.
    pub references: &'t mut [u32],
    /// Names, strings and the texts of floats.
    pub bytes: &'t mut [u8],
}

impl Tables<'_> {
    /// The same tables, lent for a while: for a call that may be refused, or an arena that is not kept.
    pub fn lend(&mut self) -> Tables<'_> {
        Tables { nodes: self.nodes, references: self.references, bytes: self.bytes }
    }
}

/// Two lists that a load works with: an entry for each symbol, and for each array, hash, object, string, user-defined value,
/// float and bignum.
pub struct Lists<'l> {
    /// Symbols, repeated ones too.
    pub symbols: &'l mut [u32],
    /// What takes an object number.
    pub objects: &'l mut [u32],
}

impl Lists<'_> {
    /// The same lists, lent for a while.
    pub fn lend(&mut self) -> Lists<'_> {
        Lists { symbols: self.symbols, objects: self.objects }
    }
}

/// Reads input into the tables. Bytes after the root value are ignored.
///
/// A level of nesting above `limit`, which is at most [`MAX_LIMIT`](crate::MAX_LIMIT), is refused. After a refusal the tables
/// are zero, or as they were where a slice or the limit is wrong.
pub fn load<'t>(input: &[u8], tables: Tables<'t>, lists: Lists<'_>, limit: u32) -> Result<Arena<'t>, Refusal> {
    load_prefix(input, tables, lists, limit).map(|(arena, _)| arena)
}

/// [`load`], with the number of bytes of input that it used.
pub fn load_prefix<'t>(input: &[u8], tables: Tables<'t>, lists: Lists<'_>, limit: u32) -> Result<(Arena<'t>, usize), Refusal> {
    let Tables { nodes, references, bytes } = tables;
    let loaded = calls::load(input, nodes, references, bytes, lists.symbols, lists.objects, limit);
    Ok((Arena::loaded(nodes, references, bytes, loaded)?, loaded.used))
}

/// [`load`], with what it copied and compared.
pub fn load_measured<'t>(
    input: &[u8],
    tables: Tables<'t>,
    lists: Lists<'_>,
    limit: u32,
) -> Result<(Arena<'t>, Measures), Refusal> {
    let Tables { nodes, references, bytes } = tables;
    let measured = calls::load_measured(input, nodes, references, bytes, lists.symbols, lists.objects, limit);
    Ok((Arena::loaded(nodes, references, bytes, measured.load)?, measured.measures))
}

/// [`load`], with names searched for by a bucket table, and the number of its words that were looked at.
///
/// The table has a word or more for each node that the node table can hold, whatever it holds before; afterwards it is zero, or
/// as it was where a slice or the limit is wrong. A search starts at the word that the name's hash says (FNV-1a, 32 bits, modulo
/// the words) and goes up, wrapping, to the name's node or a zero word; both ends are counted. With two words a node it looks at
/// one or two words, however many names there are, where [`load`] compares a name with all of its length; with one word a node
/// searches grow where the nodes are names and little else. What is loaded is the same.
pub fn load_hashed<'t>(
    input: &[u8],
    tables: Tables<'t>,
    lists: Lists<'_>,
    buckets: &mut [u32],
    limit: u32,
) -> Result<(Arena<'t>, u64), Refusal> {
    let Tables { nodes, references, bytes } = tables;
    let hashed = calls::load_hashed(input, nodes, references, bytes, lists.symbols, lists.objects, buckets, limit);
    Ok((Arena::loaded(nodes, references, bytes, hashed.load)?, hashed.looked))
}

/// An arena that is well formed, over tables that nothing changes while it lives.
#[derive(Clone, Copy)]
pub struct Arena<'t> {
    pub(crate) rows: &'t [[u32; NODE_WORDS]],
    pub(crate) references: &'t [u32],
    pub(crate) bytes: &'t [u8],
    counts: Counts,
    dump_form: bool,
}

impl<'t> Arena<'t> {
    /// What the tables hold, if it is well formed: the archive looks through all of it, once.
    pub fn check(nodes: &'t [u32], references: &'t [u32], bytes: &'t [u8], counts: Counts) -> Result<Arena<'t>, Refusal> {
        calls::root(nodes, references, bytes, counts)?;
        Ok(Arena::well_formed(nodes, references, bytes, counts))
    }

    // What a load left, if it is accepted.
    fn loaded(nodes: &'t [u32], references: &'t [u32], bytes: &'t [u8], loaded: calls::Loaded) -> Result<Arena<'t>, Refusal> {
        loaded.answer?;
        Ok(Arena { dump_form: loaded.dump_form, ..Arena::well_formed(nodes, references, bytes, loaded.counts) })
    }

    // Only after the archive has accepted a call that leaves this arena: an accepted load, new, or builder's call leaves it well
    // formed, which is proved, and an accepted check says that it is. The node table is then a whole number of nodes.
    pub(crate) fn well_formed(nodes: &'t [u32], references: &'t [u32], bytes: &'t [u8], counts: Counts) -> Arena<'t> {
        Arena { rows: nodes.as_chunks().0, references, bytes, counts, dump_form: false }
    }

    /// The root.
    #[inline]
    pub fn root<'a>(&'a self) -> Node<'a> {
        Node::at(self, self.counts.root)
    }

    /// The node of that handle, if there is one.
    #[inline]
    pub fn node<'a>(&'a self, handle: Handle) -> Option<Node<'a>> {
        (handle.index() < self.counts.nodes).then(|| Node::at(self, handle.number()))
    }

    /// All nodes by number, reachable or not.
    pub fn nodes<'a>(&'a self) -> Nodes<'a> {
        Nodes::new(self, self.counts.nodes as u32)
    }

    /// How much of the tables is used, and the root.
    pub fn counts(&self) -> Counts {
        self.counts
    }

    /// Whether the input that this was loaded from was in dump form: [`Arena::dump`], under the limit of the load and with
    /// enough output, writes the very bytes that the load used. False of an arena that was not loaded.
    pub fn dump_form(&self) -> bool {
        self.dump_form
    }

    /// The node table, whole: eight words a node, of which the counts say how many are used.
    pub fn node_table(&self) -> &'t [u32] {
        self.rows.as_flattened()
    }

    /// The reference table, whole.
    pub fn reference_table(&self) -> &'t [u32] {
        self.references
    }

    /// The byte table, whole.
    pub fn byte_table(&self) -> &'t [u8] {
        self.bytes
    }

    /// What a node reads as. Refused is only a handle of no node.
    pub fn reading(&self, handle: Handle) -> Result<Reading, Refusal> {
        calls::reading(self.node_table(), self.references, self.bytes, self.counts, handle.number())
    }

    /// The weighing of a dry and a moisture node: dry ÷ (1 − moisture), rounded at each of the two operations.
    ///
    /// Refused, in this order: a handle of no node, dry before moisture ([`Refusal::BadHandle`]); a dry node that reads as no
    /// number or as one below 0, then a moisture node that reads as none ([`Refusal::NotAWeight`]); a moisture below 0 or above
    /// 0.5 ([`Refusal::BadMoisture`]). Negative zero is not below 0.
    ///
    /// Ruby writes 100.0 as `1e2`, which is no weight; see [`Reading`].
    pub fn wet_weight(&self, dry: Handle, moisture: Handle) -> Result<Weighing, Refusal> {
        let (dry, moisture) = (dry.number(), moisture.number());
        calls::wet_weight(self.node_table(), self.references, self.bytes, self.counts, dry, moisture)
    }

    /// What a recipe, a hash of kilograms, costs at prices, a hash of cents per tonne; in cents.
    ///
    /// Both hold fixnums from 0 up under symbols, and may be one hash. Keys match by name, and in either hash a pair supersedes
    /// those before it of its name. Each pair of the recipe that is not superseded costs kilograms × cents ÷ 1000, rounded to a
    /// cent, an exact half going up; the answer is the sum. Hash defaults play no part.
    ///
    /// Refused, in this order: a handle of no node, recipe before prices ([`Refusal::BadHandle`]); the recipe, then the prices,
    /// of each the kind, of the recipe the number of pairs, at most [`MAX_RECIPE_PAIRS`](crate::MAX_RECIPE_PAIRS), then each
    /// pair, superseded ones too, key before value ([`Refusal::NotARecipe`]); the first pair of the recipe that is not
    /// superseded and has no price ([`Refusal::NoPrice`]).
    pub fn batch_cost(&self, recipe: Handle, prices: Handle) -> Result<u64, Refusal> {
        let (recipe, prices) = (recipe.number(), prices.number());
        calls::batch_cost(self.node_table(), self.references, self.bytes, self.counts, recipe, prices)
    }

    /// How many words [`Arena::dump`] wants of scratch: one for each node that the node table can hold.
    pub fn scratch_words(&self) -> usize {
        self.rows.len()
    }

    /// Writes the root into output, and gives the part of it that was written; the rest of output is zero.
    ///
    /// Equal graphs are written as equal bytes. Levels are those that load would count in what is written.
    pub fn dump<'o>(&self, scratch: &mut [u32], output: &'o mut [u8], limit: u32) -> Result<&'o [u8], Refusal> {
        let written = calls::dump(self.node_table(), self.references, self.bytes, self.counts, scratch, output, limit)?;
        Ok(&output[..written])
    }
}

impl fmt::Debug for Arena<'_> {
    fn fmt(&self, f: &mut fmt::Formatter<'_>) -> fmt::Result {
        f.debug_struct("Arena").field("counts", &self.counts).finish_non_exhaustive()
    }
}
