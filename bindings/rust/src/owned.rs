//! Tables on the heap.
use crate::{load_hashed, load_measured, Arena, Builder, Lists, Measures, Refusal, Slice, Tables, NODE_WORDS};
use alloc::vec;
use alloc::vec::Vec;
use core::fmt;

// Words of the bucket table for each node: it is never more than half full, and a search looks at one or two words.
const BUCKETS: usize = 2;

/// Tables, lists and a bucket table of their own, to be lent again and again.
pub struct OwnedTables {
    nodes: Vec<u32>,
    references: Vec<u32>,
    bytes: Vec<u8>,
    symbols: Vec<u32>,
    objects: Vec<u32>,
    buckets: Vec<u32>,
}

impl OwnedTables {
    /// Tables for so many nodes (at least one), references and bytes, with an entry of each list and two words of the bucket
    /// table for each node.
    pub fn new(nodes: usize, references: usize, bytes: usize) -> OwnedTables {
        let nodes = nodes.max(1);
        OwnedTables {
            nodes: vec![0; nodes * NODE_WORDS],
            references: vec![0; references],
            bytes: vec![0; bytes],
            symbols: vec![0; nodes],
            objects: vec![0; nodes],
            buckets: vec![0; nodes * BUCKETS],
        }
    }

    /// Tables that any input of so many bytes fits, if it is accepted at all: each node but the first, reference, byte and list
    /// entry takes at least one byte of input of its own.
    pub fn for_input(length: usize) -> OwnedTables {
        OwnedTables::new(length, length, length)
    }

    /// The tables and the lists.
    pub fn lend(&mut self) -> (Tables<'_>, Lists<'_>) {
        let (tables, lists, _) = self.lend_all();
        (tables, lists)
    }

    // The tables, the lists and the bucket table.
    fn lend_all(&mut self) -> (Tables<'_>, Lists<'_>, &mut [u32]) {
        let OwnedTables { nodes, references, bytes, symbols, objects, buckets } = self;
        (Tables { nodes, references, bytes }, Lists { symbols, objects }, buckets)
    }

    /// Reads input into these tables, as [`load`](crate::load) does, with names searched for by the bucket table.
    pub fn load(&mut self, input: &[u8], limit: u32) -> Result<Arena<'_>, Refusal> {
        self.load_hashed(input, limit).map(|(arena, _)| arena)
    }

    /// [`OwnedTables::load`], with the number of the bucket table's words that were looked at: [`load_hashed`].
    pub fn load_hashed(&mut self, input: &[u8], limit: u32) -> Result<(Arena<'_>, u64), Refusal> {
        let (tables, lists, buckets) = self.lend_all();
        load_hashed(input, tables, lists, buckets, limit)
    }

    /// [`load_measured`] into these tables.
    pub fn load_measured(&mut self, input: &[u8], limit: u32) -> Result<(Arena<'_>, Measures), Refusal> {
        let (tables, lists) = self.lend();
        load_measured(input, tables, lists, limit)
    }

    /// An arena that holds nil, to be added to.
    pub fn builder(&mut self) -> Result<Builder<'_>, Refusal> {
        Builder::new(self.lend().0)
    }
}

impl fmt::Debug for OwnedTables {
    fn fmt(&self, f: &mut fmt::Formatter<'_>) -> fmt::Result {
        let sizes = [self.nodes.len() / NODE_WORDS, self.references.len(), self.bytes.len()];
        f.debug_struct("OwnedTables").field("sizes", &sizes).finish_non_exhaustive()
    }
}

impl Arena<'_> {
    /// [`Arena::dump`] with scratch and output of its own.
    pub fn dump_to_vec(&self, limit: u32) -> Result<Vec<u8>, Refusal> {
        let counts = self.counts();
        let mut scratch = vec![0; self.scratch_words()];
        let mut output = vec![0; counts.nodes * 4 + counts.bytes + 64];
        loop {
            let length = output.len();
            match self.dump(&mut scratch, &mut output, limit).map(<[u8]>::len) {
                Ok(written) => {
                    output.truncate(written);
                    return Ok(output);
                }
                // A longer slice than the largest i32 is refused.
                Err(Refusal::NoSpace(Slice::Output)) if length < i32::MAX as usize => {
                    output = vec![0; (length * 2).min(i32::MAX as usize)];
                }
                Err(refusal) => return Err(refusal),
            }
        }
    }
}
