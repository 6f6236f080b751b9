// Our load and dump, over tables of their own, for the programs that run them beside the Rust crate.
pub mod bignum;
pub mod inputs;
pub mod measure;
pub mod random;
pub mod room;
pub mod walk;

use ruby_marshal_tables::{calls, Arena, Counts, Measures, Refusal, NODE_WORDS};

/// An answer: 0 or the refusal's number, and its details.
#[derive(Clone, Copy, Debug, PartialEq, Eq)]
pub struct Answer {
    pub number: u64,
    pub first: i64,
    pub second: u64,
}

impl From<Result<(), Refusal>> for Answer {
    fn from(answer: Result<(), Refusal>) -> Answer {
        match answer {
            Ok(()) => Answer { number: 0, first: 0, second: 0 },
            Err(refusal) => {
                let (first, second) = refusal.details();
                Answer { number: refusal.number().into(), first, second }
            }
        }
    }
}

/// The tables of an arena with its counts, and what load and dump are lent besides.
pub struct Tables {
    pub nodes: Vec<u32>,
    pub references: Vec<u32>,
    pub bytes: Vec<u8>,
    pub symbols: Vec<u32>,
    pub objects: Vec<u32>,
    pub buckets: Vec<u32>,
    pub scratch: Vec<u32>,
    pub output: Vec<u8>,
    /// nodes, references, bytes and root
    pub counts: [usize; 4],
    pub used: usize,
    pub dump_form: bool,
    /// of the last measuring load
    pub measures: Measures,
    /// words of the bucket table that the last hashed load looked at
    pub looked: u64,
    pub written: usize,
}

impl Tables {
    /// With an entry of each list, a word of the bucket table and one of scratch for each node.
    pub fn new(nodes: usize, references: usize, bytes: usize, output: usize) -> Tables {
        Tables {
            nodes: vec![0; nodes * NODE_WORDS],
            references: vec![0; references],
            bytes: vec![0; bytes],
            symbols: vec![0; nodes],
            objects: vec![0; nodes],
            buckets: vec![0; nodes],
            scratch: vec![0; nodes],
            output: vec![0; output],
            counts: [0; 4],
            used: 0,
            dump_form: false,
            measures: Measures::default(),
            looked: 0,
            written: 0,
        }
    }

    /// Tables that an input of n bytes fills at most.
    pub fn ample(n: usize) -> Tables {
        Tables::new(n + 1, n * 2, n, n * 4)
    }

    pub fn load(&mut self, input: &[u8], limit: u32) -> Answer {
        let Tables { nodes, references, bytes, symbols, objects, .. } = self;
        let loaded = calls::load(input, nodes, references, bytes, symbols, objects, limit);
        self.keep(loaded)
    }

    pub fn load_measured(&mut self, input: &[u8], limit: u32) -> Answer {
        let Tables { nodes, references, bytes, symbols, objects, .. } = self;
        let measured = calls::load_measured(input, nodes, references, bytes, symbols, objects, limit);
        self.measures = measured.measures;
        self.keep(measured.load)
    }

    pub fn load_hashed(&mut self, input: &[u8], limit: u32) -> Answer {
        let Tables { nodes, references, bytes, symbols, objects, buckets, .. } = self;
        let hashed = calls::load_hashed(input, nodes, references, bytes, symbols, objects, buckets, limit);
        self.looked = hashed.looked;
        self.keep(hashed.load)
    }

    fn keep(&mut self, loaded: calls::Loaded) -> Answer {
        let Counts { nodes, references, bytes, root } = loaded.counts;
        self.counts = [nodes, references, bytes, root as usize];
        self.used = loaded.used;
        self.dump_form = loaded.dump_form;
        loaded.answer.into()
    }

    pub fn dump(&mut self, limit: u32) -> Answer {
        let counts = self.arena_counts();
        let Tables { nodes, references, bytes, scratch, output, .. } = self;
        let dumped = calls::dump(nodes, references, bytes, counts, scratch, output, limit);
        self.written = dumped.unwrap_or(0);
        dumped.map(|_| ()).into()
    }

    /// The check that the arena is well formed, alone.
    pub fn check(&self) -> Answer {
        calls::root(&self.nodes, &self.references, &self.bytes, self.arena_counts()).map(|_| ()).into()
    }

    /// The arena, for the views.
    pub fn arena(&self) -> Result<Arena<'_>, Refusal> {
        Arena::check(&self.nodes, &self.references, &self.bytes, self.arena_counts())
    }

    fn arena_counts(&self) -> Counts {
        let [nodes, references, bytes, root] = self.counts;
        Counts { nodes, references, bytes, root: root as u32 }
    }

    /// Whether a load left the same in both.
    pub fn filled_alike(&self, other: &Tables) -> bool {
        (self.counts, self.used, self.dump_form) == (other.counts, other.used, other.dump_form)
            && (&self.nodes, &self.references, &self.bytes) == (&other.nodes, &other.references, &other.bytes)
            && (&self.symbols, &self.objects) == (&other.symbols, &other.objects)
    }

    /// The least that a load could do: tables and lists set to zero once, the input copied once.
    pub fn zero_and_copy(&mut self, input: &[u8], copy: &mut [u8]) {
        self.nodes.fill(0);
        self.references.fill(0);
        self.bytes.fill(0);
        self.symbols.fill(0);
        self.objects.fill(0);
        copy[..input.len()].copy_from_slice(input);
    }
}
