//! The functions of libmarshal_c.a, and a safe call of each. All unsafe code of this crate is here.
//!
//! The declarations are those of include/ruby_marshal.h. The linker does not compare them with the archive; tools/bindings
//! compares them with its source.
//!
//! Why every call below is sound: the functions have no precondition on what slices and numbers hold. What they take for
//! granted of their arguments is what Rust's references are: a pointer that is not null, aligned, and refers to as many
//! entries as the length beside it says, for as long as the call lasts; one that is `&mut` overlaps no other, and nothing
//! else writes behind one that is `&`. A function keeps no pointer after it has returned, and it does not unwind.
use crate::{Counts, Handle};

mod archive {
    #[link(name = "marshal_c", kind = "static")]
    extern "C" {
        pub fn ruby_marshal_load(
            input: *const u8, input_length: usize,
            nodes: *mut u32, nodes_length: usize,
            references: *mut u32, references_length: usize,
            bytes: *mut u8, bytes_length: usize,
            symbols: *mut u32, symbols_length: usize,
            objects: *mut u32, objects_length: usize,
            limit: u32,
            answer: *mut u64, answer_length: usize,
        ) -> u32;

        pub fn ruby_marshal_load_measured(
            input: *const u8, input_length: usize,
            nodes: *mut u32, nodes_length: usize,
            references: *mut u32, references_length: usize,
            bytes: *mut u8, bytes_length: usize,
            symbols: *mut u32, symbols_length: usize,
            objects: *mut u32, objects_length: usize,
            limit: u32,
            answer: *mut u64, answer_length: usize,
        ) -> u32;

        pub fn ruby_marshal_load_hashed(
            input: *const u8, input_length: usize,
            nodes: *mut u32, nodes_length: usize,
            references: *mut u32, references_length: usize,
            bytes: *mut u8, bytes_length: usize,
            symbols: *mut u32, symbols_length: usize,
            objects: *mut u32, objects_length: usize,
            buckets: *mut u32, buckets_length: usize,
            limit: u32,
            answer: *mut u64, answer_length: usize,
        ) -> u32;

        pub fn ruby_marshal_dump(
            nodes: *const u32, nodes_length: usize,
            references: *const u32, references_length: usize,
            bytes: *const u8, bytes_length: usize,
            node_count: usize, reference_count: usize, byte_count: usize, root: u32,
            scratch: *mut u32, scratch_length: usize,
            output: *mut u8, output_length: usize,
            limit: u32,
            answer: *mut u64, answer_length: usize,
        ) -> u32;

        pub fn ruby_marshal_root(
            nodes: *const u32, nodes_length: usize,
            references: *const u32, references_length: usize,
            bytes: *const u8, bytes_length: usize,
            node_count: usize, reference_count: usize, byte_count: usize, root: u32,
            answer: *mut u64, answer_length: usize,
        ) -> u32;

        pub fn ruby_marshal_kind(
            nodes: *const u32, nodes_length: usize,
            references: *const u32, references_length: usize,
            bytes: *const u8, bytes_length: usize,
            node_count: usize, reference_count: usize, byte_count: usize, root: u32,
            handle: u32,
            answer: *mut u64, answer_length: usize,
        ) -> u32;

        pub fn ruby_marshal_get(
            nodes: *const u32, nodes_length: usize,
            references: *const u32, references_length: usize,
            bytes: *const u8, bytes_length: usize,
            node_count: usize, reference_count: usize, byte_count: usize, root: u32,
            handle: u32,
            answer: *mut u64, answer_length: usize,
        ) -> u32;

        pub fn ruby_marshal_get_symbol(
            nodes: *const u32, nodes_length: usize,
            references: *const u32, references_length: usize,
            bytes: *const u8, bytes_length: usize,
            node_count: usize, reference_count: usize, byte_count: usize, root: u32,
            handle: u32,
            answer: *mut u64, answer_length: usize,
        ) -> u32;

        pub fn ruby_marshal_reading(
            nodes: *const u32, nodes_length: usize,
            references: *const u32, references_length: usize,
            bytes: *const u8, bytes_length: usize,
            node_count: usize, reference_count: usize, byte_count: usize, root: u32,
            handle: u32,
            number: *mut f64, number_length: usize,
            answer: *mut u64, answer_length: usize,
        ) -> u32;

        pub fn ruby_marshal_wet_weight(
            nodes: *const u32, nodes_length: usize,
            references: *const u32, references_length: usize,
            bytes: *const u8, bytes_length: usize,
            node_count: usize, reference_count: usize, byte_count: usize, root: u32,
            dry: u32, moisture: u32,
            weighing: *mut f64, weighing_length: usize,
            answer: *mut u64, answer_length: usize,
        ) -> u32;

        pub fn ruby_marshal_batch_cost(
            nodes: *const u32, nodes_length: usize,
            references: *const u32, references_length: usize,
            bytes: *const u8, bytes_length: usize,
            node_count: usize, reference_count: usize, byte_count: usize, root: u32,
            recipe: u32, prices: u32,
            answer: *mut u64, answer_length: usize,
        ) -> u32;

        pub fn ruby_marshal_new(
            nodes: *mut u32, nodes_length: usize,
            references: *mut u32, references_length: usize,
            bytes: *mut u8, bytes_length: usize,
            answer: *mut u64, answer_length: usize,
        ) -> u32;

        pub fn ruby_marshal_replace_root(
            nodes: *const u32, nodes_length: usize,
            references: *const u32, references_length: usize,
            bytes: *const u8, bytes_length: usize,
            node_count: usize, reference_count: usize, byte_count: usize, root: u32,
            handle: u32,
            answer: *mut u64, answer_length: usize,
        ) -> u32;

        pub fn ruby_marshal_replace_class(
            nodes: *mut u32, nodes_length: usize,
            references: *const u32, references_length: usize,
            bytes: *const u8, bytes_length: usize,
            node_count: usize, reference_count: usize, byte_count: usize, root: u32,
            handle: u32, class: u32,
            answer: *mut u64, answer_length: usize,
        ) -> u32;

        pub fn ruby_marshal_create_nil(
            nodes: *mut u32, nodes_length: usize,
            references: *const u32, references_length: usize,
            bytes: *const u8, bytes_length: usize,
            node_count: usize, reference_count: usize, byte_count: usize, root: u32,
            answer: *mut u64, answer_length: usize,
        ) -> u32;

        pub fn ruby_marshal_create_bool(
            nodes: *mut u32, nodes_length: usize,
            references: *const u32, references_length: usize,
            bytes: *const u8, bytes_length: usize,
            node_count: usize, reference_count: usize, byte_count: usize, root: u32,
            value: bool,
            answer: *mut u64, answer_length: usize,
        ) -> u32;

        pub fn ruby_marshal_create_fixnum(
            nodes: *mut u32, nodes_length: usize,
            references: *const u32, references_length: usize,
            bytes: *const u8, bytes_length: usize,
            node_count: usize, reference_count: usize, byte_count: usize, root: u32,
            value: i32,
            answer: *mut u64, answer_length: usize,
        ) -> u32;

        pub fn ruby_marshal_create_symbol(
            nodes: *mut u32, nodes_length: usize,
            references: *const u32, references_length: usize,
            bytes: *mut u8, bytes_length: usize,
            node_count: usize, reference_count: usize, byte_count: usize, root: u32,
            name: *const u8, name_length: usize,
            answer: *mut u64, answer_length: usize,
        ) -> u32;

        pub fn ruby_marshal_create_new_symbol(
            nodes: *mut u32, nodes_length: usize,
            references: *const u32, references_length: usize,
            bytes: *mut u8, bytes_length: usize,
            node_count: usize, reference_count: usize, byte_count: usize, root: u32,
            name: *const u8, name_length: usize,
            answer: *mut u64, answer_length: usize,
        ) -> u32;

        pub fn ruby_marshal_create_array(
            nodes: *mut u32, nodes_length: usize,
            references: *mut u32, references_length: usize,
            bytes: *const u8, bytes_length: usize,
            node_count: usize, reference_count: usize, byte_count: usize, root: u32,
            members: *const u32, members_length: usize,
            answer: *mut u64, answer_length: usize,
        ) -> u32;

        pub fn ruby_marshal_create_hash(
            nodes: *mut u32, nodes_length: usize,
            references: *mut u32, references_length: usize,
            bytes: *const u8, bytes_length: usize,
            node_count: usize, reference_count: usize, byte_count: usize, root: u32,
            pairs: *const u32, pairs_length: usize,
            default: u32,
            answer: *mut u64, answer_length: usize,
        ) -> u32;

        pub fn ruby_marshal_create_object(
            nodes: *mut u32, nodes_length: usize,
            references: *mut u32, references_length: usize,
            bytes: *const u8, bytes_length: usize,
            node_count: usize, reference_count: usize, byte_count: usize, root: u32,
            name: u32,
            pairs: *const u32, pairs_length: usize,
            answer: *mut u64, answer_length: usize,
        ) -> u32;

        pub fn ruby_marshal_create_string(
            nodes: *mut u32, nodes_length: usize,
            references: *const u32, references_length: usize,
            bytes: *mut u8, bytes_length: usize,
            node_count: usize, reference_count: usize, byte_count: usize, root: u32,
            value: *const u8, value_length: usize,
            answer: *mut u64, answer_length: usize,
        ) -> u32;

        pub fn ruby_marshal_create_user_defined(
            nodes: *mut u32, nodes_length: usize,
            references: *const u32, references_length: usize,
            bytes: *mut u8, bytes_length: usize,
            node_count: usize, reference_count: usize, byte_count: usize, root: u32,
            name: u32,
            value: *const u8, value_length: usize,
            answer: *mut u64, answer_length: usize,
        ) -> u32;

        pub fn ruby_marshal_create_float(
            nodes: *mut u32, nodes_length: usize,
            references: *const u32, references_length: usize,
            bytes: *mut u8, bytes_length: usize,
            node_count: usize, reference_count: usize, byte_count: usize, root: u32,
            value: *const u8, value_length: usize,
            answer: *mut u64, answer_length: usize,
        ) -> u32;

        pub fn ruby_marshal_create_bignum(
            nodes: *mut u32, nodes_length: usize,
            references: *const u32, references_length: usize,
            bytes: *const u8, bytes_length: usize,
            node_count: usize, reference_count: usize, byte_count: usize, root: u32,
            minus: bool, low: u32, high: u32,
            answer: *mut u64, answer_length: usize,
        ) -> u32;
    }
}

/// What a function returned, and the answer words that it wrote.
pub struct Told<const N: usize> {
    pub number: u32,
    pub words: [u64; N],
}

/// The same of a function that also answers doubles.
pub struct WithDoubles<const N: usize, const D: usize> {
    pub told: Told<N>,
    pub doubles: [f64; D],
}

/// Handles as the words that they are.
pub fn words_of(handles: &[Handle]) -> &[u32] {
    // SAFETY: a `Handle` is `repr(transparent)` over a `u32`, so a slice of one has the layout, and the lifetime, of the other.
    unsafe { core::slice::from_raw_parts(handles.as_ptr().cast(), handles.len()) }
}

pub fn load(
    input: &[u8],
    nodes: &mut [u32],
    references: &mut [u32],
    bytes: &mut [u8],
    symbols: &mut [u32],
    objects: &mut [u32],
    limit: u32,
) -> Told<8> {
    let mut words = [0; 8];
    // SAFETY: each pointer and length are those of one live reference; `nodes`, `references`, `bytes`, `symbols`, `objects` are `&mut`, `words` is a local.
    let number = unsafe {
        archive::ruby_marshal_load(
            input.as_ptr(), input.len(),
            nodes.as_mut_ptr(), nodes.len(),
            references.as_mut_ptr(), references.len(),
            bytes.as_mut_ptr(), bytes.len(),
            symbols.as_mut_ptr(), symbols.len(),
            objects.as_mut_ptr(), objects.len(),
            limit,
            words.as_mut_ptr(), words.len(),
        )
    };
    Told { number, words }
}

pub fn load_measured(
    input: &[u8],
    nodes: &mut [u32],
    references: &mut [u32],
    bytes: &mut [u8],
    symbols: &mut [u32],
    objects: &mut [u32],
    limit: u32,
) -> Told<10> {
    let mut words = [0; 10];
    // SAFETY: each pointer and length are those of one live reference; `nodes`, `references`, `bytes`, `symbols`, `objects` are `&mut`, `words` is a local.
    let number = unsafe {
        archive::ruby_marshal_load_measured(
            input.as_ptr(), input.len(),
            nodes.as_mut_ptr(), nodes.len(),
            references.as_mut_ptr(), references.len(),
            bytes.as_mut_ptr(), bytes.len(),
            symbols.as_mut_ptr(), symbols.len(),
            objects.as_mut_ptr(), objects.len(),
            limit,
            words.as_mut_ptr(), words.len(),
        )
    };
    Told { number, words }
}

#[allow(clippy::too_many_arguments)]
pub fn load_hashed(
    input: &[u8],
    nodes: &mut [u32],
    references: &mut [u32],
    bytes: &mut [u8],
    symbols: &mut [u32],
    objects: &mut [u32],
    buckets: &mut [u32],
    limit: u32,
) -> Told<9> {
    let mut words = [0; 9];
    // SAFETY: each pointer and length are those of one live reference; `nodes`, `references`, `bytes`, `symbols`, `objects`, `buckets` are `&mut`, `words` is a local.
    let number = unsafe {
        archive::ruby_marshal_load_hashed(
            input.as_ptr(), input.len(),
            nodes.as_mut_ptr(), nodes.len(),
            references.as_mut_ptr(), references.len(),
            bytes.as_mut_ptr(), bytes.len(),
            symbols.as_mut_ptr(), symbols.len(),
            objects.as_mut_ptr(), objects.len(),
            buckets.as_mut_ptr(), buckets.len(),
            limit,
            words.as_mut_ptr(), words.len(),
        )
    };
    Told { number, words }
}

pub fn dump(
    nodes: &[u32],
    references: &[u32],
    bytes: &[u8],
    counts: Counts,
    scratch: &mut [u32],
    output: &mut [u8],
    limit: u32,
) -> Told<3> {
    let mut words = [0; 3];
    // SAFETY: each pointer and length are those of one live reference; `scratch`, `output` are `&mut`, `words` is a local.
    let number = unsafe {
        archive::ruby_marshal_dump(
            nodes.as_ptr(), nodes.len(),
            references.as_ptr(), references.len(),
            bytes.as_ptr(), bytes.len(),
            counts.nodes, counts.references, counts.bytes, counts.root,
            scratch.as_mut_ptr(), scratch.len(),
            output.as_mut_ptr(), output.len(),
            limit,
            words.as_mut_ptr(), words.len(),
        )
    };
    Told { number, words }
}

pub fn root(nodes: &[u32], references: &[u32], bytes: &[u8], counts: Counts) -> Told<3> {
    let mut words = [0; 3];
    // SAFETY: each pointer and length are those of one live reference; only `words`, a local, is written.
    let number = unsafe {
        archive::ruby_marshal_root(
            nodes.as_ptr(), nodes.len(),
            references.as_ptr(), references.len(),
            bytes.as_ptr(), bytes.len(),
            counts.nodes, counts.references, counts.bytes, counts.root,
            words.as_mut_ptr(), words.len(),
        )
    };
    Told { number, words }
}

pub fn kind(nodes: &[u32], references: &[u32], bytes: &[u8], counts: Counts, handle: u32) -> Told<3> {
    let mut words = [0; 3];
    // SAFETY: each pointer and length are those of one live reference; only `words`, a local, is written.
    let number = unsafe {
        archive::ruby_marshal_kind(
            nodes.as_ptr(), nodes.len(),
            references.as_ptr(), references.len(),
            bytes.as_ptr(), bytes.len(),
            counts.nodes, counts.references, counts.bytes, counts.root,
            handle,
            words.as_mut_ptr(), words.len(),
        )
    };
    Told { number, words }
}

pub fn get(nodes: &[u32], references: &[u32], bytes: &[u8], counts: Counts, handle: u32) -> Told<10> {
    let mut words = [0; 10];
    // SAFETY: each pointer and length are those of one live reference; only `words`, a local, is written.
    let number = unsafe {
        archive::ruby_marshal_get(
            nodes.as_ptr(), nodes.len(),
            references.as_ptr(), references.len(),
            bytes.as_ptr(), bytes.len(),
            counts.nodes, counts.references, counts.bytes, counts.root,
            handle,
            words.as_mut_ptr(), words.len(),
        )
    };
    Told { number, words }
}

pub fn get_symbol(nodes: &[u32], references: &[u32], bytes: &[u8], counts: Counts, handle: u32) -> Told<4> {
    let mut words = [0; 4];
    // SAFETY: each pointer and length are those of one live reference; only `words`, a local, is written.
    let number = unsafe {
        archive::ruby_marshal_get_symbol(
            nodes.as_ptr(), nodes.len(),
            references.as_ptr(), references.len(),
            bytes.as_ptr(), bytes.len(),
            counts.nodes, counts.references, counts.bytes, counts.root,
            handle,
            words.as_mut_ptr(), words.len(),
        )
    };
    Told { number, words }
}

pub fn reading(nodes: &[u32], references: &[u32], bytes: &[u8], counts: Counts, handle: u32) -> WithDoubles<4, 1> {
    let (mut words, mut doubles) = ([0; 4], [0.0; 1]);
    // SAFETY: each pointer and length are those of one live reference; only `words` and `doubles`, locals, are written.
    let number = unsafe {
        archive::ruby_marshal_reading(
            nodes.as_ptr(), nodes.len(),
            references.as_ptr(), references.len(),
            bytes.as_ptr(), bytes.len(),
            counts.nodes, counts.references, counts.bytes, counts.root,
            handle,
            doubles.as_mut_ptr(), doubles.len(),
            words.as_mut_ptr(), words.len(),
        )
    };
    WithDoubles { told: Told { number, words }, doubles }
}

pub fn wet_weight(
    nodes: &[u32],
    references: &[u32],
    bytes: &[u8],
    counts: Counts,
    dry: u32,
    moisture: u32,
) -> WithDoubles<2, 3> {
    let (mut words, mut doubles) = ([0; 2], [0.0; 3]);
    // SAFETY: each pointer and length are those of one live reference; only `words` and `doubles`, locals, are written.
    let number = unsafe {
        archive::ruby_marshal_wet_weight(
            nodes.as_ptr(), nodes.len(),
            references.as_ptr(), references.len(),
            bytes.as_ptr(), bytes.len(),
            counts.nodes, counts.references, counts.bytes, counts.root,
            dry, moisture,
            doubles.as_mut_ptr(), doubles.len(),
            words.as_mut_ptr(), words.len(),
        )
    };
    WithDoubles { told: Told { number, words }, doubles }
}

pub fn batch_cost(nodes: &[u32], references: &[u32], bytes: &[u8], counts: Counts, recipe: u32, prices: u32) -> Told<3> {
    let mut words = [0; 3];
    // SAFETY: each pointer and length are those of one live reference; only `words`, a local, is written.
    let number = unsafe {
        archive::ruby_marshal_batch_cost(
            nodes.as_ptr(), nodes.len(),
            references.as_ptr(), references.len(),
            bytes.as_ptr(), bytes.len(),
            counts.nodes, counts.references, counts.bytes, counts.root,
            recipe, prices,
            words.as_mut_ptr(), words.len(),
        )
    };
    Told { number, words }
}

pub fn new(nodes: &mut [u32], references: &mut [u32], bytes: &mut [u8]) -> Told<6> {
    let mut words = [0; 6];
    // SAFETY: each pointer and length are those of one live reference; `nodes`, `references`, `bytes` are `&mut`, `words` is a local.
    let number = unsafe {
        archive::ruby_marshal_new(
            nodes.as_mut_ptr(), nodes.len(),
            references.as_mut_ptr(), references.len(),
            bytes.as_mut_ptr(), bytes.len(),
            words.as_mut_ptr(), words.len(),
        )
    };
    Told { number, words }
}

pub fn replace_root(nodes: &[u32], references: &[u32], bytes: &[u8], counts: Counts, handle: u32) -> Told<7> {
    let mut words = [0; 7];
    // SAFETY: each pointer and length are those of one live reference; only `words`, a local, is written.
    let number = unsafe {
        archive::ruby_marshal_replace_root(
            nodes.as_ptr(), nodes.len(),
            references.as_ptr(), references.len(),
            bytes.as_ptr(), bytes.len(),
            counts.nodes, counts.references, counts.bytes, counts.root,
            handle,
            words.as_mut_ptr(), words.len(),
        )
    };
    Told { number, words }
}

pub fn replace_class(nodes: &mut [u32], references: &[u32], bytes: &[u8], counts: Counts, handle: u32, class: u32) -> Told<7> {
    let mut words = [0; 7];
    // SAFETY: each pointer and length are those of one live reference; `nodes` is `&mut`, `words` is a local.
    let number = unsafe {
        archive::ruby_marshal_replace_class(
            nodes.as_mut_ptr(), nodes.len(),
            references.as_ptr(), references.len(),
            bytes.as_ptr(), bytes.len(),
            counts.nodes, counts.references, counts.bytes, counts.root,
            handle, class,
            words.as_mut_ptr(), words.len(),
        )
    };
    Told { number, words }
}

pub fn create_nil(nodes: &mut [u32], references: &[u32], bytes: &[u8], counts: Counts) -> Told<7> {
    let mut words = [0; 7];
    // SAFETY: each pointer and length are those of one live reference; `nodes` is `&mut`, `words` is a local.
    let number = unsafe {
        archive::ruby_marshal_create_nil(
            nodes.as_mut_ptr(), nodes.len(),
            references.as_ptr(), references.len(),
            bytes.as_ptr(), bytes.len(),
            counts.nodes, counts.references, counts.bytes, counts.root,
            words.as_mut_ptr(), words.len(),
        )
    };
    Told { number, words }
}

pub fn create_bool(nodes: &mut [u32], references: &[u32], bytes: &[u8], counts: Counts, value: bool) -> Told<7> {
    let mut words = [0; 7];
    // SAFETY: each pointer and length are those of one live reference; `nodes` is `&mut`, `words` is a local.
    let number = unsafe {
        archive::ruby_marshal_create_bool(
            nodes.as_mut_ptr(), nodes.len(),
            references.as_ptr(), references.len(),
            bytes.as_ptr(), bytes.len(),
            counts.nodes, counts.references, counts.bytes, counts.root,
            value,
            words.as_mut_ptr(), words.len(),
        )
    };
    Told { number, words }
}

pub fn create_fixnum(nodes: &mut [u32], references: &[u32], bytes: &[u8], counts: Counts, value: i32) -> Told<7> {
    let mut words = [0; 7];
    // SAFETY: each pointer and length are those of one live reference; `nodes` is `&mut`, `words` is a local.
    let number = unsafe {
        archive::ruby_marshal_create_fixnum(
            nodes.as_mut_ptr(), nodes.len(),
            references.as_ptr(), references.len(),
            bytes.as_ptr(), bytes.len(),
            counts.nodes, counts.references, counts.bytes, counts.root,
            value,
            words.as_mut_ptr(), words.len(),
        )
    };
    Told { number, words }
}

pub fn create_symbol(nodes: &mut [u32], references: &[u32], bytes: &mut [u8], counts: Counts, name: &[u8]) -> Told<7> {
    let mut words = [0; 7];
    // SAFETY: each pointer and length are those of one live reference; `nodes`, `bytes` are `&mut`, `words` is a local.
    let number = unsafe {
        archive::ruby_marshal_create_symbol(
            nodes.as_mut_ptr(), nodes.len(),
            references.as_ptr(), references.len(),
            bytes.as_mut_ptr(), bytes.len(),
            counts.nodes, counts.references, counts.bytes, counts.root,
            name.as_ptr(), name.len(),
            words.as_mut_ptr(), words.len(),
        )
    };
    Told { number, words }
}

pub fn create_new_symbol(nodes: &mut [u32], references: &[u32], bytes: &mut [u8], counts: Counts, name: &[u8]) -> Told<7> {
    let mut words = [0; 7];
    // SAFETY: each pointer and length are those of one live reference; `nodes`, `bytes` are `&mut`, `words` is a local.
    let number = unsafe {
        archive::ruby_marshal_create_new_symbol(
            nodes.as_mut_ptr(), nodes.len(),
            references.as_ptr(), references.len(),
            bytes.as_mut_ptr(), bytes.len(),
            counts.nodes, counts.references, counts.bytes, counts.root,
            name.as_ptr(), name.len(),
            words.as_mut_ptr(), words.len(),
        )
    };
    Told { number, words }
}

pub fn create_array(nodes: &mut [u32], references: &mut [u32], bytes: &[u8], counts: Counts, members: &[u32]) -> Told<7> {
    let mut words = [0; 7];
    // SAFETY: each pointer and length are those of one live reference; `nodes`, `references` are `&mut`, `words` is a local.
    let number = unsafe {
        archive::ruby_marshal_create_array(
            nodes.as_mut_ptr(), nodes.len(),
            references.as_mut_ptr(), references.len(),
            bytes.as_ptr(), bytes.len(),
            counts.nodes, counts.references, counts.bytes, counts.root,
            members.as_ptr(), members.len(),
            words.as_mut_ptr(), words.len(),
        )
    };
    Told { number, words }
}

pub fn create_hash(
    nodes: &mut [u32],
    references: &mut [u32],
    bytes: &[u8],
    counts: Counts,
    pairs: &[u32],
    default: u32,
) -> Told<7> {
    let mut words = [0; 7];
    // SAFETY: each pointer and length are those of one live reference; `nodes`, `references` are `&mut`, `words` is a local.
    let number = unsafe {
        archive::ruby_marshal_create_hash(
            nodes.as_mut_ptr(), nodes.len(),
            references.as_mut_ptr(), references.len(),
            bytes.as_ptr(), bytes.len(),
            counts.nodes, counts.references, counts.bytes, counts.root,
            pairs.as_ptr(), pairs.len(),
            default,
            words.as_mut_ptr(), words.len(),
        )
    };
    Told { number, words }
}

pub fn create_object(
    nodes: &mut [u32],
    references: &mut [u32],
    bytes: &[u8],
    counts: Counts,
    name: u32,
    pairs: &[u32],
) -> Told<7> {
    let mut words = [0; 7];
    // SAFETY: each pointer and length are those of one live reference; `nodes`, `references` are `&mut`, `words` is a local.
    let number = unsafe {
        archive::ruby_marshal_create_object(
            nodes.as_mut_ptr(), nodes.len(),
            references.as_mut_ptr(), references.len(),
            bytes.as_ptr(), bytes.len(),
            counts.nodes, counts.references, counts.bytes, counts.root,
            name,
            pairs.as_ptr(), pairs.len(),
            words.as_mut_ptr(), words.len(),
        )
    };
    Told { number, words }
}

pub fn create_string(nodes: &mut [u32], references: &[u32], bytes: &mut [u8], counts: Counts, value: &[u8]) -> Told<7> {
    let mut words = [0; 7];
    // SAFETY: each pointer and length are those of one live reference; `nodes`, `bytes` are `&mut`, `words` is a local.
    let number = unsafe {
        archive::ruby_marshal_create_string(
            nodes.as_mut_ptr(), nodes.len(),
            references.as_ptr(), references.len(),
            bytes.as_mut_ptr(), bytes.len(),
            counts.nodes, counts.references, counts.bytes, counts.root,
            value.as_ptr(), value.len(),
            words.as_mut_ptr(), words.len(),
        )
    };
    Told { number, words }
}

pub fn create_user_defined(
    nodes: &mut [u32],
    references: &[u32],
    bytes: &mut [u8],
    counts: Counts,
    name: u32,
    value: &[u8],
) -> Told<7> {
    let mut words = [0; 7];
    // SAFETY: each pointer and length are those of one live reference; `nodes`, `bytes` are `&mut`, `words` is a local.
    let number = unsafe {
        archive::ruby_marshal_create_user_defined(
            nodes.as_mut_ptr(), nodes.len(),
            references.as_ptr(), references.len(),
            bytes.as_mut_ptr(), bytes.len(),
            counts.nodes, counts.references, counts.bytes, counts.root,
            name,
            value.as_ptr(), value.len(),
            words.as_mut_ptr(), words.len(),
        )
    };
    Told { number, words }
}

pub fn create_float(nodes: &mut [u32], references: &[u32], bytes: &mut [u8], counts: Counts, value: &[u8]) -> Told<7> {
    let mut words = [0; 7];
    // SAFETY: each pointer and length are those of one live reference; `nodes`, `bytes` are `&mut`, `words` is a local.
    let number = unsafe {
        archive::ruby_marshal_create_float(
            nodes.as_mut_ptr(), nodes.len(),
            references.as_ptr(), references.len(),
            bytes.as_mut_ptr(), bytes.len(),
            counts.nodes, counts.references, counts.bytes, counts.root,
            value.as_ptr(), value.len(),
            words.as_mut_ptr(), words.len(),
        )
    };
    Told { number, words }
}

pub fn create_bignum(
    nodes: &mut [u32],
    references: &[u32],
    bytes: &[u8],
    counts: Counts,
    minus: bool,
    low: u32,
    high: u32,
) -> Told<7> {
    let mut words = [0; 7];
    // SAFETY: each pointer and length are those of one live reference; `nodes` is `&mut`, `words` is a local.
    let number = unsafe {
        archive::ruby_marshal_create_bignum(
            nodes.as_mut_ptr(), nodes.len(),
            references.as_ptr(), references.len(),
            bytes.as_ptr(), bytes.len(),
            counts.nodes, counts.references, counts.bytes, counts.root,
            minus, low, high,
            words.as_mut_ptr(), words.len(),
        )
    };
    Told { number, words }
}
