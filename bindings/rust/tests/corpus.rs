//! The corpus of the documents' answers, through the calls on slices and through tables, arenas and builders.
//!
//! RUBY_MARSHAL_CORPUS names its folder. Each test says how many cases it ran.
#![cfg(feature = "alloc")]
mod common;

use common::{corpus, junk, junk_bytes, numbers, padded, Case, Json};
use ruby_marshal_tables::{
    calls, load_hashed, load_measured, load_prefix, Arena, Builder, Counts, Handle, Lists, Measures, Node, OwnedTables,
    Reading, Refusal, Slice, Tables, Value, Weighing, MAX_LIMIT, MAX_RECIPE_PAIRS, NODE_WORDS,
};
use std::collections::HashMap;

// The limit of the programs, under which the corpus has its answers.
const LIMIT: u32 = 64;

// ---- load

// The three tables and the two lists of a load.
type Lent = (Vec<u32>, Vec<u32>, Vec<u8>, Vec<u32>, Vec<u32>);

// Every lent entry is junk before the call.
fn lent_junk([nodes, references, bytes, symbols, objects]: [usize; 5]) -> Lent {
    (junk(nodes), junk(references), junk_bytes(bytes), junk(symbols), junk(objects))
}

// Whether the input is in dump form; None where it is refused.
fn load_case(case: &Case) -> Option<bool> {
    let input = case.bytes("in");
    let sizes: Vec<usize> = case.field("sizes").words().iter().map(|&n| n as usize).collect();
    let sizes: [usize; 5] = sizes.try_into().expect("five sizes");
    let mut lent = lent_junk(sizes);
    let (n, r, b, s, o) = (&mut lent.0, &mut lent.1, &mut lent.2, &mut lent.3, &mut lent.4);
    let loaded = calls::load(&input, n, r, b, s, o, case.limit());
    assert_eq!(numbers(&loaded.answer), case.answer(), "{}", case.id());
    assert_eq!((loaded.counts, loaded.used), (case.counts("counts"), case.size("used")), "{}", case.id());
    assert_eq!(loaded.dump_form, case.size("dump_form") == 1, "{}: dump form", case.id());
    let [node_words, references, bytes, symbols, objects] = sizes;
    let after = if case.answer().0 == 1 {
        lent_junk(sizes)
    } else {
        let tables = (case.words("nodes"), case.words("refs"), case.bytes("bytes"));
        (
            padded(tables.0, node_words),
            padded(tables.1, references),
            padded(tables.2, bytes),
            vec![0; symbols],
            vec![0; objects],
        )
    };
    assert!(lent == after, "{}: tables", case.id());
    measured_agrees(case, sizes, &loaded, &after);
    hashed_agrees(case, sizes, &loaded, &after);

    let mut again = lent_junk(sizes);
    let tables = Tables { nodes: &mut again.0, references: &mut again.1, bytes: &mut again.2 };
    let lists = Lists { symbols: &mut again.3, objects: &mut again.4 };
    match load_prefix(&input, tables, lists, case.limit()) {
        Ok((arena, used)) => {
            assert_eq!((Ok(()), arena.counts(), used), (loaded.answer, loaded.counts, loaded.used), "{}", case.id());
            form_agrees(&arena, &loaded, &input, case);
            views_agree(&arena, case);
            dump_and_back(&arena, case.id());
            ample(&input, case, loaded.dump_form);
            Some(loaded.dump_form)
        }
        Err(refusal) => {
            assert_eq!((Err(refusal), false), (loaded.answer, loaded.dump_form), "{}", case.id());
            None
        }
    }
}

// load_measured answers and leaves what load does, and the two counts; what is copied is the byte count, unless it is refused.
fn measured_agrees(case: &Case, sizes: [usize; 5], loaded: &calls::Loaded, after: &Lent) {
    let input = case.bytes("in");
    let mut lent = lent_junk(sizes);
    let (n, r, b, s, o) = (&mut lent.0, &mut lent.1, &mut lent.2, &mut lent.3, &mut lent.4);
    let measured = calls::load_measured(&input, n, r, b, s, o, case.limit());
    assert_eq!(measured.load, *loaded, "{}: measured", case.id());
    assert!(lent == *after, "{}: tables, measured", case.id());
    let Measures { copied, compared } = measured.measures;
    assert_eq!(copied, loaded.answer.map_or(0, |()| loaded.counts.bytes as u64), "{}: copied", case.id());
    assert!(loaded.answer.is_ok() || compared == 0, "{}: compared", case.id());
    assert_eq!((copied, compared), (case.size("copied") as u64, case.size("compared") as u64), "{}: measures", case.id());

    let mut again = lent_junk(sizes);
    let tables = Tables { nodes: &mut again.0, references: &mut again.1, bytes: &mut again.2 };
    let lists = Lists { symbols: &mut again.3, objects: &mut again.4 };
    match load_measured(&input, tables, lists, case.limit()) {
        Ok((arena, measures)) => {
            assert_eq!((Ok(()), arena.counts(), measures), (loaded.answer, loaded.counts, measured.measures), "{}", case.id());
            assert_eq!(arena.dump_form(), loaded.dump_form, "{}", case.id());
        }
        Err(refusal) => assert_eq!(Err(refusal), loaded.answer, "{}", case.id()),
    }
}

// What load answers where its tables are refused.
fn bad_tables(slice: Slice) -> calls::Loaded {
    calls::Loaded { answer: Err(Refusal::BadTables(slice)), counts: Counts::default(), used: 0, dump_form: false }
}

// What load_hashed answers beside load: the same, unless the bucket table is refused.
fn hashed_of(case: &Case, loaded: calls::Loaded) -> calls::Loaded {
    if !case.has("hashed") {
        return loaded;
    }
    assert_eq!(case.three("hashed"), (1, 11, 0), "{}", case.id());
    bad_tables(Slice::Buckets)
}

// load_hashed answers and leaves what load does, unless the bucket table is refused, and the words looked at; the bucket table is
// zero after any answer but 1.
fn hashed_agrees(case: &Case, sizes: [usize; 5], loaded: &calls::Loaded, after: &Lent) {
    let input = case.bytes("in");
    let words = case.size("buckets");
    let expected = hashed_of(case, *loaded);
    let mut lent = lent_junk(sizes);
    let mut buckets = junk(words);
    let (n, r, b, s, o) = (&mut lent.0, &mut lent.1, &mut lent.2, &mut lent.3, &mut lent.4);
    let hashed = calls::load_hashed(&input, n, r, b, s, o, &mut buckets, case.limit());
    assert_eq!(hashed.load, expected, "{}: hashed", case.id());
    if numbers(&expected.answer).0 == 1 {
        assert!(lent == lent_junk(sizes) && buckets == junk(words), "{}: touched, hashed", case.id());
    } else {
        assert!(lent == *after && buckets.iter().all(|&word| word == 0), "{}: tables, hashed", case.id());
    }
    assert!(expected.answer.is_ok() || hashed.looked == 0, "{}: looked", case.id());
    assert_eq!(hashed.looked, case.size("looked") as u64, "{}: looked", case.id());

    let mut again = lent_junk(sizes);
    let tables = Tables { nodes: &mut again.0, references: &mut again.1, bytes: &mut again.2 };
    let lists = Lists { symbols: &mut again.3, objects: &mut again.4 };
    match load_hashed(&input, tables, lists, &mut junk(words), case.limit()) {
        Ok((arena, looked)) => {
            assert_eq!((Ok(()), arena.counts(), looked), (expected.answer, expected.counts, hashed.looked), "{}", case.id());
            assert_eq!(arena.dump_form(), expected.dump_form, "{}", case.id());
        }
        Err(refusal) => assert_eq!(Err(refusal), expected.answer, "{}", case.id()),
    }
}

// In dump form exactly where dump, under load's limit, writes the bytes used; the arena says what load answered.
fn form_agrees(arena: &Arena, loaded: &calls::Loaded, input: &[u8], case: &Case) {
    let written = arena.dump_to_vec(case.limit());
    assert_eq!(loaded.dump_form, written.as_deref() == Ok(&input[..loaded.used]), "{}: dump form", case.id());
    assert_eq!(arena.dump_form(), loaded.dump_form, "{}: dump form", case.id());
}

// What each view says is what the corpus's words and bytes say.
fn views_agree(arena: &Arena, case: &Case) {
    let (nodes, references, bytes) = (case.words("nodes"), case.words("refs"), case.bytes("bytes"));
    assert_eq!(arena.nodes().len(), nodes.len() / NODE_WORDS, "{}", case.id());
    for (node, words) in arena.nodes().zip(nodes.chunks(NODE_WORDS)) {
        assert_eq!(node.words(), words, "{} {node:?}", case.id());
        assert!(said(node) == words_say(words, &references, &bytes), "{} {node:?}", case.id());
        assert_eq!(node.class_node().map_or(0, |name| name.handle().number() + 1), words[7], "{} {node:?}", case.id());
        assert_eq!(node.class(), node.class_node().and_then(Node::as_symbol), "{} {node:?}", case.id());
    }
}

// A node's kind, number, bytes, list of handles, name and default; absent lists and bytes are None.
type Said = (u32, i64, Option<Vec<u8>>, Option<Vec<u32>>, u32, u32);

fn said(node: Node) -> Said {
    let number = |n: Node| n.handle().number();
    let flat = |(name, value): (Node, Node)| [number(name), number(value)];
    match node.value() {
        Value::Nil => (0, 0, None, None, 0, 0),
        Value::Bool(value) => (1, value.into(), None, None, 0, 0),
        Value::Fixnum(value) => (2, value.into(), None, None, 0, 0),
        Value::Symbol(name) => (3, 0, Some(name.into()), None, 0, 0),
        Value::Array(array) => (4, 0, None, Some(array.members().map(number).collect()), 0, 0),
        Value::Hash(hash) => {
            let pairs = hash.pairs().flat_map(flat).collect();
            (5, 0, None, Some(pairs), 0, hash.default_value().map_or(0, |d| number(d) + 1))
        }
        Value::Object(object) => {
            assert_eq!(object.name_node().as_symbol(), Some(object.name()));
            let variables = object.variables();
            for ((name, value), (symbol, same)) in variables.clone().zip(variables.clone().pairs()) {
                assert_eq!((symbol.as_symbol(), same.handle()), (Some(name), value.handle()));
            }
            (6, 0, None, Some(variables.pairs().flat_map(flat).collect()), number(object.name_node()), 0)
        }
        Value::String(text) => {
            let variables = text.variables().map(|v| v.pairs().flat_map(flat).collect());
            (7, 0, Some(text.bytes().into()), variables, 0, 0)
        }
        Value::UserDefined(user) => {
            assert_eq!(user.name_node().as_symbol(), Some(user.name()));
            let variables = user.variables().map(|v| v.pairs().flat_map(flat).collect());
            (8, 0, Some(user.bytes().into()), variables, number(user.name_node()), 0)
        }
        Value::Float(float) => (9, 0, Some(float.bytes().into()), None, 0, 0),
        Value::Bignum(value) => (10, value, None, None, 0, 0),
    }
}

fn words_say(words: &[u32], references: &[u32], bytes: &[u8]) -> Said {
    let range = |start: u32, n: usize| start as usize..start as usize + n;
    let bytes = || Some(bytes[range(words[1], words[2] as usize)].to_vec());
    let list = |each: usize| Some(references[range(words[3], words[4] as usize * each)].to_vec());
    let variables = || if words[6] == 1 { list(2) } else { None };
    match words[0] {
        0..=1 => (words[0], words[1].into(), None, None, 0, 0),
        2 => (2, (words[1] as i32).into(), None, None, 0, 0),
        3 => (3, 0, bytes(), None, 0, 0),
        4 => (4, 0, None, list(1), 0, 0),
        5 => (5, 0, None, list(2), 0, words[6]),
        6 => (6, 0, None, list(2), words[5], 0),
        7 => (7, 0, bytes(), variables(), 0, 0),
        8 => (8, 0, bytes(), variables(), words[5], 0),
        9 => (9, 0, bytes(), None, 0, 0),
        _ => {
            let magnitude = i128::from(words[2]) * (1 << 32) + i128::from(words[1]);
            let value = if words[4] == 0 { magnitude } else { -magnitude };
            (10, value.try_into().expect("64 bits"), None, None, 0, 0)
        }
    }
}

// What is dumped loads again, whole, and dumps to itself. (At the greatest limit a dump can still be too deep.)
fn dump_and_back(arena: &Arena, id: &str) {
    match arena.dump_to_vec(MAX_LIMIT) {
        Ok(bytes) => {
            let mut tables = OwnedTables::for_input(bytes.len());
            let (lent, lists) = tables.lend();
            let (again, used) = load_prefix(&bytes, lent, lists, MAX_LIMIT).unwrap_or_else(|e| panic!("{id}: {e}"));
            assert_eq!((used, again.dump_form()), (bytes.len(), true), "{id}");
            assert!(again.dump_to_vec(MAX_LIMIT) == Ok(bytes.clone()), "{id}: dump of the dump");
        }
        Err(refusal) => assert_eq!(refusal, Refusal::TooDeep(MAX_LIMIT), "{id}"),
    }
}

// An accepted input fits tables of its own length, and its form is the same under the greatest limit.
fn ample(input: &[u8], case: &Case, form: bool) {
    let mut tables = OwnedTables::for_input(input.len());
    for limit in [case.limit(), MAX_LIMIT] {
        let arena = tables.load(input, limit).unwrap_or_else(|e| panic!("{}: {e}", case.id()));
        assert_eq!((arena.counts(), arena.dump_form()), (case.counts("counts"), form), "{}", case.id());
    }
}

// A slice of so many entries that are not touched, if the system gives it.
fn huge<T: Clone + Default>(n: usize) -> Option<Vec<T>> {
    Vec::<T>::new().try_reserve_exact(n).ok()?;
    Some(vec![T::default(); n])
}

// Slices past the greatest length: only their lengths are given.
fn huge_case(case: &Case) -> Option<()> {
    let sizes: Vec<usize> = case.field("sizes").list().iter().map(|n| n.number() as usize).collect();
    let input = if case.has("in") { case.bytes("in") } else { huge::<u8>(case.size("in_len"))? };
    let (mut nodes, mut references, mut bytes) = (huge::<u32>(sizes[0])?, huge::<u32>(sizes[1])?, huge::<u8>(sizes[2])?);
    let (mut symbols, mut objects) = (huge::<u32>(sizes[3])?, huge::<u32>(sizes[4])?);
    let loaded = calls::load(&input, &mut nodes, &mut references, &mut bytes, &mut symbols, &mut objects, case.limit());
    assert_eq!(numbers(&loaded.answer), case.answer(), "{}", case.id());
    assert_eq!((loaded.counts, loaded.used), (case.counts("counts"), case.size("used")), "{}", case.id());
    let measured =
        calls::load_measured(&input, &mut nodes, &mut references, &mut bytes, &mut symbols, &mut objects, case.limit());
    assert_eq!(measured.load, loaded, "{}", case.id());
    let mut buckets = huge::<u32>(case.size("buckets"))?;
    let hashed = calls::load_hashed(
        &input,
        &mut nodes,
        &mut references,
        &mut bytes,
        &mut symbols,
        &mut objects,
        &mut buckets,
        case.limit(),
    );
    assert_eq!((hashed.load, hashed.looked), (hashed_of(case, loaded), 0), "{}", case.id());
    Some(())
}

#[test]
fn load_cases() {
    let (mut accepted, mut formed, mut refused, mut large, mut left) = (0, 0, 0, 0, 0);
    for case in corpus("load") {
        if case.has("huge") {
            large += usize::from(huge_case(&case).is_some());
        } else if !case.has("sizes") {
            left += 1; // the program's answer, not load's
        } else if let Some(form) = load_case(&case) {
            accepted += 1;
            formed += usize::from(form);
        } else {
            refused += 1;
        }
    }
    print!("load: {accepted} accepted, of them {formed} in dump form, {refused} refused");
    println!(", {large} with slices past the greatest length, {left} left out");
}

// ---- dump

fn dump_case(case: &Case) -> Option<()> {
    let (nodes, references, bytes) = (case.words("nodes"), case.words("refs"), case.bytes("bytes"));
    let counts = case.counts("counts");
    let (mut scratch, mut output) = (junk(case.size("scratch")), junk_bytes(case.size("out")));
    let dumped = calls::dump(&nodes, &references, &bytes, counts, &mut scratch, &mut output, case.limit());
    assert_eq!(numbers(&dumped), case.answer(), "{}", case.id());
    assert_eq!(dumped.unwrap_or(0), case.size("length"), "{}", case.id());
    if matches!(case.answer().0, 1 | 2) {
        assert!(scratch == junk(scratch.len()) && output == junk_bytes(output.len()), "{}: touched", case.id());
    } else {
        assert!(scratch.iter().all(|&word| word == 0), "{}: scratch", case.id());
        assert!(output == padded(case.bytes("written"), output.len()), "{}: output", case.id());
    }

    // The same through an arena, where there is one.
    let arena = match Arena::check(&nodes, &references, &bytes, counts) {
        Ok(arena) => arena,
        Err(refusal) => {
            let tables = [Slice::Nodes, Slice::References, Slice::Bytes].map(Refusal::BadTables);
            assert!(tables.contains(&refusal) || refusal.number() == 2, "{}: {refusal}", case.id());
            assert!(Err(refusal) == dumped || matches!(dumped, Err(Refusal::BadTables(_))), "{}: {refusal}", case.id());
            return None;
        }
    };
    let (mut scratch, mut output) = (junk(case.size("scratch")), junk_bytes(case.size("out")));
    let again = arena.dump(&mut scratch, &mut output, case.limit());
    assert_eq!(again.map(<[u8]>::len), dumped, "{}", case.id());
    if dumped.is_ok() {
        assert!(again == Ok(&case.bytes("written")[..]), "{}: written", case.id());
        assert!(arena.dump_to_vec(case.limit()) == Ok(case.bytes("written")), "{}: to a vector", case.id());
        Some(())
    } else {
        None
    }
}

#[test]
fn dump() {
    let (mut accepted, mut refused) = (0, 0);
    for case in corpus("dump") {
        match dump_case(&case) {
            Some(()) => accepted += 1,
            None => refused += 1,
        }
    }
    println!("dump: {accepted} accepted, {refused} refused");
}

// ---- builder and getters

// What a call answered: the numbers, the handle or words, the counts.
#[derive(Debug, PartialEq)]
struct Told {
    answer: (u32, i64, u64),
    words: Vec<u32>,
    counts: Option<Counts>,
}

fn created(created: calls::Created) -> Told {
    Told { answer: numbers(&created.answer), words: vec![created.handle], counts: Some(created.counts) }
}

fn got<const N: usize>(got: Result<[u32; N], Refusal>) -> Told {
    Told { answer: numbers(&got), words: got.unwrap_or([0; N]).to_vec(), counts: None }
}

fn call(case: &Case, n: &mut [u32], r: &mut [u32], b: &mut [u8]) -> Told {
    let c = case.counts("counts");
    let args = case.field("args").list();
    let word = |i: usize| args[i].number() as u32;
    match case.field("fn").text() {
        "new" => {
            let begun = calls::new(n, r, b);
            Told { answer: numbers(&begun.answer), words: vec![0], counts: Some(begun.counts) }
        }
        "root" => got(calls::root(n, r, b, c).map(|root| [root])),
        "kind" => got(calls::kind(n, r, b, c, word(0)).map(|kind| [kind])),
        "get" => got(calls::get(n, r, b, c, word(0))),
        "get_symbol" => got(calls::get_symbol(n, r, b, c, word(0)).map(|(start, length)| [start, length])),
        "replace_root" => created(calls::replace_root(n, r, b, c, word(0))),
        "replace_class" => created(calls::replace_class(n, r, b, c, word(0), word(1))),
        "create_nil" => created(calls::create_nil(n, r, b, c)),
        "create_bool" => created(calls::create_bool(n, r, b, c, word(0) == 1)),
        "create_fixnum" => created(calls::create_fixnum(n, r, b, c, args[0].number() as i32)),
        "create_symbol" => created(calls::create_symbol(n, r, b, c, &args[0].bytes())),
        "create_new_symbol" => created(calls::create_new_symbol(n, r, b, c, &args[0].bytes())),
        "create_array" => created(calls::create_array(n, r, b, c, &args[0].words())),
        "create_hash" => created(calls::create_hash(n, r, b, c, &args[0].words(), word(1))),
        "create_object" => created(calls::create_object(n, r, b, c, word(0), &args[1].words())),
        "create_string" => created(calls::create_string(n, r, b, c, &args[0].bytes())),
        "create_user_defined" => created(calls::create_user_defined(n, r, b, c, word(0), &args[1].bytes())),
        "create_float" => created(calls::create_float(n, r, b, c, &args[0].bytes())),
        "create_bignum" => created(calls::create_bignum(n, r, b, c, word(0) == 1, word(1), word(2))),
        other => panic!("function {other}"),
    }
}

fn handles(list: &Json) -> Vec<Handle> {
    list.words().into_iter().map(Handle::new).collect()
}

// The pairs of a list; None of an odd one, which a builder cannot be given.
fn pairs(list: &Json) -> Option<Vec<[Handle; 2]>> {
    let handles = handles(list);
    let (pairs, rest) = handles.as_chunks();
    rest.is_empty().then(|| pairs.to_vec())
}

// The call through a builder, or its arena; None for what cannot be said there.
fn build(case: &Case, builder: &mut Builder) -> Option<Result<Vec<u32>, Refusal>> {
    let args = case.field("args").list();
    let handle = |i: usize| Handle::new(args[i].number() as u32);
    let made = match case.field("fn").text() {
        "root" => return Some(Ok(vec![builder.arena().root().handle().number()])),
        "kind" => return builder.arena().node(handle(0)).map(|node| Ok(vec![node.kind() as u32])),
        "get" => return builder.arena().node(handle(0)).map(|node| Ok(node.words().to_vec())),
        "get_symbol" => {
            let arena = builder.arena();
            let node = arena.node(handle(0))?;
            let name = node.as_symbol()?;
            let [start, length] = [node.words()[1], node.words()[2]];
            assert_eq!(name, &arena.byte_table()[start as usize..][..length as usize]);
            return Some(Ok(vec![start, length]));
        }
        "replace_root" => builder.replace_root(handle(0)),
        "replace_class" => {
            let class = (args[1].number() as u32).checked_sub(1).map(Handle::new);
            return Some(builder.replace_class(handle(0), class).map(|old| vec![old.map_or(0, |name| name.number() + 1)]));
        }
        "create_nil" => builder.create_nil(),
        "create_bool" => builder.create_bool(args[0].number() == 1),
        "create_fixnum" => builder.create_fixnum(args[0].number() as i32),
        "create_symbol" => builder.create_symbol(&args[0].bytes()),
        "create_new_symbol" => builder.create_new_symbol(&args[0].bytes()),
        "create_array" => builder.create_array(&handles(&args[0])),
        "create_hash" => {
            let default = (args[1].number() as u32).checked_sub(1).map(Handle::new);
            builder.create_hash(&pairs(&args[0])?, default)
        }
        "create_object" => builder.create_object(handle(0), &pairs(&args[1])?),
        "create_string" => builder.create_string(&args[0].bytes()),
        "create_user_defined" => builder.create_user_defined(handle(0), &args[1].bytes()),
        "create_float" => builder.create_float(&args[0].bytes()),
        "create_bignum" => {
            // A builder's is a number of 64 bits: not a greater magnitude, nor i64::MIN's with a plus.
            let magnitude = i128::from(args[2].number()) * (1 << 32) + i128::from(args[1].number());
            let value = if args[0].number() == 1 { -magnitude } else { magnitude };
            builder.create_bignum(value.try_into().ok()?)
        }
        other => panic!("function {other}"),
    };
    Some(made.map(|handle| vec![handle.number()]))
}

fn build_case(case: &Case) -> bool {
    let before = (case.words("nodes"), case.words("refs"), case.bytes("bytes"));
    let mut after = before.clone();
    if case.has("nodes_after") {
        after.0 = case.words("nodes_after");
    }
    if case.has("refs_after") {
        after.1 = case.words("refs_after");
    }
    if case.has("bytes_after") {
        after.2 = case.bytes("bytes_after");
    }
    let words = if case.has("words") {
        case.words("words")
    } else {
        vec![if case.has("handle") { case.size("handle") as u32 } else { 0 }]
    };
    let counts = case.has("counts_after").then(|| case.counts("counts_after"));
    let expected = Told { answer: case.answer(), words, counts };

    let mut lent = before.clone();
    assert_eq!(call(case, &mut lent.0, &mut lent.1, &mut lent.2), expected, "{}", case.id());
    assert!(lent == after, "{}: tables", case.id());

    // The same through a builder.
    let mut lent = before.clone();
    let tables = Tables { nodes: &mut lent.0, references: &mut lent.1, bytes: &mut lent.2 };
    if case.field("fn").text() == "new" {
        let made = Builder::new(tables);
        assert_eq!(numbers(&made), expected.answer, "{}", case.id());
        assert!(made.is_err() || made.is_ok_and(|made| Some(made.counts()) == expected.counts), "{}", case.id());
    } else {
        match Builder::check(tables, case.counts("counts")) {
            Ok(mut builder) => {
                if let Some(made) = build(case, &mut builder) {
                    assert_eq!(numbers(&made), expected.answer, "{}", case.id());
                    assert!(made.is_err() || made == Ok(expected.words), "{}", case.id());
                    assert!(expected.counts.is_none_or(|counts| counts == builder.counts()), "{}", case.id());
                    // What is left is well formed.
                    let counts = builder.counts();
                    assert!(Arena::check(&after.0, &after.1, &after.2, counts).is_ok(), "{}", case.id());
                }
            }
            // An odd pair list comes before the arena's faults.
            Err(refusal) if expected.answer != (1, 9, 0) => {
                assert_eq!(numbers(&Err::<(), _>(refusal)), expected.answer, "{}", case.id());
            }
            Err(_) => {}
        }
    }
    case.answer().0 == 0
}

#[test]
fn build_cases() {
    let (mut accepted, mut refused, mut functions) = (0, 0, std::collections::BTreeSet::new());
    for case in corpus("build") {
        functions.insert(case.field("fn").text().to_string());
        if build_case(&case) {
            accepted += 1;
        } else {
            refused += 1;
        }
    }
    println!("build: {accepted} accepted, {refused} refused, of {} functions", functions.len());
}

// ---- readings and weighings

// What a node's words and text say, by Rust's own reader of decimals.
fn words_read(words: &[u32], bytes: &[u8]) -> Reading {
    match words[0] {
        2 => Reading::Whole(words[1] as i32),
        9 => {
            let text = &bytes[words[1] as usize..][..words[2] as usize];
            let text = std::str::from_utf8(text).unwrap_or("");
            let size = text.strip_prefix('-').unwrap_or(text);
            let parts: Vec<&str> = size.split('.').collect();
            let digits = |part: &&str| !part.is_empty() && part.bytes().all(|byte| byte.is_ascii_digit());
            let total: usize = parts.iter().map(|part| part.len()).sum();
            if parts.len() <= 2 && parts.iter().all(digits) && total <= 15 {
                Reading::Double(text.parse().expect("a decimal"))
            } else {
                Reading::NotANumber
            }
        }
        _ => Reading::NotANumber,
    }
}

// A reading with a double's bits, so that the sign of zero counts.
fn reading_bits(reading: Reading) -> (i32, Option<u64>) {
    match reading {
        Reading::Whole(n) => (n, None),
        Reading::Double(x) => (1, Some(x.to_bits())),
        Reading::NotANumber => (0, Some(0)),
    }
}

fn weighing_bits(weighing: Weighing) -> Vec<u64> {
    [weighing.dry, weighing.moisture, weighing.wet].map(f64::to_bits).to_vec()
}

fn weigh_case(case: &Case) -> bool {
    let (nodes, references, bytes) = (case.words("nodes"), case.words("refs"), case.bytes("bytes"));
    let counts = case.counts("counts");
    let [dry, moisture] = ["dry", "moisture"].map(|name| case.field(name).number() as u32);
    let bits = case.field("weighing").list().iter().map(|x| u64::from_str_radix(x.text(), 16).expect("64 bits"));
    let expected: Vec<u64> = bits.collect();
    let weighed = calls::wet_weight(&nodes, &references, &bytes, counts, dry, moisture);
    assert_eq!(numbers(&weighed), case.answer(), "{}", case.id());
    assert_eq!(weighed.map_or(vec![0; 3], weighing_bits), expected, "{}", case.id());

    let arena = Arena::check(&nodes, &references, &bytes, counts);
    assert_eq!(arena.is_err(), matches!(case.answer().0, 1 | 2), "{}", case.id());
    for handle in [dry, moisture] {
        let read = calls::reading(&nodes, &references, &bytes, counts, handle);
        match &arena {
            Err(refusal) => assert_eq!(read, Err(*refusal), "{}", case.id()),
            Ok(_) if handle as usize >= counts.nodes => assert_eq!(read, Err(Refusal::BadHandle(handle)), "{}", case.id()),
            Ok(arena) => {
                let said = words_read(&nodes[NODE_WORDS * handle as usize..], &bytes);
                assert_eq!(read.map(reading_bits), Ok(reading_bits(said)), "{}", case.id());
                assert_eq!(arena.reading(Handle::new(handle)).map(reading_bits), Ok(reading_bits(said)), "{}", case.id());
            }
        }
    }
    if let Ok(arena) = arena {
        let again = arena.wet_weight(Handle::new(dry), Handle::new(moisture));
        assert_eq!(again.map(weighing_bits), weighed.map(weighing_bits), "{}", case.id());
    }
    weighed.is_ok()
}

// The cases of a call over an arena: `call` says whether it is accepted; with slices past the greatest length, which a case only
// gives the lengths of, `refused` tells its answer.
fn over_arenas(file: &str, call: fn(&Case) -> bool, refused: fn(&Case, &[u32], &[u32], &[u8]) -> (u32, i64, u64)) {
    let large = |case: &Case| {
        let sizes: Vec<usize> = case.field("sizes").list().iter().map(|n| n.number() as usize).collect();
        let (nodes, references, bytes) = (huge::<u32>(sizes[0])?, huge::<u32>(sizes[1])?, huge::<u8>(sizes[2])?);
        assert_eq!(refused(case, &nodes, &references, &bytes), case.answer(), "{}", case.id());
        Some(())
    };
    let mut met = [0; 3];
    for case in corpus(file) {
        if case.has("huge") {
            met[2] += usize::from(large(&case).is_some());
        } else {
            met[usize::from(!call(&case))] += 1;
        }
    }
    let [accepted, refused, large] = met;
    println!("{file}: {accepted} accepted, {refused} refused, {large} with slices past the greatest length");
}

#[test]
fn weighings() {
    over_arenas("weigh", weigh_case, |case, nodes, references, bytes| {
        let (dry, moisture) = (case.size("dry") as u32, case.size("moisture") as u32);
        numbers(&calls::wet_weight(nodes, references, bytes, case.counts("counts"), dry, moisture))
    });
}

// ---- costs

// A pair's key with its name, and the amount.
type Line<'a> = (Handle, &'a [u8], u64);

// The pairs of a recipe or of prices.
fn lines<'a>(node: Node<'a>, most: usize) -> Result<Vec<Line<'a>>, Refusal> {
    let wrong = |node: Node| Refusal::NotARecipe(node.handle().number());
    let Value::Hash(hash) = node.value() else { return Err(wrong(node)) };
    if hash.len() > most {
        return Err(wrong(node));
    }
    let pair = |(key, value): (Node<'a>, Node<'a>)| {
        let name = key.as_symbol().ok_or(wrong(key))?;
        let amount = value.as_fixnum().and_then(|n| u64::try_from(n).ok()).ok_or(wrong(value))?;
        Ok((key.handle(), name, amount))
    };
    hash.pairs().map(pair).collect()
}

// What a recipe costs, by the views.
fn views_cost(arena: &Arena, recipe: u32, prices: u32) -> Result<u64, Refusal> {
    let node = |number| arena.node(Handle::new(number)).ok_or(Refusal::BadHandle(number));
    let (recipe, prices) = (node(recipe)?, node(prices)?);
    let (recipe, prices) = (lines(recipe, MAX_RECIPE_PAIRS)?, lines(prices, usize::MAX)?);
    let prices: HashMap<&[u8], u64> = prices.into_iter().map(|(_, name, cents)| (name, cents)).collect();
    let mut sum = 0;
    for (i, (key, name, kilograms)) in recipe.iter().enumerate() {
        if recipe[i + 1..].iter().all(|(_, later, _)| later != name) {
            let thousandths = kilograms * prices.get(name).ok_or(Refusal::NoPrice(key.number()))?;
            sum += thousandths / 1000 + u64::from(thousandths % 1000 >= 500);
        }
    }
    Ok(sum)
}

fn cost_case(case: &Case) -> bool {
    let (nodes, references, bytes) = (case.words("nodes"), case.words("refs"), case.bytes("bytes"));
    let counts = case.counts("counts");
    let [recipe, prices] = ["recipe", "prices"].map(|name| case.field(name).number() as u32);
    let cost = calls::batch_cost(&nodes, &references, &bytes, counts, recipe, prices);
    assert_eq!(numbers(&cost), case.answer(), "{}", case.id());
    assert_eq!(cost.unwrap_or(0), case.field("cents").number() as u64, "{}", case.id());
    let arena = Arena::check(&nodes, &references, &bytes, counts);
    assert_eq!(arena.is_err(), matches!(case.answer().0, 1 | 2), "{}", case.id());
    if let Ok(arena) = arena {
        // The case's nodes, the other way round, and each for both.
        for (recipe, prices) in [(recipe, prices), (prices, recipe), (recipe, recipe), (prices, prices)] {
            let again = arena.batch_cost(Handle::new(recipe), Handle::new(prices));
            assert_eq!(again, views_cost(&arena, recipe, prices), "{}", case.id());
        }
        assert_eq!(cost, views_cost(&arena, recipe, prices), "{}", case.id());
    }
    cost.is_ok()
}

#[test]
fn costs() {
    over_arenas("cost", cost_case, |case, nodes, references, bytes| {
        let (recipe, prices) = (case.size("recipe") as u32, case.size("prices") as u32);
        numbers(&calls::batch_cost(nodes, references, bytes, case.counts("counts"), recipe, prices))
    });
}

// ---- pairs

#[test]
fn pairs_of_inputs() {
    let (mut same, mut different) = (0, 0);
    for case in corpus("pairs") {
        let dumped = ["a", "b"].map(|name| {
            let input = case.bytes(name);
            let mut tables = OwnedTables::for_input(input.len());
            let arena = tables.load(&input, LIMIT).unwrap_or_else(|e| panic!("{}: {e}", case.id()));
            let dumped = arena.dump_to_vec(LIMIT).unwrap_or_else(|e| panic!("{}: {e}", case.id()));
            assert!(dumped == case.bytes(&format!("dump_{name}")), "{}: dump of {name}", case.id());
            dumped
        });
        let is_same = case.field("same").number() == 1;
        assert_eq!(dumped[0] == dumped[1], is_same, "{}", case.id());
        if is_same {
            same += 1;
        } else {
            different += 1;
        }
    }
    println!("pairs: {same} with the same graph, {different} with another");
}
