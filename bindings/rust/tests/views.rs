//! Every function and every view, on arenas that are made here; a recipe that holds itself; refusals as text.
#![cfg(feature = "alloc")]
mod common;

use common::numbers;
use ruby_marshal_tables::{
    calls, load, load_hashed, load_prefix, Arena, Builder, Counts, Fault, Handle, Kind, Lists, Measures, Node, OwnedTables,
    Reading, Refusal, Slice, Tables, Value, Weighing, MAX_LIMIT, MAX_RECIPE_PAIRS, NODE_WORDS,
};
use std::error::Error;

// One node of each kind in an array, with a shared string, a default, and variables on a string and a user-defined value.
const EVERY_KIND: &[u8] = b"\x04\x08[\x13\
    0TFi\x02\x6c\x02i\xfa:\x09sand[\x07i\x06i\x07{\x06:\x08key\"\x08abc}\x06;\x06i\x08T\
    o:\x0bRecipe\x07:\x0c@number;\x06:\x0a@done0I\"\x08xyz\x06:\x06ETIu:\x0aStamp\x07\x01\x02\x06;\x0aF\
    f\x091.25l-\x08\xbc\x9a\x78\x56\x34\x12";

fn value_text(node: Node) -> String {
    let bytes = |b: &[u8]| String::from_utf8_lossy(b).into_owned();
    match node.value() {
        Value::Nil => "nil".into(),
        Value::Bool(value) => value.to_string(),
        Value::Fixnum(value) => value.to_string(),
        Value::Symbol(name) => format!(":{}", bytes(name)),
        Value::Array(array) => format!("{:?}", array.members().map(value_text).collect::<Vec<_>>()),
        Value::Hash(hash) => {
            let pairs: Vec<_> = hash.pairs().map(|(k, v)| format!("{}=>{}", value_text(k), value_text(v))).collect();
            format!("{{{}}} or {:?}", pairs.join(","), hash.default_value().map(value_text))
        }
        Value::Object(object) => {
            let variables: Vec<_> = object.variables().map(|(n, v)| format!("{}={}", bytes(n), value_text(v))).collect();
            format!("#<{} {}>", bytes(object.name()), variables.join(","))
        }
        Value::String(text) => {
            let variables =
                text.variables().map(|v| v.map(|(n, v)| format!("{}={}", bytes(n), value_text(v))).collect::<Vec<_>>());
            format!("{:?} {variables:?}", bytes(text.bytes()))
        }
        Value::UserDefined(user) => {
            let variables =
                user.variables().map(|v| v.map(|(n, v)| format!("{}={}", bytes(n), value_text(v))).collect::<Vec<_>>());
            format!("{} {:?} {variables:?}", bytes(user.name()), user.bytes())
        }
        Value::Float(float) => bytes(float.bytes()),
        Value::Bignum(value) => value.to_string(),
    }
}

#[test]
fn views_of_every_kind() {
    let mut tables = OwnedTables::for_input(EVERY_KIND.len());
    let (lent, lists) = tables.lend();
    let (arena, used) = load_prefix(EVERY_KIND, lent, lists, MAX_LIMIT).unwrap();
    assert_eq!(used, EVERY_KIND.len());
    let root = arena.root().as_array().unwrap();
    let texts: Vec<String> = root.into_iter().map(value_text).collect();
    let expected = [
        "nil",
        "true",
        "false",
        "620",
        "-1",
        ":sand",
        r#"["1", "2"]"#,
        r#"{:key=>"abc" None} or None"#,
        r#"{:key=>3} or Some("true")"#,
        "#<Recipe @number=:key,@done=nil>",
        r#""xyz" Some(["E=true"])"#,
        r#"Stamp [1, 2] Some(["E=false"])"#,
        "1.25",
        "-20015998343868",
    ];
    assert_eq!(texts, expected);

    let kinds: Vec<Kind> = root.members().map(Node::kind).collect();
    assert_eq!(kinds[..6], [Kind::Nil, Kind::Bool, Kind::Bool, Kind::Fixnum, Kind::Fixnum, Kind::Symbol]);
    assert_eq!(kinds[6..12], [Kind::Array, Kind::Hash, Kind::Hash, Kind::Object, Kind::String, Kind::UserDefined]);
    assert_eq!(kinds[12..], [Kind::Float, Kind::Bignum]);
    let at = |i: usize| root.get(i).unwrap();
    assert!(at(0).is_nil() && !at(1).is_nil() && root.get(14).is_none());
    assert_eq!((at(1).as_bool(), at(2).as_bool(), at(3).as_bool()), (Some(true), Some(false), None));
    assert_eq!((at(3).as_fixnum(), at(5).as_fixnum()), (Some(620), None));
    assert_eq!((at(5).as_symbol(), at(3).as_symbol()), (Some(&b"sand"[..]), None));
    assert!(at(6).as_array().is_some_and(|a| a.len() == 2 && !a.is_empty()) && at(7).as_array().is_none());
    assert!(at(7).as_hash().is_some_and(|h| h.len() == 1 && !h.is_empty()) && at(6).as_hash().is_none());
    assert!(at(9).as_object().is_some() && at(8).as_object().is_none());
    assert!(at(10).as_string().is_some() && at(11).as_string().is_none());
    assert!(at(11).as_user_defined().is_some() && at(10).as_user_defined().is_none());
    assert!(at(12).as_float().is_some_and(|f| f.bytes() == b"1.25" && f.handle() == at(12).handle()));
    assert!(at(10).as_float().is_none() && at(12).as_string().is_none());
    assert_eq!((at(13).as_bignum(), at(3).as_bignum(), at(13).as_fixnum()), (Some(-0x1234_5678_9abc), None, None));
    assert_eq!(at(9).as_object().unwrap().get(b"@done").map(|v| v.is_nil()), Some(true));
    assert!(at(9).as_object().unwrap().get(b"@none").is_none());
    let key = at(8).as_hash().unwrap().get(b"key").unwrap();
    assert_eq!(key.as_fixnum(), Some(3));
    assert!(at(8).as_hash().unwrap().get(b"other").is_none());

    // From both ends, and sizes.
    assert_eq!(root.members().len(), 14);
    assert_eq!(root.members().rev().map(|n| n.handle()).collect::<Vec<_>>(), {
        let mut handles: Vec<Handle> = root.members().map(|n| n.handle()).collect();
        handles.reverse();
        handles
    });
    assert_eq!(arena.nodes().len(), arena.counts().nodes);
    assert!(arena.nodes().enumerate().all(|(i, node)| node.handle().index() == i));
    assert!(arena.node(Handle::new(arena.counts().nodes as u32)).is_none());
    assert_eq!(arena.node(root.handle()).unwrap().handle(), root.node().handle());
    assert_eq!(
        format!("{:?} {:?}", arena.root(), at(5)),
        format!("Array {} Symbol {}", root.handle().number(), at(5).handle().number())
    );
    assert!(format!("{arena:?}").starts_with("Arena { counts: Counts"));
}

// Of an arena that was loaded, whether its input was as dump writes it, whatever follows; false of any other.
#[test]
fn dump_form() {
    let cases: &[(&[u8], bool)] = &[
        (EVERY_KIND, true),
        (b"\x04\x080rest", true),
        (b"\x04\x070", false),
        (b"\x04\x08[\x06i\xfb", false),
        (b"\x04\x08[\x07:\x06a:\x06a", false),
        (b"\x04\x08II\"\x00\x00\x00", false),
        (b"\x04\x08[\x07\"\x00I@\x06\x00", false),
        (b"\x04\x08l+\x06\x01\x00", true),
        (b"\x04\x08l+\x07\x01\x00\x00\x00", false),
        (b"\x04\x08l-\x00", false),
    ];
    for &(input, expected) in cases {
        let mut tables = OwnedTables::for_input(input.len());
        let arena = tables.load(input, MAX_LIMIT).unwrap();
        assert_eq!(arena.dump_form(), expected, "{input:02X?}");
        let checked = Arena::check(arena.node_table(), arena.reference_table(), arena.byte_table(), arena.counts());
        assert!(checked.is_ok_and(|checked| !checked.dump_form()));
    }
    let mut tables = OwnedTables::new(1, 0, 0);
    assert!(tables.builder().is_ok_and(|builder| !builder.arena().dump_form()));
}

// What the measuring load counts beside an arena that is load's; a refusal is load's.
#[test]
fn measures() {
    let cases: &[(&[u8], u64, u64)] = &[
        (b"\x04\x08[\x07:\x06a:\x06a", 1, 1),
        (b"\x04\x08[\x07:\x06a:\x06b", 2, 1),
        (b"\x04\x08[\x07:\x06a:\x07ab", 3, 0),
        (b"\x04\x08[\x08:\x06a:\x06a:\x06a", 1, 2),
        (b"\x04\x08[\x08:\x07ab:\x07ac:\x07ac", 4, 6),
        (b"\x04\x08[\x07\"\x06a:\x06a", 2, 0),
        (b"\x04\x08[\x07:\x00:\x00", 0, 0),
        // a name by link, and names of objects and variables
        (b"\x04\x08[\x08:\x07ab:\x07ac;\x06", 4, 2),
        (b"\x04\x08o:\x06a\x06:\x06bu:\x06b\x06x", 3, 3),
        // each of its length before it, with an empty name and a longer one between
        (b"\x04\x08[\x0a:\x08abc:\x00:\x08abd:\x09abcd:\x08xbd", 13, 5),
    ];
    for &(input, copied, compared) in cases {
        let mut tables = OwnedTables::for_input(input.len());
        let (arena, measures) = tables.load_measured(input, MAX_LIMIT).unwrap();
        assert_eq!(measures, Measures { copied, compared }, "{input:02X?}");
        let (counts, form) = (arena.counts(), arena.dump_form());
        let arena = tables.load(input, MAX_LIMIT).unwrap();
        assert_eq!((arena.counts(), arena.dump_form(), arena.counts().bytes as u64), (counts, form, copied), "{input:02X?}");
    }
    let mut tables = OwnedTables::for_input(1);
    assert_eq!(tables.load_measured(b"\x04", MAX_LIMIT).map(|_| ()), Err(Refusal::ShortInput));
}

// The words that the hashed load looks at beside an arena that is load's; a refusal is load's, unless it is the bucket table's.
#[test]
fn words_looked_at() {
    // Of 4 words, a and e start at the first, b and f at the next, d and h at the last, so that h goes round.
    let cases: &[(&[u8], usize, u64)] = &[
        (b"\x04\x080", 4, 0),
        (b"\x04\x08:\x06a", 4, 1),
        (b"\x04\x08[\x07:\x06a:\x06a", 4, 2),
        (b"\x04\x08[\x07:\x06a:\x06d", 4, 2),
        (b"\x04\x08[\x07:\x06a:\x06e", 4, 3),
        (b"\x04\x08[\x07:\x06b:\x06f", 4, 3),
        (b"\x04\x08[\x08:\x06d:\x06h:\x06h", 4, 5),
        (b"\x04\x08[\x08:\x06d:\x06h;\x06", 4, 3),
        (b"\x04\x08[\x07:\x06a:\x06e", 5, 2),
        (b"\x04\x08[\x07:\x06c:\x06d", 5, 3),
        (b"\x04\x08[\x07:\x00:\x00", 4, 2),
        // names of objects and variables
        (b"\x04\x08o:\x06a\x06:\x06af\x061", 4, 2),
    ];
    for &(input, words, expected) in cases {
        let mut buckets = vec![7; words];
        let (mut tables, mut plain) = (OwnedTables::new(4, 3, 4), OwnedTables::new(4, 3, 4));
        let ((lent, lists), (plain, plain_lists)) = (tables.lend(), plain.lend());
        let (arena, looked) = load_hashed(input, lent, lists, &mut buckets, MAX_LIMIT).unwrap();
        assert_eq!((looked, buckets), (expected, vec![0; words]), "{input:02X?}");
        let plain = load(input, plain, plain_lists, MAX_LIMIT).unwrap();
        assert_eq!((arena.counts(), arena.dump_form()), (plain.counts(), plain.dump_form()), "{input:02X?}");
        assert_eq!(arena.node_table(), plain.node_table(), "{input:02X?}");
    }
    let mut tables = OwnedTables::for_input(3);
    assert_eq!(tables.load_hashed(b"\x04\x08", MAX_LIMIT).map(|_| ()), Err(Refusal::ShortInput));
    let (lent, lists) = tables.lend();
    let short = load_hashed(b"\x04\x080", lent, lists, &mut [0; 2], MAX_LIMIT);
    assert_eq!(short.map(|_| ()), Err(Refusal::BadTables(Slice::Buckets)));

    // By owned tables a name takes few words, however many there are, of one length and of one beginning.
    let names: Vec<u8> = (0..8000).flat_map(|i| format!(":\x0dreg{i:05}").into_bytes()).collect();
    let input = [b"\x04\x08[\x02\x40\x1f".as_slice(), &names].concat();
    let (arena, looked) =
        OwnedTables::new(8002, 8000, 64000).load_hashed(&input, MAX_LIMIT).map(|(a, n)| (a.counts(), n)).unwrap();
    assert_eq!((arena.nodes, arena.bytes), (8002, 64000));
    assert!((8000..24000).contains(&looked), "{looked}");
}

// A walk that guards itself by handle meets each node once, also where an array is its own member.
#[test]
fn a_recipe_that_holds_itself() {
    // a hash whose default is the hash, in an array that holds itself twice
    let input = b"\x04\x08[\x08@\x00}\x06:\x06a@\x06@\x06@\x00";
    let mut tables = OwnedTables::for_input(input.len());
    let arena = tables.load(input, MAX_LIMIT).unwrap();
    let (mut seen, mut open, mut met) = (vec![false; arena.counts().nodes], vec![arena.root()], 0);
    while let Some(node) = open.pop() {
        if std::mem::replace(&mut seen[node.handle().index()], true) {
            continue;
        }
        met += 1;
        match node.value() {
            Value::Array(array) => open.extend(array),
            Value::Hash(hash) => {
                open.extend(hash.pairs().flat_map(|(key, value)| [key, value]));
                open.extend(hash.default_value());
            }
            _ => {}
        }
    }
    assert_eq!(met, 3);
    let root = arena.root().as_array().unwrap();
    assert_eq!(root.get(0).unwrap().handle(), root.handle());
    let hash = root.get(1).unwrap().as_hash().unwrap();
    assert_eq!(hash.default_value().unwrap().handle(), hash.handle());
    assert_eq!(arena.dump_to_vec(MAX_LIMIT).as_deref(), Ok(&input[..]));
}

// Every create function, the root, and what is then dumped; each function of `calls` is called once here.
#[test]
fn a_recipe_that_is_built() {
    let mut owned = OwnedTables::new(20, 20, 64);
    let mut builder = owned.builder().unwrap();
    assert!(builder.arena().root().is_nil());
    let nil = builder.create_nil().unwrap();
    let yes = builder.create_bool(true).unwrap();
    let number = builder.create_fixnum(-2_000_000_000).unwrap();
    let name = builder.create_symbol(b"sand").unwrap();
    assert_eq!(builder.create_symbol(b"sand"), Ok(name));
    let other = builder.create_new_symbol(b"sand").unwrap();
    assert_ne!(name, other);
    let text = builder.create_string(b"dry").unwrap();
    let float = builder.create_float(b"1.25").unwrap();
    let bignum = builder.create_bignum(-2_000_000_000_000).unwrap();
    let list = builder.create_array(&[nil, yes, number, float, bignum]).unwrap();
    let hash = builder.create_hash(&[[name, list], [other, text]], Some(nil)).unwrap();
    let user = builder.create_user_defined(name, b"\x01").unwrap();
    let object = builder.create_object(name, &[[other, hash], [name, user]]).unwrap();
    assert_eq!(builder.replace_root(object), Ok(Handle::new(0)));
    assert_eq!(builder.replace_class(hash, Some(name)), Ok(None));
    assert_eq!(builder.replace_class(text, Some(name)), Ok(None));
    assert_eq!(builder.replace_class(text, None), Ok(Some(name)));

    // Refusals leave the builder as it was.
    let counts = builder.counts();
    assert_eq!(builder.create_array(&[Handle::new(99)]), Err(Refusal::BadHandle(99)));
    assert_eq!(builder.create_hash(&[], Some(Handle::new(u32::MAX))), Err(Refusal::BadHandle(u32::MAX)));
    assert_eq!(builder.create_hash(&[], Some(Handle::new(77))), Err(Refusal::BadHandle(77)));
    assert_eq!(builder.create_object(text, &[]), Err(Refusal::WrongKind(text.number())));
    assert_eq!(builder.create_string(&[7; 65]), Err(Refusal::NoSpace(Slice::Bytes)));
    assert_eq!(builder.create_float(&[7; 65]), Err(Refusal::NoSpace(Slice::Bytes)));
    assert_eq!(builder.create_bignum(i64::MIN), Err(Refusal::TooBig(4)));
    assert_eq!(builder.create_array(&[nil; 21]), Err(Refusal::NoSpace(Slice::References)));
    assert_eq!(builder.replace_root(Handle::new(counts.nodes as u32)), Err(Refusal::BadHandle(counts.nodes as u32)));
    assert_eq!(builder.replace_class(Handle::new(99), Some(Handle::new(98))), Err(Refusal::BadHandle(99)));
    assert_eq!(builder.replace_class(object, Some(Handle::new(98))), Err(Refusal::BadHandle(98)));
    assert_eq!(builder.replace_class(object, None), Err(Refusal::WrongKind(object.number())));
    assert_eq!(builder.replace_class(list, Some(text)), Err(Refusal::WrongKind(text.number())));
    assert_eq!(builder.counts(), counts);
    assert!(format!("{builder:?}").starts_with("Builder { counts: Counts"));

    let arena = builder.into_arena();
    assert_eq!(arena.counts(), counts);
    assert_eq!(arena.root().as_object().unwrap().get(b"sand").unwrap().kind(), Kind::UserDefined);
    let (n, r, b) = (arena.node_table(), arena.reference_table(), arena.byte_table());
    assert_eq!((n.len(), r.len(), b.len(), arena.scratch_words()), (20 * NODE_WORDS, 20, 64, 20));
    assert_eq!(calls::root(n, r, b, counts), Ok(object.number()));
    assert_eq!(calls::kind(n, r, b, counts, hash.number()), Ok(5));
    assert_eq!(calls::kind(n, r, b, counts, float.number()), Ok(9));
    assert_eq!(calls::kind(n, r, b, counts, bignum.number()), Ok(10));
    assert_eq!(arena.node(bignum).and_then(Node::as_bignum), Some(-2_000_000_000_000));
    assert_eq!(calls::get(n, r, b, counts, number.number()), Ok([2, (-2_000_000_000_i32) as u32, 0, 0, 0, 0, 0, 0]));
    assert_eq!(arena.node(hash).and_then(Node::class), Some(&b"sand"[..]));
    assert_eq!(arena.node(hash).and_then(Node::class_node).map(Node::handle), Some(name));
    assert_eq!((arena.node(text).and_then(Node::class), arena.node(list).and_then(Node::class)), (None, None));
    let (start, length) = calls::get_symbol(n, r, b, counts, other.number()).unwrap();
    assert_eq!(&b[start as usize..][..length as usize], b"sand");
    assert_eq!(calls::get_symbol(n, r, b, counts, text.number()), Err(Refusal::WrongKind(text.number())));

    let bytes = arena.dump_to_vec(MAX_LIMIT).unwrap();
    let (mut scratch, mut output) = (vec![9; 20], vec![9; bytes.len()]);
    assert_eq!(arena.dump(&mut scratch, &mut output, MAX_LIMIT), Ok(&bytes[..]));
    assert_eq!(arena.dump(&mut scratch, &mut output[1..], MAX_LIMIT), Err(Refusal::NoSpace(Slice::Output)));
    assert_eq!(arena.dump(&mut scratch, &mut output, 2), Err(Refusal::TooDeep(2)));

    // The two symbols of one name are one in what is loaded.
    let mut again = OwnedTables::for_input(bytes.len());
    let (tables, lists) = again.lend();
    let mut builder = Builder::load(&bytes, tables, lists, MAX_LIMIT).unwrap();
    assert_eq!(builder.arena().nodes().filter(|node| node.kind() == Kind::Symbol).count(), 1);
    assert!(builder.create_nil().is_ok());
    let (tables, lists) = again.lend();
    assert_eq!(Builder::load(b"\x04", tables, lists, 1).map(|_| ()), Err(Refusal::ShortInput));
}

// The functions of `calls` that make nodes.
#[test]
fn the_calls_that_create() {
    let (mut n, mut r, mut b) = ([9; NODE_WORDS * 14], [9; 8], [9; 16]);
    let begun = calls::new(&mut n, &mut r, &mut b);
    assert_eq!((begun.answer, begun.counts), (Ok(()), Counts { nodes: 1, ..Counts::default() }));
    assert!(n.iter().chain(&r).all(|&word| word == 0) && b == [0; 16]);
    let mut c = begun.counts;
    let made = |created: calls::Created| {
        assert_eq!(created.answer, Ok(()));
        created
    };
    c = made(calls::create_nil(&mut n, &r, &b, c)).counts;
    c = made(calls::create_bool(&mut n, &r, &b, c, true)).counts;
    c = made(calls::create_fixnum(&mut n, &r, &b, c, i32::MIN)).counts;
    let symbol = made(calls::create_symbol(&mut n, &r, &mut b, c, b"ab"));
    c = made(calls::create_new_symbol(&mut n, &r, &mut b, symbol.counts, b"ab")).counts;
    c = made(calls::create_array(&mut n, &mut r, &b, c, &[0, 1, 2])).counts;
    c = made(calls::create_hash(&mut n, &mut r, &b, c, &[0, 1], 4)).counts;
    c = made(calls::create_object(&mut n, &mut r, &b, c, symbol.handle, &[symbol.handle, 3])).counts;
    c = made(calls::create_string(&mut n, &r, &mut b, c, b"xyz")).counts;
    let user = made(calls::create_user_defined(&mut n, &r, &mut b, c, symbol.handle, b""));
    let float = made(calls::create_float(&mut n, &r, &mut b, user.counts, b"-0.5"));
    let bignum = made(calls::create_bignum(&mut n, &r, &b, float.counts, true, 5, 6));
    c = made(calls::replace_root(&n, &r, &b, bignum.counts, 7)).counts;
    assert_eq!((c.nodes, c.references, c.bytes, c.root), (13, 7, 11, 7));
    let old = [symbol.handle + 1, 0].map(|class| made(calls::replace_class(&mut n, &r, &b, c, 9, class)));
    assert_eq!(old.map(|created| (created.handle, created.counts)), [(0, c), (symbol.handle + 1, c)]);
    assert_eq!(calls::get(&n, &r, &b, c, float.handle), Ok([9, 7, 4, 0, 0, 0, 0, 0]));
    assert_eq!(calls::get(&n, &r, &b, c, bignum.handle), Ok([10, 5, 6, 0, 1, 0, 0, 0]));
    let refused = calls::create_object(&mut n, &mut r, &b, c, 0, &[0]);
    assert_eq!((numbers(&refused.answer), refused.handle, refused.counts), ((1, 9, 0), 0, c));
    let arena = Arena::check(&n, &r, &b, c).unwrap();
    assert_eq!(arena.root().as_hash().unwrap().default_value().unwrap().as_fixnum(), Some(i32::MIN));
    assert_eq!(arena.nodes().nth_back(2).unwrap().as_user_defined().map(|user| user.name()), Some(&b"ab"[..]));
    assert_eq!(arena.nodes().nth_back(1).unwrap().as_float().map(|float| float.bytes()), Some(&b"-0.5"[..]));
    assert_eq!(arena.nodes().next_back().unwrap().as_bignum(), Some(-((6 << 32) + 5)));
}

// What nodes read as, and weighings: doubles to the bit, refusals in their order.
#[test]
fn readings_and_weighings() {
    let texts: &[(&[u8], Option<f64>)] = &[
        (b"0.25", Some(0.25)),
        (b"-0", Some(-0.0)),
        (b"0.3", Some(0.3)),
        (b"-12.50", Some(-12.5)),
        (b"0.5", Some(0.5)),
        (b"0.500000000000001", None), // 16 digits
        (b"0.50000000000001", Some(0.50000000000001)),
        (b"1e2", None), // 100.0 as Ruby writes it
        (b".5", None),
        (b"5.", None),
        (b"", None),
    ];
    let mut tables = OwnedTables::new(20, 0, 100);
    let mut builder = tables.builder().unwrap();
    let nil = builder.create_nil().unwrap();
    let kilograms = builder.create_fixnum(600).unwrap();
    let least = builder.create_fixnum(i32::MIN).unwrap();
    let one = builder.create_bignum(1).unwrap();
    let float: Vec<Handle> = texts.iter().map(|(text, _)| builder.create_float(text).unwrap()).collect();
    let arena = builder.arena();
    let bits = |x: f64| x.to_bits();
    for (&handle, (text, expected)) in float.iter().zip(texts) {
        match arena.reading(handle).unwrap() {
            Reading::Double(x) => assert_eq!(Some(bits(x)), expected.map(bits), "{text:?}"),
            other => assert_eq!((other, *expected), (Reading::NotANumber, None), "{text:?}"),
        }
    }
    assert_eq!(arena.reading(kilograms), Ok(Reading::Whole(600)));
    assert_eq!(arena.reading(least), Ok(Reading::Whole(i32::MIN)));
    assert_eq!((arena.reading(nil), arena.reading(one)), (Ok(Reading::NotANumber), Ok(Reading::NotANumber)));
    assert_eq!(arena.reading(Handle::new(99)), Err(Refusal::BadHandle(99)));

    let (quarter, zero, negative, half, more, round) = (float[0], float[1], float[3], float[4], float[6], float[7]);
    assert_eq!(arena.wet_weight(kilograms, quarter), Ok(Weighing { dry: 600.0, moisture: 0.25, wet: 800.0 }));
    assert_eq!(arena.wet_weight(kilograms, half), Ok(Weighing { dry: 600.0, moisture: 0.5, wet: 1200.0 }));
    let Weighing { dry, moisture, wet } = arena.wet_weight(zero, zero).unwrap();
    assert_eq!([dry, moisture, wet].map(bits), [bits(-0.0); 3]);
    let number = |handle: Handle| handle.number();
    let refused = |dry, moisture| arena.wet_weight(dry, moisture).unwrap_err();
    assert_eq!(refused(Handle::new(99), Handle::new(98)), Refusal::BadHandle(99));
    assert_eq!(refused(nil, Handle::new(98)), Refusal::BadHandle(98));
    // The dry node, its sign too, before the moisture node, and both before the moisture.
    assert_eq!(refused(nil, nil), Refusal::NotAWeight(number(nil)));
    assert_eq!(refused(negative, nil), Refusal::NotAWeight(number(negative)));
    assert_eq!(refused(round, quarter), Refusal::NotAWeight(number(round)));
    assert_eq!(refused(one, kilograms), Refusal::NotAWeight(number(one)));
    assert_eq!(refused(kilograms, nil), Refusal::NotAWeight(number(nil)));
    assert_eq!(refused(kilograms, negative), Refusal::BadMoisture);
    assert_eq!(refused(kilograms, more), Refusal::BadMoisture);
    assert_eq!(refused(kilograms, least), Refusal::BadMoisture);
}

// Recipes at prices: halves go up, line by line; pairs that are superseded; refusals in their order.
#[test]
fn costs() {
    let mut tables = OwnedTables::new(60, 2200, 20);
    let mut builder = tables.builder().unwrap();
    let nil = builder.create_nil().unwrap();
    let [a, b] = [b"a", b"b"].map(|name| builder.create_symbol(name).unwrap());
    let again = builder.create_new_symbol(b"a").unwrap(); // another node of the same name
    let [zero, one, half, more, most, least] =
        [0, 1, 500, 1500, i32::MAX, -1].map(|value| builder.create_fixnum(value).unwrap());
    let big = builder.create_bignum(1).unwrap();
    let float = builder.create_float(b"1").unwrap();
    let mut hash = |pairs: &[[Handle; 2]]| builder.create_hash(pairs, None).unwrap();
    let none = hash(&[]);
    let cents = hash(&[[b, one], [again, one]]);
    let halves = hash(&[[a, half], [b, half]]);
    let up = hash(&[[a, more]]);
    let nothing = hash(&[[a, zero]]);
    let replaced = hash(&[[a, most], [b, half], [again, half]]);
    let only_a = hash(&[[a, most], [again, one]]);
    let only_b = hash(&[[b, zero]]);
    let full = hash(&[[a, most]; MAX_RECIPE_PAIRS]);
    let over = hash(&[[a, most]; MAX_RECIPE_PAIRS + 1]);
    let [wrong_key, wrong_value, wrong_kind, wrong_text] =
        [[nil, least], [a, least], [a, big], [a, float]].map(|pair| hash(&[pair, [a, one], [nil, nil]]));
    let default = builder.create_hash(&[], Some(one)).unwrap();
    let arena = builder.arena();

    let cost = |recipe, prices| arena.batch_cost(recipe, prices);
    assert_eq!(cost(halves, cents), Ok(2)); // 0.5 and 0.5
    assert_eq!(cost(up, cents), Ok(2)); // 1.5
    assert_eq!((cost(nothing, cents), cost(up, nothing)), (Ok(0), Ok(0))); // a price of 0 is one
    assert_eq!(cost(cents, cents), Ok(0)); // 0.001 each
    assert_eq!(cost(halves, halves), Ok(500)); // one hash for both
    assert_eq!((cost(none, none), cost(none, over)), (Ok(0), Ok(0)));
    assert_eq!(cost(replaced, cents), Ok(2)); // b and the second a
    assert_eq!(cost(up, only_a), Ok(2)); // the second price
    assert_eq!(cost(full, full), Ok(4611686014132421)); // the last pair's; a greater line there is not
    assert_eq!(cost(full, over), cost(full, full)); // prices are any number of pairs

    let number = |handle: Handle| handle.number();
    let refused = |recipe, prices| arena.batch_cost(recipe, prices).unwrap_err();
    assert_eq!(refused(Handle::new(99), Handle::new(98)), Refusal::BadHandle(99));
    assert_eq!(refused(nil, Handle::new(98)), Refusal::BadHandle(98));
    // The recipe whole before the prices; the number of pairs before the pairs, in a pair the key before the value; pairs that
    // are superseded too.
    assert_eq!(refused(nil, a), Refusal::NotARecipe(number(nil)));
    assert_eq!(refused(none, a), Refusal::NotARecipe(number(a)));
    assert_eq!(refused(over, over), Refusal::NotARecipe(number(over)));
    assert_eq!(refused(wrong_key, nil), Refusal::NotARecipe(number(nil)));
    assert_eq!(refused(wrong_value, wrong_kind), Refusal::NotARecipe(number(least)));
    assert_eq!(refused(wrong_kind, wrong_value), Refusal::NotARecipe(number(big)));
    assert_eq!(refused(up, wrong_text), Refusal::NotARecipe(number(float)));
    // The first pair that is not superseded and has no price, by its own key; a default is none.
    assert_eq!(refused(halves, none), Refusal::NoPrice(number(a)));
    assert_eq!(refused(replaced, none), Refusal::NoPrice(number(b)));
    assert_eq!(refused(replaced, only_b), Refusal::NoPrice(number(again)));
    assert_eq!(refused(nothing, default), Refusal::NoPrice(number(a)));
    assert_eq!(refused(halves, wrong_value), Refusal::NotARecipe(number(least)));
}

#[test]
fn lent_tables_are_lent_again() {
    let (mut nodes, mut references, mut bytes) = ([0; 3 * NODE_WORDS], [0; 4], [0; 8]);
    let (mut symbols, mut objects) = ([0; 3], [0; 3]);
    let mut tables = Tables { nodes: &mut nodes, references: &mut references, bytes: &mut bytes };
    let mut lists = Lists { symbols: &mut symbols, objects: &mut objects };
    for input in [&b"\x04\x08:\x06a"[..], b"\x04\x08", b"\x04\x08[\x060"] {
        let arena = load(input, tables.lend(), lists.lend(), 2);
        assert_eq!(arena.is_ok(), input.len() > 2);
    }
    let arena = load(b"\x04\x08[\x060", tables, lists, 2).unwrap();
    assert!(arena.root().as_array().unwrap().get(0).unwrap().is_nil());
}

// Each refusal of a load, with its details, name and text; and BAD-ARENA, whose node the archive names.
#[test]
fn refusals() {
    let load_refused = |input: &[u8], limit: u32| {
        OwnedTables::new(3, 2, 2).load(input, limit).map(|arena| arena.counts()).expect_err("a refusal")
    };
    let cases: &[(&[u8], u32, Refusal, &str)] = &[
        (b"\x04\x080", 129, Refusal::BadTables(Slice::Limit), "wrong size: limit"),
        (b"\x04\x090", 1, Refusal::InvalidVersion { major: 4, minor: 9 }, "version 4.9, not 4.0 to 4.8"),
        (b"\x04\x08i", 1, Refusal::ShortInput, "the input ends too early"),
        (b"\x04\x08?", 1, Refusal::InvalidKind(b'?'), "unknown kind byte 3F"),
        (b"\x04\x08C:\x06a0", 1, Refusal::NotWrappable(b'0'), "a class on kind byte 30"),
        (b"\x04\x08[\xfa", 1, Refusal::NegativeCount(-1), "a length, count or index of -1"),
        (b"\x04\x08[\xfc\x00\x00\x00\x80", 1, Refusal::NegativeCount(i32::MIN), "a length, count or index of -2147483648"),
        (b"\x04\x08;\x06", 1, Refusal::MissingSymbol(1), "no symbol 1 so far"),
        (b"\x04\x08@\x07", 1, Refusal::MissingObject(2), "no object 2 so far"),
        (b"\x04\x08o0", 1, Refusal::NotASymbol(b'0'), "kind byte 30 where a symbol is wanted"),
        (b"\x04\x08I0\x00", 2, Refusal::NotAnObject, "instance variables on a value that takes none"),
        (b"\x04\x08[\x060", 1, Refusal::TooDeep(1), "more than 1 levels"),
        (b"\x04\x08[\x08", 1, Refusal::NoSpace(Slice::References), "no space: references"),
        (b"\x04\x08:\x08abc", 1, Refusal::NoSpace(Slice::Bytes), "no space: bytes"),
        (b"\x04\x08[\x0700", 2, Refusal::NoSpace(Slice::Nodes), "no space: nodes"),
        (b"\x04\x08l*", 1, Refusal::BadSign(b'*'), "sign byte 2A, neither + nor -"),
        (b"\x04\x08l+\x0a", 1, Refusal::TooBig(5), "a bignum of 5 units is too big"),
        (b"\x04\x08l-\x09\0\0\0\0\0\0\0\x80", 1, Refusal::TooBig(4), "a bignum of 4 units is too big"),
        (b"\x04\x08i\x04\xff\xff\xff\xff", 1, Refusal::WrongSign(4), "size byte 04 on an integer of the other sign"),
        (b"\x04\x08@\xfc\xff\xff\xff\x7f", 1, Refusal::WrongSign(0xfc), "size byte FC on an integer of the other sign"),
    ];
    for &(input, limit, expected, text) in cases {
        let refusal = load_refused(input, limit);
        assert_eq!((refusal, refusal.to_string().as_str()), (expected, text));
        let error: Box<dyn Error> = refusal.into();
        assert_eq!(error.to_string(), text);
    }
    let names = [
        (Refusal::BadTables(Slice::Nodes), "BAD-TABLES", 1, (1, 0)),
        (Refusal::BadArena(Fault::Counts), "BAD-ARENA", 2, (-1, 0)),
        (Refusal::BadArena(Fault::Node(7)), "BAD-ARENA", 2, (7, 0)),
        (Refusal::InvalidVersion { major: 4, minor: 9 }, "INVALID-VERSION", 3, (4, 9)),
        (Refusal::ShortInput, "SHORT-INPUT", 4, (0, 0)),
        (Refusal::InvalidKind(1), "INVALID-KIND", 5, (1, 0)),
        (Refusal::NegativeCount(-5), "NEGATIVE-COUNT", 6, (-5, 0)),
        (Refusal::MissingSymbol(3), "MISSING-SYMBOL", 7, (3, 0)),
        (Refusal::MissingObject(3), "MISSING-OBJECT", 8, (3, 0)),
        (Refusal::NotASymbol(3), "NOT-A-SYMBOL", 9, (3, 0)),
        (Refusal::NotAnObject, "NOT-AN-OBJECT", 10, (0, 0)),
        (Refusal::TooDeep(64), "TOO-DEEP", 11, (64, 0)),
        (Refusal::NoSpace(Slice::Scratch), "NO-SPACE", 12, (10, 0)),
        (Refusal::BadHandle(u32::MAX), "BAD-HANDLE", 13, (4294967295, 0)),
        (Refusal::WrongKind(2), "WRONG-KIND", 14, (2, 0)),
        (Refusal::BadSign(0xff), "BAD-SIGN", 15, (255, 0)),
        (Refusal::TooBig(5), "TOO-BIG", 16, (5, 0)),
        (Refusal::NotAWeight(2), "NOT-A-WEIGHT", 17, (2, 0)),
        (Refusal::BadMoisture, "BAD-MOISTURE", 18, (0, 0)),
        (Refusal::WrongSign(252), "WRONG-SIGN", 19, (252, 0)),
        (Refusal::NotARecipe(2), "NOT-A-RECIPE", 20, (2, 0)),
        (Refusal::NoPrice(2), "NO-PRICE", 21, (2, 0)),
        (Refusal::NotWrappable(b'0'), "NOT-WRAPPABLE", 22, (48, 0)),
    ];
    for (refusal, name, number, details) in names {
        assert_eq!((refusal.name(), refusal.number(), refusal.details()), (name, number, details));
        assert!(!refusal.to_string().is_empty());
    }
    let counts = Counts { nodes: 2, ..Counts::default() };
    let check = |nodes: &[u32], counts| Arena::check(nodes, &[], &[], counts).map(|arena| arena.counts());
    assert_eq!(check(&[0; 2 * NODE_WORDS], counts), Ok(counts));
    assert_eq!(check(&[0; NODE_WORDS], counts), Err(Refusal::BadArena(Fault::Counts)));
    let second = |words: [u32; NODE_WORDS]| check(&[[0; NODE_WORDS], words].concat(), counts);
    let faulty = Err(Refusal::BadArena(Fault::Node(1)));
    assert_eq!(second([99, 0, 0, 0, 0, 0, 0, 0]), faulty);
    // A Float has bytes within the count, and nothing else.
    assert_eq!(second([9, 0, 0, 0, 0, 0, 0, 0]), Ok(counts));
    for words in [[9, 0, 1, 0, 0, 0, 0, 0], [9, 0, 0, 0, 0, 0, 1, 0], [9, 0, 0, 0, 0, 0, 0, 1]] {
        assert_eq!(second(words), faulty, "{words:?}");
    }
    // A Bignum's magnitude is below 2^63, zero is plus, and the other words are 0.
    let bignum = |[low, high, list, sign, name, last, class]: [u32; 7]| second([10, low, high, list, sign, name, last, class]);
    for words in [[u32::MAX, (1 << 31) - 1, 0, 1, 0, 0, 0], [0; 7], [0, 1, 0, 1, 0, 0, 0], [1, 0, 0, 1, 0, 0, 0]] {
        assert_eq!(bignum(words), Ok(counts), "{words:?}");
    }
    let high = [0, 1 << 31, 0, 0, 0, 0, 0];
    let unused = [[1, 0, 1, 0, 0, 0, 0], [1, 0, 0, 0, 1, 0, 0], [1, 0, 0, 0, 0, 1, 0], [1, 0, 0, 0, 0, 0, 1]];
    for words in [high, [0, 0, 0, 1, 0, 0, 0], [1, 0, 0, 2, 0, 0, 0]].into_iter().chain(unused) {
        assert_eq!(bignum(words), faulty, "{words:?}");
    }
    // An array, a hash and a string may have a class, which is a symbol below the count; an object has none.
    let classed = |kind, class| check(&[[3, 0, 0, 0, 0, 0, 0, 0], [kind, 0, 0, 0, 0, 0, 0, class]].concat(), counts);
    for kind in [4, 5, 7] {
        assert_eq!((classed(kind, 0), classed(kind, 1)), (Ok(counts), Ok(counts)), "kind {kind}");
        assert_eq!((classed(kind, 2), classed(kind, 3)), (faulty, faulty), "kind {kind}");
        assert_eq!(classed(kind, u32::MAX), faulty, "kind {kind}");
    }
    assert_eq!((classed(6, 0), classed(6, 1)), (Ok(counts), faulty));
}
