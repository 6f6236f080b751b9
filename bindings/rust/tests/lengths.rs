//! Slices of every wrong length: each is named, the lowest first, and nothing is touched then.
mod common;

use common::{junk, junk_bytes};
use ruby_marshal_tables::{calls, Arena, Builder, Counts, Lists, Measures, Reading, Refusal, Slice, Tables, NODE_WORDS};

const INPUT: &[u8] = b"\x04\x08[\x07:\x06a\"\x06b";
const COUNTS: Counts = Counts { nodes: 1, references: 0, bytes: 0, root: 0 };

// What the rule names of a node table of that many words.
fn wrong_nodes(words: usize) -> bool {
    words == 0 || !words.is_multiple_of(NODE_WORDS)
}

// A load into tables of these lengths: the first item that has no room is named, in the order in which load meets it.
fn expected(nodes: usize, references: usize, bytes: usize, symbols: usize, objects: usize) -> Result<(), Refusal> {
    let items = [
        (nodes >= 2 * NODE_WORDS, Slice::Nodes), // the array
        (objects >= 1, Slice::Objects),
        (references >= 2, Slice::References),
        (bytes >= 1, Slice::Bytes), // the symbol
        (nodes >= 3 * NODE_WORDS, Slice::Nodes),
        (symbols >= 1, Slice::Symbols),
        (bytes >= 2, Slice::Bytes), // the string
        (nodes >= 4 * NODE_WORDS, Slice::Nodes),
        (objects >= 2, Slice::Objects),
    ];
    items.iter().find(|(room, _)| !room).map_or(Ok(()), |&(_, slice)| Err(Refusal::NoSpace(slice)))
}

// The three tables and the two lists of a load.
type Lent = (Vec<u32>, Vec<u32>, Vec<u8>, Vec<u32>, Vec<u32>);

// load_hashed with a bucket table around the fewest words that are allowed: what load answers and leaves, and one word looked
// at, or the bucket table is refused, after the node table.
fn hashed_into_every_length(before: &Lent, loaded: &calls::Loaded, left: &Lent) {
    let nodes = before.0.len() / NODE_WORDS;
    for words in nodes.saturating_sub(2)..=nodes + 2 {
        let (mut lent, mut buckets) = (before.clone(), junk(words));
        let (n, r, b, s, o) = (&mut lent.0, &mut lent.1, &mut lent.2, &mut lent.3, &mut lent.4);
        let hashed = calls::load_hashed(INPUT, n, r, b, s, o, &mut buckets, 2);
        assert_eq!(hashed.looked, u64::from(hashed.load.answer.is_ok()));
        if words < nodes && !wrong_nodes(before.0.len()) {
            assert_eq!(hashed.load.answer, Err(Refusal::BadTables(Slice::Buckets)));
            assert_eq!((hashed.load.counts, hashed.load.used), (Counts::default(), 0));
        } else {
            assert_eq!(hashed.load, *loaded);
        }
        if matches!(hashed.load.answer, Err(Refusal::BadTables(_))) {
            assert!(lent == *before && buckets == junk(words));
        } else {
            assert!(lent == *left && buckets.iter().all(|&word| word == 0));
        }
    }
}

#[test]
fn load_into_every_length() {
    let mut calls_made = 0;
    for nodes in (0..=33).chain([40, 41]) {
        for references in 0..=3 {
            for bytes in 0..=3 {
                for (symbols, objects) in [(0, 0), (0, 2), (1, 0), (1, 1), (1, 2), (2, 3)] {
                    let before = (junk(nodes), junk(references), junk_bytes(bytes), junk(symbols), junk(objects));
                    let mut lent = before.clone();
                    let (n, r, b, s, o) = (&mut lent.0, &mut lent.1, &mut lent.2, &mut lent.3, &mut lent.4);
                    let loaded = calls::load(INPUT, n, r, b, s, o, 2);
                    let mut other = before.clone();
                    let (n, r, b, s, o) = (&mut other.0, &mut other.1, &mut other.2, &mut other.3, &mut other.4);
                    let measured = calls::load_measured(INPUT, n, r, b, s, o, 2);
                    let copied = if loaded.answer.is_ok() { 2 } else { 0 };
                    assert_eq!((measured.load, measured.measures), (loaded, Measures { copied, compared: 0 }));
                    assert!(other == lent);
                    hashed_into_every_length(&before, &loaded, &lent);
                    calls_made += 1;
                    assert_eq!(loaded.dump_form, loaded.answer.is_ok());
                    if wrong_nodes(nodes) {
                        assert_eq!(loaded.answer, Err(Refusal::BadTables(Slice::Nodes)));
                        assert_eq!((loaded.counts, loaded.used), (Counts::default(), 0));
                        assert!(lent == before);
                    } else {
                        assert_eq!(loaded.answer, expected(nodes, references, bytes, symbols, objects));
                        assert!(lent.3.iter().chain(&lent.4).all(|&word| word == 0));
                        if loaded.answer.is_err() {
                            assert_eq!((loaded.counts, loaded.used), (COUNTS, 0));
                            assert!(
                                lent.0.iter().chain(&lent.1).all(|&word| word == 0) && lent.2.iter().all(|&byte| byte == 0)
                            );
                        }
                        // The same through lent tables.
                        let mut again = before.clone();
                        let tables = Tables { nodes: &mut again.0, references: &mut again.1, bytes: &mut again.2 };
                        let lists = Lists { symbols: &mut again.3, objects: &mut again.4 };
                        assert_eq!(ruby_marshal_tables::load(INPUT, tables, lists, 2).map(|_| ()), loaded.answer);
                    }
                }
            }
        }
    }
    println!("load: {calls_made} combinations of lengths");
}

#[test]
fn limits() {
    for limit in [0, 1, 2, 127, 128, 129, 1 << 31, u32::MAX] {
        let (mut n, mut r, mut b, mut s, mut o) = ([0; 4 * NODE_WORDS], [0; 2], [0; 2], [0; 1], [0; 2]);
        let expected = match limit {
            0 | 1 => Err(Refusal::TooDeep(limit)),
            2..=128 => Ok(()),
            _ => Err(Refusal::BadTables(Slice::Limit)),
        };
        let loaded = calls::load(INPUT, &mut n, &mut r, &mut b, &mut s, &mut o, limit);
        assert_eq!(loaded.answer, expected);
        // The limit comes before the bucket table.
        for (words, short) in [(4, false), (3, true)] {
            let (mut n, mut r, mut b, mut buckets) = ([0; 4 * NODE_WORDS], [0; 2], [0; 2], vec![0; words]);
            let hashed = calls::load_hashed(INPUT, &mut n, &mut r, &mut b, &mut s, &mut o, &mut buckets, limit);
            let refused = short && expected != Err(Refusal::BadTables(Slice::Limit));
            assert_eq!(hashed.load.answer, if refused { Err(Refusal::BadTables(Slice::Buckets)) } else { expected });
        }
        let (mut n, mut r, mut b) = ([0; 4 * NODE_WORDS], [0; 2], [0; 2]);
        calls::load(INPUT, &mut n, &mut r, &mut b, &mut s, &mut o, 2).answer.unwrap();
        let (mut scratch, mut output) = ([0; 4], [0; 64]);
        let counts = Counts { nodes: 4, references: 2, bytes: 2, root: 1 };
        assert_eq!(calls::dump(&n, &r, &b, counts, &mut scratch, &mut output, limit).map(|_| ()), expected);
    }
}

// dump: the node table by its rule, scratch by the node table, the output by what is written.
#[test]
fn dump_from_and_into_every_length() {
    let mut calls_made = 0;
    for words in 0..=33 {
        let nodes = vec![0; words];
        for scratch in 0..=6 {
            for output in 0..=5 {
                let before = (junk(scratch), junk_bytes(output));
                let mut lent = before.clone();
                let dumped = calls::dump(&nodes, &[], &[], COUNTS, &mut lent.0, &mut lent.1, 1);
                calls_made += 1;
                let expected = if wrong_nodes(words) {
                    Err(Refusal::BadTables(Slice::Nodes))
                } else if scratch < words / NODE_WORDS {
                    Err(Refusal::BadTables(Slice::Scratch))
                } else if output < 3 {
                    Err(Refusal::NoSpace(Slice::Output))
                } else {
                    Ok(3)
                };
                assert_eq!(dumped, expected);
                if matches!(dumped, Err(Refusal::BadTables(_))) {
                    assert!(lent == before);
                } else {
                    assert!(lent.0.iter().all(|&word| word == 0));
                    assert_eq!(lent.1.get(..3) == Some(b"\x04\x080"), dumped.is_ok());
                }
            }
        }
    }
    println!("dump: {calls_made} combinations of lengths");
}

// Getters and builders: the node table by its rule, counts by the tables, odd pair lists.
#[test]
fn getters_and_builders_over_every_length() {
    let mut calls_made = 0;
    for words in 0..=25 {
        let wrong = wrong_nodes(words);
        let bad = Err(Refusal::BadTables(Slice::Nodes));
        let mut n = vec![0; words];
        let (mut r, mut b) = ([0; 2], [0; 2]);
        let nodes = words / NODE_WORDS;
        let c = COUNTS;
        assert_eq!(calls::root(&n, &r, &b, c), if wrong { bad } else { Ok(0) });
        assert_eq!(calls::kind(&n, &r, &b, c, 0), if wrong { bad } else { Ok(0) });
        assert_eq!(
            calls::get(&n, &r, &b, c, 0),
            if wrong { Err(Refusal::BadTables(Slice::Nodes)) } else { Ok([0; NODE_WORDS]) }
        );
        let symbol = calls::get_symbol(&n, &r, &b, c, 0);
        assert_eq!(symbol, Err(if wrong { Refusal::BadTables(Slice::Nodes) } else { Refusal::WrongKind(0) }));
        let reading = calls::reading(&n, &r, &b, c, 0);
        assert_eq!(reading, if wrong { Err(Refusal::BadTables(Slice::Nodes)) } else { Ok(Reading::NotANumber) });
        let weighed = calls::wet_weight(&n, &r, &b, c, 0, 1);
        assert_eq!(weighed, Err(if wrong { Refusal::BadTables(Slice::Nodes) } else { Refusal::BadHandle(1) }));
        let cost = calls::batch_cost(&n, &r, &b, c, 0, 0);
        assert_eq!(cost, Err(if wrong { Refusal::BadTables(Slice::Nodes) } else { Refusal::NotARecipe(0) }));
        let room = if wrong {
            Err(Refusal::BadTables(Slice::Nodes))
        } else if nodes == 1 {
            Err(Refusal::NoSpace(Slice::Nodes))
        } else {
            Ok(())
        };
        assert_eq!(calls::create_nil(&mut n.clone(), &r, &b, c).answer, room);
        assert_eq!(calls::create_bool(&mut n.clone(), &r, &b, c, false).answer, room);
        assert_eq!(calls::create_fixnum(&mut n.clone(), &r, &b, c, 1).answer, room);
        assert_eq!(calls::create_symbol(&mut n.clone(), &r, &mut b, c, b"").answer, room);
        assert_eq!(calls::create_new_symbol(&mut n.clone(), &r, &mut b, c, b"").answer, room);
        assert_eq!(calls::create_string(&mut n.clone(), &r, &mut b, c, b"ab").answer, room);
        assert_eq!(calls::create_float(&mut n.clone(), &r, &mut b, c, b"1.").answer, room);
        assert_eq!(calls::create_bignum(&mut n.clone(), &r, &b, c, true, 0, 1 << 30).answer, room);
        let big = if wrong { room } else { Err(Refusal::TooBig(4)) };
        assert_eq!(calls::create_bignum(&mut n.clone(), &r, &b, c, false, 0, 1 << 31).answer, big);
        assert_eq!(calls::create_array(&mut n.clone(), &mut r, &b, c, &[0, 0]).answer, room);
        for pairs in 0..=3 {
            let list = vec![0; pairs];
            let odd = |answer| if !wrong && pairs % 2 == 1 { Err(Refusal::BadTables(Slice::List)) } else { answer };
            assert_eq!(calls::create_hash(&mut n.clone(), &mut r, &b, c, &list, 0).answer, odd(room));
            let object = if wrong { room } else { Err(Refusal::WrongKind(0)) };
            assert_eq!(calls::create_object(&mut n.clone(), &mut r, &b, c, 0, &list).answer, odd(object));
            calls_made += 2;
        }
        let user = if wrong { room } else { Err(Refusal::WrongKind(0)) };
        assert_eq!(calls::create_user_defined(&mut n.clone(), &r, &mut b, c, 0, b"").answer, user);
        let root = calls::replace_root(&n, &r, &b, c, 1);
        assert_eq!(root.answer, Err(if wrong { Refusal::BadTables(Slice::Nodes) } else { Refusal::BadHandle(1) }));
        assert_eq!((root.handle, root.counts), (0, c));
        let class = calls::replace_class(&mut n.clone(), &r, &b, c, 0, 0);
        assert_eq!((class.answer, class.handle, class.counts), (user, 0, c));
        // Counts past each table.
        if !wrong {
            let past = [
                Counts { nodes: 0, ..c },
                Counts { nodes: nodes + 1, ..c },
                Counts { references: 3, ..c },
                Counts { bytes: 3, ..c },
                Counts { root: 1, ..c },
                Counts { nodes: usize::MAX, references: usize::MAX, bytes: usize::MAX, root: u32::MAX },
            ];
            for counts in past {
                assert_eq!(Arena::check(&n, &r, &b, counts).map(|_| ()).unwrap_err().details(), (-1, 0));
                calls_made += 1;
            }
        }
        let begun = Builder::new(Tables { nodes: &mut n, references: &mut r, bytes: &mut b }).map(|_| ());
        assert_eq!(begun, if wrong { Err(Refusal::BadTables(Slice::Nodes)) } else { Ok(()) });
        calls_made += 21;
    }
    println!("getters and builders: {calls_made} calls");
}
