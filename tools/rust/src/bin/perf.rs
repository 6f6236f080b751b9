// Times load and dump of the Rattle crates and of the Rust crate on the same inputs, and a walk over what they filled, in one
// run; rounds of the two alternate. Beside load stands what it does at least: tables and lists set to zero and the input copied.
// The measuring and the hashed load stand beside load.
// Floats, Bignums and classes, which the Rust refuses, are run by ours alone, and beside them the same recipes with strings in
// their place, or in no class.
//
// usage: perf                    the tables of times
//        perf names              the bytes that a load copies and compares for recipes of 10, 100 and 1,000 names
//        perf hashed             load, the hashed load and the Rust on 10 to 30,000 names, with the words looked at per name
//        perf cost               what recipes of 10, 100 and 512 pairs cost at 1,000 prices, beside a hash map over the views
//        perf deep CALL KIND     one load, the hashed one where CALL is hashed, and one dump where it is dump, at limit 128 of
//                                128 levels of arrays, hashes, defaults, objects or variables, or of nil alone (for trials of
//                                the stack)
use beside_rust::inputs::*;
use beside_rust::measure::{counted, Counted};
use beside_rust::walk;
use beside_rust::Tables;
use ruby_marshal_tables::{Node, Value, NODE_WORDS};
use std::collections::HashMap;
use std::hint::black_box;
use std::time::Instant;

const LIMIT: u32 = 128;

const ROUNDS: usize = 15;

// The least time of each call in nanoseconds; rounds of the calls alternate.
fn times<const N: usize>(calls: [&mut dyn FnMut(); N]) -> [f64; N] {
    times_of(ROUNDS, calls)
}

fn times_of<const N: usize>(rounds: usize, calls: [&mut dyn FnMut(); N]) -> [f64; N] {
    let mut least = [f64::MAX; N];
    let start = Instant::now();
    calls[N - 1]();
    let turns = (20_000_000 / start.elapsed().as_nanos().max(1) as usize).clamp(1, 20000);
    for _ in 0..rounds {
        for i in 0..N {
            let t = Instant::now();
            for _ in 0..turns {
                calls[i]();
            }
            least[i] = least[i].min(t.elapsed().as_nanos() as f64 / turns as f64);
        }
    }
    least
}

// Tables that the input just fills: one entry of a list for each node, two references and eight bytes, more where it has more.
fn tables(input: &[u8]) -> Tables {
    let mut tables = Tables::ample(input.len());
    assert_eq!(tables.load(input, LIMIT).number, 0);
    assert_eq!(tables.used, input.len());
    let [n, references, bytes, _] = tables.counts;
    Tables::new(n, references.max(n * 2), bytes.max(n * 8), input.len())
}

// load and the hashed load, which has two words of the bucket table for each node.
fn load_row(name: &str, input: &[u8]) {
    let (mut tables, mut hashing) = (tables(input), tables_with_buckets(input, 2));
    let mut yardstick = tables_filled(input);
    let nodes = yardstick.counts[0];
    let mut copy = vec![0; input.len()];
    let mut ours = || {
        black_box(tables.load(black_box(input), LIMIT));
    };
    let mut hashed = || {
        black_box(hashing.load_hashed(black_box(input), LIMIT));
    };
    let mut least = || {
        black_box(&mut yardstick).zero_and_copy(black_box(input), black_box(&mut copy));
        black_box(&yardstick);
        black_box(&copy);
    };
    let row = format!("{:<24}{:>9}{:>9}", name, input.len(), nodes);
    if ruby_marshal::load(input).is_err() {
        let [least, hashed, ours] = times([&mut least, &mut hashed, &mut ours]).map(|t| t / 1000.0);
        println!("{row}{ours:>11.2}{hashed:>11.2}{least:>15.2}");
        return;
    }
    let [ours, hashed, least, theirs] = times([&mut ours, &mut hashed, &mut least, &mut || {
        black_box(ruby_marshal::load(black_box(input)).unwrap());
    }])
    .map(|t| t / 1000.0);
    println!("{row}{ours:>11.2}{hashed:>11.2}{least:>15.2}{theirs:>11.2}{:>8.2}{:>8.2}", theirs / ours, theirs / hashed);
}

// The measuring load beside load.
fn measured_row(name: &str, input: &[u8]) {
    let (mut plain, mut measuring) = (tables(input), tables(input));
    let mut load = || {
        black_box(plain.load(black_box(input), LIMIT));
    };
    let [load, measured] = times([&mut load, &mut || {
        black_box(measuring.load_measured(black_box(input), LIMIT));
    }]);
    println!(
        "{:<24}{:>9}{:>11.2}{:>11.2}{:>8.2}{:>16}",
        name, input.len(), load / 1000.0, measured / 1000.0, measured / load, measuring.measures.compared
    );
}

// Tables that the input just fills, with so many words of the bucket table for each node.
fn tables_with_buckets(input: &[u8], words: usize) -> Tables {
    let mut tables = tables(input);
    tables.buckets = vec![0; tables.nodes.len() / NODE_WORDS * words];
    tables
}

// The hashed load beside load, with one and with two words of the bucket table for each node.
fn hashed_row(name: &str, input: &[u8]) {
    let (mut plain, mut one, mut two) = (tables(input), tables_with_buckets(input, 1), tables_with_buckets(input, 2));
    let mut load = || {
        black_box(plain.load(black_box(input), LIMIT));
    };
    let mut by_one = || {
        black_box(one.load_hashed(black_box(input), LIMIT));
    };
    let [load, by_one, by_two] = times([&mut load, &mut by_one, &mut || {
        black_box(two.load_hashed(black_box(input), LIMIT));
    }]);
    println!(
        "{:<24}{:>9}{:>11.2}{:>11.2}{:>8.2}{:>11.2}{:>8.2}{:>9}",
        name, input.len(), load / 1000.0, by_one / 1000.0, by_one / load, by_two / 1000.0, by_two / load, one.looked
    );
}

// Recipes of many names, each written out once, and an array of nothing else, which fills a bucket table of a word a node. load
// takes seconds for the most, so that few rounds do.
fn many_names_table() {
    const FEW: usize = 3;
    println!(
        "{:<34}{:>9}{:>9}{:>12}{:>12}{:>8}{:>12}{:>8}{:>11}",
        "names", "number", "bytes", "load µs", "1 word µs", "looked", "2 words µs", "looked", "Rust µs"
    );
    for (place, input_of) in [("recipe", hash_of as fn(&[String]) -> Vec<u8>), ("array", array_of)] {
        for (kind, name) in MANY {
            for n in [10, 100, 1000, 8000, 30_000] {
                let input = input_of(&(0..n).map(name).collect::<Vec<_>>());
                let mut plain = tables(&input);
                let mut hashed = [1, 2].map(|words| tables_with_buckets(&input, words));
                let looked = hashed.each_mut().map(|tables| {
                    assert_eq!(tables.load_hashed(&input, LIMIT).number, 0);
                    let Tables { used, looked, .. } = *tables;
                    assert_eq!(counted(&input, tables.buckets.len()).map(|c| (c.used, c.looked)), Some((used, looked)));
                    looked as f64 / n as f64
                });
                let [one, two] = &mut hashed;
                let mut load = || {
                    black_box(plain.load(black_box(&input), LIMIT));
                };
                let mut by_one = || {
                    black_box(one.load_hashed(black_box(&input), LIMIT));
                };
                let mut by_two = || {
                    black_box(two.load_hashed(black_box(&input), LIMIT));
                };
                let [by_one, by_two, theirs] = times([&mut by_one, &mut by_two, &mut || {
                    black_box(ruby_marshal::load(black_box(&input[..])).unwrap());
                }]);
                let [load] = times_of(FEW, [&mut load]);
                println!(
                    "{:<34}{:>9}{:>9}{:>12.1}{:>12.1}{:>8.2}{:>12.1}{:>8.2}{:>11.1}",
                    format!("{place}, {kind}"), n, input.len(), load / 1000.0,
                    by_one / 1000.0, looked[0], by_two / 1000.0, looked[1], theirs / 1000.0
                );
            }
        }
    }
}

// The bytes copied and compared where each name stands in two recipes, in the second written out again or by link.
fn names_table() {
    println!("{:<24}{:>7}{:>12}{:>18}{:>18}", "names", "number", "copied", "compared, by :", "compared, by ;");
    for (kind, name) in NAMINGS {
        for n in [10, 100, 1000] {
            let names: Vec<String> = (0..n).map(name).collect();
            let [again, linked] = [false, true].map(|linked| {
                let input = repeated(&names, linked);
                let mut tables = Tables::ample(input.len());
                assert_eq!(tables.load_measured(&input, LIMIT).number, 0);
                let Tables { used, measures, .. } = tables;
                assert!(matches!(counted(&input, tables.buckets.len()), Some(c) if c == Counted { used, measures, ..c }));
                tables.measures
            });
            assert_eq!(again.copied, linked.copied);
            println!("{:<24}{:>7}{:>12}{:>18}{:>18}", kind, n, again.copied, again.compared, linked.compared);
        }
    }
}

// What a recipe costs at prices, by a hash map of the names: a later pair supersedes an earlier one, a half cent goes up.
fn cost_by_map(recipe: Node, prices: Node) -> u64 {
    let [kilograms, cents] = [recipe, prices].map(|node| match node.value() {
        Value::Hash(hash) => hash
            .pairs()
            .map(|(key, value)| match (key.value(), value.value()) {
                (Value::Symbol(name), Value::Fixnum(amount)) => (name, amount as u64),
                _ => panic!("a symbol and a Fixnum"),
            })
            .collect::<HashMap<_, _>>(),
        _ => panic!("a hash"),
    });
    kilograms.iter().map(|(name, n)| (n * cents[name] + 500) / 1000).sum()
}

// The recipe's names come first among the prices, so that a search from the last price on meets nearly all of them.
fn cost_table() {
    println!("{:<24}{:>7}{:>8}{:>11}{:>11}{:>13}", "batch_cost", "pairs", "prices", "ours µs", "its check", "hash map µs");
    for (kind, name) in NAMINGS {
        let names: Vec<String> = (0..1000).map(name).collect();
        for n in [10, 100, 512] {
            let input = batch(&names, n);
            let mut tables = Tables::ample(input.len());
            assert_eq!(tables.load(&input, LIMIT).number, 0);
            let arena = tables.arena().expect("an arena that load filled");
            let Value::Array(root) = arena.root().value() else { panic!("an array") };
            let [recipe, prices] = [0, 1].map(|i| root.get(i).expect("a hash"));
            assert_eq!(arena.batch_cost(recipe.handle(), prices.handle()), Ok(cost_by_map(recipe, prices)));
            let mut ours = || {
                black_box(black_box(&arena).batch_cost(recipe.handle(), prices.handle())).unwrap();
            };
            let mut check = || {
                black_box(black_box(&tables).check());
            };
            let [ours, check, map] = times([&mut ours, &mut check, &mut || {
                black_box(cost_by_map(black_box(recipe), black_box(prices)));
            }]);
            println!("{:<24}{:>7}{:>8}{:>11.2}{:>11.2}{:>13.2}", kind, n, 1000, ours / 1000.0, check / 1000.0, map / 1000.0);
        }
    }
}

// The inputs are in dump form, so the output just holds what is written. The Rust writes into a vector that has the room.
fn dump_row(name: &str, input: &[u8]) {
    let mut tables = tables_filled(input);
    assert_eq!(tables.dump(LIMIT).number, 0);
    assert!(tables.output == input);
    let mut checked = tables_filled(input);
    let nodes = checked.counts[0];
    let mut ours = || {
        black_box(tables.dump(black_box(LIMIT)));
    };
    let mut check = || {
        black_box(black_box(&mut checked).check());
    };
    let Ok(arena) = ruby_marshal::load(input) else {
        let [check, ours] = times([&mut check, &mut ours]);
        println!("{:<24}{:>9}{:>9}{:>11.2}{:>11.2}", name, input.len(), nodes, ours / 1000.0, check / 1000.0);
        return;
    };
    let mut written = Vec::with_capacity(input.len());
    ruby_marshal::dump(&mut written, &arena).unwrap();
    assert!(written == input);
    let [ours, check, theirs] = times([&mut ours, &mut check, &mut || {
        written.clear();
        ruby_marshal::dump(&mut written, black_box(&arena)).unwrap();
        black_box(&written);
    }]);
    println!(
        "{:<24}{:>9}{:>9}{:>11.2}{:>11.2}{:>11.2}{:>8.2}{:>8.2}",
        name, input.len(), nodes, ours / 1000.0, check / 1000.0, theirs / 1000.0, theirs / ours, theirs / (ours - check)
    );
}

// The walk through the views beside the same walk in the Rust crate's arena.
fn walk_row(name: &str, input: &[u8]) {
    let tables = tables_filled(input);
    let arena = tables.arena().expect("an arena that load filled");
    let (mut our_open, mut their_open) = (Vec::new(), Vec::new());
    let met = walk::ours(&arena, &mut our_open);
    let mut ours = || {
        black_box(walk::ours(black_box(&arena), &mut our_open));
    };
    let Ok(theirs) = ruby_marshal::load(input) else {
        let [ours] = times([&mut ours]);
        println!("{:<24}{:>9}{:>9}{:>11.2}", name, input.len(), met.values, ours / 1000.0);
        return;
    };
    assert_eq!(met, walk::theirs(&theirs, &mut their_open));
    let [our_time, their_time] = times([&mut ours, &mut || {
        black_box(walk::theirs(black_box(&theirs), &mut their_open));
    }]);
    println!(
        "{:<24}{:>9}{:>9}{:>11.2}{:>11.2}{:>8.2}",
        name, input.len(), met.values, our_time / 1000.0, their_time / 1000.0, their_time / our_time
    );
}

fn tables_filled(input: &[u8]) -> Tables {
    let mut tables = tables(input);
    assert_eq!(tables.load(input, LIMIT).number, 0);
    tables
}

fn main() {
    let words: Vec<String> = std::env::args().collect();
    if words.len() == 4 && words[1] == "deep" {
        let input = nested(&words[3]);
        let mut tables = Tables::new(400, 800, 3200, 4000);
        let loaded = if words[2] == "hashed" { tables.load_hashed(&input, LIMIT) } else { tables.load(&input, LIMIT) };
        assert_eq!(loaded.number, 0);
        if words[2] == "dump" {
            assert_eq!(tables.dump(LIMIT).number, 0);
        }
        println!("used {} nodes {} written {}", tables.used, tables.counts[0], tables.written);
        return;
    }
    if words.len() == 2 && words[1] == "names" {
        return names_table();
    }
    if words.len() == 2 && words[1] == "hashed" {
        return many_names_table();
    }
    if words.len() == 2 && words[1] == "cost" {
        return cost_table();
    }
    let inputs = [
        ("small recipe", batches(900)),
        ("100 KB, few names", batches(100_000)),
        ("1 MB, few names", batches(1_000_000)),
        ("100 KB, plain recipes", recipes(100_000)),
        ("the same in a class", classes(100_000)),
        ("100 KB, objects", objects(100_000)),
        ("128 levels deep", nested("arrays")),
        ("1,000 names", names(1000)),
        ("100 KB, setpoints", setpoints(100_000, b'f')),
        ("the same as strings", setpoints(100_000, b'"')),
        ("100 KB, counters", counters(100_000, b'l')),
        ("the same as strings", counters(100_000, b'"')),
    ];
    println!(
        "{:<24}{:>9}{:>9}{:>11}{:>11}{:>15}{:>11}{:>8}{:>8}",
        "load", "bytes", "nodes", "ours µs", "hashed µs", "zero and copy", "Rust µs", "faster", "hashed"
    );
    for (name, input) in &inputs {
        load_row(name, input);
    }
    println!("{:<24}{:>9}{:>11}{:>11}{:>8}{:>16}", "load_measured", "bytes", "load µs", "µs", "times", "bytes compared");
    for (name, input) in &inputs {
        measured_row(name, input);
    }
    println!(
        "{:<24}{:>9}{:>11}{:>11}{:>8}{:>11}{:>8}{:>9}",
        "load_hashed", "bytes", "load µs", "1 word µs", "times", "2 words µs", "times", "looked"
    );
    for (name, input) in &inputs {
        hashed_row(name, input);
    }
    println!("{:<24}{:>9}{:>9}{:>11}{:>11}{:>11}{:>8}{:>8}", "dump", "bytes", "nodes", "ours µs", "its check", "Rust µs", "faster", "less it");
    for (name, input) in &inputs {
        dump_row(name, input);
    }
    println!("{:<24}{:>9}{:>9}{:>11}{:>11}{:>8}", "walk", "bytes", "values", "ours µs", "Rust µs", "faster");
    for (name, input) in &inputs {
        walk_row(name, input);
    }
}
