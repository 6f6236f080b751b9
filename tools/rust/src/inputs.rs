// Inputs that are made: recipes, objects, names, nested values.

pub fn integer(n: i32, out: &mut Vec<u8>) {
    match n {
        0 => out.push(0),
        1..=122 => out.push((n + 5) as u8),
        123..=255 => out.extend([1, n as u8]),
        256..=65535 => out.extend([2, n as u8, (n >> 8) as u8]),
        _ => out.extend([3, n as u8, (n >> 8) as u8, (n >> 16) as u8]),
    }
}

pub fn symbol(name: &str, out: &mut Vec<u8>) {
    out.push(b':');
    integer(name.len() as i32, out);
    out.extend(name.as_bytes());
}

// A Float or a string.
fn text(kind: u8, text: &str, out: &mut Vec<u8>) {
    out.push(kind);
    integer(text.len() as i32, out);
    out.extend(text.as_bytes());
}

// A name, by link after the first time.
fn named(name: &str, i: usize, count: i32, out: &mut Vec<u8>) {
    if count == 0 {
        symbol(name, out);
    } else {
        out.push(b';');
        integer(i as i32, out);
    }
}

// An array of as many members as fill the size.
fn list(size: usize, member: impl Fn(i32, &mut Vec<u8>)) -> Vec<u8> {
    let (mut members, mut count) = (Vec::new(), 0);
    while members.len() < size {
        member(count, &mut members);
        count += 1;
    }
    let mut out = vec![4, 8, b'['];
    integer(count, &mut out);
    out.extend(members);
    out
}

// Eight ingredients of a recipe, after so many other names.
fn ingredients(others: usize, count: i32, members: &mut Vec<u8>) {
    for (i, name) in ["sand", "cement", "water", "gravel", "lime", "ash", "fibre", "dye"].iter().enumerate() {
        named(name, others + i, count, members);
        members.push(b'i');
        integer((count * 37 + i as i32 * 1001) % 70000, members);
    }
}

/// Plain recipes: an array of hashes of eight ingredients, names by link after the first.
pub fn recipes(size: usize) -> Vec<u8> {
    list(size, |count, members| {
        members.push(b'{');
        integer(8, members);
        ingredients(0, count, members);
    })
}

/// The same in a class of their own.
pub fn classes(size: usize) -> Vec<u8> {
    list(size, |count, members| {
        members.push(b'C');
        named("IngredientList", 0, count, members);
        members.push(b'{');
        integer(8, members);
        ingredients(1, count, members);
    })
}

/// Batches: recipes, each with a text and its encoding.
pub fn batches(size: usize) -> Vec<u8> {
    list(size, |count, members| {
        members.push(b'{');
        integer(9, members);
        ingredients(0, count, members);
        named("text", 8, count, members);
        members.extend(b"I\"");
        integer(12, members);
        members.extend(b"batch of mix");
        integer(1, members);
        named("E", 9, count, members);
        members.push(b'T');
    })
}

/// Setpoints: recipes with two Floats, a link to the second, and an integer; with another kind of byte string in their place
/// where that is given.
pub fn setpoints(size: usize, kind: u8) -> Vec<u8> {
    list(size, |count, members| {
        members.push(b'{');
        integer(4, members);
        for (i, name) in ["flow", "damp", "dose", "mass"].iter().enumerate() {
            named(name, i, count, members);
            match i {
                0 => text(kind, &format!("{}.25", count % 100), members),
                1 => text(kind, &format!("0.{:02}5", count % 97), members),
                2 => {
                    // the array has number 0, each recipe takes three
                    members.push(b'@');
                    integer(3 * count + 3, members);
                }
                _ => {
                    members.push(b'i');
                    integer((count * 37) % 70000, members);
                }
            }
        }
    })
}

// A Bignum of three units, or as many bytes of another kind of byte string.
fn counter(kind: u8, n: u64, out: &mut Vec<u8>) {
    match kind {
        b'l' => out.extend(b"l+\x08"),
        _ => out.extend([kind, 5 + 7, b'+']),
    }
    out.extend(&n.to_le_bytes()[..6]);
}

/// Counters: recipes with two Bignums, a link to the second, and an integer; with another kind of byte string in their place
/// where that is given.
pub fn counters(size: usize, kind: u8) -> Vec<u8> {
    list(size, |count, members| {
        members.push(b'{');
        integer(4, members);
        for (i, name) in ["total", "sand", "last", "runs"].iter().enumerate() {
            named(name, i, count, members);
            match i {
                0 => counter(kind, 8_437_275_000 + count as u64 * 1001, members),
                1 => counter(kind, 5_231_110_500 + count as u64 * 617, members),
                2 => {
                    // the array has number 0, each recipe takes three
                    members.push(b'@');
                    integer(3 * count + 3, members);
                }
                _ => {
                    members.push(b'i');
                    integer((count * 37) % 70000, members);
                }
            }
        }
    })
}

/// Objects: an array of objects of one class with three variables, one of them an array.
pub fn objects(size: usize) -> Vec<u8> {
    list(size, |count, members| {
        members.push(b'o');
        named("Step", 0, count, members);
        integer(3, members);
        for (i, name) in ["@from", "@to", "@parts"].iter().enumerate() {
            named(name, i + 1, count, members);
            if i < 2 {
                members.push(b'i');
                integer((count * 7 + i as i32) % 70000, members);
            } else {
                members.extend(b"[\x07i\x06i\x07");
            }
        }
    })
}

/// A hash of n names.
pub fn names(n: usize) -> Vec<u8> {
    hash_of(&(0..n).map(NAMINGS[0].1).collect::<Vec<_>>())
}

/// A hash of the names.
pub fn hash_of(names: &[String]) -> Vec<u8> {
    let mut out = vec![4, 8, b'{'];
    integer(names.len() as i32, &mut out);
    for (i, name) in names.iter().enumerate() {
        symbol(name, &mut out);
        out.push(b'i');
        integer(i as i32, &mut out);
    }
    out
}

/// An array of the names, and nothing else.
pub fn array_of(names: &[String]) -> Vec<u8> {
    let mut out = vec![4, 8, b'['];
    integer(names.len() as i32, &mut out);
    for name in names {
        symbol(name, &mut out);
    }
    out
}

/// Two hashes of the names, the second with each name written out again, or by link.
pub fn repeated(names: &[String], linked: bool) -> Vec<u8> {
    let mut out = vec![4, 8, b'['];
    integer(2, &mut out);
    for again in [false, true] {
        out.push(b'{');
        integer(names.len() as i32, &mut out);
        for (i, name) in names.iter().enumerate() {
            named(name, i, (again && linked) as i32, &mut out);
            out.push(b'i');
            integer(i as i32, &mut out);
        }
    }
    out
}

/// A recipe of the first n names and prices for them all, each name written out once.
pub fn batch(names: &[String], n: usize) -> Vec<u8> {
    let mut out = vec![4, 8, b'['];
    integer(2, &mut out);
    for (linked, of) in [(false, &names[..n]), (true, names)] {
        out.push(b'{');
        integer(of.len() as i32, &mut out);
        for (i, name) in of.iter().enumerate() {
            named(name, i, (linked && i < n) as i32, &mut out);
            out.push(b'i');
            integer(500 + i as i32, &mut out);
        }
    }
    out
}

/// A kind of n names, and what it is called.
pub type Naming = (&'static str, fn(usize) -> String);

/// Names that are alike, and names that are not.
pub const NAMINGS: [Naming; 4] = [
    ("alike, of one length", |i| format!("ingredient_{i:04}")),
    ("unlike, of one length", |i| digits_first(i, 4) + "_ingredient"),
    ("unlike, of 16 lengths", |i| digits_first(i, 4) + &"_".repeat(4 + i % 16)),
    ("each of another length", |i| "n".repeat(i + 1)),
];

/// Up to 100,000 names, of which each has the same beginning, the same ending, or one of 16 lengths.
pub const MANY: [Naming; 3] = [
    ("alike, one beginning", |i| format!("ingredient_{i:05}")),
    ("alike, one ending", |i| digits_first(i, 5) + "_ingredient"),
    ("unlike, of 16 lengths", |i| digits_first(i, 5) + &"_".repeat(4 + i % 16)),
];

// The number's digits, so many, the last one first.
fn digits_first(i: usize, width: usize) -> String {
    format!("{i:0width$}").chars().rev().collect()
}

/// Values of one kind, each in the one before, 128 levels in all; nil alone for another word.
pub fn nested(kind: &str) -> Vec<u8> {
    let open: &[u8] = match kind {
        "arrays" => b"[\x06",
        "hashes" => b"{\x060",
        "defaults" => b"}\x00",
        "objects" => b"o:\x06a\x06:\x06b",
        "variables" => b"I\"\x00\x06:\x06a",
        _ => return vec![4, 8, b'0'],
    };
    let mut out = vec![4, 8];
    for _ in 1..128 {
        out.extend(open);
    }
    out.push(b'0');
    out
}
