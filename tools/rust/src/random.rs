// Random inputs, the same in every run: values from a grammar, deep chains, and damage.

/// The kind bytes and bytes that are integers of interest.
pub const ALPHABET: &[u8] = b"0TFi:;@IC[{}o\"ufl+-\x00\x01\x05\x06\x07\x08\xFA\xFB\xFF";

const NAMES: &[&[u8]] = &[b"a", b"b", b"ab", b"E", b"@x", b"", b"encoding", &[b'n'; 130]];
const FLOATS: &[&[u8]] = &[b"1.25", b"0.35", b"1", b"1e2", b"-0", b"inf", b"nan", b""];
const MAGNITUDES: &[u64] = &[
    0, 1, 0xFF, 0x100, 0xFFFF, 0x1_0000, 0x3FFF_FFFF, 0x4000_0000, 0xFFFF_FFFF, 0x1_0000_0000, 0xFFFF_FFFF_FFFF, 0x1_0000_0000_0000,
    i64::MAX as u64, 1 << 63,
];
const NUMBERS: &[i32] = &[
    0, 1, 2, -1, 121, 122, 123, 124, -122, -123, -124, -125, 127, 128, -128, -129, 255, 256, 257, -255, -256, -257, 65535, 65536,
    -65536, -65537, 16777215, 16777216, -16777216, -16777217, 1073741823, 1073741824, -1073741825, i32::MAX, i32::MIN,
];

/// Random numbers (splitmix64).
pub struct Random(pub u64);

impl Random {
    pub fn next(&mut self) -> u64 {
        self.0 = self.0.wrapping_add(0x9E3779B97F4A7C15);
        let a = (self.0 ^ (self.0 >> 30)).wrapping_mul(0xBF58476D1CE4E5B9);
        let b = (a ^ (a >> 27)).wrapping_mul(0x94D049BB133111EB);
        b ^ (b >> 31)
    }

    pub fn below(&mut self, n: usize) -> usize {
        (self.next() % n as u64) as usize
    }

    fn one_in(&mut self, n: usize) -> bool {
        self.below(n) == 0
    }

    fn pick<T: Copy>(&mut self, of: &[T]) -> T {
        of[self.below(of.len())]
    }
}

// Every way to write an integer that load takes, the shortest first.
fn forms(n: i32) -> Vec<Vec<u8>> {
    let mut forms = match n {
        0 => vec![vec![0], vec![5], vec![0xFB]],
        1..=122 => vec![vec![(n + 5) as u8]],
        -123..=-1 => vec![vec![(n - 5) as u8]],
        _ => vec![],
    };
    for k in 1..=4 {
        let rest = (n as i64) >> (8 * k);
        for (size, fits) in [(k, rest == 0), (-k, rest == -1)] {
            if fits {
                forms.push([&[size as i8 as u8], &n.to_le_bytes()[..k as usize]].concat());
            }
        }
    }
    forms
}

// The integer with a size byte of the other sign.
fn wrong_sign(n: i32) -> Vec<u8> {
    [&[if n < 0 { 0x04 } else { 0xFC }], &n.to_le_bytes()[..]].concat()
}

// An input in the making, with what load's two lists hold by then.
struct Maker<'a> {
    random: &'a mut Random,
    out: Vec<u8>,
    symbols: usize,
    /// for each object, whether it takes variables
    objects: Vec<bool>,
    /// the kinds besides the Rust's
    later: &'static [u8],
}

impl Maker<'_> {
    // One in five in any form; seldom in one that is refused.
    fn integer(&mut self, n: i32) {
        if self.random.one_in(300) {
            return self.out.extend(wrong_sign(n));
        }
        let forms = forms(n);
        let i = if self.random.one_in(5) { self.random.below(forms.len()) } else { 0 };
        self.out.extend(&forms[i]);
    }

    fn number(&mut self) {
        let n = if self.random.one_in(2) { self.random.pick(NUMBERS) } else { self.random.next() as i32 >> self.random.below(32) };
        self.integer(n);
    }

    // An index below n, seldom one past it or below 0.
    fn index(&mut self, n: usize) {
        let i = match self.random.below(300) {
            0 => n as i32,
            1 => -1,
            _ if n == 0 => 0,
            _ => self.random.below(n) as i32,
        };
        self.integer(i);
    }

    fn bytes(&mut self) {
        let n = if self.random.one_in(40) { 120 + self.random.below(180) } else { self.random.below(5) };
        self.integer(n as i32);
        for _ in 0..n {
            self.out.push(self.random.next() as u8);
        }
    }

    fn name(&mut self) {
        if self.symbols > 0 && self.random.one_in(2) {
            self.out.push(b';');
            return self.index(self.symbols);
        }
        self.out.push(b':');
        self.symbols += 1;
        if self.random.one_in(8) {
            return self.bytes();
        }
        let name = self.random.pick(NAMES);
        self.integer(name.len() as i32);
        self.out.extend(name);
    }

    fn link(&mut self) {
        if self.objects.is_empty() && !self.random.one_in(50) {
            return self.out.push(b'0');
        }
        self.out.push(b'@');
        self.index(self.objects.len());
    }

    fn string(&mut self) {
        self.out.push(b'"');
        self.bytes();
        self.objects.push(true);
    }

    fn float(&mut self) {
        self.out.push(b'f');
        if self.random.one_in(3) {
            self.bytes();
        } else {
            let text = self.random.pick(FLOATS);
            self.integer(text.len() as i32);
            self.out.extend(text);
        }
        self.objects.push(false);
    }

    // One in five with units that it does not need; seldom a wrong sign or count.
    fn bignum(&mut self) {
        self.out.push(b'l');
        let sign = if self.random.one_in(60) { self.random.next() as u8 } else { self.random.pick(b"+-") };
        self.out.push(sign);
        if self.random.one_in(60) {
            let wrong = self.random.pick(&[-1, 5, 6, i32::MAX, i32::MIN]);
            self.integer(wrong);
        } else {
            let any = self.random.next() >> self.random.below(64);
            let magnitude = if self.random.one_in(2) { self.random.pick(MAGNITUDES) } else { any };
            let fewest = (64 - magnitude.leading_zeros() as usize).div_ceil(16);
            let units = if self.random.one_in(5) { fewest + self.random.below(5 - fewest) } else { fewest };
            self.integer(units as i32);
            self.out.extend(&magnitude.to_le_bytes()[..2 * units]);
        }
        self.objects.push(false);
    }

    // A class's name, and what may be in one; seldom what may not.
    fn user_class(&mut self, depth: usize) {
        self.out.push(b'C');
        self.name();
        match self.random.below(60) {
            0 => self.value(depth),
            1..=20 => self.string(),
            _ => self.list(depth),
        }
    }

    fn user_defined(&mut self) {
        self.out.push(b'u');
        self.name();
        self.bytes();
        self.objects.push(true);
    }

    fn open(&mut self, kind: u8) {
        self.out.push(kind);
        self.objects.push(false);
    }

    fn count(&mut self) -> usize {
        let n = self.random.below(4);
        self.integer(n as i32);
        n
    }

    fn values(&mut self, n: usize, depth: usize) {
        for _ in 0..n {
            self.value(depth);
        }
    }

    // An array or a hash.
    fn list(&mut self, depth: usize) {
        let kind = self.random.pick(b"[[{}");
        self.open(kind);
        let n = self.count();
        self.values(if kind == b'[' { n } else { 2 * n + (kind == b'}') as usize }, depth);
    }

    fn pairs(&mut self, depth: usize) {
        for _ in 0..self.count() {
            self.name();
            self.value(depth);
        }
    }

    // `I` on a string or a user-defined, new or linked, or again `I` on one; seldom on any value.
    fn with_variables(&mut self, depth: usize) {
        self.out.push(b'I');
        let takers: Vec<usize> = (0..self.objects.len()).filter(|&i| self.objects[i]).collect();
        match self.random.below(30) {
            0 => self.value(depth),
            1..=3 if depth > 0 => self.with_variables(depth - 1),
            4..=10 if !takers.is_empty() => {
                self.out.push(b'@');
                let i = self.random.pick(&takers);
                self.integer(i as i32);
            }
            11..=18 => self.user_defined(),
            19..=22 if self.later.contains(&b'C') => self.user_class(depth),
            _ => self.string(),
        }
        self.pairs(depth);
    }

    fn value(&mut self, depth: usize) {
        if !self.later.is_empty() && self.random.one_in(6) {
            return match self.random.pick(self.later) {
                b'f' => self.float(),
                b'C' => self.user_class(depth.saturating_sub(1)),
                _ => self.bignum(),
            };
        }
        let leaf = depth == 0 || self.out.len() > 600;
        let kind = self.random.pick(if leaf { b"0TFi:;@\"u" } else { b"0Fi:@\"uII[[[[[[[oo" });
        let depth = depth.saturating_sub(1);
        match kind {
            b'i' => {
                self.out.push(kind);
                self.number();
            }
            b':' | b';' => self.name(),
            b'@' => self.link(),
            b'"' => self.string(),
            b'u' => self.user_defined(),
            b'I' => self.with_variables(depth),
            b'[' => self.list(depth),
            b'o' => {
                self.open(kind);
                self.name();
                self.pairs(depth);
            }
            _ => self.out.push(kind),
        }
    }

    // Containers of one member, each in the one before.
    fn chain(&mut self, levels: usize) {
        for _ in 0..levels {
            let kind = self.random.pick(b"[{}oI");
            match kind {
                b'I' => {
                    self.out.push(kind);
                    self.string();
                }
                b'o' => {
                    self.open(kind);
                    self.name();
                }
                _ => self.open(kind),
            }
            self.integer((kind != b'}') as i32);
            match kind {
                b'I' | b'o' => self.name(),
                b'{' => self.link(),
                _ => (),
            }
        }
    }

    // Two chains about as deep together as the limit; the second in variables that a link gives the first one's string.
    fn deep(&mut self) {
        let first = self.random.below(132);
        self.open(b'[');
        self.integer(2);
        self.chain(first);
        let taker = self.objects.len();
        self.string();
        self.out.push(b'I');
        self.out.push(b'@');
        self.integer(taker as i32);
        self.integer(1);
        self.name();
        let second = self.random.below(132);
        self.chain(second);
        self.value(1);
    }
}

/// A value from the grammar, with Floats (`f`), Bignums (`l`) and classes (`C`) where they are given as later kinds; one in 32 is
/// deep.
pub fn value(random: &mut Random, later: &'static [u8]) -> Vec<u8> {
    let mut maker = Maker { random, out: vec![4, 8], symbols: 0, objects: vec![], later };
    if maker.random.one_in(32) {
        maker.deep();
    } else {
        let depth = 1 + maker.random.below(6);
        maker.value(depth);
    }
    maker.out
}

/// One to three bytes changed, removed or inserted, or the end cut off.
pub fn damaged(random: &mut Random, input: &[u8]) -> Vec<u8> {
    let mut out = input.to_vec();
    for _ in 0..1 + random.below(3) {
        let i = random.below(out.len() + 1);
        let byte = if random.one_in(2) { random.next() as u8 } else { random.pick(ALPHABET) };
        match random.below(4) {
            0 => out.insert(i, byte),
            _ if i == out.len() => (),
            1 => out[i] = byte,
            2 => drop(out.remove(i)),
            _ => out.truncate(i),
        }
    }
    out
}
