// A walk over an input as load reads it, without tables: where load comes to an integer whose size byte is of the other sign,
// and what the measuring and the hashed load count.
use crate::bignum::bignum;
use ruby_marshal_tables::Measures;

/// The integer at a place and where it ends, if it is whole; with a size byte of either sign, as the Rust reads it.
pub fn integer(input: &[u8], place: usize) -> Option<(i32, usize)> {
    let size = *input.get(place)? as i8;
    let start = place + 1;
    Some(match size {
        5.. => (size as i32 - 5, start),
        ..=-5 => (size as i32 + 5, start),
        _ => {
            let end = start + size.unsigned_abs() as usize;
            let mut bytes = if size < 0 { [0xFF; 4] } else { [0; 4] };
            bytes[..end - start].copy_from_slice(input.get(start..end)?);
            (i32::from_le_bytes(bytes), end)
        }
    })
}

/// Whether an integer that begins these bytes is whole and has a size byte of the other sign.
fn wrong_sign(bytes: &[u8]) -> bool {
    matches!(bytes, [0x04, _, _, _, 0x80..=0xFF, ..] | [0xFC, _, _, _, 0..=0x7F, ..])
}

/// What an integer is read for.
#[derive(Clone, Copy, Debug, PartialEq, Eq)]
pub enum Role {
    Fixnum,
    Length,
    Count,
    Index,
}

/// Where load, under a limit and with room for so many references, comes to an integer with a size byte of the other sign, and
/// what it reads it for; None where it comes to none, or is refused before.
pub fn wrong_sign_met(input: &[u8], limit: u32, references: usize) -> Option<(usize, Role)> {
    let [4, ..=8, ..] = input else { return None };
    if !input.windows(5).any(wrong_sign) {
        return None;
    }
    let mut walk = Walk::new(input, limit, references);
    walk.value(1);
    walk.wrong_sign
}

/// What the loads count of an input: all 0 where it is refused.
#[derive(Clone, Copy, Debug, Default, PartialEq, Eq)]
pub struct Counted {
    pub used: usize,
    pub measures: Measures,
    /// words of the bucket table
    pub looked: u64,
}

/// What a load uses, copies and compares, and looks at of a bucket table of so many words; None where the input is refused.
pub fn counted(input: &[u8], buckets: usize) -> Option<Counted> {
    let mut walk = Walk::new(input, u32::MAX, usize::MAX);
    walk.value(1)?;
    Some(Counted { used: walk.at, measures: walk.measures, looked: looked(&walk.read, buckets) })
}

// FNV-1a, 32 bits.
fn hash(name: &[u8]) -> u32 {
    name.iter().fold(2166136261, |hash, &byte| (hash ^ u32::from(byte)).wrapping_mul(16777619))
}

// The words of a bucket table that searches for these names look at, one after the other.
fn looked(names: &[&[u8]], words: usize) -> u64 {
    let (mut table, mut looked) = (vec![None; if names.is_empty() { 0 } else { words }], 0);
    for &name in names {
        let mut at = hash(name) as usize % words;
        looked += 1;
        while table[at].is_some_and(|known| known != name) {
            at = (at + 1) % words;
            looked += 1;
        }
        table[at] = Some(name);
    }
    looked
}

// Each function answers None where load is refused.
struct Walk<'a> {
    input: &'a [u8],
    at: usize,
    limit: u32,
    /// how many there is still room for
    references: usize,
    /// each once, in the order of their nodes
    names: Vec<&'a [u8]>,
    /// those that are written out, in the order of the input
    read: Vec<&'a [u8]>,
    /// on the symbol list
    symbols: usize,
    /// for each on the object list, whether it takes variables
    objects: Vec<bool>,
    measures: Measures,
    wrong_sign: Option<(usize, Role)>,
}

impl<'a> Walk<'a> {
    // After the header.
    fn new(input: &'a [u8], limit: u32, references: usize) -> Walk<'a> {
        let (names, read, objects, measures) = (vec![], vec![], vec![], Measures::default());
        Walk { input, at: 2, limit, references, names, read, symbols: 0, objects, measures, wrong_sign: None }
    }

    fn byte(&mut self) -> Option<u8> {
        self.at += 1;
        self.input.get(self.at - 1).copied()
    }

    fn integer(&mut self, role: Role) -> Option<i32> {
        let (n, end) = integer(self.input, self.at)?;
        if wrong_sign(&self.input[self.at..]) {
            self.wrong_sign = Some((self.at, role));
            return None;
        }
        self.at = end;
        Some(n)
    }

    // An integer that is not below 0.
    fn size(&mut self, role: Role) -> Option<usize> {
        self.integer(role)?.try_into().ok()
    }

    fn index(&mut self, entries: usize) -> Option<usize> {
        self.size(Role::Index).filter(|&i| i < entries)
    }

    fn string(&mut self) -> Option<&'a [u8]> {
        let start = self.size(Role::Length).map(|n| self.at..self.at + n)?;
        self.at = start.end;
        self.input.get(start)
    }

    // A `:` name.
    fn symbol(&mut self) -> Option<()> {
        let name = self.string()?;
        self.symbols += 1;
        self.read.push(name);
        for known in self.names.iter().filter(|known| known.len() == name.len()) {
            let alike = name.iter().zip(*known).take_while(|(a, b)| a == b).count();
            self.measures.compared += name.len().min(alike + 1) as u64;
            if *known == name {
                return Some(());
            }
        }
        self.names.push(name);
        self.measures.copied += name.len() as u64;
        Some(())
    }

    fn name(&mut self, kind: u8) -> Option<()> {
        match kind {
            b':' => self.symbol(),
            b';' => self.index(self.symbols).map(|_| ()),
            _ => None,
        }
    }

    fn named(&mut self) -> Option<()> {
        let kind = self.byte()?;
        self.name(kind)
    }

    // A count of members of so many references each, for which room is taken.
    fn count(&mut self, each: usize) -> Option<usize> {
        let n = self.size(Role::Count)?;
        self.references = self.references.checked_sub(each * n)?;
        Some(n)
    }

    fn values(&mut self, n: usize, level: u32) -> Option<()> {
        (0..n).try_for_each(|_| self.value(level).map(|_| ()))
    }

    fn variables(&mut self, level: u32) -> Option<()> {
        (0..self.count(2)?).try_for_each(|_| {
            self.named()?;
            self.values(1, level)
        })
    }

    fn object(&mut self, takes_variables: bool) -> Option<bool> {
        self.objects.push(takes_variables);
        Some(takes_variables)
    }

    fn text(&mut self, takes_variables: bool) -> Option<bool> {
        self.measures.copied += self.string()?.len() as u64;
        self.object(takes_variables)
    }

    // A wrong sign byte comes first, then the count's size byte, then what else a Bignum is refused for.
    fn bignum(&mut self) -> Option<bool> {
        let place = self.at;
        if matches!(self.byte()?, b'+' | b'-') {
            self.integer(Role::Count)?;
        }
        (_, self.at, _) = bignum(self.input, place).ok()?;
        self.object(false)
    }

    // Whether it takes variables.
    fn value(&mut self, level: u32) -> Option<bool> {
        if level > self.limit {
            return None;
        }
        let kind = self.byte()?;
        self.value_of(kind, level)
    }

    fn value_of(&mut self, kind: u8, level: u32) -> Option<bool> {
        match kind {
            b'0' | b'T' | b'F' => Some(false),
            b'i' => self.integer(Role::Fixnum).map(|_| false),
            kind @ (b':' | b';') => self.name(kind).map(|()| false),
            b'@' => self.index(self.objects.len()).map(|i| self.objects[i]),
            b'C' => {
                self.named()?;
                let kind = self.byte().filter(|kind| b"\"[{}".contains(kind))?;
                self.value_of(kind, level)
            }
            b'"' => self.text(true),
            b'f' => self.text(false),
            b'l' => self.bignum(),
            b'u' => {
                self.named()?;
                self.text(true)
            }
            b'[' => {
                self.object(false)?;
                let n = self.count(1)?;
                self.values(n, level + 1)?;
                Some(false)
            }
            kind @ (b'{' | b'}') => {
                self.object(false)?;
                let n = self.count(2)?;
                self.values(2 * n + (kind == b'}') as usize, level + 1)?;
                Some(false)
            }
            b'o' => {
                self.object(false)?;
                self.named()?;
                self.variables(level + 1)?;
                Some(false)
            }
            b'I' => {
                let takes_variables = self.value(level + 1)?;
                self.variables(level + 1)?;
                takes_variables.then_some(true)
            }
            _ => None,
        }
    }
}
