// What load must answer for a Bignum, after document 02's text, without tables.
use crate::measure::integer;
use crate::Answer;

/// A Bignum that is accepted.
#[derive(Clone, Copy, Debug, PartialEq, Eq)]
pub struct Bignum {
    pub minus: bool,
    pub magnitude: u64,
}

impl Bignum {
    /// What a node's words say, if they are a Bignum's.
    pub fn of_words(words: &[u32]) -> Option<Bignum> {
        let &[10, low, high, 0, sign @ (0 | 1), 0, 0, 0] = words else { return None };
        Some(Bignum { minus: sign == 1, magnitude: u64::from(high) << 32 | u64::from(low) })
    }

    /// Its sign byte and the fewest units: equal of equal numbers alone.
    pub fn text(self) -> Vec<u8> {
        let mut text = vec![if self.minus { b'-' } else { b'+' }];
        let mut rest = self.magnitude;
        while rest > 0 {
            text.extend((rest as u16).to_le_bytes());
            rest >>= 16;
        }
        text
    }
}

fn refused(number: u64, first: i64) -> Answer {
    Answer { number, first, second: 0 }
}

/// The Bignum whose sign byte stands at a place, where it ends, and whether it is written as dump writes it; its count is taken
/// with a size byte of either sign.
pub fn bignum(input: &[u8], place: usize) -> Result<(Bignum, usize, bool), Answer> {
    let short = refused(4, 0);
    let minus = match *input.get(place).ok_or(short)? {
        b'+' => false,
        b'-' => true,
        other => return Err(refused(15, other.into())),
    };
    let (count, start) = integer(input, place + 1).ok_or(short)?;
    let end = match count {
        ..0 => return Err(refused(6, count.into())),
        0..=4 => start + 2 * count as usize,
        _ => return Err(refused(16, count.into())),
    };
    let units = input.get(start..end).ok_or(short)?;
    let magnitude = units.iter().rev().fold(0, |m: u64, &byte| m * 256 + u64::from(byte));
    if magnitude >> 63 != 0 {
        return Err(refused(16, 4));
    }
    let count_in_form = input[place + 1..start] == [if count == 0 { 0 } else { count as u8 + 5 }];
    let in_form = count_in_form && !units.ends_with(b"\x00\x00") && !(minus && magnitude == 0);
    Ok((Bignum { minus: minus && magnitude > 0, magnitude }, end, in_form))
}
