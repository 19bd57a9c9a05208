//! Lent slices: a pattern in every entry, with some entries before and after
//! the lent ones, so that a write anywhere shows.

const EDGE: usize = 16;

/// Entries with a pattern, of which the middle is lent.
#[derive(Clone, PartialEq)]
pub struct Lent<T> {
    whole: Vec<T>,
}

impl<T: Copy + PartialEq> Lent<T> {
    pub fn new(length: usize, pattern: impl Fn(usize) -> T) -> Lent<T> {
        Lent { whole: (0..length + 2 * EDGE).map(pattern).collect() }
    }

    pub fn lend(&mut self) -> &mut [T] {
        let end = self.whole.len() - EDGE;
        &mut self.whole[EDGE..end]
    }

    /// Whether all is as it was but the first so many of the lent entries.
    pub fn kept_beyond(&self, before: &Lent<T>, written: usize) -> bool {
        let from = EDGE + written;
        self.whole[..EDGE] == before.whole[..EDGE] && self.whole[from..] == before.whole[from..]
    }
}

/// Bytes with no two neighbours alike and no small numbers.
pub fn bytes(length: usize) -> Lent<u8> {
    Lent::new(length, |i| 0x80 | (i as u8).wrapping_mul(37))
}

pub fn words(length: usize) -> Lent<i32> {
    Lent::new(length, |i| 0x5A00_0000 | (i as i32).wrapping_mul(40503) & 0xFF_FFFF)
}
