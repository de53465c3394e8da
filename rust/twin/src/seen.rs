//! A small hash set of record numbers, for finding two records with equal keys.

const ENTRIES: usize = 512;

/// A record number with some bits of its key's hash; number 0 is an empty entry.
#[derive(Clone, Copy, Default)]
struct Entry {
    number_plus_one: u16,
    tag: u16,
}

/// Records seen so far, found by the hash of their keys. At most half full.
pub struct Seen([Entry; ENTRIES]);

impl Seen {
    pub fn new() -> Self {
        Seen([Entry::default(); ENTRIES])
    }

    /// Adds a record, unless one with the same key is there: then the answer is false.
    /// `same` says whether the record of that number has this key.
    #[inline(always)]
    pub fn insert(&mut self, hash: u64, number: usize, same: impl Fn(usize) -> bool) -> bool {
        let tag = (hash >> 32) as u16;
        let mut at = (hash >> 55) as usize;
        loop {
            let entry = &mut self.0[at % ENTRIES];
            if entry.number_plus_one == 0 {
                *entry = Entry { number_plus_one: number as u16 + 1, tag };
                return true;
            }
            if entry.tag == tag && same(usize::from(entry.number_plus_one) - 1) {
                return false;
            }
            at += 1;
        }
    }
}

/// Mixes one more word into a hash. The upper bits are the good ones.
#[inline(always)]
pub fn mix(hash: u64, word: u64) -> u64 {
    (hash.rotate_left(23) ^ word).wrapping_mul(0x9E37_79B9_7F4A_7C15)
}
