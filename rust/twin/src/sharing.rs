//! The sharing rule of document 01.

use crate::constants::*;

pub const COUNTS: usize = 7;
pub const COUNTS_SIZE: usize = 2 * COUNTS;

/// The kinds of access held, by the bits of the sharing modes that allow them.
#[inline(always)]
pub fn held(granted: u32) -> u32 {
    let bit = |access: u32, share: u32| if granted & access != 0 { share } else { 0 };
    bit(FILE_READ_DATA | FILE_EXECUTE, FILE_SHARE_READ)
        | bit(FILE_WRITE_DATA | FILE_APPEND_DATA, FILE_SHARE_WRITE)
        | bit(DELETE, FILE_SHARE_DELETE)
}

/// A stream's counted opens, then readers, writers, deleters, then those who share
/// reading, writing, deleting.
#[derive(Clone, Copy, Debug, Default, PartialEq, Eq)]
pub struct ShareCounts([u16; COUNTS]);

impl ShareCounts {
    pub fn from_bytes(bytes: &[u8; COUNTS_SIZE]) -> Self {
        ShareCounts(std::array::from_fn(|n| u16::from_le_bytes([bytes[2 * n], bytes[2 * n + 1]])))
    }
    pub fn to_bytes(self) -> [u8; COUNTS_SIZE] {
        std::array::from_fn(|n| self.0[n / 2].to_le_bytes()[n % 2])
    }

    /// The counts of one counted open.
    #[inline(always)]
    fn of_one(held: u32, share: u32) -> Self {
        let bit = |set: u32, n: u32| (set >> n & 1) as u16;
        ShareCounts([
            1,
            bit(held, 0),
            bit(held, 1),
            bit(held, 2),
            bit(share, 0),
            bit(share, 1),
            bit(share, 2),
        ])
    }

    /// Takes an open in, if it is counted.
    #[inline(always)]
    pub fn add(&mut self, granted: u32, share: u32) {
        let held = held(granted);
        if held != 0 {
            let one = Self::of_one(held, share);
            for (count, more) in self.0.iter_mut().zip(one.0) {
                *count += more;
            }
        }
    }

    /// Takes an open out, if it is counted.
    pub fn remove(&mut self, granted: u32, share: u32) {
        let held = held(granted);
        if held != 0 {
            let one = Self::of_one(held, share);
            for (count, less) in self.0.iter_mut().zip(one.0) {
                *count -= less;
            }
        }
    }

    /// Whether an open conflicts with one of those counted: it holds a kind that not all
    /// of them share, or doesn't share a kind that one of them holds.
    #[inline(always)]
    pub fn conflicts(&self, granted: u32, share: u32) -> bool {
        let held = held(granted);
        let [counted, holders @ .., _, _, _] = self.0;
        let sharers = &self.0[4..];
        let mut someone_holds = 0;
        let mut not_all_share = 0;
        for kind in 0..3 {
            someone_holds |= u32::from(holders[kind] != 0) << kind;
            not_all_share |= u32::from(sharers[kind] < counted) << kind;
        }
        held != 0 && (held & not_all_share | someone_holds & !share) != 0
    }
}

#[cfg(test)]
mod tests {
    use super::*;

    /// The pair rule, as it stands in document 01.
    fn pair_conflicts(a: (u32, u32), b: (u32, u32)) -> bool {
        let (held_a, held_b) = (held(a.0), held(b.0));
        held_a != 0 && held_b != 0 && (held_a & !b.1 != 0 || held_b & !a.1 != 0)
    }

    #[test]
    fn counts_decide_as_pairs_do() {
        let accesses = [0x1, 0x2, 0x4, 0x20, 0x80, 0x10000, 0x3, 0x10002, 0x1F01FF];
        let modes: Vec<_> = accesses
            .into_iter()
            .flat_map(|access| (0..8).map(move |share| (access, share)))
            .collect();
        for &first in &modes {
            for &second in &modes {
                let mut two = ShareCounts::default();
                two.add(first.0, first.1);
                assert_eq!(two.conflicts(second.0, second.1), pair_conflicts(first, second));
                two.add(second.0, second.1);
                for &third in &modes {
                    assert_eq!(
                        two.conflicts(third.0, third.1),
                        pair_conflicts(first, third) || pair_conflicts(second, third)
                    );
                }
            }
        }
    }

    #[test]
    fn attribute_only_opens_are_uncounted() {
        let mut counts = ShareCounts::default();
        counts.add(0x80, 0);
        assert_eq!(counts, ShareCounts::default());
        counts.add(0x1F01FF, 0);
        assert!(!counts.conflicts(0x120190, 0));
        counts.remove(0x80, 7);
        counts.remove(0x1F01FF, 0);
        assert_eq!(counts, ShareCounts::default());
    }
}
