//! Names of files and streams: step 4's rules for one name, and matching.

use crate::layout::{NameBytes, NAME_SIZE, NAME_UNITS};

/// One UTF-16 unit, little-endian.
pub type Unit = [u8; 2];

pub const BACKSLASH: Unit = [b'\\', 0];
pub const COLON: Unit = [b':', 0];
const DOT: Unit = [b'.', 0];

/// The lowest unit of a file's name, and of a stream's, where control units may stand.
const LOWEST_IN_FILE_NAME: u16 = 0x20;
const LOWEST_IN_STREAM_NAME: u16 = 1;

/// Units that no name with this lowest unit holds. Backslash and colon separate names in
/// a path.
#[inline(always)]
fn is_forbidden(unit: Unit, lowest: u16) -> bool {
    let unit = u16::from_le_bytes(unit);
    let is = |character: u8| unit == u16::from(character);
    (unit < lowest)
        | is(b'"')
        | is(b'*')
        | is(b'/')
        | is(b':')
        | is(b'<')
        | is(b'>')
        | is(b'?')
        | is(b'\\')
        | is(b'|')
}

/// Step 4 for the units of a name. Looks at each without a branch, so that the compiler can
/// take several at once. One body for both kinds of name: inlined, with the lowest unit a
/// constant, it made the audit of a volume three quarters full a quarter slower.
#[inline(never)]
fn has_good_units(units: &[Unit], lowest: u16) -> bool {
    units.len() <= NAME_UNITS
        && !units.iter().fold(false, |found, unit| found | is_forbidden(*unit, lowest))
}

/// Step 4 for a stream's name, which may be empty.
#[inline]
pub fn is_stream_name(units: &[Unit]) -> bool {
    has_good_units(units, LOWEST_IN_STREAM_NAME)
}

/// Step 4 for a file's name.
#[inline]
pub fn is_file_name(units: &[Unit]) -> bool {
    !units.is_empty()
        && units != [DOT]
        && units != [DOT, DOT]
        && has_good_units(units, LOWEST_IN_FILE_NAME)
}

/// Step 4 for a stream type: empty or $DATA.
pub fn is_stream_type(units: &[Unit]) -> bool {
    units.is_empty() || units.as_flattened().eq_ignore_ascii_case(b"$\0D\0A\0T\0A\0")
}

/// The units of a stored name up to its last that isn't zero.
#[inline]
pub fn stored_units(name: &NameBytes) -> &[Unit] {
    let words = name.as_chunks::<8>().0;
    let units = words.iter().rposition(|word| u64::from_le_bytes(*word) != 0).map_or(0, |last| {
        let unused = u64::from_le_bytes(words[last]).leading_zeros() / 16;
        4 * last + 4 - unused as usize
    });
    &name.as_chunks().0[..units]
}

/// A to Z for a to z.
fn fold(unit: Unit) -> Unit {
    match unit {
        [letter, 0] => [letter.to_ascii_uppercase(), 0],
        other => other,
    }
}

/// A name to look for, in the form in which names are stored.
#[derive(Clone, Copy)]
pub struct Name {
    bytes: NameBytes,
    fold: bool,
}

impl Name {
    /// At most 32 units; matched exactly, or with a to z folded to A to Z.
    pub fn new(units: &[Unit], fold: bool) -> Self {
        let mut bytes = [0; NAME_SIZE];
        bytes[..2 * units.len()].copy_from_slice(units.as_flattened());
        Name { bytes, fold }
    }
    pub fn bytes(&self) -> &NameBytes {
        &self.bytes
    }
    pub fn is_empty(&self) -> bool {
        self.bytes[..2] == [0, 0]
    }
    #[inline(always)]
    pub fn matches(&self, stored: &NameBytes) -> bool {
        if self.fold {
            let (ours, theirs) = (self.bytes.as_chunks().0, stored.as_chunks().0);
            ours.iter().zip(theirs).all(|(a, b)| fold(*a) == fold(*b))
        } else {
            self.bytes == *stored
        }
    }
}

#[cfg(test)]
mod tests {
    use super::*;

    fn units(text: &str) -> Vec<Unit> {
        text.encode_utf16().map(u16::to_le_bytes).collect()
    }

    #[test]
    fn forbidden_units() {
        for unit in 0..=u16::MAX {
            let sign = u8::try_from(unit).is_ok_and(|byte| b"\"*/<>?|\\:".contains(&byte));
            let name = [*b"a\0", unit.to_le_bytes()];
            assert_eq!(is_stream_name(&name), unit != 0 && !sign, "{unit:x}");
            assert_eq!(is_file_name(&name), unit >= 0x20 && !sign, "{unit:x}");
        }
    }

    #[test]
    fn dots_are_refused_as_file_names_only() {
        for name in [".", ".."] {
            assert!(!is_file_name(&units(name)));
            assert!(is_stream_name(&units(name)));
        }
        assert!(is_file_name(&units("...")));
        assert!(is_file_name(&units(".a")));
        assert!(!is_file_name(&[]));
        assert!(is_stream_name(&[]));
    }

    #[test]
    fn names_end_at_32_units() {
        assert!(is_file_name(&units(&"x".repeat(32))));
        assert!(!is_file_name(&units(&"x".repeat(33))));
    }

    #[test]
    fn types() {
        for good in ["", "$DATA", "$data", "$dAtA"] {
            assert!(is_stream_type(&units(good)));
        }
        for bad in ["$DAT", "$DATAA", "DATA", "$INDEX_ALLOCATION", "\u{2124}DATA"] {
            assert!(!is_stream_type(&units(bad)));
        }
    }

    #[test]
    fn stored_names_keep_inner_zeros() {
        for length in 0..=32 {
            let mut bytes = [0; NAME_SIZE];
            bytes[..2 * length].fill(1);
            assert_eq!(stored_units(&bytes).len(), length);
        }
        let mut hole = [0; NAME_SIZE];
        hole[0] = b'a';
        hole[41] = 1;
        assert_eq!(stored_units(&hole).len(), 21);
        assert!(!is_stream_name(stored_units(&hole)));
    }

    #[test]
    fn folding_is_ascii_only() {
        let stored = |text: &str| *Name::new(&units(text), false).bytes();
        assert!(Name::new(&units("aBc{"), true).matches(&stored("AbC{")));
        assert!(!Name::new(&units("aBc"), false).matches(&stored("AbC")));
        assert!(!Name::new(&units("a"), true).matches(&stored("ab")));
        assert!(!Name::new(&units("["), true).matches(&stored("{")));
        assert!(!Name::new(&units("\u{E9}"), true).matches(&stored("\u{C9}")));
        assert!(!Name::new(&units("\u{161}"), true).matches(&stored("\u{141}")));
    }
}
