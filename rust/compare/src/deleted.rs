//! What closes did by delete on close, seen in the tables.

use zanthupra_twin::layout::*;

const NAMES: [&str; 5] = [
    "files marked",
    "streams marked",
    "files removed",
    "streams removed alone",
    "directories with children kept",
];

/// How often each of `NAMES` was seen.
#[derive(Default)]
pub struct Deleted([u64; NAMES.len()]);

impl Deleted {
    /// Takes in a close that succeeded, by the tables before and after it.
    pub fn take(&mut self, before: &[u8], after: &[u8]) {
        let (Some(before), Some(after)) = (Tables::new(before), Tables::new(after)) else {
            return;
        };
        for (old, new) in before.files().zip(after.files()) {
            self.0[0] += u64::from(new.delete_pending() > old.delete_pending());
            self.0[2] += u64::from(old.kind() != 0 && new.kind() == 0);
        }
        for (old, new) in before.streams().zip(after.streams()) {
            let file_stays = old.kind() != 0 && after.file(old.file()).kind() != 0;
            self.0[1] += u64::from(new.delete_pending() > old.delete_pending());
            self.0[3] += u64::from(file_stays && new.kind() == 0);
        }
        for (old, new) in before.opens().zip(after.opens()) {
            let file = after.file(old.file());
            let ended = old.delete_on_close() != 0 && new.handle() == 0;
            self.0[4] += u64::from(ended && file.is_directory() && file.delete_pending() == 0);
        }
    }

    pub fn missing(&self) -> impl Iterator<Item = String> + '_ {
        NAMES.iter().zip(self.0).filter(|(_, count)| *count == 0).map(|(name, _)| name.to_string())
    }

    pub fn summary(&self) -> String {
        let counts = NAMES.iter().zip(self.0).map(|(name, count)| format!("{name} {count}"));
        counts.collect::<Vec<_>>().join(", ")
    }
}
