//! Soundness of tables, as document 01 lists it, in one pass over each table.

use crate::constants::*;
use crate::layout::*;
use crate::names::{is_file_name, is_stream_name, stored_units, Unit};
use crate::seen::{mix, Seen};
use crate::sharing::ShareCounts;

/// A set of files, a bit each.
type FileSet = u128;

const DATA: u16 = Kind::Data as u16;
const DIRECTORY: u16 = Kind::Directory as u16;

/// Files by what they are.
struct Files {
    used: FileSet,
    directories: FileSet,
    marked: FileSet,
}

/// What the live opens are on, and the share counts that they come to.
struct Held {
    files: FileSet,
    streams: [bool; STREAMS],
    counts: [ShareCounts; STREAMS],
}

fn has(set: FileSet, file: usize) -> bool {
    file < FILES && set >> file & 1 != 0
}

/// Adds a file to a set; false if it was there.
fn add(set: &mut FileSet, file: usize) -> bool {
    let bit = 1 << file;
    let fresh = *set & bit == 0;
    *set |= bit;
    fresh
}

/// What audit answers: whether the tables are sound.
pub fn is_consistent(tables: &Tables) -> bool {
    if tables.mark() > 1 || tables.next_handle() == 0 {
        return false;
    }
    let Some(files) = check_files(tables) else {
        return false;
    };
    check_links(tables, &files) && check_opens_and_streams(tables, &files)
}

/// Kinds, attributes, masks and marks; free slots are zero; file 0 is a directory and not
/// marked.
fn check_files(tables: &Tables) -> Option<Files> {
    let mut files = Files { used: 0, directories: 0, marked: 0 };
    for (number, file) in tables.files().enumerate() {
        let good = match file.kind() {
            0 => file.is_zero(),
            DATA => {
                files.used |= 1 << number;
                file.attributes() & FILE_ATTRIBUTE_DIRECTORY == 0
            }
            DIRECTORY => {
                files.used |= 1 << number;
                files.directories |= 1 << number;
                file.attributes() & FILE_ATTRIBUTE_DIRECTORY != 0
            }
            _ => false,
        };
        files.marked |= FileSet::from(file.delete_pending()) << number;
        let bits = masks(file.masks()).into_iter().fold(0, |sum, mask| sum | mask);
        if !good
            || file.attributes() & !STORED_ATTRIBUTES != 0
            || bits & !FILE_ALL_ACCESS != 0
            || file.delete_pending() > 1
        {
            return None;
        }
    }
    (has(files.directories, ROOT) && !has(files.marked, ROOT)).then_some(files)
}

/// Each file but the root has one link, from a directory that leads to the root and isn't
/// marked; no two links of one directory have the same name.
fn check_links(tables: &Tables, files: &Files) -> bool {
    let mut seen = Seen::new();
    let mut linked: FileSet = 0;
    let mut parents = [0u8; FILES];
    for (number, link) in tables.links().enumerate() {
        if link.is_free() {
            if !link.is_zero() {
                return false;
            }
            continue;
        }
        let (parent, file) = (link.parent(), link.file());
        if !has(files.directories & !files.marked, parent)
            || !has(files.used, file)
            || !add(&mut linked, file)
        {
            return false;
        }
        parents[file] = parent as u8;
        let name = stored_units(link.name());
        let same = |other| {
            let other = tables.link(other);
            other.parent() == parent && other.name() == link.name()
        };
        if !is_file_name(name) || !seen.insert(hash(parent, link.name(), name), number, same) {
            return false;
        }
    }
    linked == files.used & !1 && all_reach_root(&parents, linked)
}

/// Whether parents lead from each of these files to the root.
fn all_reach_root(parents: &[u8; FILES], files: FileSet) -> bool {
    let mut reach: FileSet = 1;
    let mut left = files;
    while left != 0 {
        let start = left.trailing_zeros() as usize;
        let mut passed: FileSet = 0;
        let mut file = start;
        while !has(reach, file) {
            if !add(&mut passed, file) {
                return false;
            }
            file = parents[file].into();
        }
        reach |= passed;
        left &= !reach;
    }
    true
}

/// Opens are good, and counts, marks and streams agree with them and with the files.
fn check_opens_and_streams(tables: &Tables, files: &Files) -> bool {
    let mut held =
        Held { files: 0, streams: [false; STREAMS], counts: [ShareCounts::default(); STREAMS] };
    check_opens(tables, &mut held)
        && files.marked & !held.files == 0
        && check_streams(tables, files, &held)
}

/// Each open names a used stream and its file, handles are distinct and below the next
/// one, no two opens on a stream conflict (none does with those before it), and none on the
/// root is delete-on-close. Notes what they are on, and counts the opens of each stream.
fn check_opens(tables: &Tables, held: &mut Held) -> bool {
    let mut seen = Seen::new();
    let next_handle = tables.next_handle();
    for (number, open) in tables.opens().enumerate() {
        let handle = open.handle();
        if handle == 0 {
            if !open.is_zero() {
                return false;
            }
            continue;
        }
        let (granted, share) = (open.granted(), open.share());
        if handle >= next_handle
            || granted == 0
            || granted & !FILE_ALL_ACCESS != 0
            || share > VALID_SHARES
            || open.stream() >= STREAMS
            || open.delete_on_close() > u16::from(open.file() != ROOT)
        {
            return false;
        }
        let stream = tables.stream(open.stream());
        if stream.kind() == 0 || stream.file() != open.file() || open.file() >= FILES {
            return false;
        }
        held.files |= 1 << open.file();
        held.streams[open.stream()] = true;
        let counts = &mut held.counts[open.stream()];
        if counts.conflicts(granted, share) {
            return false;
        }
        counts.add(granted, share);
        let same = |other| tables.open(other).handle() == handle;
        if !seen.insert(mix(0, handle), number, same) {
            return false;
        }
    }
    true
}

/// Streams are of their files' kinds, counts are true, and each file has one stream with
/// the empty name, a directory no other; no two streams of one file have the same name; one
/// that is marked has a name and an open.
fn check_streams(tables: &Tables, files: &Files, held: &Held) -> bool {
    let mut seen = Seen::new();
    let mut with_empty_name: FileSet = 0;
    for (number, stream) in tables.streams().enumerate() {
        let kind = stream.kind();
        if kind == 0 {
            if !stream.is_zero() {
                return false;
            }
            continue;
        }
        let file = stream.file();
        let right_file = match kind {
            DATA => has(files.used & !files.directories, file),
            DIRECTORY => has(files.directories, file),
            _ => false,
        };
        let name = stored_units(stream.name());
        let may_be_marked = !name.is_empty() && held.streams[number];
        if !right_file
            || stream.counts() != held.counts[number]
            || stream.delete_pending() > u16::from(may_be_marked)
        {
            return false;
        }
        let good_name = if name.is_empty() {
            add(&mut with_empty_name, file)
        } else {
            let same = |other| {
                let other = tables.stream(other);
                other.file() == file && other.name() == stream.name()
            };
            kind == DATA
                && is_stream_name(name)
                && seen.insert(hash(file, stream.name(), name), number, same)
        };
        if !good_name {
            return false;
        }
    }
    with_empty_name == files.used
}

/// A hash of a file's number and the words of a name.
#[inline(always)]
fn hash(file: usize, name: &NameBytes, units: &[Unit]) -> u64 {
    let words = name.as_chunks::<8>().0;
    words[..units.len().div_ceil(4)]
        .iter()
        .fold(mix(0, file as u64 + 1), |hash, word| mix(hash, u64::from_le_bytes(*word)))
}

#[cfg(test)]
mod tests {
    use super::*;

    #[test]
    fn parents_lead_to_the_root_or_round_in_a_ring() {
        // Each file's parent is the next one, and the last one's is the root.
        let mut parents: [u8; FILES] = std::array::from_fn(|file| ((file + 1) % FILES) as u8);
        assert!(all_reach_root(&parents, !1));
        parents[FILES - 1] = 5;
        assert!(!all_reach_root(&parents, !1));
        parents = [0; FILES];
        parents[7] = 7;
        assert!(!all_reach_root(&parents, 1 << 7));
        assert!(all_reach_root(&parents, 1 << 8));
    }
}
