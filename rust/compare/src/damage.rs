//! Damaged tables: some stay sound, most don't.

use crate::rng::Rng;
use std::ops::Range;
use zanthupra_twin::layout::*;

/// One table: where it starts, the size of a record, how many there are.
#[derive(Clone, Copy)]
struct Table {
    start: usize,
    size: usize,
    count: usize,
}

const FILE: Table = Table { start: FILES_AT, size: FILE_SIZE, count: FILES };
const LINK: Table = Table { start: LINKS_AT, size: LINK_SIZE, count: LINKS };
const STREAM: Table = Table { start: STREAMS_AT, size: STREAM_SIZE, count: STREAMS };
const OPEN: Table = Table { start: OPENS_AT, size: OPEN_SIZE, count: OPENS };

impl Table {
    fn record(self, number: usize) -> Range<usize> {
        let at = self.start + number * self.size;
        at..at + self.size
    }

    fn used(self, tables: &[u8]) -> Vec<usize> {
        let is_used = |number: &usize| tables[self.record(*number)].iter().any(|byte| *byte != 0);
        (0..self.count).filter(is_used).collect()
    }

    /// A record, mostly a used one.
    fn some(self, rng: &mut Rng, tables: &[u8]) -> Range<usize> {
        let used = self.used(tables);
        let number =
            if used.is_empty() || rng.chance(10) { rng.below(self.count) } else { rng.pick(&used) };
        self.record(number)
    }
}

fn any_table(rng: &mut Rng) -> Table {
    rng.pick(&[FILE, LINK, STREAM, OPEN])
}

/// A damaged copy of the tables.
pub fn damaged(rng: &mut Rng, tables: &[u8]) -> Vec<u8> {
    let mut tables = tables.to_vec();
    let times = rng.weighted(&[(85, 1), (12, 2), (3, 3)]);
    for _ in 0..times {
        if tables.len() == TABLES_SIZE {
            damage(rng, &mut tables);
        }
    }
    tables
}

fn damage(rng: &mut Rng, tables: &mut Vec<u8>) {
    match rng.below(100) {
        0..6 => flip_bit(rng, tables),
        6..9 => random_record(rng, tables),
        9..15 => new_record(rng, tables),
        15..21 => copy_record(rng, tables),
        21..29 => swap_records(rng, tables),
        29 => rng.fill(tables),
        30..33 => wrong_length(rng, tables),
        33..39 => count_off_by_one(rng, tables),
        39..44 => next_handle(rng, tables),
        44..49 => kind_or_mark(rng, tables),
        49..55 => number_field(rng, tables),
        55..60 => other_parent(rng, tables),
        60..67 => name_unit(rng, tables),
        67..70 => copy_name(rng, tables),
        70..74 => attributes_or_mask(rng, tables),
        74..76 => copy_handle(rng, tables),
        76..83 => change_open_with_counts(rng, tables),
        83..87 => end_open_with_counts(rng, tables),
        87 => root_alone(rng, tables),
        _ => delete_mark(rng, tables),
    }
}

fn flip_bit(rng: &mut Rng, tables: &mut [u8]) {
    let place = if rng.chance(20) {
        0..TABLES_SIZE
    } else if rng.chance(5) {
        0..VOLUME_SIZE
    } else {
        any_table(rng).some(rng, tables)
    };
    tables[place.start + rng.below(place.len())] ^= 1 << rng.below(8);
}

fn random_record(rng: &mut Rng, tables: &mut [u8]) {
    let place = any_table(rng).some(rng, tables);
    rng.fill(&mut tables[place]);
}

/// A stream, link or open in a slot, mostly a free one, that looks right by itself.
fn new_record(rng: &mut Rng, tables: &mut [u8]) {
    let files = FILE.used(tables);
    if files.is_empty() {
        return;
    }
    let table = rng.pick(&[STREAM, STREAM, LINK, OPEN]);
    let used = table.used(tables);
    let free = (0..table.count).find(|number| !used.contains(number)).unwrap_or(0);
    let number = if rng.chance(90) { free } else { rng.below(table.count) };
    let at = table.record(number).start;
    let file = rng.pick(&files) as u16;
    let name = rng.pick(b"\0asxy");
    let next = u64::from_le_bytes(tables[2..10].try_into().expect("8 bytes"));
    tables[table.record(number)].fill(0);
    match table.start {
        STREAMS_AT => {
            put(tables, at, rng.pick(&[1, 2, get(tables, FILE.record(file.into()).start)]));
            put(tables, at + 2, file);
            tables[at + 4] = name;
        }
        LINKS_AT => {
            put(tables, at, rng.pick(&files) as u16);
            put(tables, at + 2, file);
            tables[at + 4] = name;
        }
        _ => {
            let any = STREAM.record(rng.below(STREAMS));
            let stream = if rng.chance(40) { any } else { STREAM.some(rng, tables) };
            let handle = next.wrapping_sub(rng.pick(&[0, 1, 1, 2, 3]));
            tables[at..at + 8].copy_from_slice(&handle.to_le_bytes());
            put(tables, at + 8, get(tables, stream.start + 2));
            put(tables, at + 10, ((stream.start - STREAMS_AT) / STREAM_SIZE) as u16);
            put(tables, at + 12, rng.pick(&[0, 0x80, 0x80, 0x8, 0x1]));
            put(tables, at + 16, rng.pick(&[0, 7, 7, 8]));
            put(tables, at + OPEN_MARK_IN, rng.pick(&[0, 0, 0, 1]));
        }
    }
}

fn copy_record(rng: &mut Rng, tables: &mut [u8]) {
    let table = any_table(rng);
    let from = table.some(rng, tables);
    let to = table.some(rng, tables);
    tables.copy_within(from, to.start);
}

/// Two records change places; of links and of opens, any two may.
fn swap_records(rng: &mut Rng, tables: &mut [u8]) {
    let table = rng.pick(&[LINK, LINK, OPEN, OPEN, STREAM, FILE]);
    let (one, other) = (table.some(rng, tables), table.record(rng.below(table.count)));
    let kept = tables[one.clone()].to_vec();
    tables.copy_within(other.clone(), one.start);
    tables[other].copy_from_slice(&kept);
}

fn wrong_length(rng: &mut Rng, tables: &mut Vec<u8>) {
    let length = match rng.below(8) {
        0 => 0,
        1 => 1,
        2 => TABLES_SIZE - 1,
        3 => TABLES_SIZE + 1,
        4 => rng.pick(&[FILES_AT, LINKS_AT, STREAMS_AT, OPENS_AT]),
        5 => TABLES_SIZE + OPEN_SIZE,
        6 => 2 * TABLES_SIZE,
        _ => rng.below(TABLES_SIZE),
    };
    tables.resize(length, 0);
}

fn get(tables: &[u8], at: usize) -> u16 {
    u16::from_le_bytes([tables[at], tables[at + 1]])
}

fn put(tables: &mut [u8], at: usize, value: u16) {
    tables[at..at + 2].copy_from_slice(&value.to_le_bytes());
}

fn count_off_by_one(rng: &mut Rng, tables: &mut [u8]) {
    let at = STREAM.some(rng, tables).start + 68 + 2 * rng.below(7);
    let value = get(tables, at);
    put(tables, at, if rng.chance(50) { value.wrapping_add(1) } else { value.wrapping_sub(1) });
}

/// The next handle at an end, or at or just over a live handle.
fn next_handle(rng: &mut Rng, tables: &mut [u8]) {
    let open = OPEN.some(rng, tables).start;
    let live = u64::from_le_bytes(tables[open..open + 8].try_into().expect("8 bytes"));
    let next = match rng.below(8) {
        0 => 0,
        1 => 1,
        2 => live,
        3 => live.wrapping_add(1),
        4 => u64::MAX - 1 - rng.below(5) as u64,
        5 => 1 << 63,
        _ => u64::MAX,
    };
    tables[2..10].copy_from_slice(&next.to_le_bytes());
}

fn kind_or_mark(rng: &mut Rng, tables: &mut [u8]) {
    let at = match rng.below(5) {
        0 => 0,
        1 | 2 => FILE.some(rng, tables).start,
        _ => STREAM.some(rng, tables).start,
    };
    put(tables, at, rng.pick(&[0, 1, 2, 3, 0x100, 0x101, 0x102, 0xFFFF]));
}

/// A field that holds a file's or a stream's number.
fn number_field(rng: &mut Rng, tables: &mut [u8]) {
    let (table, field) =
        rng.pick(&[(LINK, 0), (LINK, 0), (LINK, 2), (STREAM, 2), (OPEN, 8), (OPEN, 10)]);
    let at = table.some(rng, tables).start + field;
    let used = FILE.used(tables);
    let value = match rng.below(10) {
        0 => rng.pick(&[128, 129, 255, 256, 257, 0x8000, 0xFFFF]),
        1 => rng.below(128) as u16,
        2 => 0,
        _ if used.is_empty() => 0,
        _ => rng.pick(&used) as u16,
    };
    put(tables, at, value);
}

/// Another directory as a link's parent: sound, unless it makes a ring or names meet.
fn other_parent(rng: &mut Rng, tables: &mut [u8]) {
    let used = FILE.used(tables);
    let is_directory = |number: &usize| get(tables, FILE.record(*number).start) == 2;
    let directories: Vec<_> = used.into_iter().filter(is_directory).collect();
    if !directories.is_empty() {
        let to_directory = |number: &usize| {
            let file = get(tables, LINK.record(*number).start + 2).into();
            directories.contains(&file)
        };
        let links: Vec<_> = LINK.used(tables).into_iter().filter(to_directory).collect();
        let link = if links.is_empty() || rng.chance(30) {
            LINK.some(rng, tables)
        } else {
            LINK.record(rng.pick(&links))
        };
        put(tables, link.start, rng.pick(&directories) as u16);
    }
}

fn name_of(rng: &mut Rng, tables: &[u8]) -> usize {
    rng.pick(&[LINK, STREAM]).some(rng, tables).start + 4
}

fn name_unit(rng: &mut Rng, tables: &mut [u8]) {
    const UNITS: [u16; 22] = [
        0, 0, 0x1, 0xD, 0x1F, 0x20, 0x22, 0x2A, 0x2E, 0x2F, 0x3A, 0x3C, 0x3E, 0x3F, 0x5C, 0x7C,
        0x41, 0x61, 0x62, 0x100, 0x2A00, 0xFFFF,
    ];
    let unit = rng.weighted(&[(6, 0), (2, 1), (1, 2), (1, 31)]);
    let unit = if rng.chance(10) { rng.below(32) } else { unit };
    let at = name_of(rng, tables) + 2 * unit;
    put(tables, at, rng.pick(&UNITS));
}

fn copy_name(rng: &mut Rng, tables: &mut [u8]) {
    let (from, to) = (name_of(rng, tables), name_of(rng, tables));
    tables.copy_within(from..from + NAME_SIZE, to);
}

/// Other attributes or another mask, which mostly leaves the tables sound.
fn attributes_or_mask(rng: &mut Rng, tables: &mut [u8]) {
    let record = FILE.some(rng, tables).start;
    let (at, value) = if rng.chance(50) {
        let directory = u32::from(tables[record + 2]) & 0x10;
        (record + 2, rng.u32() & 0x3127 | directory)
    } else {
        let mask = rng.pick(&[0x1F_01FF, 0, 0x1, 0x6, 0x12_0116, 0x1F_01EF, 0x20_0000, 0x200]);
        (record + 6 + 4 * rng.below(8), mask)
    };
    tables[at..at + 4].copy_from_slice(&value.to_le_bytes());
}

fn copy_handle(rng: &mut Rng, tables: &mut [u8]) {
    let (from, to) = (OPEN.some(rng, tables), OPEN.some(rng, tables));
    tables.copy_within(from.start..from.start + 8, to.start);
}

/// An open with another access or sharing mode, and all counts made true again: sound,
/// unless opens conflict.
fn change_open_with_counts(rng: &mut Rng, tables: &mut [u8]) {
    let open = OPEN.some(rng, tables).start;
    let access: u32 = rng.pick(&[0x1, 0x2, 0x20, 0x4, 0x80, 0x1_0000, 0x3, 0x1F_01FF]);
    let share: u32 = rng.pick(&[0, 1, 2, 3, 4, 5, 6, 7, 7, 7]);
    tables[open + 12..open + 16].copy_from_slice(&access.to_le_bytes());
    tables[open + 16..open + 20].copy_from_slice(&share.to_le_bytes());
    count_again(tables);
}

/// An open that is gone, and all counts made true again: sound, unless a mark is left
/// without an open.
fn end_open_with_counts(rng: &mut Rng, tables: &mut [u8]) {
    let open = OPEN.some(rng, tables);
    tables[open].fill(0);
    count_again(tables);
}

/// A mark of delete on close: of a file, a stream or an open, now and then of the root or
/// what is on it, or in a free slot.
fn delete_mark(rng: &mut Rng, tables: &mut [u8]) {
    let (table, field, file) = rng.pick(&[
        (FILE, FILE_MARK_IN, None),
        (STREAM, STREAM_MARK_IN, Some(2)),
        (OPEN, OPEN_MARK_IN, Some(8)),
    ]);
    let of_root = |number: &usize| {
        file.map_or(*number == ROOT, |file| get(tables, table.record(*number).start + file) == 0)
    };
    let used = table.used(tables);
    let roots: Vec<_> = used.iter().copied().filter(of_root).collect();
    let record = match rng.below(10) {
        0 if !roots.is_empty() => table.record(rng.pick(&roots)),
        1 => table.record(rng.below(table.count)),
        _ => table.some(rng, tables),
    };
    put(tables, record.start + field, rng.pick(&[1, 1, 1, 1, 1, 0, 0, 2, 3, 0x100, 0x101, 0xFFFF]));
}

/// The root alone, with an open on it that no count shows: sound, unless the root is marked
/// or that open is delete-on-close.
fn root_alone(rng: &mut Rng, tables: &mut [u8]) {
    let next = u64::from_le_bytes(tables[2..10].try_into().expect("8 bytes"));
    tables[FILE.record(1).start..].fill(0);
    put(tables, FILE.record(ROOT).start + FILE_MARK_IN, rng.pick(&[0, 1, 1]));
    put(tables, STREAM.record(0).start, 2);
    let open = OPEN.record(0).start;
    tables[open..open + 8].copy_from_slice(&next.wrapping_sub(1).to_le_bytes());
    put(tables, open + 12, 0x80);
    put(tables, open + OPEN_MARK_IN, rng.pick(&[0, 0, 1]));
}

/// Makes all counts true.
fn count_again(tables: &mut [u8]) {
    for stream in 0..STREAMS {
        let counts = counts_of(tables, stream);
        for (number, count) in counts.into_iter().enumerate() {
            put(tables, STREAM.record(stream).start + 68 + 2 * number, count);
        }
    }
}

/// The counts of a stream, counted from the opens.
fn counts_of(tables: &[u8], stream: usize) -> [u16; 7] {
    let mut counts = [0; 7];
    for number in 0..OPENS {
        let open = &tables[OPEN.record(number)];
        if open[..8] == [0; 8] || usize::from(get(open, 10)) != stream {
            continue;
        }
        let (low, high, share) = (get(open, 12), get(open, 14), get(open, 16));
        let kinds = [low & 0x21 != 0, low & 0x6 != 0, high & 0x1 != 0];
        if kinds.contains(&true) {
            counts[0] += 1;
            for kind in 0..3 {
                counts[1 + kind] += u16::from(kinds[kind]);
                counts[4 + kind] += share >> kind & 1;
            }
        }
    }
    counts
}
