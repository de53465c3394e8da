//! The mix of random calls: few names and few accesses, so that they meet.

use crate::call::Call;
use crate::rng::Rng;
use zanthupra_twin::constants::*;
use zanthupra_twin::OpenRequest;

/// What most calls on a volume are after.
#[derive(Clone, Copy, PartialEq, Eq, Debug)]
pub enum Mood {
    /// Anything.
    Mixed,
    /// As many opens as there are slots.
    ManyOpens,
    /// As many files.
    ManyFiles,
    /// As many streams.
    ManyStreams,
    /// As many of all of them.
    ManyOfAll,
    /// Files and streams that come and go by delete on close.
    Scratch,
}

pub const MOODS: [(usize, Mood); 6] = [
    (5, Mood::Mixed),
    (5, Mood::Scratch),
    (2, Mood::ManyOpens),
    (2, Mood::ManyFiles),
    (2, Mood::ManyStreams),
    (2, Mood::ManyOfAll),
];

/// Live and stale handles of a volume, as far as the calls through it told.
#[derive(Clone, Default)]
pub struct Handles {
    pub live: Vec<u64>,
    pub stale: Vec<u64>,
}

pub fn masks(rng: &mut Rng) -> Vec<u8> {
    const POOL: [u32; 10] = [ALL, ALL, ALL, 0x1F_01F9, 0x12_0116, 0x12_0089, 0x1, 0x6, 0x3, 0];
    const ALL: u32 = FILE_ALL_ACCESS;
    let style = rng.below(4);
    let mut bytes: Vec<u8> = (0..8)
        .flat_map(|account| {
            let mask = match style {
                0 => ALL,
                1 if account < 4 => ALL,
                2 if account == 0 => ALL,
                3 if rng.chance(30) => rng.u32() & ALL,
                _ => rng.pick(&POOL),
            };
            mask.to_le_bytes()
        })
        .collect();
    match rng.below(100) {
        0 => bytes.truncate(rng.below(32)),
        1 => bytes.extend_from_slice(&[0; 4]),
        2 => bytes[rng.below(32)] ^= 1 << rng.below(8),
        _ => {}
    }
    bytes
}

pub fn format(rng: &mut Rng) -> Call {
    Call::Format { masks: masks(rng), read_only: mark(rng, 5) }
}

/// The first calls on most volumes: a few directories and files.
pub fn first_calls(rng: &mut Rng) -> Vec<Call> {
    let directories = ["d", "d\\e", "d\\e\\d"].map(|path| (path, FILE_DIRECTORY_FILE));
    let files = ["a", "b:s", "d\\a", "d\\e\\a"].map(|path| (path, 0));
    let made = directories.into_iter().chain(files).filter(|_| rng.chance(80));
    made.map(|(path, options)| {
        let request = OpenRequest {
            access: FILE_READ_ATTRIBUTES,
            share: 7,
            disposition: FILE_CREATE,
            options,
            ..OpenRequest::default()
        };
        Call::Open { request, path: units(path) }
    })
    .collect()
}

/// A mark that says yes in `percent` of 100 cases.
fn mark(rng: &mut Rng, percent: usize) -> u32 {
    if !rng.chance(percent) {
        0
    } else {
        rng.pick(&[1, 1, 1, 2, 0x100, 0x1_0000, 0x8000_0000, u32::MAX])
    }
}

/// A call other than format.
pub fn call(rng: &mut Rng, mood: Mood, handles: &Handles) -> Call {
    let closes = match mood {
        Mood::Mixed => 20,
        Mood::ManyOpens | Mood::ManyOfAll => 2,
        Mood::ManyFiles | Mood::ManyStreams => 25,
        Mood::Scratch => 24,
    };
    if rng.chance(closes) {
        return close(rng, handles);
    }
    match rng.below(100) {
        0 => Call::SetReadOnly { mark: mark(rng, 60) },
        1..3 => Call::SetReadOnly { mark: 0 },
        3 => Call::Audit,
        4..9 => directory_call(rng),
        9..90 if mood == Mood::Scratch => scratch_call(rng),
        _ => Call::Open { request: request(rng, mood), path: path(rng, mood) },
    }
}

/// An open of a directory, such as meets the end of step 10.
fn directory_call(rng: &mut Rng) -> Call {
    let mut request = OpenRequest {
        account: rng.below(8) as u32,
        access: rng.pick(&[0x80, 0x80, 0x1, 0x20, 0x2, MAXIMUM_ALLOWED]),
        share: rng.pick(&[0, 2, 4, 6, 6, 6, 7, 7]),
        disposition: rng.pick(&[FILE_OPEN, FILE_OPEN_IF]),
        options: rng.pick(&[0, 0, FILE_DISALLOW_EXCLUSIVE]),
        attributes: attributes(rng),
        fold: mark(rng, 50),
    };
    if rng.chance(15) {
        delete_on_close(rng, &mut request);
    }
    let path = rng.pick(&["", "\\", "d", "d\\e", "D", "d\\e\\d"]);
    Call::Open { request, path: units(path) }
}

/// Few paths, with the option that makes what is missing there: files and streams, and
/// directories with and without children.
const SCRATCH: [(&str, u32); 18] = [
    ("a", 0),
    ("a", 0),
    ("A", 0),
    ("a:s", 0),
    ("a:s", 0),
    ("A:S", 0),
    ("a:t", 0),
    ("b:s", 0),
    ("b", 0),
    ("d", FILE_DIRECTORY_FILE),
    ("d", FILE_DIRECTORY_FILE),
    ("d\\a", 0),
    ("d\\a:s", 0),
    ("d\\e", FILE_DIRECTORY_FILE),
    ("D\\E", FILE_DIRECTORY_FILE),
    ("d\\e\\a", 0),
    ("a\\x", 0),
    ("d\\a\\x", 0),
];

/// An open that mostly shares all, so that others meet it, and that deletes half the time.
fn scratch_call(rng: &mut Rng) -> Call {
    let (path, kind) = rng.pick(&SCRATCH);
    let mut request = OpenRequest {
        account: if rng.chance(90) { 0 } else { account(rng) },
        access: rng.pick(&[0x80, 0x80, 0x1, 0x2, DELETE, MAXIMUM_ALLOWED]),
        share: if rng.chance(92) { 7 } else { share(rng) },
        disposition: if rng.chance(70) {
            rng.pick(&[FILE_OPEN, FILE_OPEN_IF, FILE_OPEN_IF, FILE_CREATE])
        } else {
            disposition(rng)
        },
        options: if rng.chance(85) { kind } else { options(rng) },
        attributes: if rng.chance(85) { 0 } else { attributes(rng) },
        fold: mark(rng, 40),
    };
    if rng.chance(50) {
        delete_on_close(rng, &mut request);
    }
    Call::Open { request, path: units(path) }
}

/// Makes a request delete on close, mostly with the access that this needs.
fn delete_on_close(rng: &mut Rng, request: &mut OpenRequest) {
    request.options |= FILE_DELETE_ON_CLOSE;
    if rng.chance(93) {
        request.access |= DELETE;
    }
}

fn close(rng: &mut Rng, handles: &Handles) -> Call {
    let handle = match rng.below(20) {
        0 => rng.pick(&[0, 1, 255, 256, u64::MAX - 1, u64::MAX]),
        1 => rng.next() >> rng.below(64),
        2 if !handles.stale.is_empty() => rng.pick(&handles.stale),
        3 if !handles.live.is_empty() => rng.pick(&handles.live) ^ 1 << rng.below(64),
        _ if !handles.live.is_empty() => rng.pick(&handles.live),
        _ => 1,
    };
    Call::Close { handle }
}

fn request(rng: &mut Rng, mood: Mood) -> OpenRequest {
    let filling = match mood {
        Mood::Mixed | Mood::Scratch => false,
        Mood::ManyOpens | Mood::ManyOfAll => rng.chance(92),
        Mood::ManyFiles | Mood::ManyStreams => rng.chance(75),
    };
    let mut request = OpenRequest {
        account: if filling { 0 } else { account(rng) },
        access: if filling { rng.pick(&[0x80, 0x1, 0x80, 0x3]) } else { access(rng) },
        share: if filling { 7 } else { share(rng) },
        disposition: if filling {
            rng.pick(&[FILE_OPEN_IF, FILE_OPEN_IF, FILE_CREATE])
        } else {
            disposition(rng)
        },
        options: if filling {
            rng.weighted(&[(9, 0), (1, FILE_DIRECTORY_FILE)])
        } else {
            options(rng)
        },
        attributes: attributes(rng),
        fold: if rng.chance(60) { 0 } else { mark(rng, 90) },
    };
    if rng.chance(if filling { 2 } else { 12 }) {
        delete_on_close(rng, &mut request);
    }
    request
}

fn account(rng: &mut Rng) -> u32 {
    match rng.below(100) {
        0..45 => 0,
        45 => rng.pick(&[8, 9, 0x1_0000, 0x8000_0000, u32::MAX]),
        _ => rng.below(8) as u32,
    }
}

fn access(rng: &mut Rng) -> u32 {
    const COLLIDING: [u32; 14] = [
        FILE_READ_DATA,
        FILE_WRITE_DATA,
        FILE_READ_DATA | FILE_WRITE_DATA,
        FILE_APPEND_DATA,
        FILE_EXECUTE,
        DELETE,
        FILE_READ_ATTRIBUTES,
        FILE_WRITE_ATTRIBUTES,
        0x12_0089,
        FILE_GENERIC_WRITE,
        MAXIMUM_ALLOWED,
        MAXIMUM_ALLOWED | FILE_READ_DATA,
        MAXIMUM_ALLOWED | FILE_WRITE_DATA,
        FILE_ALL_ACCESS,
    ];
    match rng.below(100) {
        0 => 0,
        1 => FILE_READ_DATA | 1 << rng.below(32),
        2 => rng.u32(),
        3..15 => rng.u32() & (FILE_ALL_ACCESS | MAXIMUM_ALLOWED),
        15..30 => 1 << rng.below(9),
        _ => rng.pick(&COLLIDING),
    }
}

fn share(rng: &mut Rng) -> u32 {
    match rng.below(100) {
        0 => rng.pick(&[8, 9, 0x100, 0x8000_0001]),
        1..35 => 7,
        35..50 => 3,
        _ => rng.below(8) as u32,
    }
}

fn disposition(rng: &mut Rng) -> u32 {
    rng.weighted(&[
        (28, FILE_OPEN),
        (20, FILE_CREATE),
        (24, FILE_OPEN_IF),
        (9, FILE_SUPERSEDE),
        (9, FILE_OVERWRITE),
        (9, FILE_OVERWRITE_IF),
        (1, 6),
        (1, u32::MAX),
    ])
}

fn options(rng: &mut Rng) -> u32 {
    match rng.below(100) {
        0..55 => 0,
        55..67 => FILE_NON_DIRECTORY_FILE,
        67..84 => FILE_DIRECTORY_FILE,
        84..90 => FILE_DISALLOW_EXCLUSIVE,
        90 => FILE_DIRECTORY_FILE | FILE_NON_DIRECTORY_FILE,
        91 => FILE_DIRECTORY_FILE | FILE_WRITE_THROUGH,
        92 => 1 << rng.below(32),
        93 => rng.u32(),
        _ => rng.u32() & VALID_OPTIONS,
    }
}

fn attributes(rng: &mut Rng) -> u32 {
    match rng.below(100) {
        0..60 => 0,
        60 => 1 << rng.below(32),
        61..75 => rng.u32() & REQUEST_ATTRIBUTES,
        _ => rng.pick(&[0x1, 0x2, 0x4, 0x6, 0x7, 0x20, 0x80, 0x100, 0x101, 0x1000, 0x2000, 0x22]),
    }
}

const LONGEST_NAME: &str = "abcdefghijklmnopqrstuvwxyz012345";
const FILE_NAMES: [&str; 14] = [
    "a",
    "a",
    "A",
    "b",
    "B",
    "ab",
    "aB",
    "d",
    "log",
    LONGEST_NAME,
    "z{[",
    "\u{e9}\u{20ac}",
    "\u{141}",
    "\u{161}",
];
/// Paths on which opens meet.
const OFTEN: [&str; 9] = ["a", "a", "A", "b:s", "b:s\u{1}", "d\\a", "d", "d\\e\\a", ""];
const DIRECTORY_NAMES: [&str; 6] = ["d", "d", "D", "e", "e", "a"];
const GOOD_SUFFIXES: [&str; 19] = [
    ":s",
    ":s",
    ":S",
    ":t",
    ":st",
    "::$DATA",
    "::$data",
    ":s:$DATA",
    ":S:$DaTa",
    ":$DATA",
    ":..",
    ":.",
    ":\u{1}",
    ":\u{1f}",
    ":s\u{1}",
    ":S\u{1}:$DATA",
    ":s\r",
    ":\n",
    ":abcdefghijklmnopqrstuvwxyz01234\u{1f}",
];
const BAD_SUFFIXES: [&str; 23] = [
    ":",
    "::",
    ":s:",
    ":s:$DAT",
    ":s:$DATA:",
    ":s:$DATA:x",
    ":s:t:u",
    "::x",
    ":s*",
    ":\u{0}",
    ":s\u{0}",
    ":\u{1}*",
    ":s:\u{1}",
    ":s:$DATA\r",
    ":abcdefghijklmnopqrstuvwxyz012345\u{1f}",
    "\u{0}:s",
    "*:s",
    "\u{1}:s",
    "\u{1f}:\u{1f}",
    "::$INDEX_ALLOCATION",
    ":abcdefghijklmnopqrstuvwxyz0123456",
    "\\.",
    "\\..",
];
const BAD_NAMES: [&str; 18] = [
    ".",
    "..",
    "a*",
    "?",
    "a\"b",
    "a/b",
    "<",
    ">",
    "a|",
    "\u{0}",
    "a\u{0}",
    "\u{1f}a",
    "a\u{1}",
    "\r\\a",
    ":s",
    "::$DATA",
    ".\\a",
    "abcdefghijklmnopqrstuvwxyz0123456",
];

/// A path as little-endian units, now and then with an odd byte at its end.
fn path(rng: &mut Rng, mood: Mood) -> Vec<u8> {
    let text = match rng.below(100) {
        0..3 => "\\".repeat(rng.below(3)),
        3 => return random_units(rng, 12),
        4 => return long_path(rng),
        5 => rng.pick(&BAD_NAMES).to_string(),
        6 => padded(rng, mood),
        _ => usual_path(rng, mood),
    };
    let mut bytes = units(&text);
    match rng.below(100) {
        0 => bytes.push(rng.next() as u8),
        1 => drop(bytes.pop()),
        _ => {}
    }
    bytes
}

fn units(text: &str) -> Vec<u8> {
    text.encode_utf16().flat_map(u16::to_le_bytes).collect()
}

/// A few directories, a name and perhaps a stream, now and then with backslashes too many.
fn usual_path(rng: &mut Rng, mood: Mood) -> String {
    let often = if mood == Mood::ManyOpens { 90 } else { 35 };
    if (mood == Mood::Mixed || mood == Mood::ManyOpens) && rng.chance(often) {
        return rng.pick(&OFTEN).into();
    }
    let mut path = String::new();
    if rng.chance(15) {
        path.push('\\');
    }
    for _ in 0..rng.weighted(&[(70, 0), (16, 1), (9, 2), (4, 3), (1, 12)]) {
        path += rng.pick(&DIRECTORY_NAMES);
        path += rng.weighted(&[(90, "\\"), (6, "\\\\"), (3, "\\\\\\"), (1, ":s\\")]);
    }
    path += &last_component(rng, mood);
    if rng.chance(6) {
        path += rng.pick(&["\\", "\\\\"]);
    }
    path
}

fn last_component(rng: &mut Rng, mood: Mood) -> String {
    let number = rng.below(400);
    match mood {
        Mood::ManyFiles | Mood::ManyOfAll if rng.chance(60) => return format!("f{number}"),
        Mood::ManyStreams | Mood::ManyOfAll if rng.chance(70) => {
            return format!("{}:{number}", rng.pick(&["a", "b", "ab", "log"]))
        }
        _ => {}
    }
    let mut name = rng.pick(&FILE_NAMES).to_string();
    match rng.below(100) {
        0..25 => name += rng.pick(&GOOD_SUFFIXES),
        25..28 => name += rng.pick(&BAD_SUFFIXES),
        28 => {
            name += ":";
            name += LONGEST_NAME;
        }
        _ => {}
    }
    name
}

/// A usual path filled up with backslashes to 254, 255 or 256 units.
fn padded(rng: &mut Rng, mood: Mood) -> String {
    let path = usual_path(rng, mood);
    let units = rng.pick(&[254, 255, 256]);
    let more = units - path.encode_utf16().count().min(units);
    let at = path.find('\\').unwrap_or(rng.pick(&[0, path.len()]));
    format!("{}{}{}", &path[..at], "\\".repeat(more), &path[at..])
}

/// Units that are mostly those with a meaning in paths.
fn random_units(rng: &mut Rng, most: usize) -> Vec<u8> {
    let count = rng.below(most + 1);
    let special: Vec<u16> =
        "\\\\::aAbds.$DATA*?\"/<>|\u{1f}\u{1}\r\u{0}\u{20ac}".encode_utf16().collect();
    (0..count)
        .flat_map(|_| {
            let unit = if rng.chance(90) { rng.pick(&special) } else { rng.next() as u16 };
            unit.to_le_bytes()
        })
        .collect()
}

/// A path over the limit, rarely by far.
fn long_path(rng: &mut Rng) -> Vec<u8> {
    let bytes = match rng.below(100) {
        0 => rng.below(1 << 20),
        1..20 => 512 + rng.below(8000),
        _ => 509 + rng.below(5),
    };
    let unit = rng.pick(&[b'\\', b'a', 0]);
    [unit, 0].into_iter().cycle().take(bytes).collect()
}
