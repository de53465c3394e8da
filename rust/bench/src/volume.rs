//! The volumes on which the calls are measured.

use zanthupra_twin::constants::*;
use zanthupra_twin::layout::*;
use zanthupra_twin::{audit, close, format, open, OpenRequest};

/// Tables with the path that the measured opens name, and one beside it for a file that is
/// made and deleted. One open is held on the first that writes and shares reading.
pub struct Volume {
    pub tables: Vec<u8>,
    pub path: Vec<u8>,
    pub scratch: Vec<u8>,
}

/// The measured open: it reads, and shares reading and writing.
pub const ACCEPTED: OpenRequest = request(FILE_READ_DATA, FILE_SHARE_READ | FILE_SHARE_WRITE);
/// The same, but not shared with the writer: SHARING_VIOLATION.
pub const REFUSED: OpenRequest = request(FILE_READ_DATA, FILE_SHARE_READ);
/// The open that makes a file which its close, the measured one, deletes.
pub const SCRATCH: OpenRequest = OpenRequest {
    disposition: FILE_CREATE,
    options: FILE_DELETE_ON_CLOSE,
    ..request(DELETE, VALID_SHARES)
};

const fn request(access: u32, share: u32) -> OpenRequest {
    OpenRequest {
        account: 0,
        access,
        share,
        disposition: FILE_OPEN,
        options: 0,
        attributes: 0,
        fold: 0,
    }
}

/// What a volume holds of each table.
#[derive(Clone, Copy, PartialEq, Eq, Debug)]
pub struct Used {
    pub files: usize,
    pub links: usize,
    pub streams: usize,
    pub opens: usize,
}

impl Volume {
    /// A fresh volume, and on it the file `a` with the open that is held.
    pub fn fresh() -> Self {
        let mut builder = Builder::new();
        builder.hold("a");
        builder.finish("a", "b")
    }

    /// The tables of a fresh volume with one file, and so many opens on its one stream: readers
    /// that share everything.
    pub fn crowded(opens: usize) -> Vec<u8> {
        let mut builder = Builder::new();
        builder.make("a", 0);
        for _ in 0..opens {
            builder.open("a", &request(FILE_READ_DATA, VALID_SHARES));
        }
        assert_eq!(used(&builder.tables), Used { files: 2, links: 1, streams: 2, opens });
        builder.tables
    }

    /// Files, streams and opens filled to so many percent; at 100 one slot of each is left
    /// for the measured opens. Links can't be: there is one for each file but the root.
    ///
    /// There are eight directories, nested up to four deep, as far as there is room; files
    /// lie in all of them in turn. Names have 4 to 32 units. Streams beyond one for each
    /// file are named ones of the data files in turn. Opens are spread over the streams:
    /// readers that share everything, every fourth one for attributes only. The file that
    /// is measured stands three directories deep and is the last one made.
    pub fn filled(percent: usize) -> Self {
        let mut builder = Builder::new();
        let files = (FILES * percent / 100).clamp(5, FILES - 1);
        let streams = (STREAMS * percent / 100).clamp(files, STREAMS - 1);
        let opens = (OPENS * percent / 100).clamp(1, OPENS - 1);

        // The root and the measured file stand beside these.
        let directories = &DIRECTORIES[..DIRECTORIES.len().min(files - 2)];
        for directory in directories {
            builder.make(directory, FILE_DIRECTORY_FILE);
        }
        let mut data_files: Vec<_> = (0..files - 2 - directories.len())
            .map(|number| {
                format!("{}\\{}", directories[number % directories.len()], name("track", number))
            })
            .collect();
        for path in &data_files {
            builder.make(path, 0);
        }
        builder.hold(TARGET);
        data_files.push(TARGET.into());
        let named: Vec<_> = (0..streams - files)
            .map(|number| {
                format!("{}:{}", data_files[number % data_files.len()], name("part", number))
            })
            .collect();
        for path in &named {
            builder.make(path, 0);
        }

        data_files.pop();
        let root = String::new();
        let opened: Vec<_> = data_files.iter().chain(&named).chain([&root]).collect();
        for number in 0..opens - 1 {
            let access = if number % 4 == 3 { FILE_READ_ATTRIBUTES } else { FILE_READ_DATA };
            builder.open(opened[number % opened.len()], &request(access, VALID_SHARES));
        }
        assert_eq!(used(&builder.tables), Used { files, links: files - 1, streams, opens });
        builder.finish(TARGET, BESIDE_TARGET)
    }
}

const DIRECTORIES: [&str; 8] = [
    "Recordings",
    "Recordings\\2026",
    "Recordings\\2026\\Week 46",
    "Recordings\\2026\\Week 47",
    "Recordings\\2026\\Week 47\\raw",
    "Recordings\\2025",
    "Players",
    "Players\\north hall",
];
const TARGET: &str = "Recordings\\2026\\Week 46\\evening concert.flac";
const BESIDE_TARGET: &str = "Recordings\\2026\\Week 46\\evening concert.tmp";

/// Names of varied lengths, 32 units at most.
fn name(start: &str, number: usize) -> String {
    let text = format!("{start} {number} of the evening concert in May");
    let shortest = start.len() + 1 + number.to_string().len();
    let units = shortest + number * 7 % (33 - shortest);
    text.chars().take(units).collect::<String>().trim_end().into()
}

pub fn units(path: &str) -> Vec<u8> {
    path.encode_utf16().flat_map(u16::to_le_bytes).collect()
}

/// How much of each table is used.
pub fn used(tables: &[u8]) -> Used {
    let count = |start: usize, end: usize, size: usize, key: usize| {
        let records = tables[start..end].chunks(size);
        records.filter(|record| record[key..key + 2] != [0, 0]).count()
    };
    Used {
        files: count(FILES_AT, LINKS_AT, FILE_SIZE, 0),
        links: count(LINKS_AT, STREAMS_AT, LINK_SIZE, 4),
        streams: count(STREAMS_AT, OPENS_AT, STREAM_SIZE, 0),
        opens: count(OPENS_AT, TABLES_SIZE, OPEN_SIZE, 0),
    }
}

struct Builder {
    tables: Vec<u8>,
}

impl Builder {
    fn new() -> Self {
        let mut tables = vec![0; TABLES_SIZE];
        let masks: Vec<u8> = [FILE_ALL_ACCESS; 8].into_iter().flat_map(u32::to_le_bytes).collect();
        assert_eq!(format(&mut tables, &masks, 0), 0);
        Builder { tables }
    }

    fn open(&mut self, path: &str, request: &OpenRequest) -> u64 {
        let reply = open(&mut self.tables, request, &units(path));
        assert_eq!(reply.status, 0, "{path}");
        reply.handle
    }

    /// Makes a file, directory or stream and closes it.
    fn make(&mut self, path: &str, options: u32) {
        let create = OpenRequest {
            disposition: FILE_CREATE,
            options,
            ..request(FILE_READ_ATTRIBUTES, VALID_SHARES)
        };
        let handle = self.open(path, &create);
        assert_eq!(close(&mut self.tables, handle), 0);
    }

    /// Makes a file with an open on it that stays.
    fn hold(&mut self, path: &str) {
        let writer =
            OpenRequest { disposition: FILE_CREATE, ..request(FILE_WRITE_DATA, FILE_SHARE_READ) };
        self.open(path, &writer);
    }

    fn finish(self, path: &str, scratch: &str) -> Volume {
        assert!(audit(&self.tables));
        Volume { tables: self.tables, path: units(path), scratch: units(scratch) }
    }
}
