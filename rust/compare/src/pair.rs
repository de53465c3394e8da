//! One volume, held twice: once for ours, once for the twin.

use crate::call::{Call, Reply};
use zanthupra_twin::layout::*;

/// Bytes on both sides of the tables that no call may touch. Their odd number puts the
/// tables at odd addresses.
const GUARD: usize = 37;
const GUARD_BYTE: u8 = 0xC3;

/// Tables between guards.
#[derive(Clone)]
struct Copy {
    bytes: Vec<u8>,
}

impl Copy {
    fn new(tables: &[u8]) -> Self {
        let mut bytes = vec![GUARD_BYTE; tables.len() + 2 * GUARD];
        bytes[GUARD..GUARD + tables.len()].copy_from_slice(tables);
        Copy { bytes }
    }
    fn tables(&self) -> &[u8] {
        &self.bytes[GUARD..self.bytes.len() - GUARD]
    }
    fn tables_mut(&mut self) -> &mut [u8] {
        let end = self.bytes.len() - GUARD;
        &mut self.bytes[GUARD..end]
    }
    fn guards_hold(&self) -> bool {
        let (front, back) = (&self.bytes[..GUARD], &self.bytes[self.bytes.len() - GUARD..]);
        front.iter().chain(back).all(|byte| *byte == GUARD_BYTE)
    }
}

pub struct Pair {
    ours: Copy,
    twin: Copy,
    before: Vec<u8>,
}

impl Pair {
    pub fn new(tables: &[u8]) -> Self {
        Pair { ours: Copy::new(tables), twin: Copy::new(tables), before: tables.to_vec() }
    }

    /// The tables, which are the same in both.
    pub fn tables(&self) -> &[u8] {
        self.twin.tables()
    }

    /// The tables before the last call.
    pub fn before(&self) -> &[u8] {
        &self.before
    }

    /// Makes the call through both. An error says what differs, or what changed though
    /// nothing may have.
    pub fn run(&mut self, call: &Call) -> Result<Reply, String> {
        self.before.copy_from_slice(self.twin.tables());
        let ours = call.on_ours(self.ours.tables_mut());
        let twin = call.on_twin(self.twin.tables_mut());
        if ours != twin {
            return Err(format!("replies differ\n  ours: {ours}\n  twin: {twin}"));
        }
        if self.ours.tables() != self.twin.tables() {
            let places = differences(self.ours.tables(), self.twin.tables(), "ours", "twin");
            return Err(format!("both answer {ours}, tables differ\n{places}"));
        }
        if !self.ours.guards_hold() || !self.twin.guards_hold() {
            return Err("bytes outside the tables were changed".into());
        }
        let may_change = ours.status == 0 && !matches!(call, Call::Audit);
        if !may_change && self.tables() != self.before {
            let places = differences(&self.before, self.tables(), "before", "after");
            return Err(format!("answers {ours}, yet changed the tables\n{places}"));
        }
        Ok(ours)
    }
}

/// The first places where two tables differ.
fn differences(left: &[u8], right: &[u8], left_name: &str, right_name: &str) -> String {
    let places = (0..left.len()).filter(|at| left[*at] != right[*at]);
    let lines = places.take(16).map(|at| {
        let (left, right) = (left[at], right[at]);
        format!("  {}: {left_name} {left:02x}, {right_name} {right:02x}\n", place(at))
    });
    lines.collect()
}

/// A place in the tables by table, record and byte in it.
pub fn place(at: usize) -> String {
    let (name, start, size) = match at {
        0..FILES_AT => ("volume", 0, VOLUME_SIZE),
        FILES_AT..LINKS_AT => ("file", FILES_AT, FILE_SIZE),
        LINKS_AT..STREAMS_AT => ("link", LINKS_AT, LINK_SIZE),
        STREAMS_AT..OPENS_AT => ("stream", STREAMS_AT, STREAM_SIZE),
        _ => ("open", OPENS_AT, OPEN_SIZE),
    };
    format!("byte {at} ({name} {} + {})", (at - start) / size, (at - start) % size)
}
