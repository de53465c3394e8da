//! The byte form of the tables: where each record and field stands.
//! Numbers stand least significant byte first, without padding.

use crate::sharing::ShareCounts;

pub const FILES: usize = 128;
pub const LINKS: usize = 192;
pub const STREAMS: usize = 256;
pub const OPENS: usize = 256;
pub const ACCOUNTS: usize = 8;
pub const NAME_UNITS: usize = 32;
pub const PATH_UNITS: usize = 255;

/// File 0, the root.
pub const ROOT: usize = 0;

pub const VOLUME_SIZE: usize = 10;
pub const FILE_SIZE: usize = 40;
pub const LINK_SIZE: usize = 68;
pub const STREAM_SIZE: usize = 84;
pub const OPEN_SIZE: usize = 22;
pub const MASKS_SIZE: usize = 4 * ACCOUNTS;
pub const NAME_SIZE: usize = 2 * NAME_UNITS;

/// Where the marks of delete on close stand: last in their records.
pub const FILE_MARK_IN: usize = FILE_SIZE - 2;
pub const STREAM_MARK_IN: usize = STREAM_SIZE - 2;
pub const OPEN_MARK_IN: usize = OPEN_SIZE - 2;

pub const FILES_AT: usize = VOLUME_SIZE;
pub const LINKS_AT: usize = FILES_AT + FILES * FILE_SIZE;
pub const STREAMS_AT: usize = LINKS_AT + LINKS * LINK_SIZE;
pub const OPENS_AT: usize = STREAMS_AT + STREAMS * STREAM_SIZE;
pub const TABLES_SIZE: usize = OPENS_AT + OPENS * OPEN_SIZE;

/// A name as it is stored: units, then zeros.
pub type NameBytes = [u8; NAME_SIZE];

/// Kinds of files and streams; kind 0 is a free slot.
#[derive(Clone, Copy, Debug, PartialEq, Eq)]
#[repr(u16)]
pub enum Kind {
    Data = 1,
    Directory = 2,
}

/// The `N` bytes of a record that start at `at`.
#[inline(always)]
fn field<const N: usize, const R: usize>(record: &[u8; R], at: usize) -> &[u8; N] {
    record[at..].first_chunk().expect("field inside its record")
}

#[inline(always)]
fn u16_at<const R: usize>(record: &[u8; R], at: usize) -> u16 {
    u16::from_le_bytes(*field(record, at))
}

#[inline(always)]
fn u32_at<const R: usize>(record: &[u8; R], at: usize) -> u32 {
    u32::from_le_bytes(*field(record, at))
}

#[inline(always)]
fn u64_at<const R: usize>(record: &[u8; R], at: usize) -> u64 {
    u64::from_le_bytes(*field(record, at))
}

/// Whether all bytes are zero, without a branch for each byte.
#[inline(always)]
fn all_zero<const R: usize>(record: &[u8; R]) -> bool {
    record.iter().fold(0, |sum, byte| sum | byte) == 0
}

/// A file's record.
#[derive(Clone, Copy)]
pub struct File<'a>(&'a [u8; FILE_SIZE]);

impl<'a> File<'a> {
    #[inline(always)]
    pub fn kind(self) -> u16 {
        u16_at(self.0, 0)
    }
    pub fn is_directory(self) -> bool {
        self.kind() == Kind::Directory as u16
    }
    #[inline(always)]
    pub fn attributes(self) -> u32 {
        u32_at(self.0, 2)
    }
    pub fn masks(self) -> &'a [u8; MASKS_SIZE] {
        field(self.0, 6)
    }
    pub fn mask(self, account: usize) -> u32 {
        masks(self.masks())[account]
    }
    /// The mark in its bytes: 0 or 1 in tables that are sound.
    #[inline(always)]
    pub fn delete_pending(self) -> u16 {
        u16_at(self.0, FILE_MARK_IN)
    }
    pub fn is_zero(self) -> bool {
        all_zero(self.0)
    }
}

/// The eight masks in their bytes.
#[inline(always)]
pub fn masks(bytes: &[u8; MASKS_SIZE]) -> [u32; ACCOUNTS] {
    std::array::from_fn(|account| u32_at(bytes, 4 * account))
}

/// A link's record.
#[derive(Clone, Copy)]
pub struct Link<'a>(&'a [u8; LINK_SIZE]);

impl<'a> Link<'a> {
    #[inline(always)]
    pub fn parent(self) -> usize {
        u16_at(self.0, 0).into()
    }
    #[inline(always)]
    pub fn file(self) -> usize {
        u16_at(self.0, 2).into()
    }
    #[inline(always)]
    pub fn name(self) -> &'a NameBytes {
        field(self.0, 4)
    }
    /// Whether the slot has no name.
    #[inline(always)]
    pub fn is_free(self) -> bool {
        u16_at(self.0, 4) == 0
    }
    pub fn is_zero(self) -> bool {
        all_zero(self.0)
    }
}

/// A stream's record.
#[derive(Clone, Copy)]
pub struct Stream<'a>(&'a [u8; STREAM_SIZE]);

impl<'a> Stream<'a> {
    #[inline(always)]
    pub fn kind(self) -> u16 {
        u16_at(self.0, 0)
    }
    #[inline(always)]
    pub fn file(self) -> usize {
        u16_at(self.0, 2).into()
    }
    #[inline(always)]
    pub fn name(self) -> &'a NameBytes {
        field(self.0, 4)
    }
    pub fn counts(self) -> ShareCounts {
        ShareCounts::from_bytes(field(self.0, 68))
    }
    /// The mark in its bytes: 0 or 1 in tables that are sound.
    #[inline(always)]
    pub fn delete_pending(self) -> u16 {
        u16_at(self.0, STREAM_MARK_IN)
    }
    /// Whether its name is empty.
    #[inline(always)]
    pub fn is_unnamed(self) -> bool {
        u16_at(self.0, 4) == 0
    }
    pub fn is_zero(self) -> bool {
        all_zero(self.0)
    }
}

/// An open's record.
#[derive(Clone, Copy)]
pub struct Open<'a>(&'a [u8; OPEN_SIZE]);

impl Open<'_> {
    /// The handle; 0 in a free slot.
    #[inline(always)]
    pub fn handle(self) -> u64 {
        u64_at(self.0, 0)
    }
    #[inline(always)]
    pub fn file(self) -> usize {
        u16_at(self.0, 8).into()
    }
    #[inline(always)]
    pub fn stream(self) -> usize {
        u16_at(self.0, 10).into()
    }
    #[inline(always)]
    pub fn granted(self) -> u32 {
        u32_at(self.0, 12)
    }
    #[inline(always)]
    pub fn share(self) -> u32 {
        u32_at(self.0, 16)
    }
    /// The mark in its bytes: 0 or 1 in tables that are sound.
    #[inline(always)]
    pub fn delete_on_close(self) -> u16 {
        u16_at(self.0, OPEN_MARK_IN)
    }
    pub fn is_zero(self) -> bool {
        all_zero(self.0)
    }
}

/// Tables of the right length, to be read.
#[derive(Clone, Copy)]
pub struct Tables<'a> {
    volume: &'a [u8; VOLUME_SIZE],
    files: &'a [[u8; FILE_SIZE]; FILES],
    links: &'a [[u8; LINK_SIZE]; LINKS],
    streams: &'a [[u8; STREAM_SIZE]; STREAMS],
    opens: &'a [[u8; OPEN_SIZE]; OPENS],
}

/// The rows of one table.
fn rows<const SIZE: usize, const COUNT: usize>(bytes: &[u8]) -> Option<&[[u8; SIZE]; COUNT]> {
    bytes.as_chunks().0.try_into().ok()
}

impl<'a> Tables<'a> {
    /// The tables in these bytes, unless their length is wrong.
    pub fn new(bytes: &'a [u8]) -> Option<Self> {
        let bytes: &[u8; TABLES_SIZE] = bytes.try_into().ok()?;
        Some(Tables {
            volume: bytes.first_chunk()?,
            files: rows(&bytes[FILES_AT..LINKS_AT])?,
            links: rows(&bytes[LINKS_AT..STREAMS_AT])?,
            streams: rows(&bytes[STREAMS_AT..OPENS_AT])?,
            opens: rows(&bytes[OPENS_AT..])?,
        })
    }
    pub fn mark(&self) -> u16 {
        u16_at(self.volume, 0)
    }
    pub fn is_read_only(&self) -> bool {
        self.mark() != 0
    }
    pub fn next_handle(&self) -> u64 {
        u64_at(self.volume, 2)
    }
    #[inline(always)]
    pub fn file(&self, number: usize) -> File<'a> {
        File(&self.files[number])
    }
    #[inline(always)]
    pub fn link(&self, number: usize) -> Link<'a> {
        Link(&self.links[number])
    }
    #[inline(always)]
    pub fn stream(&self, number: usize) -> Stream<'a> {
        Stream(&self.streams[number])
    }
    pub fn files(&self) -> impl Iterator<Item = File<'a>> {
        self.files.iter().map(File)
    }
    pub fn links(&self) -> impl Iterator<Item = Link<'a>> {
        self.links.iter().map(Link)
    }
    pub fn streams(&self) -> impl Iterator<Item = Stream<'a>> {
        self.streams.iter().map(Stream)
    }
    pub fn opens(&self) -> impl Iterator<Item = Open<'a>> {
        self.opens.iter().map(Open)
    }
    /// The opens that have a handle.
    pub fn live_opens(&self) -> impl Iterator<Item = Open<'a>> {
        self.opens().filter(|open| open.handle() != 0)
    }
    pub fn open(&self, number: usize) -> Open<'a> {
        Open(&self.opens[number])
    }
}

/// Tables of the right length, to be changed.
pub struct TablesMut<'a>(&'a mut [u8; TABLES_SIZE]);

impl<'a> TablesMut<'a> {
    /// The tables in these bytes, unless their length is wrong.
    pub fn new(bytes: &'a mut [u8]) -> Option<Self> {
        bytes.try_into().ok().map(TablesMut)
    }
    pub fn view(&self) -> Tables<'_> {
        Tables::new(self.0).expect("length tested")
    }
    fn put<const N: usize>(&mut self, at: usize, value: [u8; N]) {
        self.0[at..at + N].copy_from_slice(&value);
    }
    pub fn clear(&mut self) {
        self.0.fill(0);
    }
    pub fn set_read_only(&mut self, read_only: bool) {
        self.put(0, u16::from(read_only).to_le_bytes());
    }
    pub fn set_next_handle(&mut self, handle: u64) {
        self.put(2, handle.to_le_bytes());
    }
    pub fn set_file(
        &mut self,
        number: usize,
        kind: Kind,
        attributes: u32,
        masks: [u8; MASKS_SIZE],
    ) {
        let at = FILES_AT + number * FILE_SIZE;
        self.put(at, (kind as u16).to_le_bytes());
        self.put(at + 2, attributes.to_le_bytes());
        self.put(at + 6, masks);
    }
    pub fn set_attributes(&mut self, file: usize, attributes: u32) {
        self.put(FILES_AT + file * FILE_SIZE + 2, attributes.to_le_bytes());
    }
    pub fn set_link(&mut self, number: usize, parent: usize, file: usize, name: NameBytes) {
        let at = LINKS_AT + number * LINK_SIZE;
        self.put(at, (parent as u16).to_le_bytes());
        self.put(at + 2, (file as u16).to_le_bytes());
        self.put(at + 4, name);
    }
    /// Makes a stream without opens in a free slot.
    pub fn set_stream(&mut self, number: usize, kind: Kind, file: usize, name: NameBytes) {
        let at = STREAMS_AT + number * STREAM_SIZE;
        self.put(at, (kind as u16).to_le_bytes());
        self.put(at + 2, (file as u16).to_le_bytes());
        self.put(at + 4, name);
    }
    pub fn set_counts(&mut self, stream: usize, counts: ShareCounts) {
        self.put(STREAMS_AT + stream * STREAM_SIZE + 68, counts.to_bytes());
    }
    pub fn set_open(&mut self, number: usize, open: &OpenRecord) {
        let at = OPENS_AT + number * OPEN_SIZE;
        self.put(at, open.handle.to_le_bytes());
        self.put(at + 8, (open.file as u16).to_le_bytes());
        self.put(at + 10, (open.stream as u16).to_le_bytes());
        self.put(at + 12, open.granted.to_le_bytes());
        self.put(at + 16, open.share.to_le_bytes());
        self.put(at + OPEN_MARK_IN, u16::from(open.delete_on_close).to_le_bytes());
    }
    pub fn mark_file(&mut self, number: usize) {
        self.put(FILES_AT + number * FILE_SIZE + FILE_MARK_IN, [1, 0]);
    }
    pub fn mark_stream(&mut self, number: usize) {
        self.put(STREAMS_AT + number * STREAM_SIZE + STREAM_MARK_IN, [1, 0]);
    }
    pub fn clear_file(&mut self, number: usize) {
        self.put(FILES_AT + number * FILE_SIZE, [0; FILE_SIZE]);
    }
    pub fn clear_link(&mut self, number: usize) {
        self.put(LINKS_AT + number * LINK_SIZE, [0; LINK_SIZE]);
    }
    pub fn clear_stream(&mut self, number: usize) {
        self.put(STREAMS_AT + number * STREAM_SIZE, [0; STREAM_SIZE]);
    }
    pub fn clear_open(&mut self, number: usize) {
        self.put(OPENS_AT + number * OPEN_SIZE, [0; OPEN_SIZE]);
    }
}

/// What an open's record holds.
pub struct OpenRecord {
    pub handle: u64,
    pub file: usize,
    pub stream: usize,
    pub granted: u32,
    pub share: u32,
    pub delete_on_close: bool,
}

#[cfg(test)]
mod tests {
    use super::*;

    #[test]
    fn places_are_those_of_the_layout() {
        assert_eq!(
            [FILES_AT, LINKS_AT, STREAMS_AT, OPENS_AT, TABLES_SIZE],
            [10, 5_130, 18_186, 39_690, 45_322]
        );
    }
}
