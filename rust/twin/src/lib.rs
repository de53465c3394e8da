//! The open steps of document 01: format, open, close, set read-only and audit, over tables
//! in the byte form of docs/LAYOUT.md.
//!
//! Each call but format first tests that the tables are sound. A call that is refused
//! leaves every byte as it was. Nothing is allocated, and nothing is kept between calls.

#![forbid(unsafe_code)]

mod consistency;
pub mod constants;
pub mod layout;
mod names;
mod path;
mod removal;
mod seen;
mod sharing;
mod steps;
mod store;

use constants::*;
use layout::*;

/// What an open asks for, besides its path.
#[derive(Clone, Copy, Debug, Default, PartialEq, Eq)]
pub struct OpenRequest {
    pub account: u32,
    pub access: u32,
    pub share: u32,
    pub disposition: u32,
    pub options: u32,
    pub attributes: u32,
    /// 0: names match exactly; else with a to z folded to A to Z.
    pub fold: u32,
}

/// The answer to an open.
#[derive(Clone, Copy, Debug, PartialEq, Eq)]
pub struct OpenReply {
    pub status: u32,
    /// A `CreateAction`, or `NO_ACTION` where the open was refused.
    pub action: u32,
    pub granted: u32,
    pub handle: u64,
}

/// The status of a call that answers nothing else.
fn code(result: Result<(), Status>) -> u32 {
    result.err().unwrap_or(Status::Success).code()
}

/// Makes a fresh volume: the root, with these masks, and nothing else. `masks` holds eight
/// 4-byte numbers.
pub fn format(tables: &mut [u8], masks: &[u8], read_only: u32) -> u32 {
    code(try_format(tables, masks, read_only != 0))
}

fn try_format(tables: &mut [u8], masks: &[u8], read_only: bool) -> Result<(), Status> {
    let mut tables = TablesMut::new(tables).ok_or(Status::FileCorruptError)?;
    let masks: &[u8; MASKS_SIZE] = masks.try_into().or(Err(Status::InvalidParameter))?;
    if layout::masks(masks).iter().any(|mask| mask & !FILE_ALL_ACCESS != 0) {
        return Err(Status::InvalidParameter);
    }
    tables.clear();
    tables.set_read_only(read_only);
    tables.set_next_handle(1);
    tables.set_file(ROOT, Kind::Directory, FILE_ATTRIBUTE_DIRECTORY, *masks);
    tables.set_stream(0, Kind::Directory, ROOT, [0; NAME_SIZE]);
    Ok(())
}

/// Opens what the path, in little-endian units, names.
pub fn open(tables: &mut [u8], request: &OpenRequest, path: &[u8]) -> OpenReply {
    match try_open(tables, request, path) {
        Ok(reply) => reply,
        Err(status) => {
            OpenReply { status: status.code(), action: NO_ACTION, granted: 0, handle: 0 }
        }
    }
}

fn try_open(tables: &mut [u8], request: &OpenRequest, path: &[u8]) -> Result<OpenReply, Status> {
    let mut tables = consistent(tables)?;
    let plan = steps::decide(&tables.view(), request, path)?;
    let delete_on_close = request.options & FILE_DELETE_ON_CLOSE != 0;
    let handle = store::store(&mut tables, &plan, delete_on_close)?;
    Ok(OpenReply {
        status: Status::Success.code(),
        action: plan.action as u32,
        granted: plan.granted,
        handle,
    })
}

/// Frees the open of that handle and takes it out of its stream's counts. Delete on close
/// marks what it was on; what is marked goes with its last open.
pub fn close(tables: &mut [u8], handle: u64) -> u32 {
    code(try_close(tables, handle))
}

fn try_close(tables: &mut [u8], handle: u64) -> Result<(), Status> {
    let mut tables = consistent(tables)?;
    let view = tables.view();
    let slot = view
        .opens()
        .position(|open| handle != 0 && open.handle() == handle)
        .ok_or(Status::InvalidHandle)?;
    let open = view.open(slot);
    let (file, stream) = (open.file(), open.stream());
    let delete_on_close = open.delete_on_close() != 0;
    let mut counts = view.stream(stream).counts();
    counts.remove(open.granted(), open.share());
    tables.set_counts(stream, counts);
    tables.clear_open(slot);
    if delete_on_close {
        removal::mark(&mut tables, file, stream);
    }
    removal::remove_unopened(&mut tables, file, stream);
    Ok(())
}

/// Sets the read-only mark, or clears it for 0.
pub fn set_read_only(tables: &mut [u8], read_only: u32) -> u32 {
    code(consistent(tables).map(|mut tables| tables.set_read_only(read_only != 0)))
}

/// Whether the tables are sound.
pub fn audit(tables: &[u8]) -> bool {
    Tables::new(tables).is_some_and(|tables| consistency::is_consistent(&tables))
}

/// The tables, if they are sound.
fn consistent(tables: &mut [u8]) -> Result<TablesMut<'_>, Status> {
    let tables = TablesMut::new(tables).ok_or(Status::FileCorruptError)?;
    if !consistency::is_consistent(&tables.view()) {
        return Err(Status::FileCorruptError);
    }
    Ok(tables)
}
