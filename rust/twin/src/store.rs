//! Step 12: room for what an open adds, then the change of the tables.

use crate::constants::Status;
use crate::layout::*;
use crate::steps::{Plan, Target};

/// Free slots for what the open adds; unused ones are left at 0.
struct Slots {
    file: usize,
    link: usize,
    streams: [usize; 2],
    open: usize,
}

/// Stores the open and what it adds. Answers the handle.
pub fn store(tables: &mut TablesMut, plan: &Plan, delete_on_close: bool) -> Result<u64, Status> {
    let slots = find_slots(&tables.view(), &plan.target)?;
    let handle = tables.view().next_handle();
    if handle == u64::MAX {
        return Err(Status::InsufficientResources);
    }
    let (file, stream) = store_target(tables, &plan.target, &slots);
    let &Plan { granted, share, .. } = plan;
    let mut counts = tables.view().stream(stream).counts();
    counts.add(granted, share);
    tables.set_counts(stream, counts);
    tables.set_open(
        slots.open,
        &OpenRecord { handle, file, stream, granted, share, delete_on_close },
    );
    tables.set_next_handle(handle + 1);
    Ok(handle)
}

/// The lowest free slots: first those that hold files, links and streams, then the open's.
fn find_slots(tables: &Tables, target: &Target) -> Result<Slots, Status> {
    let mut slots = Slots { file: 0, link: 0, streams: [0; 2], open: 0 };
    if let Target::NewFile { .. } = target {
        slots.file = tables.files().position(|file| file.kind() == 0).ok_or(Status::DiskFull)?;
        slots.link = tables.links().position(|link| link.is_free()).ok_or(Status::DiskFull)?;
    }
    let mut free_streams = (0..STREAMS).filter(|number| tables.stream(*number).kind() == 0);
    for slot in &mut slots.streams[..target.new_streams()] {
        *slot = free_streams.next().ok_or(Status::DiskFull)?;
    }
    slots.open =
        tables.opens().position(|open| open.handle() == 0).ok_or(Status::TooManyOpenedFiles)?;
    Ok(slots)
}

impl Target {
    /// How many streams it adds: a file named with a stream has the empty one too.
    fn new_streams(&self) -> usize {
        match self {
            Target::Stream { .. } => 0,
            Target::NewStream { .. } => 1,
            Target::NewFile { stream_name, .. } => {
                if stream_name.is_empty() {
                    1
                } else {
                    2
                }
            }
        }
    }
}

/// Makes what the open adds. Answers the file and the stream that are opened.
fn store_target(tables: &mut TablesMut, target: &Target, slots: &Slots) -> (usize, usize) {
    match *target {
        Target::Stream { file, stream, attributes } => {
            if let Some(attributes) = attributes {
                tables.set_attributes(file, attributes);
            }
            (file, stream)
        }
        Target::NewStream { file, attributes, name } => {
            tables.set_attributes(file, attributes);
            tables.set_stream(slots.streams[0], Kind::Data, file, *name.bytes());
            (file, slots.streams[0])
        }
        Target::NewFile { parent, kind, attributes, name, stream_name } => {
            let file = slots.file;
            let masks = *tables.view().file(parent).masks();
            tables.set_file(file, kind, attributes, masks);
            tables.set_link(slots.link, parent, file, *name.bytes());
            tables.set_stream(slots.streams[0], kind, file, [0; NAME_SIZE]);
            if stream_name.is_empty() {
                return (file, slots.streams[0]);
            }
            tables.set_stream(slots.streams[1], kind, file, *stream_name.bytes());
            (file, slots.streams[1])
        }
    }
}
