//! Delete on close: what a close marks, and what goes with the last open.

use crate::layout::*;

/// Marks what a delete-on-close open was on: a named stream by itself, else the file,
/// unless it is a directory with children.
pub fn mark(tables: &mut TablesMut, file: usize, stream: usize) {
    let view = tables.view();
    if !view.stream(stream).is_unnamed() {
        tables.mark_stream(stream);
    } else if !has_children(&view, file) {
        tables.mark_file(file);
    }
}

/// Whether any link, to a marked file too, has this file as its parent.
fn has_children(tables: &Tables, file: usize) -> bool {
    tables.links().any(|link| !link.is_free() && link.parent() == file)
}

/// Removes what is marked and has lost its last open: the file, opened on any of its
/// streams, or else the stream alone.
pub fn remove_unopened(tables: &mut TablesMut, file: usize, stream: usize) {
    let view = tables.view();
    let file_marked = view.file(file).delete_pending() != 0;
    let stream_marked = view.stream(stream).delete_pending() != 0;
    if file_marked && !view.live_opens().any(|open| open.file() == file) {
        remove_file(tables, file);
    } else if stream_marked && !view.live_opens().any(|open| open.stream() == stream) {
        tables.clear_stream(stream);
    }
}

/// Clears a file's link, its streams and its record.
fn remove_file(tables: &mut TablesMut, file: usize) {
    for number in 0..LINKS {
        let link = tables.view().link(number);
        if !link.is_free() && link.file() == file {
            tables.clear_link(number);
        }
    }
    for number in 0..STREAMS {
        let stream = tables.view().stream(number);
        if stream.kind() != 0 && stream.file() == file {
            tables.clear_stream(number);
        }
    }
    tables.clear_file(file);
}
