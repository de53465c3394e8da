//! Audit: each demand of soundness, broken alone.

mod common;
use common::*;
use zanthupra_twin::audit;
use zanthupra_twin::constants::*;
use zanthupra_twin::layout::*;

/// Files: 1 `d`, 2 `d\e`, 3 `d\e\f` with stream `s`, 4 `g`. Opens: two readers of `g` that
/// share, one uncounted open of `d`.
fn volume() -> Volume {
    let mut volume = Volume::fresh();
    volume.make_directory("d");
    volume.make_directory("d\\e");
    volume.make("d\\e\\f:s");
    volume.make("g");
    volume.accept(ask(1, 3, 1, 0), "g", CreateAction::Opened);
    volume.accept(ask(3, 7, 1, 0), "g", CreateAction::Opened);
    volume.accept(ask(0x80, 0, 1, 0), "d", CreateAction::Opened);
    volume
}

fn file(number: usize) -> usize {
    FILES_AT + FILE_SIZE * number
}
fn link(number: usize) -> usize {
    LINKS_AT + LINK_SIZE * number
}
fn stream(number: usize) -> usize {
    STREAMS_AT + STREAM_SIZE * number
}
fn open(number: usize) -> usize {
    OPENS_AT + OPEN_SIZE * number
}

#[track_caller]
fn inconsistent(changes: &[(usize, &[u8])]) {
    let mut tables = volume().0;
    for (at, bytes) in changes {
        assert_ne!(tables[*at..at + bytes.len()], **bytes, "no change");
        tables[*at..at + bytes.len()].copy_from_slice(bytes);
    }
    assert!(!audit(&tables));
}

#[track_caller]
fn still_consistent(changes: &[(usize, &[u8])]) {
    let mut tables = volume().0;
    for (at, bytes) in changes {
        tables[*at..at + bytes.len()].copy_from_slice(bytes);
    }
    assert!(audit(&tables));
}

#[test]
fn volume_record() {
    inconsistent(&[(0, &[2])]);
    inconsistent(&[(1, &[1])]);
    still_consistent(&[(0, &[1])]);
    inconsistent(&[(2, &[7])]);
    still_consistent(&[(2, &[0xFF; 8])]);
    let mut fresh = Volume::fresh();
    fresh.set_next_handle(0);
    assert!(!audit(&fresh.0));
}

#[test]
fn free_slots_are_zero() {
    let mut tables = volume().0;
    for free in [
        file(5)..file(FILES),
        link(4)..link(LINKS),
        stream(6)..stream(STREAMS),
        open(3)..open(OPENS),
    ] {
        for at in free {
            tables[at] = 1;
            assert!(!audit(&tables), "at {at}");
            tables[at] = 0;
        }
    }
    assert!(audit(&tables));
}

#[test]
fn file_records() {
    for kind in [0, 1, 3] {
        inconsistent(&[(file(0), &[kind])]);
        inconsistent(&[(file(2), &[kind])]);
    }
    inconsistent(&[(file(4), &[2])]);
    inconsistent(&[(file(4) + 2, &[0x30])]);
    inconsistent(&[(file(1) + 2, &[0x20])]);
    inconsistent(&[(file(4) + 2, &[0x40])]);
    inconsistent(&[(file(4) + 3, &[0x02])]);
    inconsistent(&[(file(4) + 5, &[0x80])]);
    inconsistent(&[(file(4) + 6 + 29, &[0x02])]);
    inconsistent(&[(file(0) + 6 + 2, &[0x20])]);
    still_consistent(&[(file(4) + 2, &[0x27, 0x31]), (file(4) + 6, &[0; 32])]);
}

#[test]
fn link_records() {
    inconsistent(&[(link(3), &[4])]); // its own parent, no directory
    inconsistent(&[(link(3), &[3])]); // a data file
    inconsistent(&[(link(3), &[9])]); // unused
    inconsistent(&[(link(3), &[128])]); // no file
    inconsistent(&[(link(3) + 1, &[1])]);
    inconsistent(&[(link(3) + 2, &[0])]); // the root
    inconsistent(&[(link(3) + 2, &[3])]); // two links
    inconsistent(&[(link(3) + 2, &[5])]);
    inconsistent(&[(link(3) + 3, &[1])]);
    inconsistent(&[(link(3), &[0; LINK_SIZE - 1])]); // no link
    inconsistent(&[(link(0), &[2])]); // a ring of d and d\e
    inconsistent(&[(link(1), &[2])]); // its own parent
    inconsistent(&[(link(3) + 4, b"d")]); // twice in the root
    still_consistent(&[(link(3) + 4, b"f")]);
    still_consistent(&[(link(3) + 4, b"D")]);
    for name in [
        b"*\0\0\0",
        b".\0\0\0",
        b".\0.\0",
        b"a\0\\\0",
        b"a\0:\0",
        b"\x1f\0\0\0",
        b"a\0\x01\0",
        b"\0\0a\0",
    ] {
        inconsistent(&[(link(3) + 4, name)]);
    }
    inconsistent(&[(link(3) + 67, &[1])]); // zeros inside the name
}

#[test]
fn stream_records() {
    inconsistent(&[(stream(3), &[3])]);
    inconsistent(&[(stream(3), &[2])]);
    inconsistent(&[(stream(1), &[1])]);
    inconsistent(&[(stream(4) + 2, &[9])]);
    inconsistent(&[(stream(4) + 3, &[1])]);
    inconsistent(&[(stream(4) + 2, &[1])]); // a data stream of a directory
    inconsistent(&[(stream(4) + 4, &[0])]); // a second empty name
    inconsistent(&[(stream(3) + 4, b"t")]); // no empty name
    inconsistent(&[(stream(3) + 4, b"s")]); // the same name twice
    inconsistent(&[(stream(1) + 4, b"s")]); // a directory's stream with a name
    inconsistent(&[(stream(6), &[2, 0, 1])]); // a directory with two
    inconsistent(&[(stream(6), &[2, 0, 1, 0, b'x'])]);
    inconsistent(&[(stream(4) + 4, b"?")]);
    still_consistent(&[(stream(4) + 4, b".")]);
    still_consistent(&[(stream(4) + 4, &[1])]);
    still_consistent(&[(stream(4) + 4, &[b's', 0, 0x1F])]);
    inconsistent(&[(stream(4) + 4, &[1, 0, 0, 0, 1])]);
    still_consistent(&[(stream(6), &[1, 0, 4, 0, b's'])]);
    inconsistent(&[(stream(6), &[1, 0, 3, 0, b's'])]);
    for count in 0..7 {
        inconsistent(&[(stream(4) + 68 + 2 * count, &[1])]);
        inconsistent(&[(stream(5) + 69 + 2 * count, &[1])]);
    }
}

#[test]
fn open_records() {
    inconsistent(&[(open(0), &[6])]); // the second's handle
    inconsistent(&[(open(0) + 7, &[1])]); // not below the next
    inconsistent(&[(open(0), &[0; 8])]);
    inconsistent(&[(open(0) + 8, &[3])]); // another file than its stream's
    inconsistent(&[(open(2) + 10, &[4])]);
    inconsistent(&[(open(2) + 10, &[200])]);
    inconsistent(&[(open(2) + 11, &[1])]);
    inconsistent(&[(open(2) + 12, &[0])]);
    inconsistent(&[(open(2) + 13, &[2])]);
    inconsistent(&[(open(2) + 15, &[2])]);
    inconsistent(&[(open(2) + 16, &[8])]);
    inconsistent(&[(open(2) + 19, &[1])]);
    inconsistent(&[(open(0) + 12, &[2])]); // counts no longer true
    still_consistent(&[(open(0) + 12, &[0x21])]);
    still_consistent(&[(open(0), &[1])]);
    // The first no longer shares writing: a conflict, though the counts are true.
    inconsistent(&[(open(0) + 16, &[1]), (stream(5) + 78, &[1])]);
}

/// The volume above with `h:t`, file 5, whose stream 7 is marked, and with `i`, file 6, and the
/// directory `j`, file 7, which are marked. Opens 3 to 5 hold these; 6, on `k`, is
/// delete-on-close.
fn marked_volume() -> Volume {
    let mut volume = volume();
    volume.make("h:t");
    volume.make("i");
    volume.make_directory("j");
    for path in ["h:t", "i", "j"] {
        volume.accept(ask(0x80, 0, 1, 0), path, CreateAction::Opened);
    }
    for path in ["h:t", "i", "j"] {
        let marks = ask(DELETE, 7, FILE_OPEN, FILE_DELETE_ON_CLOSE);
        let handle = volume.accept(marks, path, CreateAction::Opened);
        volume.end(handle);
    }
    volume.accept(ask(ALL, 7, FILE_OPEN_IF, FILE_DELETE_ON_CLOSE), "k", CreateAction::Created);
    volume
}

const FILE_MARKS: [usize; 2] = [6, 7];
const STREAM_MARK: usize = 7;
const OPEN_MARK: usize = 6;

fn file_mark(number: usize) -> usize {
    file(number) + FILE_MARK_IN
}
fn stream_mark(number: usize) -> usize {
    stream(number) + STREAM_MARK_IN
}
fn open_mark(number: usize) -> usize {
    open(number) + OPEN_MARK_IN
}

/// The verdict on the marked volume with these bytes put in.
fn sound_with(changes: &[(usize, &[u8])]) -> bool {
    let mut tables = marked_volume().0;
    for (at, bytes) in changes {
        assert_ne!(tables[*at..at + bytes.len()], **bytes, "no change");
        tables[*at..at + bytes.len()].copy_from_slice(bytes);
    }
    audit(&tables)
}

#[test]
fn marks_are_0_or_1() {
    assert!(sound_with(&[]));
    let marks = FILE_MARKS.map(file_mark).into_iter();
    for at in marks.chain([stream_mark(STREAM_MARK), open_mark(OPEN_MARK)]) {
        for mark in [[2, 0], [3, 0], [0xFF, 0], [0, 1], [1, 1], [0, 0x80]] {
            assert!(!sound_with(&[(at, &mark)]), "{mark:?} at {at}");
        }
        assert!(sound_with(&[(at, &[0, 0])]), "no mark at {at}");
    }
    // Where there is none.
    for at in [file_mark(4), stream_mark(4), open_mark(3)] {
        for mark in [[2, 0], [0, 1]] {
            assert!(!sound_with(&[(at, &mark)]), "{mark:?} at {at}");
        }
    }
}

#[test]
fn a_marked_file_has_an_open() {
    assert!(!sound_with(&[(file_mark(3), &[1])])); // no open on it
    assert!(!sound_with(&[(file_mark(9), &[1])])); // a free slot
    assert!(sound_with(&[(file_mark(4), &[1])])); // `g` has opens
    assert!(sound_with(&[(file_mark(5), &[1])])); // an open on a named stream
                                                  // The open that held it is gone, or is on another file.
    assert!(!sound_with(&[(open(4), &[0; OPEN_SIZE])]));
    assert!(!sound_with(&[(open(4) + 8, &[4]), (open(4) + 10, &[5])]));
}

#[test]
fn a_marked_stream_has_a_name_and_an_open() {
    assert!(!sound_with(&[(stream_mark(4), &[1])])); // `d\e\f:s`: no open
    assert!(!sound_with(&[(stream_mark(5), &[1])])); // that of `g`: opens, and no name
    assert!(!sound_with(&[(stream_mark(1), &[1])])); // that of `d`: the same
    assert!(!sound_with(&[(stream_mark(0), &[1])]));
    assert!(!sound_with(&[(stream_mark(100), &[1])])); // a free slot
                                                       // An open on the file's other stream is none of its own.
    assert!(!sound_with(&[(open(3) + 10, &[6])]));
    assert!(sound_with(&[(open(3) + 10, &[6]), (stream_mark(STREAM_MARK), &[0])]));
}

#[test]
fn the_root_is_neither_marked_nor_held_to_be_deleted() {
    let mut volume = marked_volume();
    volume.accept(ask(0x80, 0, 1, 0), "", CreateAction::Opened);
    let root_open = 7;
    for at in [file_mark(0), stream_mark(0), open_mark(root_open)] {
        volume.0[at] = 1;
        assert!(!audit(&volume.0), "at {at}");
        volume.0[at] = 0;
    }
    assert!(audit(&volume.0));
    // On any other file the same open may be.
    assert!(sound_with(&[(open_mark(3), &[1])]));
    assert!(sound_with(&[(open_mark(2), &[1])])); // a directory with a child
}

#[test]
fn a_marked_directory_has_no_children() {
    assert!(!sound_with(&[(file_mark(1), &[1])])); // `d`, which is open
    assert!(!sound_with(&[(link(3), &[7])])); // `g` moved into `j`
    assert!(sound_with(&[(link(3), &[7]), (file_mark(7), &[0])]));
    assert!(!sound_with(&[(link(5), &[7])])); // a marked child is a child
}

#[test]
fn handles_may_have_any_number() {
    let mut volume = Volume::fresh();
    volume.make("a");
    for number in 0..256 {
        volume.set_next_handle(1 + (number << 40 | number >> 3 << 9));
        volume.accept(ask(0x80, 0, 1, 0), "a", CreateAction::Opened);
    }
    volume.set_next_handle(u64::MAX);
    assert!(audit(&volume.0));
    let last = volume.0[open(255)..open(255) + 8].to_vec();
    volume.0[open(0)..open(0) + 8].copy_from_slice(&last);
    assert!(!audit(&volume.0));
}

#[test]
fn lone_opens_that_share_nothing_do_not_conflict_with_themselves() {
    let mut volume = Volume::fresh();
    volume.accept(ask(ALL, 0, 2, 0), "a", CreateAction::Created);
    volume.accept(ask(ALL, 0, 2, 0), "b", CreateAction::Created);
    assert!(audit(&volume.0));
}
