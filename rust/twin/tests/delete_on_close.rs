//! Delete on close: each reading of request L1.

mod common;
use common::*;
use zanthupra_twin::constants::*;
use zanthupra_twin::layout::*;
use zanthupra_twin::OpenRequest;

const ON_CLOSE: u32 = FILE_DELETE_ON_CLOSE;
const DIRECTORY: u32 = FILE_DIRECTORY_FILE;

/// A delete-on-close open that shares everything.
fn scratch(disposition: u32, options: u32) -> OpenRequest {
    ask(DELETE, 7, disposition, ON_CLOSE | options)
}

/// An open for attributes, which no count shows.
fn look() -> OpenRequest {
    ask(FILE_READ_ATTRIBUTES, 0, FILE_OPEN, 0)
}

impl Volume {
    /// Opens what is there for attributes.
    #[track_caller]
    fn look(&mut self, path: &str) -> u64 {
        self.accept(look(), path, CreateAction::Opened)
    }

    /// Marks what is there, and holds it by an open that no count shows.
    #[track_caller]
    fn mark(&mut self, path: &str) -> u64 {
        let held = self.look(path);
        let marks = self.accept(scratch(FILE_OPEN, 0), path, CreateAction::Opened);
        self.end(marks);
        held
    }

    #[track_caller]
    fn missing(&mut self, path: &str) {
        self.refuse(look(), path, Status::ObjectNameNotFound);
    }

    #[track_caller]
    fn pending(&mut self, request: OpenRequest, path: &str) {
        self.refuse(request, path, Status::DeletePending);
    }
}

/// The tables but for the next handle.
fn records(volume: &Volume) -> &[u8] {
    &volume.0[VOLUME_SIZE..]
}

#[test]
fn step_1_wants_access_to_delete() {
    let mut volume = Volume::fresh();
    for access in [1, 0x80, ALL & !DELETE, MAXIMUM_ALLOWED, MAXIMUM_ALLOWED | 1, 0] {
        let request = ask(access, 7, FILE_OPEN_IF, ON_CLOSE);
        volume.refuse(request, "a", Status::InvalidParameter);
        // Before steps 2 to 4.
        let request = ask(access, 7, FILE_OPEN_IF, ON_CLOSE | 0x41);
        volume.refuse(request, "a:", Status::InvalidParameter);
    }
    volume.refuse(ask(0x0101_0000, 7, FILE_OPEN_IF, ON_CLOSE), "a", Status::AccessDenied);
    for access in [DELETE, ALL, MAXIMUM_ALLOWED | DELETE] {
        volume.make_as(ask(access, 0, FILE_CREATE, ON_CLOSE), "a");
    }
}

#[test]
fn options_that_go_with_it() {
    let mut volume = Volume::fresh();
    for options in [0, 0x2, 0x4, 0x8, 0x40, 0x2_0000, 0x2_004E] {
        volume.make_as(scratch(FILE_CREATE, options), "a");
    }
    for options in [0x1, 0x3] {
        volume.make_as(scratch(FILE_CREATE, options), "d");
    }
    for bit in (0..32).filter(|bit| VALID_OPTIONS >> bit & 1 == 0) {
        volume.refuse(scratch(FILE_CREATE, 1 << bit), "a", Status::InvalidParameter);
    }
    assert_eq!(VALID_OPTIONS, 0x2_104F);
}

#[test]
fn the_open_keeps_the_option() {
    let mut volume = Volume::fresh();
    volume.accept(scratch(FILE_CREATE, 0), "a", CreateAction::Created);
    volume.accept(ask(DELETE, 7, FILE_OPEN, 0), "a", CreateAction::Opened);
    volume.accept(scratch(FILE_OPEN_IF, 0), "a:s", CreateAction::Created);
    volume.accept(scratch(FILE_SUPERSEDE, 0), "a", CreateAction::Superseded);
    volume.accept(scratch(FILE_CREATE, DIRECTORY), "d", CreateAction::Created);
    volume.accept(scratch(FILE_OPEN, 0), "d", CreateAction::Opened);
    assert_eq!([0, 1, 2, 3, 4, 5].map(|open| volume.open_mark(open)), [1, 0, 1, 1, 1, 1]);
    assert_eq!([0, 1, 2].map(|file| volume.file_mark(file)), [0; 3]);
    assert_eq!([0, 1, 2, 3].map(|stream| volume.stream_mark(stream)), [0; 4]);
}

#[test]
fn step_9_refuses_a_new_read_only_file() {
    let mut volume = Volume::with_masks([ALL, 0, ALL, ALL, ALL, ALL, ALL, ALL]);
    let read_only = |options| OpenRequest { attributes: 0x1, ..scratch(FILE_CREATE, options) };
    for (path, options) in [("a", 0), ("b:s", 0), ("d", DIRECTORY)] {
        volume.refuse(read_only(options), path, Status::CannotDelete);
        // Before the parent's mask.
        let denied = OpenRequest { account: 1, ..read_only(options) };
        volume.refuse(denied, path, Status::CannotDelete);
        let denied = OpenRequest { attributes: 0, ..denied };
        volume.refuse(denied, path, Status::AccessDenied);
        // What is asked counts only with the option.
        volume.make_as(OpenRequest { options, ..read_only(0) }, &format!("kept {path}"));
    }
    // After the test of a temporary directory.
    let temporary = OpenRequest { attributes: 0x101, ..read_only(DIRECTORY) };
    volume.refuse(temporary, "d", Status::InvalidParameter);
    volume.refuse(OpenRequest { options: ON_CLOSE, ..temporary }, "d", Status::CannotDelete);
    // After step 7.
    let missing = OpenRequest { disposition: FILE_OPEN, ..read_only(0) };
    volume.refuse(missing, "a", Status::ObjectNameNotFound);
    volume.read_only(1);
    let protected = OpenRequest { disposition: FILE_OPEN_IF, ..read_only(0) };
    volume.refuse(protected, "a", Status::MediaWriteProtected);
}

#[test]
fn the_root_cannot_be_deleted() {
    let mut volume = Volume::with_masks([ALL, ALL & !DELETE, 0, 0, 0, 0, 0, 0]);
    for path in ["", "\\", "\\\\\\"] {
        volume.refuse(scratch(FILE_OPEN, 0), path, Status::CannotDelete);
        volume.refuse(scratch(FILE_OPEN_IF, DIRECTORY), path, Status::CannotDelete);
        // After the access rule, and so after what comes before that.
        for account in [1, 2] {
            let denied = OpenRequest { account, ..scratch(FILE_OPEN, 0) };
            volume.refuse(denied, path, Status::AccessDenied);
        }
        volume.refuse(scratch(FILE_CREATE, 0), path, Status::AccessDenied);
    }
    volume.refuse(scratch(FILE_OPEN, 0x40), "", Status::FileIsADirectory);
    // Before sharing, and before step 10's share read.
    volume.accept(ask(DELETE, 0, FILE_OPEN, 0), "", CreateAction::Opened);
    volume.refuse(scratch(FILE_OPEN, 0), "", Status::CannotDelete);
    volume.refuse(scratch(FILE_OPEN, 0x2_0000), "", Status::CannotDelete);
    volume.refuse(ask(DELETE, 7, FILE_OPEN, 0), "", Status::SharingViolation);
}

#[test]
fn found_read_only_files_cannot_be_deleted() {
    let mut volume = Volume::with_masks([ALL, ALL & !DELETE, 0, 0, 0, 0, 0, 0]);
    volume.make("f:s");
    volume.make_directory("d");
    for file in [1, 2] {
        volume.0[FILES_AT + FILE_SIZE * file + 2] |= 0x1;
    }
    for path in ["f", "f:s", "f::$DATA", "d"] {
        volume.refuse(scratch(FILE_OPEN, 0), path, Status::CannotDelete);
        volume.refuse(scratch(FILE_OPEN_IF, 0), path, Status::CannotDelete);
        // After the access rule, before sharing.
        let denied = OpenRequest { account: 1, ..scratch(FILE_OPEN, 0) };
        volume.refuse(denied, path, Status::AccessDenied);
        let held = volume.accept(ask(DELETE, 0, FILE_OPEN, 0), path, CreateAction::Opened);
        volume.refuse(scratch(FILE_OPEN, 0), path, Status::CannotDelete);
        volume.refuse(ask(DELETE, 7, FILE_OPEN, 0), path, Status::SharingViolation);
        volume.end(held);
    }
    // COLLISION and step 8 come before the access rule.
    volume.refuse(scratch(FILE_CREATE, 0), "f", Status::ObjectNameCollision);
    volume.refuse(scratch(FILE_CREATE, 0), "d", Status::ObjectNameCollision);
    volume.refuse(scratch(FILE_OPEN, 0x40), "d", Status::FileIsADirectory);
    // A missing stream gains 0x2, which the access rule denies on such a file.
    volume.refuse(scratch(FILE_OPEN_IF, 0), "f:t", Status::AccessDenied);
    volume.refuse(scratch(FILE_OPEN, 0), "f:t", Status::ObjectNameNotFound);
    // An overwrite gains it too; a supersede doesn't.
    volume.refuse(scratch(FILE_OVERWRITE, 0), "f", Status::AccessDenied);
    volume.refuse(scratch(FILE_SUPERSEDE, 0), "f:s", Status::CannotDelete);
}

#[test]
fn attributes_are_judged_as_they_were() {
    let mut volume = Volume::fresh();
    volume.make_as(OpenRequest { attributes: 0x1, ..ask(0x80, 7, FILE_CREATE, 0) }, "r");
    volume.make("w");
    volume.refuse(scratch(FILE_SUPERSEDE, 0), "r", Status::CannotDelete);
    let to_read_only = OpenRequest { attributes: 0x1, ..scratch(FILE_SUPERSEDE, 0) };
    let handle = volume.accept(to_read_only, "w", CreateAction::Superseded);
    assert_eq!(volume.attributes(2), 0x21);
    volume.refuse(scratch(FILE_OPEN, 0), "w", Status::CannotDelete);
    // The option was taken when the file could be deleted: the close does it.
    volume.end(handle);
    volume.missing("w");
}

#[test]
fn the_access_rule_comes_before_the_read_only_volume_for_a_missing_stream() {
    let mut volume = Volume::with_masks([ALL, DELETE, 0, 0, 0, 0, 0, 0]);
    volume.make("f");
    volume.read_only(1);
    volume.refuse(scratch(FILE_OPEN_IF, 0), "f:s", Status::MediaWriteProtected);
    let denied = OpenRequest { account: 1, ..scratch(FILE_OPEN_IF, 0) };
    volume.refuse(denied, "f:s", Status::AccessDenied);
}

#[test]
fn a_close_marks_and_removes_at_once() {
    let mut volume = Volume::fresh();
    let before = records(&volume).to_vec();
    for (path, options) in [("a", 0), ("d", DIRECTORY)] {
        let handle = volume.accept(scratch(FILE_CREATE, options), path, CreateAction::Created);
        volume.end(handle);
        assert!(records(&volume) == before, "every slot is as it was, all zero");
        assert_eq!(volume.close(handle), Status::InvalidHandle.code());
        volume.missing(path);
    }
    // A file that was there goes with all its streams.
    volume.make("a");
    volume.make("a:s");
    volume.make("a:t");
    let handle = volume.accept(scratch(FILE_OPEN, 0), "a", CreateAction::Opened);
    volume.end(handle);
    assert!(records(&volume) == before);
}

#[test]
fn an_open_without_the_option_marks_nothing() {
    let mut volume = Volume::fresh();
    volume.make_as(ask(DELETE, 0, FILE_CREATE, 0), "a");
    volume.make_as(ask(MAXIMUM_ALLOWED, 0, FILE_CREATE, 0), "b");
    volume.look("a");
    volume.look("b");
}

#[test]
fn a_marked_file_stays_until_its_last_open_closes() {
    let mut volume = Volume::fresh();
    volume.make("a");
    let (first, second) = (volume.look("a"), volume.look("a"));
    let marks = volume.accept(scratch(FILE_OPEN, 0), "a", CreateAction::Opened);
    assert_eq!(volume.file_mark(1), 0, "not before the close");
    volume.end(marks);
    assert_eq!(volume.file_mark(1), 1);
    volume.pending(look(), "a");
    // These are no delete-on-close opens, and no count shows them.
    volume.end(second);
    assert_eq!(volume.file_mark(1), 1);
    volume.pending(look(), "a");
    volume.end(first);
    volume.missing("a");
    assert!(records(&volume) == records(&Volume::fresh()));
}

#[test]
fn the_last_open_is_of_any_stream_of_the_file() {
    let mut volume = Volume::fresh();
    volume.make("a:s");
    let on_stream = volume.look("a:s");
    let marks = volume.accept(scratch(FILE_OPEN, 0), "a", CreateAction::Opened);
    volume.end(marks);
    assert_eq!([volume.file_mark(1), volume.stream_mark(1), volume.stream_mark(2)], [1, 0, 0]);
    for path in ["a", "a:s", "a:t", "a::$DATA"] {
        volume.pending(look(), path);
    }
    volume.end(on_stream);
    volume.missing("a");
    assert!(records(&volume) == records(&Volume::fresh()));
}

#[test]
fn two_delete_on_close_opens() {
    let mut volume = Volume::fresh();
    let first = volume.accept(scratch(FILE_CREATE, 0), "a", CreateAction::Created);
    let second = volume.accept(scratch(FILE_OPEN, 0), "a", CreateAction::Opened);
    volume.end(first);
    volume.pending(look(), "a");
    volume.end(second);
    volume.missing("a");
}

#[test]
fn a_named_stream_marks_itself_alone() {
    let mut volume = Volume::fresh();
    volume.make("a:s");
    volume.make("a:t");
    let held = volume.mark("a:s");
    assert_eq!(volume.file_mark(1), 0);
    assert_eq!([1, 2, 3].map(|stream| volume.stream_mark(stream)), [0, 1, 0]);
    for disposition in 0..6 {
        volume.pending(ask(1, 7, disposition, 0), "a:s");
    }
    // The others can be opened, and hold it up no longer.
    volume.look("a");
    volume.look("a:t");
    volume.make("a:u");
    volume.end(held);
    volume.missing("a:s");
    volume.look("a");
    volume.look("a:t");
    assert_eq!(volume.u16(STREAMS_AT + 2 * STREAM_SIZE), 0);
    volume.make("a:s");
    assert_eq!(volume.u16(STREAMS_AT + 2 * STREAM_SIZE), 1, "its slot serves again");
}

#[test]
fn the_unnamed_stream_by_its_type_is_the_file() {
    let mut volume = Volume::fresh();
    volume.make_as(scratch(FILE_CREATE, 0), "a::$DATA");
    volume.missing("a");
}

#[test]
fn an_open_that_creates_file_and_stream_marks_the_stream() {
    let mut volume = Volume::fresh();
    volume.make_as(scratch(FILE_CREATE, 0), "a:s");
    volume.missing("a:s");
    volume.look("a");
    let mut plain = Volume::fresh();
    plain.make("a");
    plain.look("a");
    assert!(
        records(&volume)[..OPENS_AT - VOLUME_SIZE] == records(&plain)[..OPENS_AT - VOLUME_SIZE]
    );
}

#[test]
fn a_marked_stream_goes_before_or_with_its_file() {
    // The stream's last open closes while the file is held: the stream goes alone.
    let mut volume = Volume::fresh();
    volume.make("a:s");
    let on_stream = volume.look("a:s");
    let on_file = volume.look("a");
    let marks_stream = volume.accept(scratch(FILE_OPEN, 0), "a:s", CreateAction::Opened);
    let marks_file = volume.accept(scratch(FILE_OPEN, 0), "a", CreateAction::Opened);
    volume.end(marks_stream);
    volume.end(marks_file);
    assert_eq!([volume.file_mark(1), volume.stream_mark(2)], [1, 1]);
    volume.end(on_stream);
    assert_eq!([1, 2].map(|stream| volume.u16(STREAMS_AT + STREAM_SIZE * stream)), [1, 0]);
    volume.pending(look(), "a");
    volume.end(on_file);
    assert!(records(&volume) == records(&Volume::fresh()));

    // It is the file's last open too: all goes.
    volume.make("a:s");
    let on_stream = volume.mark("a:s");
    let marks_file = volume.accept(scratch(FILE_OPEN, 0), "a", CreateAction::Opened);
    volume.end(marks_file);
    volume.end(on_stream);
    assert!(records(&volume) == records(&Volume::fresh()));
}

#[test]
fn a_marked_stream_that_closes_the_marked_file_by_itself() {
    // One delete-on-close open on the stream of a file that is marked.
    let mut volume = Volume::fresh();
    volume.make("a:s");
    let on_stream = volume.accept(scratch(FILE_OPEN, 0), "a:s", CreateAction::Opened);
    let on_file = volume.accept(scratch(FILE_OPEN, 0), "a", CreateAction::Opened);
    volume.end(on_file);
    assert_eq!(volume.file_mark(1), 1);
    volume.end(on_stream);
    assert!(records(&volume) == records(&Volume::fresh()));
}

#[test]
fn a_directory_with_children_is_not_marked() {
    let mut volume = Volume::fresh();
    let on_close = volume.accept(scratch(FILE_CREATE, DIRECTORY), "d", CreateAction::Created);
    volume.make("d\\a");
    let second = volume.accept(scratch(FILE_OPEN, 0), "d", CreateAction::Opened);
    volume.end(on_close);
    assert_eq!(volume.file_mark(1), 0);
    // A marked child is a child.
    let child = volume.mark("d\\a");
    volume.end(second);
    assert_eq!([volume.file_mark(1), volume.file_mark(2)], [0, 1]);
    let third = volume.accept(scratch(FILE_OPEN, 0), "d", CreateAction::Opened);
    volume.end(child);
    volume.end(third);
    assert!(records(&volume) == records(&Volume::fresh()));
}

#[test]
fn a_directory_loses_its_children_before_the_close() {
    let mut volume = Volume::fresh();
    volume.make_directory("d");
    let outer = volume.accept(scratch(FILE_OPEN, 0), "d", CreateAction::Opened);
    let inner = volume.accept(scratch(FILE_CREATE, DIRECTORY), "d\\e", CreateAction::Created);
    volume.end(inner);
    volume.end(outer);
    volume.missing("d");
}

#[test]
fn pending_is_found_on_the_way() {
    let mut volume = Volume::fresh();
    volume.make_directory("d");
    volume.make_directory("d\\e");
    volume.make("d\\f:s");
    volume.mark("d\\e");
    volume.mark("d\\f");
    // Before the last component: a directory, and a data file too.
    for path in ["d\\e\\a", "d\\e\\x\\y", "d\\f\\a", "d\\f\\x\\y:s"] {
        for disposition in 0..6 {
            volume.pending(ask(1, 7, disposition, 0), path);
        }
    }
    // As the last one: before step 8, COLLISION and the access rule.
    for (path, options) in [
        ("d\\e", 0),
        ("d\\e", 0x40),
        ("d\\e:s", 0),
        ("d\\e", ON_CLOSE),
        ("d\\f", 0),
        ("d\\f", 0x40),
        ("d\\f:s", 0),
        ("d\\f:new", 0),
        ("d\\f::$DATA", ON_CLOSE),
    ] {
        for disposition in 0..6 {
            volume.pending(ask(DELETE, 0, disposition, options), path);
        }
    }
    for disposition in 1..4 {
        volume.pending(ask(1, 7, disposition, DIRECTORY), "d\\f");
        volume.pending(ask(1, 7, disposition, DIRECTORY), "d\\e");
    }
    // A name beside them, and one through a file that isn't marked.
    volume.refuse(look(), "d\\g\\a", Status::ObjectPathNotFound);
    volume.make("d\\g");
    volume.refuse(look(), "d\\g\\a", Status::ObjectPathNotFound);
}

#[test]
fn pending_comes_before_the_access_rule_and_step_12() {
    let mut volume = Volume::with_masks([ALL, 0, 0, 0, 0, 0, 0, 0]);
    volume.make("a");
    volume.make_directory("d");
    volume.mark("a");
    volume.mark("d");
    for path in ["a", "d", "a:s", "d\\x"] {
        for disposition in [1, 2, 3] {
            volume.pending(OpenRequest { account: 1, ..ask(1, 0, disposition, 0) }, path);
        }
    }
    volume.set_next_handle(u64::MAX);
    volume.pending(look(), "a");
}

#[test]
fn pending_comes_after_steps_1_to_5() {
    let mut volume = Volume::fresh();
    volume.make("a:s");
    volume.make("b");
    volume.mark("a:s");
    volume.mark("b");
    for path in ["a:s", "b", "b\\x"] {
        volume.refuse(ask(1, 8, FILE_OPEN, 0), path, Status::InvalidParameter);
        volume.refuse(ask(0, 7, FILE_OPEN, 0), path, Status::AccessDenied);
        volume.refuse(ask(1, 7, FILE_OPEN, 0x41), path, Status::InvalidParameter);
        volume.refuse(ask(1, 7, FILE_OPEN, 0), &format!("{path}\\?"), Status::ObjectNameInvalid);
    }
    volume.read_only(1);
    for path in ["a:s", "b", "b\\x", "b:new"] {
        for disposition in [0, 2, 4, 5] {
            volume.refuse(ask(1, 7, disposition, 0), path, Status::MediaWriteProtected);
        }
        for disposition in [1, 3] {
            volume.pending(ask(1, 7, disposition, 0), path);
        }
    }
    // A missing stream of a file that isn't marked is refused by the volume.
    volume.refuse(ask(1, 7, FILE_OPEN_IF, 0), "a:t", Status::MediaWriteProtected);
}

#[test]
fn the_lowest_matching_slot_decides_marked_or_not() {
    let folded = OpenRequest { fold: 1, ..look() };
    let exact = look();
    let mut volume = Volume::fresh();
    for path in ["a", "A", "B", "b", "f:s", "f:S", "f:T", "f:t"] {
        volume.make(path);
    }
    let held: Vec<_> = ["a", "b", "f:s", "f:t"].map(|path| volume.mark(path)).into();
    // The marked one stands first: no look further.
    for path in ["a", "A", "f:s", "f:S"] {
        volume.pending(folded, path);
    }
    volume.accept(exact, "A", CreateAction::Opened);
    volume.accept(exact, "f:S", CreateAction::Opened);
    // The marked one stands second: it isn't met.
    for path in ["b", "B", "f:t", "f:T"] {
        volume.accept(folded, path, CreateAction::Opened);
    }
    volume.pending(exact, "b");
    volume.pending(exact, "f:t");
    // Once it is gone the next one is met.
    for handle in held {
        volume.end(handle);
    }
    for path in ["a", "b", "f:s", "f:t"] {
        volume.accept(folded, path, CreateAction::Opened);
        volume.missing(path);
    }
}

#[test]
fn a_pending_name_cannot_be_created_until_it_is_gone() {
    let mut volume = Volume::fresh();
    volume.make("a");
    volume.make_directory("d");
    let (file, directory) = (volume.mark("a"), volume.mark("d"));
    for disposition in [FILE_SUPERSEDE, FILE_CREATE, FILE_OPEN_IF, FILE_OVERWRITE_IF] {
        volume.pending(ask(1, 7, disposition, 0), "a");
        volume.pending(ask(1, 7, disposition, 0), "d\\new");
    }
    volume.pending(ask(1, 7, FILE_CREATE, DIRECTORY), "d");
    volume.end(file);
    volume.end(directory);
    volume.make_directory("a");
    volume.make("d");
}

#[test]
fn removed_slots_serve_again() {
    let mut volume = Volume::fresh();
    for path in ["a", "b:s", "c"] {
        volume.make(path);
    }
    let used = |volume: &Volume| {
        let file = |number: usize| volume.u16(FILES_AT + FILE_SIZE * number) != 0;
        let link = |number: usize| volume.u16(LINKS_AT + LINK_SIZE * number + 4) != 0;
        let stream = |number: usize| volume.u16(STREAMS_AT + STREAM_SIZE * number) != 0;
        ([1, 2, 3, 4].map(file), [0, 1, 2, 3].map(link), [1, 2, 3, 4, 5].map(stream))
    };
    let full = used(&volume);
    assert_eq!(
        full,
        ([true, true, true, false], [true, true, true, false], [true, true, true, true, false])
    );
    let handle = volume.accept(scratch(FILE_OPEN, 0), "b", CreateAction::Opened);
    volume.end(handle);
    assert_eq!(
        used(&volume),
        ([true, false, true, false], [true, false, true, false], [true, false, false, true, false])
    );
    volume.make("d:t");
    assert_eq!(used(&volume), full);
    assert_eq!(volume.u16(LINKS_AT + LINK_SIZE + 2), 2, "link 1 leads to file 2 again");
    // The handles go on.
    assert_eq!(volume.look("d"), 6);
}

#[test]
fn a_removal_makes_room_on_a_full_volume() {
    let mut volume = Volume::fresh();
    for number in 1..128 {
        volume.make(&format!("f{number}"));
    }
    volume.refuse(scratch(FILE_CREATE, 0), "g", Status::DiskFull);
    let held = volume.mark("f50");
    volume.refuse(scratch(FILE_CREATE, 0), "g", Status::DiskFull);
    volume.end(held);
    volume.make("g");
    assert_eq!(volume.u16(FILES_AT + FILE_SIZE * 50), 1);
    volume.refuse(scratch(FILE_CREATE, 0), "h", Status::DiskFull);
}

#[test]
fn a_read_only_volume_stops_no_removal() {
    let mut volume = Volume::fresh();
    volume.make("a:s");
    volume.make("b");
    let before = volume.accept(scratch(FILE_OPEN, 0), "b", CreateAction::Opened);
    volume.read_only(1);
    volume.end(before);
    volume.missing("b");
    for path in ["a:s", "a"] {
        let handle = volume.accept(scratch(FILE_OPEN, 0), path, CreateAction::Opened);
        volume.end(handle);
        volume.missing(path);
    }
    volume.read_only(0);
    assert!(records(&volume) == records(&Volume::fresh()));
}

#[test]
fn sharing_goes_on_by_the_access_granted() {
    let mut volume = Volume::fresh();
    volume.accept(ask(1, 3, FILE_CREATE, 0), "a", CreateAction::Created);
    volume.refuse(scratch(FILE_OPEN, 0), "a", Status::SharingViolation);
    volume.accept(ask(1, 7, FILE_CREATE, 0), "b", CreateAction::Created);
    volume.accept(scratch(FILE_OPEN, 0), "b", CreateAction::Opened);
    assert_eq!(volume.counts(2), [2, 1, 0, 1, 2, 2, 2]);
    volume.refuse(ask(1, 3, FILE_OPEN, 0), "b", Status::SharingViolation);
}

#[test]
fn the_counts_of_a_removed_slot_are_gone() {
    let mut volume = Volume::fresh();
    let handle = volume.accept(ask(ALL, 0, FILE_CREATE, ON_CLOSE), "a:s", CreateAction::Created);
    assert_eq!(volume.counts(2), [1, 1, 1, 1, 0, 0, 0]);
    volume.end(handle);
    assert_eq!(volume.counts(2), [0; 7]);
    volume.accept(ask(ALL, 0, FILE_CREATE, 0), "a:t", CreateAction::Created);
    assert_eq!(volume.counts(2), [1, 1, 1, 1, 0, 0, 0]);
}
