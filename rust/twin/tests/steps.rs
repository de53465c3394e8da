//! The steps of an open one by one, and what is easily mistaken in them.

mod common;
use common::*;
use zanthupra_twin::constants::*;
use zanthupra_twin::layout::*;
use zanthupra_twin::OpenRequest;

#[test]
fn step_1_parameters() {
    let mut volume = Volume::fresh();
    let good = ask(1, 7, 1, 0);
    let bad = [
        OpenRequest { account: 8, ..good },
        OpenRequest { share: 8, ..good },
        OpenRequest { disposition: 6, ..good },
        OpenRequest { options: 0x10, ..good },
        OpenRequest { options: 0x4_0000, ..good },
        OpenRequest { attributes: 0x10, ..good },
        OpenRequest { attributes: 0x200, ..good },
        OpenRequest { access: 0x1000_0001, ..good },
        OpenRequest { access: 0x8000_0001, ..good },
        OpenRequest { access: 4, options: 8, ..good },
        ask(1, 7, 1, 0x1 | 0x4),
        ask(1, 7, 1, 0x1 | 0x8),
        ask(1, 7, 1, 0x1 | 0x2_0000),
        ask(1, 7, 0, 0x1),
        ask(1, 7, 4, 0x1),
        ask(1, 7, 5, 0x1),
        // Before step 2.
        ask(0, 7, 5, 0x41),
        ask(0x1000_0000, 8, 5, 0),
    ];
    for request in bad {
        volume.refuse(request, "", Status::InvalidParameter);
    }
    volume.accept(OpenRequest { fold: 77, attributes: 0x31A7, ..good }, "", CreateAction::Opened);
}

#[test]
fn steps_2_and_3() {
    let mut volume = Volume::fresh();
    for bit in [9, 15, 21, 23, 24, 26, 27] {
        volume.refuse(ask(1 | 1 << bit, 7, 1, 0), "", Status::AccessDenied);
    }
    volume.refuse(ask(0, 7, 1, 0x41), "", Status::AccessDenied);
    volume.refuse(ask(1, 7, 1, 0x41), "a:", Status::InvalidParameter);
}

#[test]
fn step_4_names() {
    let mut volume = Volume::fresh();
    volume.make_directory("d");
    volume.make("d\\f");
    let bad = [
        "a:",
        "a::",
        ":a",
        "a:b:",
        "a:b:c",
        "a:b:$DATA:",
        "a:b:$DATA:c",
        "a:b:$INDEX_ALLOCATION",
        "::$DATA",
        "a:b\\c",
        "a::$DATA\\c",
        ".",
        "..",
        "d\\..",
        "d\\.\\f",
        "a\u{1f}",
        "a*",
        "a?",
        "a\"",
        "a/b",
        "a<",
        "a>",
        "a|b",
        "a:b|",
        "a\u{0}b",
        "\\:",
        "d\\:s",
    ];
    for path in bad {
        volume.refuse(ask(1, 7, 3, 0), path, Status::ObjectNameInvalid);
    }
    // Step 4 comes before the volume's mark and before the look_up.
    volume.read_only(1);
    volume.refuse(ask(1, 7, 2, 0), "x\\y*", Status::ObjectNameInvalid);
    volume.read_only(0);
    for path in ["...", "a b", "x:.", "x:..", "\u{20AC}", "y:$DATA", "z::$DaTa"] {
        volume.make(path);
    }
}

#[test]
fn step_4_control_units() {
    let mut volume = Volume::fresh();
    for unit in ["\u{1}", "\n", "\r", "\u{1f}"] {
        for path in [unit.into(), format!("a{unit}"), format!("{unit}\\a"), format!("a{unit}:s")] {
            volume.refuse(ask(1, 7, 3, 0), &path, Status::ObjectNameInvalid);
        }
        volume.accept(ask(1, 7, 3, 0), &format!("a:{unit}"), CreateAction::Created);
        volume.accept(ask(1, 7, 2, 0), &format!("a:s{unit}:$DATA"), CreateAction::Created);
        volume.accept(ask(1, 7, 1, 0), &format!("a:s{unit}"), CreateAction::Opened);
    }
    volume.refuse(ask(1, 7, 1, 0), "a:s", Status::ObjectNameNotFound);
    volume.refuse(ask(1, 7, 2, 0), "a:s\r", Status::ObjectNameCollision);
    for path in
        ["a:\u{0}", "a:\u{1}\u{0}", "a:\u{1}*", "a:s:\u{1}", "a:s:$DATA\r", "a\u{0}:s", "a*:s"]
    {
        volume.refuse(ask(1, 7, 3, 0), path, Status::ObjectNameInvalid);
    }
    volume.accept(ask(1, 7, 3, 0), &format!("a:{}", "\u{1}".repeat(32)), CreateAction::Created);
    volume.refuse(ask(1, 7, 3, 0), &format!("a:{}", "\u{1}".repeat(33)), Status::ObjectNameInvalid);
}

#[test]
fn step_4_backslashes() {
    let mut volume = Volume::fresh();
    volume.make_directory("d\\");
    volume.make("\\\\d\\\\\\f\\");
    volume.accept(ask(1, 7, 1, 0), "d\\f", CreateAction::Opened);
    volume.accept(ask(1, 7, 1, 0), "d\\f\\\\", CreateAction::Opened);
    volume.accept(ask(1, 7, 3, 0), "d\\f:s\\", CreateAction::Created);
    volume.refuse(ask(1, 7, 1, 0x40), "d\\f\\", Status::ObjectNameInvalid);
    volume.refuse(ask(1, 7, 1, 0x40), "\\", Status::ObjectNameInvalid);
    volume.refuse(ask(1, 7, 1, 0x40), "", Status::FileIsADirectory);
    volume.refuse(ask(1, 7, 1, 0x1), "d\\f:s", Status::ObjectNameInvalid);
    volume.refuse(ask(1, 7, 1, 0x1), "d::$DATA", Status::ObjectNameInvalid);
}

#[test]
fn step_5_read_only() {
    let mut volume = Volume::fresh();
    volume.make("a");
    volume.read_only(1);
    for disposition in [0, 2, 4, 5] {
        volume.refuse(ask(1, 7, disposition, 0), "x\\y", Status::MediaWriteProtected);
    }
    volume.refuse(ask(1, 7, 1, 0), "x", Status::ObjectNameNotFound);
    volume.refuse(ask(1, 7, 3, 0), "x", Status::MediaWriteProtected);
    volume.refuse(ask(1, 7, 3, 0), "x\\y", Status::ObjectPathNotFound);
    volume.refuse(ask(1, 7, 3, 0), "a:s", Status::MediaWriteProtected);
    volume.refuse(ask(1, 7, 1, 0), "a:s", Status::ObjectNameNotFound);
    volume.accept(ask(2, 7, 3, 0), "a", CreateAction::Opened);
}

#[test]
fn steps_6_and_7_walk() {
    let mut volume = Volume::fresh();
    volume.make_directory("d");
    volume.make("d\\f");
    volume.make("f");
    volume.refuse(ask(1, 7, 3, 0), "f\\x", Status::ObjectPathNotFound);
    volume.refuse(ask(1, 7, 3, 0), "x\\f", Status::ObjectPathNotFound);
    volume.refuse(ask(1, 7, 4, 0), "d\\x", Status::ObjectNameNotFound);
    volume.refuse(ask(1, 7, 1, 0), "D\\f", Status::ObjectPathNotFound);
    let folded = OpenRequest { fold: 1, ..ask(1, 7, 1, 0) };
    volume.accept(folded, "D\\F", CreateAction::Opened);
    // The lowest slot wins, even over an exact match in a higher one.
    volume.make("D");
    volume.accept(OpenRequest { options: 0x1, ..folded }, "D", CreateAction::Opened);
    volume.make_directory("F");
    volume.refuse(folded, "F\\x", Status::ObjectPathNotFound);
    volume.make("f:s");
    volume.accept(folded, "f:S", CreateAction::Opened);
    volume.refuse(OpenRequest { fold: 0, ..folded }, "f:S", Status::ObjectNameNotFound);
}

#[test]
fn step_8_wrong_kind() {
    let mut volume = Volume::fresh();
    volume.make_directory("d");
    volume.make("f");
    for (path, options) in [("d", 0x40), ("d:s", 0), ("d::$DATA", 0), ("", 0x40)] {
        volume.refuse(ask(1, 7, 2, options), path, Status::ObjectNameCollision);
        volume.refuse(ask(1, 7, 5, options), path, Status::FileIsADirectory);
        volume.refuse(ask(1, 7, 3, options), path, Status::FileIsADirectory);
    }
    volume.refuse(ask(1, 7, 2, 0x1), "f", Status::ObjectNameCollision);
    volume.refuse(ask(1, 7, 3, 0x1), "f", Status::NotADirectory);
}

#[test]
fn step_9_new_files() {
    let mut volume = Volume::with_masks([ALL, 0x2, 0x4, 0, 1, 1, 1, 1]);
    let temporary = OpenRequest { attributes: 0x100, ..ask(1, 7, 2, 0x1) };
    volume.refuse(temporary, "t", Status::InvalidParameter);
    // Before the mask of the parent.
    volume.refuse(OpenRequest { account: 3, ..temporary }, "t", Status::InvalidParameter);
    volume.make_as(OpenRequest { options: 0, ..temporary }, "t");
    assert_eq!(volume.attributes(1), 0x120);

    let file = |account| OpenRequest { account, ..ask(1, 7, 2, 0) };
    let directory = |account| OpenRequest { account, ..ask(1, 7, 2, 0x1) };
    volume.refuse(file(2), "x", Status::AccessDenied);
    volume.refuse(directory(1), "x", Status::AccessDenied);
    volume.make_as(file(1), "x");
    volume.make_as(directory(2), "y");
    assert_eq!(volume.attributes(3), 0x10);

    // Granted is what was asked, or everything, whatever the masks.
    let maximum = OpenRequest { account: 1, ..ask(0x0200_0001, 0, 2, 0) };
    assert_eq!(volume.open(maximum, "m").granted, ALL);
    let asked = OpenRequest { account: 1, ..ask(0x10_0000, 0, 2, 0) };
    assert_eq!(volume.open(asked, "n").granted, 0x10_0000);

    let all = OpenRequest { attributes: 0x31A7, ..ask(1, 7, 2, 0) };
    volume.make_as(all, "all");
    assert_eq!(volume.attributes(6), 0x1127, "0x2000 as the root's, 0x80 never");
    volume.make_as(OpenRequest { attributes: 0x20A7, options: 0x1, ..all }, "d");
    assert_eq!(volume.attributes(7), 0x37);
}

#[test]
fn step_9_inherits_from_the_parent() {
    let mut volume = Volume::with_masks([ALL, 7, 6, 5, 4, 3, 2, 1]);
    volume.make_directory("d");
    volume.0[FILES_AT + FILE_SIZE + 3] = 0x20; // attribute 0x2000
    volume.0[FILES_AT + FILE_SIZE + 6] = 0xFE; // account 0's mask
    volume.make("d\\f");
    assert_eq!(volume.attributes(2), 0x2020);
    let masks = |file: usize| {
        let at = FILES_AT + FILE_SIZE * file + 6;
        volume.0[at..at + MASKS_SIZE].to_vec()
    };
    assert_eq!(masks(2), masks(1));
    assert_ne!(masks(2), masks(0));
}

#[test]
fn step_9_streams_of_new_files() {
    let mut volume = Volume::fresh();
    volume.accept(ask(1, 0, 2, 0), "a:s", CreateAction::Created);
    let stream = |volume: &Volume, number: usize| {
        let at = STREAMS_AT + STREAM_SIZE * number;
        [volume.u16(at), volume.u16(at + 2), volume.u16(at + 4), volume.u16(at + 68)]
    };
    assert_eq!(stream(&volume, 1), [1, 1, 0, 0]);
    assert_eq!(stream(&volume, 2), [1, 1, u16::from(b's'), 1]);
    volume.accept(ask(1, 0, 2, 0), "b::$data", CreateAction::Created);
    assert_eq!(stream(&volume, 3), [1, 2, 0, 1]);
    assert_eq!(stream(&volume, 4), [0; 4]);
    volume.accept(ask(1, 0, 2, 0x1), "c", CreateAction::Created);
    assert_eq!(stream(&volume, 4), [2, 3, 0, 1]);
}

#[test]
fn step_10_directories() {
    let mut volume = Volume::fresh();
    volume.make_directory("d");
    for disposition in [0, 2, 4, 5] {
        volume.refuse(ask(1, 7, disposition, 0), "\\", Status::AccessDenied);
        volume.refuse(ask(1, 7, disposition, 0), "d", Status::ObjectNameCollision);
    }
    volume.accept(ask(1, 0, 3, 0), "d", CreateAction::Opened);
    assert_eq!(volume.share(0), 0);
    volume.refuse(ask(1, 7, 1, 0), "d", Status::SharingViolation);
}

#[test]
fn step_10_share_read_is_added() {
    let lacks = 0x1;
    let mut volume = Volume::with_masks([ALL, lacks, 0x1F_01EF, 0x12_0117, 0, 0, 0, 0]);
    let of = |account, options| OpenRequest { account, ..ask(1, 2, 1, options) };
    volume.refuse(of(1, 0x2_0000), "", Status::AccessDenied);
    let handle = volume.accept(of(1, 0), "", CreateAction::Opened);
    assert_eq!(volume.share(0), 3);
    assert_eq!(volume.counts(0), [1, 1, 0, 0, 1, 1, 0]);
    assert_eq!(volume.close(handle), 0);
    let handle = volume.accept(of(2, 0), "", CreateAction::Opened);
    assert_eq!(volume.share(0), 3);
    assert_eq!(volume.close(handle), 0);
    let handle = volume.accept(of(3, 0x2_0000), "", CreateAction::Opened);
    assert_eq!(volume.share(0), 2, "the mask has every bit");
    assert_eq!(volume.close(handle), 0);
    // Any open on the file matters, an uncounted one too.
    volume.accept(ask(0x80, 7, 1, 0), "", CreateAction::Opened);
    volume.accept(of(1, 0x2_0000), "", CreateAction::Opened);
    assert_eq!(volume.share(1), 2);
    // A denied access comes before; so does sharing.
    volume.refuse(of(4, 0x2_0000), "", Status::AccessDenied);
    volume.refuse(of(3, 0), "", Status::SharingViolation);
}

#[test]
fn step_11_opens_and_creates() {
    let mut volume = Volume::fresh();
    volume.make("a:s");
    for path in ["a", "a::$DATA", "a:s", "a:s:$data"] {
        volume.refuse(ask(1, 7, 2, 0), path, Status::ObjectNameCollision);
        volume.accept(ask(1, 7, 3, 0), path, CreateAction::Opened);
        volume.accept(ask(1, 7, 1, 0x40), path, CreateAction::Opened);
    }
    volume.refuse(ask(1, 7, 4, 0), "a:t", Status::ObjectNameNotFound);
    volume.refuse(ask(1, 7, 1, 0), "a:t", Status::ObjectNameNotFound);
    for (disposition, name) in [(0, "a:p"), (2, "a:q"), (3, "a:r"), (5, "a:t")] {
        let reply = volume.open(ask(1, 0, disposition, 0), name);
        assert_eq!((reply.action, reply.granted), (2, 3));
    }
}

#[test]
fn step_11_overwrites() {
    let mut volume = Volume::fresh();
    let asked =
        |attributes, disposition| OpenRequest { attributes, ..ask(0x80, 7, disposition, 0) };
    volume.make_as(asked(0x6, 2), "a");
    for attributes in [0, 2, 4, 0x3121 & 0x31A7] {
        volume.refuse(asked(attributes, 5), "a", Status::AccessDenied);
        volume.refuse(asked(attributes, 0), "a", Status::AccessDenied);
    }
    let reply = volume.open(asked(0x31A6, 5), "a");
    assert_eq!((reply.action, reply.granted), (3, 0x192));
    assert_eq!(volume.attributes(1), 0x1126);
    let reply = volume.open(asked(0x6, 0), "a");
    assert_eq!((reply.action, reply.granted), (0, 0x1_0190));
    assert_eq!(volume.attributes(1), 0x26);

    // A named stream changes no attribute and gains less; hidden doesn't matter.
    volume.make("a:s");
    let reply = volume.open(asked(0x1, 4), "a:s");
    assert_eq!((reply.action, reply.granted), (3, 0x82));
    let reply = volume.open(asked(0x1, 0), "a:s");
    assert_eq!((reply.action, reply.granted), (0, 0x1_0080));
    assert_eq!(volume.attributes(1), 0x26);
}

#[test]
fn step_11_a_new_stream_archives_its_file() {
    let mut volume = Volume::fresh();
    volume.make("a");
    volume.0[FILES_AT + FILE_SIZE + 2] = 0x1; // read-only, no archive
    volume.refuse(ask(1, 7, 3, 0), "a:s", Status::AccessDenied);
    volume.0[FILES_AT + FILE_SIZE + 2] = 0;
    volume.make("a:s");
    assert_eq!(volume.attributes(1), 0x20);
}

#[test]
fn access_rule() {
    let mut volume = Volume::with_masks([ALL, 0x81, 0, 6, 0x80, 0, 0, 0]);
    volume.make_as(OpenRequest { attributes: 1, ..ask(0x80, 7, 2, 0) }, "r");
    volume.make_as(OpenRequest { attributes: 1, ..ask(0x80, 7, 2, 0x1) }, "d");
    let of = |account, access| OpenRequest { account, ..ask(access, 7, 1, 0) };
    volume.refuse(of(0, 2), "r", Status::AccessDenied);
    volume.refuse(of(0, 4), "r", Status::AccessDenied);
    volume.refuse(of(1, 2), "d", Status::AccessDenied);
    assert_eq!(volume.open(of(0, 2), "d").granted, 2);
    assert_eq!(volume.open(of(0, 0x0200_0000), "r").granted, ALL & !6);
    assert_eq!(volume.open(of(1, 0x0200_0001), "r").granted, 0x81);
    volume.refuse(of(1, 0x0200_0002), "r", Status::AccessDenied);
    // Effective zero: a mask of zero, or one that the attribute empties.
    volume.refuse(of(2, 0x0200_0000), "r", Status::AccessDenied);
    volume.refuse(of(3, 0x0200_0000), "r", Status::AccessDenied);
    assert_eq!(volume.open(of(3, 0x0200_0000), "d").granted, 6);
    // Maximum that comes to attributes only is uncounted.
    volume.accept(OpenRequest { share: 0, ..of(4, 0x0200_0000) }, "d", CreateAction::Opened);
}

#[test]
fn refused_by_sharing_after_access_and_before_step_12() {
    let mut volume = Volume::with_masks([ALL, 1, 0, 0, 0, 0, 0, 0]);
    volume.accept(ask(2, 0, 2, 0), "a", CreateAction::Created);
    let of = |account, access| OpenRequest { account, ..ask(access, 7, 1, 0) };
    volume.refuse(of(1, 2), "a", Status::AccessDenied);
    volume.set_next_handle(u64::MAX);
    volume.refuse(of(1, 1), "a", Status::SharingViolation);
    volume.refuse(ask(0x80, 0, 1, 0), "a", Status::InsufficientResources);
    // Another stream of the same file is another matter.
    volume.set_next_handle(2);
    volume.accept(ask(2, 0, 3, 0), "a:s", CreateAction::Created);
}
