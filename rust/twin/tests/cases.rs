//! The bench cases of document 01 and its limits.

mod common;
use common::*;
use zanthupra_twin::constants::*;
use zanthupra_twin::layout::*;
use zanthupra_twin::{audit, close, format, open, set_read_only};

/// The volume after case 5.
fn g() -> Volume {
    let mut volume = Volume::fresh();
    let reply = volume.open(ask(2, 1, 2, 0), "a");
    assert_eq!((reply.status, reply.action, reply.granted, reply.handle), (0, 2, 2, 1));
    volume
}

#[test]
fn cases_1_to_4_on_a_fresh_volume() {
    let mut volume = Volume::fresh();
    volume.refuse(ask(0, 0, 1, 0), "a", Status::AccessDenied);
    volume.refuse(ask(1, 8, 1, 0), "a", Status::InvalidParameter);
    volume.refuse(ask(1, 0, 1, 0), "a", Status::ObjectNameNotFound);
    volume.refuse(ask(1, 0, 2, 0), "a\\b", Status::ObjectPathNotFound);
}

#[test]
fn case_5_and_its_bytes() {
    let volume = g();
    assert_eq!(volume.attributes(1), 0x20);
    let mut expected = vec![0; TABLES_SIZE];
    let mut put = |at: usize, bytes: &[u8]| expected[at..at + bytes.len()].copy_from_slice(bytes);
    let masks = mask_bytes([ALL; 8]);
    put(2, &[2]);
    put(10, &[2, 0, 0x10, 0, 0, 0]);
    put(16, &masks);
    put(50, &[1, 0, 0x20, 0, 0, 0]);
    put(56, &masks);
    put(5_130, &[0, 0, 1, 0, b'a']);
    put(18_186, &[2, 0, 0, 0]);
    put(18_270, &[1, 0, 1, 0]);
    put(18_338, &[1, 0, 0, 0, 1, 0, 0, 0, 1]);
    put(39_690, &[1, 0, 0, 0, 0, 0, 0, 0, 1, 0, 1, 0, 2, 0, 0, 0, 1, 0, 0, 0]);
    assert!(volume.0 == expected);
}

#[test]
fn cases_6_to_10_on_g() {
    assert_eq!(g().accept(ask(1, 3, 1, 0), "a", CreateAction::Opened), 2);
    g().refuse(ask(1, 1, 1, 0), "a", Status::SharingViolation);

    let mut volume = g();
    volume.accept(ask(0x80, 0, 1, 0), "a", CreateAction::Opened);
    assert_eq!(volume.counts(1), g().counts(1));

    g().refuse(ask(0x80, 7, 5, 0), "a", Status::SharingViolation);

    let reply = g().open(ask(1, 0, 3, 0), "a:log");
    assert_eq!((reply.status, reply.action, reply.granted), (0, 2, 3));
}

#[test]
fn case_11_close_twice() {
    let mut volume = g();
    assert_eq!(volume.close(1), 0);
    assert_eq!(volume.counts(1), [0; 7]);
    assert!(volume.0[OPENS_AT..].iter().all(|byte| *byte == 0));
    assert_eq!(volume.close(1), Status::InvalidHandle.code());
    assert_eq!(volume.accept(ask(1, 0, 1, 0), "a", CreateAction::Opened), 2);
}

#[test]
fn names_of_32_and_33_units() {
    let mut volume = Volume::fresh();
    volume.make(&"n".repeat(32));
    volume.refuse(ask(1, 7, 3, 0), &"n".repeat(33), Status::ObjectNameInvalid);
    volume.make(&format!("{}:{}:$DATA", "m".repeat(32), "s".repeat(32)));
    volume.refuse(ask(1, 7, 3, 0), &format!("m:{}", "s".repeat(33)), Status::ObjectNameInvalid);
    volume.refuse(ask(1, 7, 3, 0), &format!("{}\\a", "d".repeat(33)), Status::ObjectNameInvalid);
}

#[test]
fn paths_of_255_and_256_units_and_odd_bytes() {
    let mut volume = Volume::fresh();
    let slashes = |count: usize| "\\".repeat(count);
    volume.accept(ask(1, 7, 2, 0), &(slashes(254) + "a"), CreateAction::Created);
    volume.refuse(ask(1, 7, 3, 0), &(slashes(255) + "a"), Status::ObjectNameInvalid);
    volume.refuse(ask(1, 7, 1, 0), &slashes(256), Status::ObjectNameInvalid);
    volume.accept(ask(1, 7, 1, 0), &slashes(255), CreateAction::Opened);
    for length in [1, 3, 511, 1 << 20] {
        let reply = volume.send(ask(1, 7, 1, 0), &vec![b'\\'; length]);
        assert_eq!(reply.status, Status::ObjectNameInvalid.code());
    }
    // Steps 1 to 3 come before the length.
    let reply = volume.send(ask(0, 7, 1, 0), &[1]);
    assert_eq!(reply.status, Status::AccessDenied.code());
    // Step 5 comes after it.
    volume.read_only(1);
    let reply = volume.send(ask(1, 7, 2, 0), &[1]);
    assert_eq!(reply.status, Status::ObjectNameInvalid.code());
}

#[test]
fn open_256_and_257() {
    let mut volume = Volume::fresh();
    volume.make("a");
    for number in 0..256 {
        assert_eq!(volume.accept(ask(1, 7, 1, 0), "a", CreateAction::Opened), number + 2);
    }
    volume.refuse(ask(1, 7, 1, 0), "a", Status::TooManyOpenedFiles);
    volume.refuse(ask(1, 6, 1, 0), "a", Status::SharingViolation);
    assert_eq!(volume.close(100), 0);
    assert_eq!(volume.accept(ask(1, 7, 1, 0), "a", CreateAction::Opened), 258);
    assert_eq!(volume.u16(OPENS_AT + OPEN_SIZE * 98), 258, "the freed slot is taken");
}

#[test]
fn files_run_out_after_127() {
    let mut volume = Volume::fresh();
    for number in 1..128 {
        volume.make(&format!("f{number}"));
    }
    volume.refuse(ask(1, 7, 3, 0), "one more", Status::DiskFull);
    volume.make("f1:s");
}

#[test]
fn streams_run_out_and_statuses_of_step_12_have_an_order() {
    let mut volume = Volume::fresh();
    volume.make("a");
    for number in 2..255 {
        volume.make(&format!("a:{number}"));
    }
    // One stream is free: too few for a file with a named stream.
    volume.refuse(ask(1, 7, 3, 0), "b:s", Status::DiskFull);
    volume.make("b");
    volume.refuse(ask(1, 7, 3, 0), "a:s", Status::DiskFull);
    volume.refuse(ask(1, 7, 3, 0), "c", Status::DiskFull);

    volume.set_next_handle(u64::MAX);
    assert!(audit(&volume.0));
    volume.refuse(ask(1, 7, 3, 0), "c", Status::DiskFull);
    volume.refuse(ask(1, 7, 1, 0), "a", Status::InsufficientResources);
    volume.set_next_handle(u64::MAX - 256);
    for number in 0..256 {
        let handle = volume.accept(ask(1, 7, 1, 0), "a", CreateAction::Opened);
        assert_eq!(handle, u64::MAX - 256 + number);
    }
    volume.refuse(ask(1, 7, 1, 0), "a", Status::TooManyOpenedFiles);
    volume.refuse(ask(1, 7, 3, 0), "c", Status::DiskFull);
}

#[test]
fn format_tests_length_then_masks() {
    let good = mask_bytes([ALL; 8]);
    let mut tables = vec![7; TABLES_SIZE];
    for length in [0, 1, TABLES_SIZE - 1] {
        assert_eq!(format(&mut tables[..length], &[], 0), Status::FileCorruptError.code());
    }
    assert_eq!(format(&mut vec![0; TABLES_SIZE + 1], &good, 0), Status::FileCorruptError.code());
    for length in [0, 31] {
        let status = format(&mut tables, &good[..length], 0);
        assert_eq!(status, Status::InvalidParameter.code());
    }
    assert_eq!(format(&mut tables, &[0; 33], 0), Status::InvalidParameter.code());
    for mask in [0x200, 0x20_0000, 0x8000_0000] {
        let status = format(&mut tables, &mask_bytes([0, 0, 0, 0, 0, 0, 0, mask]), 0);
        assert_eq!(status, Status::InvalidParameter.code());
    }
    assert!(tables.iter().all(|byte| *byte == 7));
    assert_eq!(format(&mut tables, &good, 256), 0);
    assert_eq!(tables[..2], [1, 0]);
}

#[test]
fn inconsistent_tables_are_refused_first() {
    let mut tables = Volume::fresh().0;
    tables[10] = 3;
    let before = tables.clone();
    let corrupt = Status::FileCorruptError.code();
    assert!(!audit(&tables));
    assert_eq!(open(&mut tables, &ask(0, 9, 9, 9), &[1]).status, corrupt);
    assert_eq!(close(&mut tables, 0), corrupt);
    assert_eq!(set_read_only(&mut tables, 1), corrupt);
    assert_eq!(open(&mut tables[1..], &ask(1, 0, 1, 0), &[]).status, corrupt);
    assert!(tables == before);
    assert!(!audit(&[]));
}

#[test]
fn read_only_marks_are_yes_or_no() {
    let mut volume = Volume::fresh();
    volume.read_only(0x8000_0000);
    assert_eq!(volume.0[..2], [1, 0]);
    volume.read_only(0);
    assert_eq!(volume.0[..2], [0, 0]);
}
