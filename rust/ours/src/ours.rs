//! The C calls. Slices go over as pointer and length, and the archive keeps none of them.

use zanthupra_twin::{OpenReply, OpenRequest};

extern "C" {
    fn zan_format(
        tables: *mut u8,
        tables_len: usize,
        masks: *const u8,
        masks_len: usize,
        read_only: u32,
    ) -> u32;
    fn zan_open(
        tables: *mut u8,
        tables_len: usize,
        account: u32,
        access: u32,
        share: u32,
        disposition: u32,
        options: u32,
        attributes: u32,
        fold: u32,
        path: *const u8,
        path_len: usize,
        action: *mut u32,
        granted: *mut u32,
        handle: *mut u64,
    ) -> u32;
    fn zan_close(tables: *mut u8, tables_len: usize, handle: u64) -> u32;
    fn zan_set_read_only(tables: *mut u8, tables_len: usize, read_only: u32) -> u32;
    fn zan_audit(tables: *const u8, tables_len: usize) -> u32;
}

pub fn format(tables: &mut [u8], masks: &[u8], read_only: u32) -> u32 {
    unsafe { zan_format(tables.as_mut_ptr(), tables.len(), masks.as_ptr(), masks.len(), read_only) }
}

pub fn open(tables: &mut [u8], request: &OpenRequest, path: &[u8]) -> OpenReply {
    // Values that no open answers, so that an out-parameter left alone shows.
    let (mut action, mut granted, mut handle) = (0x5A5A_5A5A, 0xA5A5_A5A5, 0x5A5A_A5A5_5A5A_A5A5);
    let status = unsafe {
        zan_open(
            tables.as_mut_ptr(),
            tables.len(),
            request.account,
            request.access,
            request.share,
            request.disposition,
            request.options,
            request.attributes,
            request.fold,
            path.as_ptr(),
            path.len(),
            &mut action,
            &mut granted,
            &mut handle,
        )
    };
    OpenReply { status, action, granted, handle }
}

pub fn close(tables: &mut [u8], handle: u64) -> u32 {
    unsafe { zan_close(tables.as_mut_ptr(), tables.len(), handle) }
}

pub fn set_read_only(tables: &mut [u8], read_only: u32) -> u32 {
    unsafe { zan_set_read_only(tables.as_mut_ptr(), tables.len(), read_only) }
}

/// The number as the call gives it: 1 sound, 0 not.
pub fn audit(tables: &[u8]) -> u32 {
    unsafe { zan_audit(tables.as_ptr(), tables.len()) }
}
