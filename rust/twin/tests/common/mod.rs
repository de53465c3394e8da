//! Helpers of the tests: a volume, short calls, and places in its bytes.
#![allow(dead_code)]

use zanthupra_twin::constants::*;
use zanthupra_twin::layout::*;
use zanthupra_twin::{audit, close, format, open, set_read_only, OpenReply, OpenRequest};

pub const ALL: u32 = FILE_ALL_ACCESS;

pub struct Volume(pub Vec<u8>);

pub fn bytes(path: &str) -> Vec<u8> {
    path.encode_utf16().flat_map(u16::to_le_bytes).collect()
}

pub fn mask_bytes(masks: [u32; 8]) -> Vec<u8> {
    masks.into_iter().flat_map(u32::to_le_bytes).collect()
}

/// A request of account 0, exact case, attributes 0.
pub fn ask(access: u32, share: u32, disposition: u32, options: u32) -> OpenRequest {
    OpenRequest { access, share, disposition, options, ..OpenRequest::default() }
}

impl Volume {
    pub fn with_masks(of: [u32; 8]) -> Self {
        let mut tables = vec![0xA5; TABLES_SIZE];
        assert_eq!(format(&mut tables, &mask_bytes(of), 0), 0);
        assert!(audit(&tables));
        Volume(tables)
    }

    pub fn fresh() -> Self {
        Self::with_masks([ALL; 8])
    }

    /// Opens, and tests what holds of any reply.
    pub fn send(&mut self, request: OpenRequest, path: &[u8]) -> OpenReply {
        let before = self.0.clone();
        let reply = open(&mut self.0, &request, path);
        if reply.status == 0 {
            assert!(reply.action <= 3 && reply.granted != 0 && reply.handle != 0);
            assert!(audit(&self.0), "unsound after {request:x?}");
        } else {
            assert_eq!((reply.action, reply.granted, reply.handle), (NO_ACTION, 0, 0));
            assert!(self.0 == before, "refused, yet changed: {request:x?}");
        }
        reply
    }

    pub fn open(&mut self, request: OpenRequest, path: &str) -> OpenReply {
        self.send(request, &bytes(path))
    }

    #[track_caller]
    pub fn refuse(&mut self, request: OpenRequest, path: &str, status: Status) {
        assert_eq!(self.open(request, path).status, status.code(), "{status:?} for {path:?}");
    }

    /// Opens and answers the handle.
    #[track_caller]
    pub fn accept(&mut self, request: OpenRequest, path: &str, action: CreateAction) -> u64 {
        let reply = self.open(request, path);
        assert_eq!((reply.status, reply.action), (0, action as u32), "{path:?}");
        reply.handle
    }

    /// Makes a file and closes it.
    #[track_caller]
    pub fn make(&mut self, path: &str) {
        self.make_as(ask(0x80, 7, FILE_CREATE, 0), path);
    }

    /// Makes a directory and closes it.
    #[track_caller]
    pub fn make_directory(&mut self, path: &str) {
        self.make_as(ask(0x80, 7, FILE_CREATE, FILE_DIRECTORY_FILE), path);
    }

    #[track_caller]
    pub fn make_as(&mut self, request: OpenRequest, path: &str) {
        let handle = self.accept(request, path, CreateAction::Created);
        assert_eq!(self.close(handle), 0);
    }

    pub fn close(&mut self, handle: u64) -> u32 {
        let before = self.0.clone();
        let status = close(&mut self.0, handle);
        if status == 0 {
            assert!(audit(&self.0), "unsound after close of {handle}");
        } else {
            assert!(self.0 == before, "refused, yet changed: close of {handle}");
        }
        status
    }

    /// Closes a handle that is live.
    #[track_caller]
    pub fn end(&mut self, handle: u64) {
        assert_eq!(self.close(handle), 0);
    }

    pub fn read_only(&mut self, mark: u32) {
        assert_eq!(set_read_only(&mut self.0, mark), 0);
    }

    pub fn u16(&self, at: usize) -> u16 {
        u16::from_le_bytes([self.0[at], self.0[at + 1]])
    }

    pub fn attributes(&self, file: usize) -> u32 {
        let at = FILES_AT + FILE_SIZE * file + 2;
        u32::from_le_bytes(self.0[at..at + 4].try_into().unwrap())
    }

    pub fn counts(&self, stream: usize) -> [u16; 7] {
        std::array::from_fn(|n| self.u16(STREAMS_AT + STREAM_SIZE * stream + 68 + 2 * n))
    }

    pub fn share(&self, open: usize) -> u32 {
        let at = OPENS_AT + OPEN_SIZE * open + 16;
        u32::from_le_bytes(self.0[at..at + 4].try_into().unwrap())
    }

    /// The mark of a file, 0 or 1.
    pub fn file_mark(&self, file: usize) -> u16 {
        self.u16(FILES_AT + FILE_SIZE * file + FILE_MARK_IN)
    }

    /// The mark of a stream, 0 or 1.
    pub fn stream_mark(&self, stream: usize) -> u16 {
        self.u16(STREAMS_AT + STREAM_SIZE * stream + STREAM_MARK_IN)
    }

    /// Whether an open is delete-on-close, 0 or 1.
    pub fn open_mark(&self, open: usize) -> u16 {
        self.u16(OPENS_AT + OPEN_SIZE * open + OPEN_MARK_IN)
    }

    pub fn set_next_handle(&mut self, next: u64) {
        self.0[2..10].copy_from_slice(&next.to_le_bytes());
    }
}
