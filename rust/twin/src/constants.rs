//! Numbers of document 01 by their Windows names.

/// Statuses that the calls give.
#[derive(Clone, Copy, Debug, PartialEq, Eq, PartialOrd, Ord)]
#[repr(u32)]
pub enum Status {
    Success = 0x0000_0000,
    InvalidHandle = 0xC000_0008,
    InvalidParameter = 0xC000_000D,
    AccessDenied = 0xC000_0022,
    ObjectNameInvalid = 0xC000_0033,
    ObjectNameNotFound = 0xC000_0034,
    ObjectNameCollision = 0xC000_0035,
    ObjectPathNotFound = 0xC000_003A,
    SharingViolation = 0xC000_0043,
    DeletePending = 0xC000_0056,
    DiskFull = 0xC000_007F,
    InsufficientResources = 0xC000_009A,
    MediaWriteProtected = 0xC000_00A2,
    FileIsADirectory = 0xC000_00BA,
    FileCorruptError = 0xC000_0102,
    NotADirectory = 0xC000_0103,
    TooManyOpenedFiles = 0xC000_011F,
    CannotDelete = 0xC000_0121,
}

impl Status {
    /// Every status of the paper.
    pub const ALL: [Status; 18] = [
        Status::Success,
        Status::InvalidHandle,
        Status::InvalidParameter,
        Status::AccessDenied,
        Status::ObjectNameInvalid,
        Status::ObjectNameNotFound,
        Status::ObjectNameCollision,
        Status::ObjectPathNotFound,
        Status::SharingViolation,
        Status::DeletePending,
        Status::DiskFull,
        Status::InsufficientResources,
        Status::MediaWriteProtected,
        Status::FileIsADirectory,
        Status::FileCorruptError,
        Status::NotADirectory,
        Status::TooManyOpenedFiles,
        Status::CannotDelete,
    ];

    /// The number that a host sees.
    pub const fn code(self) -> u32 {
        self as u32
    }
}

/// What an open did.
#[derive(Clone, Copy, Debug, PartialEq, Eq)]
#[repr(u32)]
pub enum CreateAction {
    Superseded = 0,
    Opened = 1,
    Created = 2,
    Overwritten = 3,
}

/// The action of an open that was refused.
pub const NO_ACTION: u32 = 0xFFFF_FFFF;

// Dispositions.
pub const FILE_SUPERSEDE: u32 = 0;
pub const FILE_OPEN: u32 = 1;
pub const FILE_CREATE: u32 = 2;
pub const FILE_OPEN_IF: u32 = 3;
pub const FILE_OVERWRITE: u32 = 4;
pub const FILE_OVERWRITE_IF: u32 = 5;

// Create options.
pub const FILE_DIRECTORY_FILE: u32 = 0x1;
pub const FILE_WRITE_THROUGH: u32 = 0x2;
pub const FILE_SEQUENTIAL_ONLY: u32 = 0x4;
pub const FILE_NO_INTERMEDIATE_BUFFERING: u32 = 0x8;
pub const FILE_NON_DIRECTORY_FILE: u32 = 0x40;
pub const FILE_DELETE_ON_CLOSE: u32 = 0x1000;
pub const FILE_DISALLOW_EXCLUSIVE: u32 = 0x2_0000;
pub const VALID_OPTIONS: u32 = 0x2_104F;

// Access bits.
pub const FILE_READ_DATA: u32 = 0x1;
pub const FILE_WRITE_DATA: u32 = 0x2;
pub const FILE_ADD_FILE: u32 = 0x2;
pub const FILE_APPEND_DATA: u32 = 0x4;
pub const FILE_ADD_SUBDIRECTORY: u32 = 0x4;
pub const FILE_WRITE_EA: u32 = 0x10;
pub const FILE_EXECUTE: u32 = 0x20;
pub const FILE_READ_ATTRIBUTES: u32 = 0x80;
pub const FILE_WRITE_ATTRIBUTES: u32 = 0x100;
pub const DELETE: u32 = 0x1_0000;
pub const ACCESS_SYSTEM_SECURITY: u32 = 0x0100_0000;
pub const MAXIMUM_ALLOWED: u32 = 0x0200_0000;
pub const FILE_ALL_ACCESS: u32 = 0x1F_01FF;
pub const FILE_GENERIC_WRITE: u32 = 0x12_0116;
/// Generic rights, which a request may not carry.
pub const GENERIC_ACCESS: u32 = 0xF000_0000;
/// Bits that no open is granted.
pub const NEVER_GRANTED: u32 = 0x0CE0_FE00 | ACCESS_SYSTEM_SECURITY;

// Sharing modes.
pub const FILE_SHARE_READ: u32 = 0x1;
pub const FILE_SHARE_WRITE: u32 = 0x2;
pub const FILE_SHARE_DELETE: u32 = 0x4;
pub const VALID_SHARES: u32 = 0x7;

// Attributes.
pub const FILE_ATTRIBUTE_READONLY: u32 = 0x1;
pub const FILE_ATTRIBUTE_HIDDEN: u32 = 0x2;
pub const FILE_ATTRIBUTE_SYSTEM: u32 = 0x4;
pub const FILE_ATTRIBUTE_DIRECTORY: u32 = 0x10;
pub const FILE_ATTRIBUTE_ARCHIVE: u32 = 0x20;
pub const FILE_ATTRIBUTE_NORMAL: u32 = 0x80;
pub const FILE_ATTRIBUTE_TEMPORARY: u32 = 0x100;
pub const FILE_ATTRIBUTE_NOT_CONTENT_INDEXED: u32 = 0x2000;
/// Attributes that a request may carry.
pub const REQUEST_ATTRIBUTES: u32 = 0x31A7;
/// Attributes that a new file takes over from the request.
pub const VALID_SET_ATTRIBUTES: u32 = 0x3127;
/// Attributes that a file's record may hold.
pub const STORED_ATTRIBUTES: u32 = 0x3137;
