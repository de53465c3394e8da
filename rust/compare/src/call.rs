//! One call, what it answers, and both in readable form.

use std::fmt;
use zanthupra_twin::constants::{Status, NO_ACTION};
use zanthupra_twin::{OpenReply, OpenRequest};

#[derive(Clone)]
pub enum Call {
    Format { masks: Vec<u8>, read_only: u32 },
    Open { request: OpenRequest, path: Vec<u8> },
    Close { handle: u64 },
    SetReadOnly { mark: u32 },
    Audit,
}

pub const CALL_NAMES: [&str; 5] = ["format", "open", "close", "set_read_only", "audit"];

/// What a call answers. Audit's verdict stands in `status`.
#[derive(Clone, Copy, PartialEq, Eq)]
pub struct Reply {
    pub status: u32,
    pub action: u32,
    pub granted: u32,
    pub handle: u64,
}

impl From<u32> for Reply {
    fn from(status: u32) -> Self {
        Reply { status, action: NO_ACTION, granted: 0, handle: 0 }
    }
}

impl From<OpenReply> for Reply {
    fn from(reply: OpenReply) -> Self {
        let OpenReply { status, action, granted, handle } = reply;
        Reply { status, action, granted, handle }
    }
}

impl Call {
    /// Its place in `CALL_NAMES`.
    pub fn number(&self) -> usize {
        match self {
            Call::Format { .. } => 0,
            Call::Open { .. } => 1,
            Call::Close { .. } => 2,
            Call::SetReadOnly { .. } => 3,
            Call::Audit => 4,
        }
    }

    /// An open whose path has a unit from 1 to 31.
    pub fn has_control_unit(&self) -> bool {
        match self {
            Call::Open { path, .. } => {
                path.chunks_exact(2).any(|unit| unit[1] == 0 && (1..0x20).contains(&unit[0]))
            }
            _ => false,
        }
    }

    pub fn on_ours(&self, tables: &mut [u8]) -> Reply {
        use zanthupra_ours as ours;
        match self {
            Call::Format { masks, read_only } => ours::format(tables, masks, *read_only).into(),
            Call::Open { request, path } => ours::open(tables, request, path).into(),
            Call::Close { handle } => ours::close(tables, *handle).into(),
            Call::SetReadOnly { mark } => ours::set_read_only(tables, *mark).into(),
            Call::Audit => ours::audit(tables).into(),
        }
    }

    pub fn on_twin(&self, tables: &mut [u8]) -> Reply {
        use zanthupra_twin as twin;
        match self {
            Call::Format { masks, read_only } => twin::format(tables, masks, *read_only).into(),
            Call::Open { request, path } => twin::open(tables, request, path).into(),
            Call::Close { handle } => twin::close(tables, *handle).into(),
            Call::SetReadOnly { mark } => twin::set_read_only(tables, *mark).into(),
            Call::Audit => u32::from(twin::audit(tables)).into(),
        }
    }
}

impl fmt::Display for Call {
    fn fmt(&self, f: &mut fmt::Formatter) -> fmt::Result {
        match self {
            Call::Format { masks, read_only } => {
                write!(f, "format masks={} read_only={read_only:#x}", hex(masks))
            }
            Call::Open { request, path } => {
                let OpenRequest { account, access, share, disposition, options, attributes, fold } =
                    request;
                write!(
                    f,
                    "open account={account} access={access:#x} share={share:#x} \
                     disposition={disposition} options={options:#x} attributes={attributes:#x} \
                     fold={fold:#x} path={}",
                    path_text(path)
                )
            }
            Call::Close { handle } => write!(f, "close handle={handle}"),
            Call::SetReadOnly { mark } => write!(f, "set_read_only mark={mark:#x}"),
            Call::Audit => write!(f, "audit"),
        }
    }
}

impl fmt::Display for Reply {
    fn fmt(&self, f: &mut fmt::Formatter) -> fmt::Result {
        let Reply { status, action, granted, handle } = self;
        write!(f, "{status:08X} {}", status_name(*status))?;
        if *status == 0 && *action != NO_ACTION {
            write!(f, " action={action} granted={granted:#x} handle={handle}")?;
        } else if (*action, *granted, *handle) != (NO_ACTION, 0, 0) {
            write!(f, " (action={action:#x} granted={granted:#x} handle={handle:#x})")?;
        }
        Ok(())
    }
}

pub fn status_name(status: u32) -> String {
    let found = Status::ALL.into_iter().find(|one| one.code() == status);
    found.map_or_else(String::new, |status| format!("{status:?}"))
}

pub fn hex(bytes: &[u8]) -> String {
    bytes.iter().map(|byte| format!("{byte:02x}")).collect()
}

/// The path as text where it is plain ASCII, else its bytes; a very long one by its start.
fn path_text(path: &[u8]) -> String {
    const SHOWN: usize = 600;
    let plain = path.len().is_multiple_of(2)
        && path.chunks(2).all(|unit| unit[1] == 0 && (0x20..0x7F).contains(&unit[0]));
    if path.len() > SHOWN {
        format!("hex {}.. ({} bytes)", hex(&path[..SHOWN]), path.len())
    } else if plain {
        let text: String = path.iter().step_by(2).map(|byte| char::from(*byte)).collect();
        format!("`{text}`")
    } else {
        format!("hex {}", hex(path))
    }
}
