//! A path in its parts: step 4.

use crate::constants::*;
use crate::layout::PATH_UNITS;
use crate::names::{is_file_name, is_stream_name, is_stream_type, Unit, BACKSLASH, COLON};

/// A path that passed step 4.
pub struct Path<'a> {
    /// What stands before the last component.
    directories: &'a [Unit],
    /// The last component; the root's path has none.
    pub last: Option<Component<'a>>,
}

/// A component in its parts.
pub struct Component<'a> {
    pub file_name: &'a [Unit],
    pub stream_name: &'a [Unit],
    /// Whether a colon stood in it: `a::$DATA` names the empty stream, yet has one.
    pub has_colon: bool,
}

/// The components between backslashes; empty ones vanish.
fn components(units: &[Unit]) -> impl Iterator<Item = &[Unit]> {
    units.split(|unit| *unit == BACKSLASH).filter(|component| !component.is_empty())
}

impl<'a> Path<'a> {
    /// Step 4 on the bytes of a path.
    pub fn parse(bytes: &'a [u8], options: u32) -> Result<Self, Status> {
        Self::split(bytes, options).ok_or(Status::ObjectNameInvalid)
    }

    fn split(bytes: &'a [u8], options: u32) -> Option<Self> {
        let (units, odd) = bytes.as_chunks();
        if units.len() > PATH_UNITS || !odd.is_empty() {
            return None;
        }
        if options & FILE_NON_DIRECTORY_FILE != 0 && units.last() == Some(&BACKSLASH) {
            return None;
        }
        let Some(end) = units.iter().rposition(|unit| *unit != BACKSLASH) else {
            return Some(Path { directories: &[], last: None });
        };
        let start = units[..end]
            .iter()
            .rposition(|unit| *unit == BACKSLASH)
            .map_or(0, |backslash| backslash + 1);
        let last = Component::split(&units[start..=end])?;
        let path = Path { directories: &units[..start], last: Some(last) };
        let colon_allowed = options & FILE_DIRECTORY_FILE == 0;
        let good = path.directories().all(is_file_name)
            && path.last.as_ref().is_some_and(|last| colon_allowed || !last.has_colon);
        good.then_some(path)
    }

    /// The names before the last component.
    pub fn directories(&self) -> impl Iterator<Item = &'a [Unit]> {
        components(self.directories)
    }
}

impl<'a> Component<'a> {
    /// `file`, `file:stream` or `file:stream:type`, its last unit not a colon.
    fn split(units: &'a [Unit]) -> Option<Self> {
        let mut parts = units.split(|unit| *unit == COLON);
        let file_name = parts.next()?;
        let stream_name = parts.next();
        let stream_type = parts.next().unwrap_or_default();
        let component = Component {
            file_name,
            stream_name: stream_name.unwrap_or_default(),
            has_colon: stream_name.is_some(),
        };
        let good = parts.next().is_none()
            && units.last() != Some(&COLON)
            && is_file_name(file_name)
            && is_stream_name(component.stream_name)
            && is_stream_type(stream_type);
        good.then_some(component)
    }
}
