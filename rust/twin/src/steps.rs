//! Steps 1 to 11 of an open: what it comes to, or the status that refuses it. Nothing here
//! changes the tables. Step 4 is in path.rs, step 12 in store.rs.

use crate::constants::*;
use crate::layout::*;
use crate::names::Name;
use crate::path::{Component, Path};
use crate::OpenRequest;

/// What an open that no step refused does; step 12 stores it.
pub struct Plan {
    pub action: CreateAction,
    pub granted: u32,
    pub share: u32,
    pub target: Target,
}

/// What it opens, and what it adds for that.
pub enum Target {
    /// A stream that is there; its file may get other attributes.
    Stream { file: usize, stream: usize, attributes: Option<u32> },
    /// A new stream of a file that is there.
    NewStream { file: usize, attributes: u32, name: Name },
    /// A new file with its link and streams.
    NewFile { parent: usize, kind: Kind, attributes: u32, name: Name, stream_name: Name },
}

/// Steps 1 to 11.
pub fn decide(tables: &Tables, request: &OpenRequest, path: &[u8]) -> Result<Plan, Status> {
    check_parameters(request)?;
    let path = Path::parse(path, request.options)?;
    check_disposition_on_read_only(tables, request)?;
    let steps = Steps { tables, request };
    let parent = steps.look_up(&path)?;
    let Some(last) = path.last else {
        return steps.open_found(ROOT, None);
    };
    let name = steps.name(last.file_name);
    match steps.find_file(parent, &name)? {
        Some(file) => steps.open_found(file, Some(&last)),
        None => steps.create_file(parent, name, &last),
    }
}

/// Steps 1 to 3: what the request alone decides.
fn check_parameters(request: &OpenRequest) -> Result<(), Status> {
    let &OpenRequest { access, options, disposition, .. } = request;
    let directory = options & FILE_DIRECTORY_FILE != 0;
    let not_for_directories =
        FILE_SEQUENTIAL_ONLY | FILE_NO_INTERMEDIATE_BUFFERING | FILE_DISALLOW_EXCLUSIVE;
    let overwrites = matches!(disposition, FILE_SUPERSEDE | FILE_OVERWRITE | FILE_OVERWRITE_IF);
    if request.account as usize >= ACCOUNTS
        || request.share & !VALID_SHARES != 0
        || disposition > FILE_OVERWRITE_IF
        || options & !VALID_OPTIONS != 0
        || request.attributes & !REQUEST_ATTRIBUTES != 0
        || access & GENERIC_ACCESS != 0
        || options & FILE_NO_INTERMEDIATE_BUFFERING != 0 && access & FILE_APPEND_DATA != 0
        || options & FILE_DELETE_ON_CLOSE != 0 && access & DELETE == 0
        || directory && (options & not_for_directories != 0 || overwrites)
    {
        return Err(Status::InvalidParameter);
    }
    if access == 0 || access & NEVER_GRANTED != 0 {
        return Err(Status::AccessDenied);
    }
    if directory && options & FILE_NON_DIRECTORY_FILE != 0 {
        return Err(Status::InvalidParameter);
    }
    Ok(())
}

/// Step 5.
fn check_disposition_on_read_only(tables: &Tables, request: &OpenRequest) -> Result<(), Status> {
    let only_opens = matches!(request.disposition, FILE_OPEN | FILE_OPEN_IF);
    if tables.is_read_only() && !only_opens {
        return Err(Status::MediaWriteProtected);
    }
    Ok(())
}

/// The file behind the lowest link of that parent with a matching name.
fn find_link(tables: &Tables, parent: usize, name: &Name) -> Option<usize> {
    tables.links().find(|link| link.parent() == parent && name.matches(link.name())).map(Link::file)
}

/// The lowest stream of that file with a matching name.
fn find_stream(tables: &Tables, file: usize, name: &Name) -> Option<usize> {
    tables.streams().position(|stream| {
        stream.kind() != 0 && stream.file() == file && name.matches(stream.name())
    })
}

/// What steps 6 to 11 look at.
struct Steps<'a> {
    tables: &'a Tables<'a>,
    request: &'a OpenRequest,
}

impl Steps<'_> {
    fn name(&self, units: &[[u8; 2]]) -> Name {
        Name::new(units, self.request.fold != 0)
    }

    fn account(&self) -> usize {
        self.request.account as usize
    }

    fn has_option(&self, option: u32) -> bool {
        self.request.options & option != 0
    }

    /// Step 6: the directory that holds the last component.
    fn look_up(&self, path: &Path) -> Result<usize, Status> {
        path.directories().try_fold(ROOT, |parent, component| {
            self.find_file(parent, &self.name(component))?
                .filter(|file| self.tables.file(*file).is_directory())
                .ok_or(Status::ObjectPathNotFound)
        })
    }

    /// The file of that name in a directory. One that is marked, of whatever kind, is
    /// refused as soon as it is found.
    fn find_file(&self, parent: usize, name: &Name) -> Result<Option<usize>, Status> {
        let found = find_link(self.tables, parent, name);
        if found.is_some_and(|file| self.tables.file(file).delete_pending() != 0) {
            return Err(Status::DeletePending);
        }
        Ok(found)
    }

    /// Steps 7 and 9: the last component is missing.
    fn create_file(&self, parent: usize, name: Name, last: &Component) -> Result<Plan, Status> {
        let request = self.request;
        if matches!(request.disposition, FILE_OPEN | FILE_OVERWRITE) {
            return Err(Status::ObjectNameNotFound);
        }
        if self.tables.is_read_only() {
            return Err(Status::MediaWriteProtected);
        }
        let (kind, needed, attribute) = if self.has_option(FILE_DIRECTORY_FILE) {
            (Kind::Directory, FILE_ADD_SUBDIRECTORY, FILE_ATTRIBUTE_DIRECTORY)
        } else {
            (Kind::Data, FILE_ADD_FILE, FILE_ATTRIBUTE_ARCHIVE)
        };
        if kind == Kind::Directory && request.attributes & FILE_ATTRIBUTE_TEMPORARY != 0 {
            return Err(Status::InvalidParameter);
        }
        if self.cannot_delete(request.attributes) {
            return Err(Status::CannotDelete);
        }
        let parent_file = self.tables.file(parent);
        if parent_file.mask(self.account()) & needed == 0 {
            return Err(Status::AccessDenied);
        }
        let granted =
            if request.access & MAXIMUM_ALLOWED != 0 { FILE_ALL_ACCESS } else { request.access };
        let inherited = parent_file.attributes() & FILE_ATTRIBUTE_NOT_CONTENT_INDEXED;
        let asked = request.attributes & VALID_SET_ATTRIBUTES & !FILE_ATTRIBUTE_NOT_CONTENT_INDEXED;
        Ok(Plan {
            action: CreateAction::Created,
            granted,
            share: request.share,
            target: Target::NewFile {
                parent,
                kind,
                attributes: asked | inherited | attribute,
                name,
                stream_name: self.name(last.stream_name),
            },
        })
    }

    /// Step 8, then 10 or 11: the last component is there, or it is the root.
    fn open_found(&self, file: usize, last: Option<&Component>) -> Result<Plan, Status> {
        let is_directory = self.tables.file(file).is_directory();
        let has_colon = last.is_some_and(|last| last.has_colon);
        let wrong_kind = if is_directory {
            (self.has_option(FILE_NON_DIRECTORY_FILE) || has_colon)
                .then_some(Status::FileIsADirectory)
        } else {
            self.has_option(FILE_DIRECTORY_FILE).then_some(Status::NotADirectory)
        };
        match wrong_kind {
            Some(_) if self.request.disposition == FILE_CREATE => Err(Status::ObjectNameCollision),
            Some(status) => Err(status),
            None if is_directory => self.open_directory(file),
            None => self.open_data_file(file, last),
        }
    }

    /// Step 10.
    fn open_directory(&self, file: usize) -> Result<Plan, Status> {
        let request = self.request;
        if !matches!(request.disposition, FILE_OPEN | FILE_OPEN_IF) {
            return Err(if file == ROOT {
                Status::AccessDenied
            } else {
                Status::ObjectNameCollision
            });
        }
        let stream = find_stream(self.tables, file, &self.name(&[]))
            .expect("a directory of sound tables has its stream");
        let granted = self.grant(file, request.access)?;
        self.check_sharing(stream, granted)?;
        let mut share = request.share;
        if share & FILE_SHARE_READ == 0
            && self.tables.file(file).mask(self.account()) & FILE_GENERIC_WRITE
                != FILE_GENERIC_WRITE
            && !self.is_open(file)
        {
            if self.has_option(FILE_DISALLOW_EXCLUSIVE) {
                return Err(Status::AccessDenied);
            }
            share |= FILE_SHARE_READ;
        }
        Ok(Plan {
            action: CreateAction::Opened,
            granted,
            share,
            target: Target::Stream { file, stream, attributes: None },
        })
    }

    /// Whether any open, counted or not, is on the file.
    fn is_open(&self, file: usize) -> bool {
        self.tables.live_opens().any(|open| open.file() == file)
    }

    /// Step 11.
    fn open_data_file(&self, file: usize, last: Option<&Component>) -> Result<Plan, Status> {
        let name = self.name(last.map_or(&[], |last| last.stream_name));
        match find_stream(self.tables, file, &name) {
            None => self.create_stream(file, name),
            Some(stream) if self.tables.stream(stream).delete_pending() != 0 => {
                Err(Status::DeletePending)
            }
            Some(stream) => match self.request.disposition {
                FILE_CREATE => Err(Status::ObjectNameCollision),
                FILE_OPEN | FILE_OPEN_IF => {
                    self.open_stream(file, stream, CreateAction::Opened, self.request.access, None)
                }
                _ => self.overwrite_stream(file, stream, name.is_empty()),
            },
        }
    }

    /// Step 11, a stream that is there: access, then sharing.
    fn open_stream(
        &self,
        file: usize,
        stream: usize,
        action: CreateAction,
        access: u32,
        attributes: Option<u32>,
    ) -> Result<Plan, Status> {
        let granted = self.grant(file, access)?;
        self.check_sharing(stream, granted)?;
        Ok(Plan {
            action,
            granted,
            share: self.request.share,
            target: Target::Stream { file, stream, attributes },
        })
    }

    /// Step 11, dispositions supersede, overwrite and overwrite-if on a stream that is there.
    fn overwrite_stream(&self, file: usize, stream: usize, whole: bool) -> Result<Plan, Status> {
        let request = self.request;
        let (action, gained) = if request.disposition == FILE_SUPERSEDE {
            (CreateAction::Superseded, DELETE)
        } else {
            (CreateAction::Overwritten, FILE_WRITE_DATA)
        };
        let access = request.access | gained;
        if !whole {
            return self.open_stream(file, stream, action, access, None);
        }
        let kept = FILE_ATTRIBUTE_HIDDEN | FILE_ATTRIBUTE_SYSTEM;
        if self.tables.file(file).attributes() & kept & !request.attributes != 0 {
            return Err(Status::AccessDenied);
        }
        let dropped = FILE_ATTRIBUTE_NORMAL | FILE_ATTRIBUTE_NOT_CONTENT_INDEXED;
        let attributes = (request.attributes | FILE_ATTRIBUTE_ARCHIVE) & !dropped;
        let access = access | FILE_WRITE_EA | FILE_WRITE_ATTRIBUTES;
        self.open_stream(file, stream, action, access, Some(attributes))
    }

    /// Step 11, a stream that is missing.
    fn create_stream(&self, file: usize, name: Name) -> Result<Plan, Status> {
        if matches!(self.request.disposition, FILE_OPEN | FILE_OVERWRITE) {
            return Err(Status::ObjectNameNotFound);
        }
        let granted = self.grant(file, self.request.access | FILE_WRITE_DATA)?;
        if self.tables.is_read_only() {
            return Err(Status::MediaWriteProtected);
        }
        Ok(Plan {
            action: CreateAction::Created,
            granted,
            share: self.request.share,
            target: Target::NewStream {
                file,
                attributes: self.tables.file(file).attributes() | FILE_ATTRIBUTE_ARCHIVE,
                name,
            },
        })
    }

    /// Whether a file with these attributes is to be deleted on close though it is read-only.
    fn cannot_delete(&self, attributes: u32) -> bool {
        self.has_option(FILE_DELETE_ON_CLOSE) && attributes & FILE_ATTRIBUTE_READONLY != 0
    }

    /// The access rule; right after it, what delete on close may not be on: the root or a
    /// read-only file.
    fn grant(&self, file: usize, access: u32) -> Result<u32, Status> {
        let is_root = file == ROOT;
        let file = self.tables.file(file);
        let mut effective = file.mask(self.account());
        if !file.is_directory() && file.attributes() & FILE_ATTRIBUTE_READONLY != 0 {
            effective &= !(FILE_WRITE_DATA | FILE_APPEND_DATA);
        }
        let need = access & !MAXIMUM_ALLOWED;
        if need & !effective != 0 || effective == 0 {
            return Err(Status::AccessDenied);
        }
        if is_root && self.has_option(FILE_DELETE_ON_CLOSE) || self.cannot_delete(file.attributes())
        {
            return Err(Status::CannotDelete);
        }
        Ok(if access & MAXIMUM_ALLOWED != 0 { effective } else { need })
    }

    /// The sharing rule, by the stream's counts.
    fn check_sharing(&self, stream: usize, granted: u32) -> Result<(), Status> {
        if self.tables.stream(stream).counts().conflicts(granted, self.request.share) {
            return Err(Status::SharingViolation);
        }
        Ok(())
    }
}
