//! Which file a name is of, whatever the name.

use std::ffi::OsString;
use std::fs::{self, File, Metadata};
use std::io::{self, ErrorKind};
use std::os::fd::AsFd;
use std::os::unix::fs::MetadataExt;
use std::path::{Path, PathBuf};

/// A file. Two names are of one file where this is the same, through links of every kind and in every spelling.
#[derive(Debug, PartialEq, Eq)]
pub enum Identity {
    /// One that exists.
    Existing(Node),
    /// One that does not exist yet: its folder, and its name there.
    Missing(Node, OsString),
}

/// Device and inode.
type Node = (u64, u64);

impl Identity {
    /// The file of a name, where that can be told.
    pub fn of(path: &Path) -> io::Result<Self> {
        match fs::metadata(path) {
            Err(error) if error.kind() == ErrorKind::NotFound => Identity::missing(path),
            metadata => Ok(Identity::Existing(node(&metadata?))),
        }
    }

    fn missing(path: &Path) -> io::Result<Self> {
        let path = resolved(path)?;
        let folder = fs::metadata(folder(&path))?;
        let name = path.file_name().unwrap_or_default();
        Ok(Identity::Missing(node(&folder), name.to_os_string()))
    }

    /// The file that a standard stream comes from or goes to; none for a terminal, a pipe and their like, which
    /// have nothing to lose.
    pub fn of_stream(stream: impl AsFd) -> Option<Self> {
        let stream = stream.as_fd().try_clone_to_owned().ok()?;
        let metadata = File::from(stream).metadata().ok()?;
        metadata
            .is_file()
            .then(|| Identity::Existing(node(&metadata)))
    }

    pub fn exists(&self) -> bool {
        matches!(self, Identity::Existing(_))
    }
}

fn node(metadata: &Metadata) -> Node {
    (metadata.dev(), metadata.ino())
}

/// The folder that a name stands in.
pub fn folder(path: &Path) -> &Path {
    match path.parent() {
        Some(folder) if !folder.as_os_str().is_empty() => folder,
        Some(_) => Path::new("."),
        None => path,
    }
}

/// The name that links lead to, in a folder by its own name. The file need not exist, but its folder does.
pub fn resolved(path: &Path) -> io::Result<PathBuf> {
    let mut path = path.to_path_buf();
    loop {
        match fs::canonicalize(&path) {
            Err(error) if error.kind() == ErrorKind::NotFound => {}
            known => return known,
        }
        // A link that leads nowhere yet, or the name itself.
        let Ok(target) = fs::read_link(&path) else {
            let name = path.file_name().ok_or(ErrorKind::NotFound)?;
            return Ok(fs::canonicalize(folder(&path))?.join(name));
        };
        path = folder(&path).join(target);
    }
}
