//! A file that the command writes: whole, or not at all.

use std::ffi::OsStr;
use std::fs::{self, File, Permissions};
use std::io::{self, ErrorKind, Write};
use std::os::unix::ffi::OsStrExt;
use std::os::unix::fs::{fchown, MetadataExt, PermissionsExt};
use std::path::{Path, PathBuf};
use std::process;

use crate::failure::Failure;
use crate::files::{self, fault};
use crate::identity::{folder, resolved};
use crate::interrupt;

/// A place that contents are written to.
pub struct OutputFile {
    /// The name that was given, as it is shown.
    pub name: String,
    place: Place,
}

/// What a name is of.
enum Place {
    /// A file, that exists or does not yet, by the name that links lead to.
    File(PathBuf),
    /// A device or a pipe, by the name that was given.
    Stream(PathBuf),
}

impl OutputFile {
    /// The place of a name, at which a file can be written as far as can be told beforehand.
    pub fn at(path: &OsStr) -> Result<Self, Failure> {
        let name = files::shown(path);
        let place = place(Path::new(path)).map_err(|message| Failure::file(&name, message))?;
        Ok(OutputFile { name, place })
    }

    pub fn write(&self, contents: impl AsRef<[u8]>) -> Result<(), Failure> {
        let contents = contents.as_ref();
        let written = match &self.place {
            Place::File(path) => replace(path, contents),
            Place::Stream(path) => fs::write(path, contents).map_err(fault),
        };
        written.map_err(|message| Failure::file(&self.name, message))
    }
}

/// The place of a name, or why nothing can be written there.
fn place(path: &Path) -> Result<Place, String> {
    match fs::metadata(path) {
        Ok(metadata) if metadata.is_dir() => Err("it is a folder".to_string()),
        Ok(metadata) if metadata.is_file() => {
            // A file that its owner protects is not replaced.
            File::options().write(true).open(path).map_err(fault)?;
            resolved(path).map(Place::File).map_err(fault)
        }
        Ok(_) => Ok(Place::Stream(path.to_path_buf())),
        Err(error) if error.kind() == ErrorKind::NotFound => {
            let folder = match path.as_os_str().as_bytes().ends_with(b"/") {
                true => path,
                false => folder(path),
            };
            let missing = |_| format!("there is no folder {}", folder.display());
            fs::metadata(folder).map_err(missing)?;
            let unresolved = |_| "it is a link into a folder that is not there".to_string();
            resolved(path).map(Place::File).map_err(unresolved)
        }
        Err(error) => Err(fault(error)),
    }
}

/// Writes a file beside the place and gives it the place's name, which so has the old file or the new one at every
/// moment, whole, even where the disk is full or the command is ended.
fn replace(path: &Path, contents: &[u8]) -> Result<(), String> {
    interrupt::during_a_write(|| {
        let unmade = |error| format!("no file can be made in its folder: {}", fault(error));
        let (temporary, file) = temporary(folder(path)).map_err(unmade)?;
        let filled = fill(&file, contents, path);
        let written = filled.and_then(|()| fs::rename(&temporary, path));
        if written.is_err() {
            // Where it cannot be removed either, what went wrong first is told.
            let _ = fs::remove_file(&temporary);
        }
        written.map_err(fault)
    })
}

/// Puts the contents into a file, with the permissions of the file that it replaces and, where that is allowed, its
/// group and its owner.
fn fill(mut file: &File, contents: &[u8], replaced: &Path) -> io::Result<()> {
    if let Ok(metadata) = fs::metadata(replaced) {
        let _ = fchown(file, None, Some(metadata.gid()));
        let _ = fchown(file, Some(metadata.uid()), None);
        file.set_permissions(Permissions::from_mode(metadata.mode() & 0o777))?;
    }
    file.write_all(contents)?;
    // Some disks say only now that they are full.
    file.sync_all()
}

/// A new file in a folder, by a name that no other file has.
fn temporary(folder: &Path) -> io::Result<(PathBuf, File)> {
    let mut number = 0;
    loop {
        let path = folder.join(format!(".zimgurav-{}-{number}", process::id()));
        match File::create_new(&path) {
            Ok(file) => return Ok((path, file)),
            Err(error) if error.kind() == ErrorKind::AlreadyExists => number += 1,
            Err(error) => return Err(error),
        }
    }
}
