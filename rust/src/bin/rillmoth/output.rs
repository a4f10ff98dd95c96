//! What is written: text to standard output, and house files, whole or not at all.

use std::ffi::OsStr;
use std::fs::{self, File, Metadata, OpenOptions};
use std::io::{self, ErrorKind, Write};
use std::os::unix::fs::{fchown, MetadataExt};
use std::path::{Path, PathBuf};

use crate::signals::Held;

/// Writes to standard output, and sees that it is through.
pub fn print(bytes: &[u8]) -> io::Result<()> {
    let mut out = io::stdout().lock();
    out.write_all(bytes)?;
    out.flush()
}

/// Writes a file: all of it or nothing. `-` is standard output.
pub fn write(name: &OsStr, bytes: &[u8]) -> io::Result<()> {
    if name == "-" {
        return print(bytes);
    }
    // A link stays a link: what it leads to is written.
    let path = match fs::canonicalize(name) {
        Ok(path) => path,
        Err(error) if error.kind() == ErrorKind::NotFound && fs::symlink_metadata(name).is_err() => PathBuf::from(name),
        Err(error) => return Err(error),
    };
    match fs::metadata(&path) {
        // A device or a pipe has no place beside it.
        Ok(about) if !about.is_file() && !about.is_dir() => {
            OpenOptions::new().write(true).open(&path)?.write_all(bytes)
        }
        Ok(about) if about.is_dir() => Err(io::Error::new(ErrorKind::IsADirectory, "it is a folder")),
        Ok(about) => replace(&path, bytes, Some(&about)),
        Err(error) if error.kind() == ErrorKind::NotFound => replace(&path, bytes, None),
        Err(error) => Err(error),
    }
}

/// Puts a file in the place of what stands there, if anything does: it is written beside, flushed, and renamed.
fn replace(path: &Path, bytes: &[u8], old: Option<&Metadata>) -> io::Result<()> {
    let folder = match path.parent() {
        Some(folder) if folder != Path::new("") => folder,
        _ => Path::new("."),
    };
    let held = Held::new();
    let (beside, file) = begin(folder)?;
    let done = fill(file, bytes, old).and_then(|()| {
        if held.came() {
            return Err(ErrorKind::Interrupted.into());
        }
        fs::rename(&beside, path)
    });
    if done.is_err() {
        // The error that is told is the first.
        let _ = fs::remove_file(&beside);
    }
    done?;
    // The name lasts once the folder is flushed. A folder that may be written but not read cannot be; the file is there all the same.
    match File::open(folder) {
        Ok(folder) => folder.sync_all(),
        Err(error) if error.kind() == ErrorKind::PermissionDenied => Ok(()),
        Err(error) => Err(error),
    }
}

/// A new file in a folder, under a name that no other has.
fn begin(folder: &Path) -> io::Result<(PathBuf, File)> {
    let mut tried = 0;
    loop {
        let path = folder.join(format!(".rillmoth-{}-{tried}", std::process::id()));
        match OpenOptions::new().write(true).create_new(true).open(&path) {
            Ok(file) => return Ok((path, file)),
            Err(error) if error.kind() == ErrorKind::AlreadyExists && tried < 1000 => tried += 1,
            Err(error) => return Err(error),
        }
    }
}

/// The file belongs to whom the old one belonged, where that may be, and has its rights.
fn fill(mut file: File, bytes: &[u8], old: Option<&Metadata>) -> io::Result<()> {
    file.write_all(bytes)?;
    if let Some(old) = old {
        let _ = fchown(&file, Some(old.uid()), Some(old.gid()));
        file.set_permissions(old.permissions())?;
    }
    file.sync_all()
}
