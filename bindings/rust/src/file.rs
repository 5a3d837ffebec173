//! Hives of files.

use crate::{ffi, FileError, Hive};
use std::ffi::OsStr;
use std::fs::{self, File, OpenOptions};
use std::io::{self, Write};
use std::os::unix::fs::MetadataExt;
use std::path::{Path, PathBuf};

impl Hive {
    /// Opens the hive of a file, as [`Hive::open`] does that of bytes.
    pub fn open_file(path: impl AsRef<Path>) -> Result<Hive, FileError> {
        let path = path.as_ref();
        let file = fs::read(path).map_err(FileError::io(path))?;
        Hive::open(&file).map_err(FileError::hive(path))
    }

    /// Writes the hive as a new file, which takes the place of the one at the path, if there is one. It
    /// is on the disk then.
    ///
    /// It is written as PATH.new, which must not be there, with the permissions of the old file; and
    /// with its owner, if the system allows that. An error names the file. The old file is as it was
    /// then, unless only the sync of its folder failed, after the new one was put in its place.
    pub fn write_file(&self, path: impl AsRef<Path>) -> Result<(), FileError> {
        let path = path.as_ref();
        let bytes = self.to_bytes().map_err(FileError::hive(path))?;
        replace(path, &bytes)
    }
}

/// Writes a file beside another one, puts it in its place once it is on the disk, and syncs the
/// folder.
fn replace(path: &Path, bytes: &[u8]) -> Result<(), FileError> {
    let path = &at_end_of_link(path).map_err(FileError::io(path))?;
    let beside = &beside(path);
    // not over a file that is there
    let mut file = OpenOptions::new()
        .write(true)
        .create_new(true)
        .open(beside)
        .map_err(FileError::io(beside))?;
    let written = copy_permissions(path, &file)
        .and_then(|()| file.write_all(bytes))
        .and_then(|()| file.sync_all())
        .map_err(FileError::io(beside))
        .and_then(|()| fs::rename(beside, path).map_err(FileError::io(path)));
    if written.is_err() {
        // what failed is told already
        let _ = fs::remove_file(beside);
    }
    written?;
    let folder = folder_of(path);
    (File::open(folder).and_then(|folder| folder.sync_all())).map_err(FileError::io(folder))
}

/// The file to which a link leads: the link stays.
fn at_end_of_link(path: &Path) -> io::Result<PathBuf> {
    match fs::symlink_metadata(path) {
        Ok(told) if told.file_type().is_symlink() => fs::canonicalize(path),
        _ => Ok(path.to_owned()),
    }
}

fn beside(path: &Path) -> PathBuf {
    let mut name = path.as_os_str().to_owned();
    name.push(OsStr::new(".new"));
    name.into()
}

fn folder_of(path: &Path) -> &Path {
    match path.parent() {
        Some(folder) if !folder.as_os_str().is_empty() => folder,
        _ => Path::new("."),
    }
}

/// Gives an open file the owner and the mode of the one at a path, if there is one.
fn copy_permissions(path: &Path, file: &File) -> io::Result<()> {
    match fs::metadata(path) {
        Ok(old) => {
            ffi::give(file, old.uid(), old.gid());
            file.set_permissions(old.permissions())
        }
        Err(why) if why.kind() == io::ErrorKind::NotFound => Ok(()),
        Err(why) => Err(why),
    }
}
