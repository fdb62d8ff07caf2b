//! Reading and writing whole files. An output appears under its name only when all outputs of the run are written.

use crate::failure::Failure;
use std::ffi::{OsStr, OsString};
use std::fs::{self, File, OpenOptions};
use std::io::{self, Read, Write};
use std::path::{Path, PathBuf};

/// A file's bytes; `-` is standard input.
pub fn read(path: &OsStr) -> Result<Vec<u8>, Failure> {
    let mut bytes = Vec::new();
    let read = match path.to_str() {
        Some("-") => io::stdin().lock().read_to_end(&mut bytes),
        _ => File::open(path).and_then(|mut file| file.read_to_end(&mut bytes)),
    };
    match read {
        Ok(_) => Ok(bytes),
        Err(error) => Err(Failure::of(path, error)),
    }
}

/// Writes to standard output.
pub fn say(text: &str) -> Result<(), Failure> {
    print(text.as_bytes())
}

fn print(bytes: &[u8]) -> Result<(), Failure> {
    let mut out = io::stdout().lock();
    out.write_all(bytes).and_then(|()| out.flush()).map_err(|error| Failure::Stopped(format!("standard output: {}", error)))
}

/// Writes each file; `-` is standard output.
pub fn write(outputs: &[(&OsStr, &[u8])]) -> Result<(), Failure> {
    let mut staged = Vec::new();
    for (path, bytes) in outputs {
        staged.push(Staged::new(path, bytes)?);
    }
    staged.into_iter().try_for_each(Staged::publish)
}

enum Staged<'a> {
    /// Written beside its target, to be renamed.
    Beside { path: &'a OsStr, temporary: PathBuf, target: PathBuf },
    /// What cannot be replaced by renaming: a pipe, a device, standard output.
    Direct { path: &'a OsStr, bytes: &'a [u8] },
}

impl<'a> Staged<'a> {
    fn new(path: &'a OsStr, bytes: &'a [u8]) -> Result<Staged<'a>, Failure> {
        let kind = fs::metadata(path).map(|data| data.file_type());
        match kind {
            _ if path == "-" => return Ok(Staged::Direct { path, bytes }),
            Ok(kind) if kind.is_dir() => return Err(Failure::of(path, "is a folder")),
            Ok(kind) if !kind.is_file() => return Ok(Staged::Direct { path, bytes }),
            _ => {}
        }
        // A link stays a link: what it leads to is replaced.
        let target = fs::canonicalize(path).unwrap_or_else(|_| PathBuf::from(path));
        let temporary = beside(&target).ok_or_else(|| Failure::of(path, "is not the name of a file"))?;
        let failed = |error| Failure::of(path, error);
        let file = OpenOptions::new().write(true).create_new(true).open(&temporary).map_err(failed)?;
        // From here on the temporary file is removed if anything fails.
        let staged = Staged::Beside { path, temporary, target: target.clone() };
        fill(file, &target, bytes).map_err(failed)?;
        Ok(staged)
    }

    fn publish(self) -> Result<(), Failure> {
        match &self {
            Staged::Beside { path, temporary, target } => fs::rename(temporary, target).map_err(|error| Failure::of(path, error)),
            Staged::Direct { path, bytes } if *path == "-" => print(bytes),
            Staged::Direct { path, bytes } => fs::write(path, bytes).map_err(|error| Failure::of(path, error)),
        }
    }
}

impl Drop for Staged<'_> {
    fn drop(&mut self) {
        if let Staged::Beside { temporary, .. } = self {
            // After the renaming there is nothing to remove.
            let _ = fs::remove_file(temporary);
        }
    }
}

/// Writes a file that gets the permissions of the one it replaces.
fn fill(mut file: File, target: &Path, bytes: &[u8]) -> io::Result<()> {
    if let Ok(data) = fs::metadata(target) {
        file.set_permissions(data.permissions())?;
    }
    file.write_all(bytes)?;
    file.sync_all()
}

/// A name in the same folder that no other process takes.
fn beside(target: &Path) -> Option<PathBuf> {
    let mut name = OsString::from(".");
    name.push(target.file_name()?);
    name.push(format!(".{}.part", std::process::id()));
    Some(target.with_file_name(name))
}
