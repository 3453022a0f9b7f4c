//! What is written: standard output, and files that appear whole or not at all.

use crate::failure::Failure;
use crate::input::Name;
use std::fs::{self, File, OpenOptions};
use std::io::{self, BufWriter, Write};
use std::path::{Path, PathBuf};
use std::process;

/// Writes to standard output; lines come out when it is done.
pub fn print(fill: impl FnOnce(&mut dyn Write) -> io::Result<()>) -> Result<(), Failure> {
    let name = Name::output("-".as_ref());
    match filled(io::stdout().lock(), fill) {
        Ok(_) => Ok(()),
        Err(error) if error.kind() == io::ErrorKind::BrokenPipe => Err(Failure::Closed),
        Err(error) => Err(Failure::trouble(&name, error)),
    }
}

/// Writes the output that the user named. A file of that name is replaced when all
/// is written; until then it stays, and it stays where this fails or where it is
/// read-only. What is no file, as a device or a pipe, is written to as it is.
pub fn write(
    name: &Name,
    fill: impl FnOnce(&mut dyn Write) -> io::Result<()>,
) -> Result<(), Failure> {
    if name.is_dash() {
        return print(fill);
    }
    let path = Path::new(name.path());
    // A link is followed: what it leads to is replaced, not the link.
    let path = fs::canonicalize(path).unwrap_or_else(|_| path.to_owned());
    let done = match fs::metadata(&path) {
        Ok(found) if found.is_dir() => Err(io::ErrorKind::IsADirectory.into()),
        Ok(found) if !found.is_file() => in_place(&path, fill),
        Ok(found) if found.permissions().readonly() => Err(io::Error::new(
            io::ErrorKind::PermissionDenied,
            "is read-only",
        )),
        _ => replaced(&path, fill),
    };
    done.map_err(|error| Failure::trouble(name, error))
}

fn in_place(path: &Path, fill: impl FnOnce(&mut dyn Write) -> io::Result<()>) -> io::Result<()> {
    filled(OpenOptions::new().write(true).open(path)?, fill).map(drop)
}

fn replaced(path: &Path, fill: impl FnOnce(&mut dyn Write) -> io::Result<()>) -> io::Result<()> {
    let folder = match path.parent() {
        Some(folder) if folder != Path::new("") => folder,
        _ => Path::new("."),
    };
    let (mut temporary, file) = Temporary::create(folder)?;
    // Who may not read the old file shall not read the new one, not even half of it.
    if let Ok(found) = fs::metadata(path) {
        file.set_permissions(found.permissions())?;
    }
    let file = filled(file, fill)?;
    file.sync_all()?;
    drop(file);
    fs::rename(&temporary.path, path)?;
    temporary.renamed = true;
    // The file is in place; not every system can sync a folder.
    let _ = File::open(folder).and_then(|folder| folder.sync_all());
    Ok(())
}

fn filled<W: Write>(
    output: W,
    fill: impl FnOnce(&mut dyn Write) -> io::Result<()>,
) -> io::Result<W> {
    let mut output = BufWriter::with_capacity(1 << 16, output);
    fill(&mut output)?;
    output.flush()?;
    output.into_inner().map_err(|error| error.into_error())
}

/// A file under a name of its own, which is removed if it was not renamed.
struct Temporary {
    path: PathBuf,
    renamed: bool,
}

impl Temporary {
    fn create(folder: &Path) -> io::Result<(Temporary, File)> {
        let mut number = 0;
        loop {
            let path = folder.join(format!(".edge-sst-{}-{number}.tmp", process::id()));
            match OpenOptions::new().write(true).create_new(true).open(&path) {
                Err(error) if error.kind() == io::ErrorKind::AlreadyExists => number += 1,
                Err(error) => return Err(error),
                Ok(file) => {
                    let renamed = false;
                    return Ok((Temporary { path, renamed }, file));
                }
            }
        }
    }
}

impl Drop for Temporary {
    fn drop(&mut self) {
        if !self.renamed {
            let _ = fs::remove_file(&self.path);
        }
    }
}
